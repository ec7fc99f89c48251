"""Servers that break the protocol: a named error, no hang, and bounded memory."""

import itertools
import os
import struct
import threading
import time
import tracemalloc

import paths  # noqa: F401
from model import frame, report_frame
from serving import BadServer, WithFolder
from world import Core

import femem
from femem import Client, _frames as frames, requests
from femem._arguments import Choice

FIRST = 33  # the first number of a client whose session has floor 1


def echoes(piece):
    """Not-waiting refusals of all cancels in a piece of the client's stream."""
    out = b""
    while piece:
        length, kind = struct.unpack(">IB", piece[:5])
        if kind == 6:
            out += frame(70, struct.unpack(">Q", piece[5:13])[0], frames.NOT_WAITING)
        piece = piece[4 + length :]
    return out


def attached(then):
    """Attaches session 7 like a server, and then answers with `then(piece, count)`."""

    def answer(piece, count):
        if count == 0:
            return frame(65, 7, 1)
        if count == 1:
            return frame(68, 1) + echoes(piece)
        if count == 2:
            return frame(68, 33)
        return then(piece, count - 3)

    return answer


class Malice(WithFolder):
    def serve(self, answer):
        server = BadServer(self.path, answer)
        self.addCleanup(server.close)

    def client(self, reconnect_timeout=20.0):
        client = Client(self.path, 7, reconnect_timeout=reconnect_timeout, probe_interval=0.1)
        self.addCleanup(client.close)
        return client

    def impatient(self):
        """A client with enough time to attach, which later gives up soon."""
        client = self.client()
        client._core._reconnect_timeout = 0.3
        return client

    def test_before_the_session_is_attached(self):
        many = 2**63 - 32
        for name, reply, error in [
            ("no frame", b"HTTP/1.1 400 Bad Request\r\n\r\n", femem.ProtocolError),
            ("zeros", bytes(10), femem.ProtocolError),
            ("another session", frame(65, 8, 1), femem.ProtocolError),
            ("a floor that is used up", frame(65, 7, many), femem.BeyondWindow),
            ("a goodbye", frame(69, 7), femem.ProtocolError),
            ("a report", report_frame("waiting 0\n"), femem.ProtocolError),
            ("a withdrawal", frame(67, 1), femem.ProtocolError),
            ("a refusal of another number", frame(70, 5, frames.SESSION_LIMIT), femem.ProtocolError),
            ("a refusal of no attach", frame(70, 7, frames.NUMBER_USED), femem.ProtocolError),
            ("a limit", frame(70, 7, frames.SESSION_LIMIT), femem.SessionLimit),
            ("no place", frame(70, 7, frames.SPENT), femem.Spent),
            ("a session that closes for ever", frame(70, 7, frames.CLOSING), femem.Closing),
            ("a welcome and no more", frame(65, 7, 1), femem.ServerUnreachable),
            ("floors that fall", frame(65, 7, 5) + frame(65, 7, 4), femem.ProtocolError),
            ("nothing", b"", femem.ServerUnreachable),
            ("the end of the connection", None, femem.ServerUnreachable),
        ]:
            with self.subTest(name):
                self.path += "s"
                self.serve(lambda piece, count, reply=reply: reply if count == 0 or reply == b"" else b"")
                if name == "a session that closes for ever":
                    self.path += "s"
                    self.serve(lambda piece, count, reply=reply: reply)
                with self.assertRaises(error):
                    self.client({femem.ServerUnreachable: 0.3, femem.Closing: 2.0}.get(error, 20.0))

    def test_wrong_replies_to_a_call(self):
        value = frame(66, FIRST, frames.VALUE, 1, 0)
        for name, reply in [
            ("an answer to a number of nobody", frame(66, FIRST + 1, frames.VALUE, 1, 0)),
            ("an answer to a number of before", frame(66, 1, frames.VALUE, 1, 0)),
            ("an answer of another kind", frame(66, FIRST, frames.ARRAY, 1, 1)),
            ("done, to a request for a value", frame(66, FIRST, frames.DONE, 0, 0)),
            ("a withdrawal that nobody asked for", frame(67, FIRST)),
            ("a floor that nobody asked for", frame(68, 40)),
            ("a refusal of a number of nobody", frame(70, FIRST + 1, frames.NUMBER_USED)),
            ("a refusal of something else", frame(70, FIRST, frames.STILL_WAITING)),
            ("a refusal of a cancel", frame(70, FIRST, frames.NOT_WAITING)),
            ("a goodbye", frame(69, 7)),
            ("a report", report_frame("waiting 0\n")),
            ("half a frame and rubbish", value[:9] + b"\xff" * 30),
        ]:
            with self.subTest(name):
                self.path += "s"
                self.serve(attached(lambda piece, count, reply=reply: reply))
                client = self.client()
                with self.assertRaises(femem.ProtocolError):
                    client.readfe(1, 0)
                with self.assertRaises(femem.ProtocolError):
                    client.readxx(1, 0)

    def test_what_a_server_refuses_later(self):
        def returns(reply):
            attaches = itertools.count()
            first = attached(lambda piece, count: None)
            return lambda piece, count: reply if count == 0 and next(attaches) else first(piece, count)

        def refuses(kind, code):
            asked = struct.pack(">IB", 1, kind)
            return attached(lambda piece, count: frame(70, 0, code) if asked in piece else echoes(piece))

        for name, answer, error, ask in [
            ("64 other sessions are kept", returns(frame(70, 7, frames.SESSION_LIMIT)), femem.SessionLost, lambda it: it.readxx(1, 0)),
            ("the floor of another client", returns(frame(65, 7, 200)), femem.TakenOver, lambda it: it.readxx(1, 0)),
            ("no memory for a report", refuses(9, frames.NO_MEMORY), femem.NoMemory, Client.report),
            ("no place for a bye", refuses(8, frames.SPENT), femem.Spent, Client.bye),
        ]:
            with self.subTest(name):
                self.path += "s"
                self.serve(answer)
                with self.assertRaises(error):
                    ask(self.client())

    def test_two_answers_that_differ(self):
        replies = frame(66, FIRST, frames.VALUE, 1, 0) * 2 + frame(66, FIRST, frames.VALUE, 2, 0)
        self.serve(attached(lambda piece, count: replies))
        client = self.client()
        self.assertEqual(client.submit(requests.readfe(1, 0)).result(20), 1)
        with self.assertRaises(femem.ProtocolError):
            while True:
                client.readxx(1, 0)

    def test_a_silent_server(self):
        self.serve(attached(lambda piece, count: b""))
        for ask in (
            lambda client: client.readxx(1, 0),
            lambda client: client.readfe(1, 0),
            lambda client: client.readfe(1, 0, timeout=0.1),
            lambda client: client.report(),
            lambda client: client.bye(),
        ):
            client = self.impatient()
            begin = time.monotonic()
            with self.assertRaises(femem.ServerUnreachable):
                ask(client)
            self.assertLess(time.monotonic() - begin, 15)

    def test_a_server_that_only_says_that_it_is_there(self):
        """It refuses each probe, as it should, but sends no other reply that is due."""
        self.serve(attached(lambda piece, count: echoes(piece)))
        for ask in (
            lambda client: client.readxx(1, 0),
            lambda client: client.readfe(1, 0, nowait=True),
            lambda client: client.readfe(1, 0, timeout=0.1),
            lambda client: client.report(),
            lambda client: client.bye(),
        ):
            client = self.impatient()
            with self.assertRaises(femem.ServerUnreachable):
                ask(client)

    def test_a_server_that_ends_each_connection(self):
        self.serve(attached(lambda piece, count: None))
        client = self.impatient()
        with self.assertRaises(femem.FememError):
            client.readfe(1, 0)

    def test_a_server_that_has_no_room_for_a_connection_is_told(self):
        core = Core(Choice("", 7, patience=10.0))
        core.open(0.0)
        for moment in range(3):
            core.connected(float(moment))
            core.disconnected(moment + 0.5)
        core.tick(20.0)
        self.assertRegex(str(core.failure), r"no word from the server .*it ended 3 of the connections")

    def test_an_endless_report(self):
        """A report that is too long is refused by its length; of one with the longest length no more than that is held."""
        long = struct.pack(">IB", 2**31, 71)
        self.serve(attached(lambda piece, count: itertools.chain([long], itertools.repeat(b"a" * 65536))))
        with self.assertRaises(femem.ProtocolError):
            self.client().report()

    def test_reports_without_end(self):
        whole = report_frame("a" * 262_144)
        self.serve(attached(lambda piece, count: itertools.repeat(whole)))
        with self.assertRaises(femem.ProtocolError):
            self.client().report()

    def test_a_report_that_drips(self):
        def drip():
            yield struct.pack(">IB", 262_145, 71)
            while True:
                time.sleep(0.01)
                yield b"w"

        self.serve(attached(lambda piece, count: drip()))
        with self.assertRaises(femem.ServerUnreachable):
            self.impatient().report()

    def test_reports_that_say_nothing(self):
        for text in (
            "",
            "waiting 0",
            "waiting\n",
            "waiting " + "9" * 5000 + "\n",
            "waiting 1\nall-wait no\n",
            "waiting 1\nword 1 0 session 7 number 33 readff\nall-wait no\n",
            "waiting 1\nword 1 0 session 7 number 33 jump\nsession 7 waits 1\nall-wait no\n",
            "waiting 1\nword 1 0 session 7 number 33 readff\nsession 7 waits 1\nall-wait perhaps\n",
            "\n" * 1000,
        ):
            with self.subTest(text[:40]):
                self.path += "s"
                self.serve(attached(lambda piece, count, text=text: report_frame(text)))
                with self.assertRaises(femem.ProtocolError):
                    self.client().report()

    def test_answers_without_end_take_no_memory(self):
        """One answer again and again, for a second: the client's memory does not grow."""
        again = frame(66, FIRST, frames.VALUE, 1, 0) * 1000
        stop = threading.Event()
        self.addCleanup(stop.set)

        def flood():
            while not stop.is_set():
                yield again

        self.serve(attached(lambda piece, count: flood()))
        client = self.client()
        client.submit(requests.readxx(1, 0)).result(20)
        client._core._reconnect_timeout = 0.3
        tracemalloc.start()
        time.sleep(0.2)
        before = tracemalloc.get_traced_memory()[0]
        time.sleep(0.8)
        after = tracemalloc.get_traced_memory()[0]
        tracemalloc.stop()
        self.assertLess(after - before, 2**20)
        with self.assertRaises(femem.ServerUnreachable):
            client.readxx(1, 0)

    def test_a_path_that_is_no_socket(self):
        with open(self.path, "w"):
            pass
        with self.assertRaises(femem.ServerUnreachable):
            self.client(0.3)
        os.unlink(self.path)


if __name__ == "__main__":
    import unittest

    unittest.main()
