"""The session file's format, byte by byte: what is read, what is refused, and in which order it is written and sent."""

import itertools
import os
import random
import re
import shutil
import struct
import subprocess
import sys
import unittest
import zlib

import paths  # noqa: F401
from serving import WithFolder
from test_ends import FOLDER, LONG

import femem
from femem import Client, _frames as frames, requests, _sessionstate as sessionstate
from femem._sessionfile import SessionFile
from femem._sessionstate import Asked

SESSION = 0x8000000000000007
ADD = requests.int_fetch_add(1, 0, 1).frame
READ = requests.readfe(1, 0).frame

# The example of docs/session-file.md.
EXAMPLE = bytes.fromhex(
    "46454d454d53463280000000000000072f65365e"
    "00000000000000000000000000000000000000000000000000000000ff1fb08c"
    "000000ac000000000000002100000000000000210000000000000024"
    "0100000000000000210000000000000021000005" + b"first".hex() + "0000001e05000000000000000017"
    "0000000000000001000000000000000000000001"
    "01000000000000002200000000000000220000000000001e05000000000000000010"
    "0000000000000001000000000000000000000000"
    "0100000000000000230000000000000023000005" + b"waits".hex() + "0000001e05000000000000000010"
    "0000000000000001000000000000000000000000"
    "0b46cca4"
    "00000050000000000000002100000000000000210000000000000025"
    "030000000000000021010000000000000029" "00000000"
    "0100000000000000240000000000000024000004" + b"gone".hex() + "0000001e05000000000000000017"
    "0000000000000001000000000000000000000001"
    "e9c37000"
    "00000054000000000000002100000000000000220000000000000027"
    "020000000000000024"
    "0400000000000000220000000000000025"
    "0100000000000000260000000000000026000004" + b"late".hex() + "0000001e05000000000000000017"
    "0000000000000001000000000000000000000001"
    "00e0990f"
    "00000053000000000000002200000000000000220000000000000028"
    "0300000000000000260500000000000000000000" "0000"
    "01000000000000002700000000000000270100000000001e05000000000000000017"
    "0000000000000001000000000000000000000001"
    "050004" + b"late".hex() + "3f7ed99a"
)


def header(session=SESSION):
    head = b"FEMEMSF2" + struct.pack(">Q", session)
    return head + struct.pack(">I", zlib.crc32(head))


def block(payload=b"", floor=0, asked=0, next=0, session=SESSION):
    whole = struct.pack(">IQQQ", len(payload), floor, asked, next) + payload
    return whole + struct.pack(">I", zlib.crc32(struct.pack(">Q", session) + whole))


def text(key):
    return struct.pack(">H", len(key)) + key


def asked(number, frame=ADD, key=b"", flags=0, caller=None):
    return b"\1" + struct.pack(">QQB", number, number if caller is None else caller, flags) + text(key) + frame


def numbered(kind, *numbers):
    return bytes([kind]) + b"".join(struct.pack(">Q", number) for number in numbers)


def answer(code=1, value=0, length=0):
    return struct.pack(">BQI", code, value, length)


def kept(key, frame=ADD, told=answer()):
    return numbered(6, 0) + text(key) + frame + told


def create(name=b"word", length=1, tag=0, kind=2, size=None):
    row = 16 if kind == 2 else 32
    body = struct.pack(f">QB{row}sIB", 0, len(name) if size is None else size, name, length, tag)
    return struct.pack(">IB", 1 + len(body), kind) + body


def find(name=b"word"):
    body = struct.pack(">QB16s", 0, len(name), name)
    return struct.pack(">IB", 1 + len(body), 3) + body


REFUSED = {
    "a short header": [header()[:-1]],
    "another magic": [b"femempy3" + header()[8:]],
    "another version of the format": [b"FEMEMSF1" + bytes(40)],
    "another magic": [b"femempy1" + bytes(40)],
    "a header's sum": [header()[:-1] + b"\0"],
    "a block of another session": [block(), block(session=8), block()],
    "a kind": [block(b"\0", 33, 33, 33)],
    "a greater kind": [block(b"\x08", 33, 33, 33)],
    "a record that does not end": [block(asked(33)[:-1], 33, 33, 34)],
    "a number that does not end": [block(b"\2\0", 33, 33, 33)],
    "a key that is too long": [block(asked(33, key=1025 * b"k"), 33, 33, 34)],
    "an empty key": [block(kept(b""), 33, 33, 33)],
    "an empty key that is forgotten": [block(b"\5\0\0", 33, 33, 33)],
    "flags": [block(asked(33, flags=2), 33, 33, 34)],
    "a caller's number of 0": [block(asked(33, caller=0), 33, 33, 34)],
    "a caller's number above": [block(asked(33, caller=34), 33, 33, 34)],
    "a request with a number": [block(asked(33, ADD[:12] + b"\1" + ADD[13:]), 33, 33, 34)],
    "a request of no kind": [block(asked(33, ADD[:4] + b"\6" + ADD[5:]), 33, 33, 34)],
    "a cancel": [block(asked(33, frames.cancel(0)), 33, 33, 34)],
    "no operation": [block(asked(33, ADD[:13] + b"\x18" + ADD[14:]), 33, 33, 34)],
    "an operand that is not used": [block(asked(33, READ[:-1] + b"\1"), 33, 33, 34)],
    "a tag": [block(asked(33, create(tag=2)), 33, 33, 34)],
    "a name with more behind it": [block(asked(33, create(b"word", size=3)), 33, 33, 34)],
    "a short name in a long row": [block(asked(33, create(b"word", kind=12)), 33, 33, 34)],
    "a number twice": [block(asked(33) + asked(33), 33, 33, 34)],
    "numbers that fall": [block(asked(34) + asked(33), 33, 33, 35)],
    "a key twice": [block(asked(33, key=b"k") + asked(34, key=b"k"), 33, 33, 35)],
    "a key that has an answer": [block(kept(b"k") + asked(33, key=b"k"), 33, 33, 34)],
    "a key kept twice": [block(kept(b"k") + kept(b"k"), 33, 33, 33)],
    "an end of nothing": [block(numbered(2, 33), 33, 33, 34)],
    "an answer to nothing": [block(numbered(3, 33) + answer(), 33, 33, 34)],
    "two answers": [block(asked(33) + 2 * (numbered(3, 33) + answer()), 33, 33, 34)],
    "a move of nothing": [block(numbered(4, 33, 34), 33, 33, 35)],
    "a move to a lower number": [block(asked(34) + numbered(4, 34, 33), 33, 33, 35)],
    "two open numbers that no window has": [block(asked(1) + asked(33) + numbered(2, 1), 1, 33, 34)],
    "two that are further apart": [block(asked(1) + asked(34) + numbered(2, 1), 1, 34, 35)],
    "a move to a number that no window has": [block(asked(1) + asked(2) + numbered(4, 2, 34) + numbered(2, 1), 1, 34, 35)],
    "a key forgotten while its request is open": [block(asked(33, key=b"k") + b"\5" + text(b"k"), 33, 33, 34)],
    "an answer of no code": [block(asked(33) + numbered(3, 33) + answer(12), 33, 33, 34)],
    "an answer of another request": [block(asked(33) + numbered(3, 33) + answer(2), 33, 33, 34)],
    "not-now to one that waits": [block(asked(33) + numbered(3, 33) + answer(11), 33, 33, 34)],
    "an error with a value": [block(asked(33) + numbered(3, 33) + answer(4, 1), 33, 33, 34)],
    "a value with a length": [block(asked(33) + numbered(3, 33) + answer(1, 1, 1), 33, 33, 34)],
    "an array 0": [block(asked(33, create()) + numbered(3, 33) + answer(3, 0, 1), 33, 33, 34)],
    "an array of more words than there are": [block(asked(33, find()) + numbered(3, 33) + answer(3, 1, 65537), 33, 33, 34)],
    "an array of another length": [block(asked(33, create()) + numbered(3, 33) + answer(3, 1, 2), 33, 33, 34)],
    "a floor of 0": [block(b"", 0, 33, 33)],
    "a floor above the asked one": [block(b"", 34, 33, 35)],
    "a next number beyond the window": [block(b"", 33, 33, 66)],
    "a floor beyond all": [block(b"", 33, 2**63 - 31, 2**63 - 31)],
    "numbers that fall back": [block(b"", 34, 34, 34), block(b"", 33, 34, 34)],
    "a number below the floor": [block(asked(33), 33, 34, 34)],
    "a number that is not below the next": [block(asked(34), 33, 33, 34)],
}


# What the window allows, next to what it does not.
TAKEN = {
    "two open numbers in one window": [block(asked(1) + asked(32) + numbered(2, 1), 1, 32, 33)],
    "a number once the other has ended": [block(asked(1) + numbered(2, 1) + asked(34), 1, 34, 35)],
    "a move within the window": [block(asked(1) + asked(2) + numbered(4, 2, 32) + numbered(2, 1), 1, 32, 33)],
    "a move out of its own place": [block(asked(1) + numbered(4, 1, 33), 1, 2, 34)],
}


def contents(blocks):
    """A file of these blocks, if the first of them has no header."""
    return blocks[0] if blocks[0][:4] in (b"FEME", b"feme") else header() + block() + b"".join(blocks)


class Format(WithFolder):
    def setUp(self):
        super().setUp()
        self.file = self.path + ".session"

    def write(self, content):
        with open(self.file, "wb") as file:
            file.write(content)

    def read(self):
        with open(self.file, "rb") as file:
            return file.read()

    def test_the_example_is_read(self):
        self.assertEqual(len(EXAMPLE), 599)
        self.write(EXAMPLE)
        file = SessionFile(self.file)
        self.assertEqual((file.state.session, file.state.floor, file.state.asked_floor, file.state.next), (SESSION, 34, 34, 40))
        held = {35: Asked(READ, b"waits", False), 37: Asked(READ, None, False), 39: Asked(ADD, None, True)}
        self.assertEqual(file.state.unanswered, held)
        self.assertEqual({key: file.kept(key)[1].value for key in file.keys()}, {b"first": 41})
        # Rewritten, it says the same.
        file.compact()
        file.close()
        whole = header() + block(
            kept(b"first", ADD, answer(1, 41)) + asked(35, READ, b"waits") + asked(37, READ) + asked(39, ADD, flags=1), 34, 34, 40
        )
        self.assertEqual(self.read(), whole)
        again = SessionFile(self.file)
        self.assertEqual((again.state.unanswered, again.state.next, again.keys()), (held, 40, [b"first"]))
        again.abandon()

    def test_each_torn_end_of_the_example_is_cut_off(self):
        ends = [20]
        while ends[-1] < len(EXAMPLE):
            ends.append(ends[-1] + 32 + struct.unpack_from(">I", EXAMPLE, ends[-1])[0])
        for cut in range(52, len(EXAMPLE)):
            self.write(EXAMPLE[:cut])
            SessionFile(self.file).abandon()
            self.assertEqual(len(self.read()), max(end for end in ends if end <= cut))

    def test_a_key_that_has_a_block_in_it_is_no_damage(self):
        """A block's sum covers its session's number, so what a caller made up is no block, also where a write was torn."""
        other = SessionFile(self.path + ".other")
        other.close()
        with open(other.path, "rb") as file:
            key = file.read()[len(header()) :] + b"and more"
        mine = SessionFile(self.file)
        mine.begin(33)
        mine.asked(33, Asked(ADD, key, False))
        mine.commit()
        mine.abandon()
        whole, first = self.read(), len(header() + block())
        self.assertIn(key, whole[first:])
        for cut in range(first, len(whole)):
            self.write(whole[:cut])
            SessionFile(self.file).abandon()
            self.assertEqual(self.read(), whole[:first])

    def test_what_no_client_writes_is_refused_and_not_touched(self):
        for name, blocks in REFUSED.items():
            content = contents(blocks)
            with self.subTest(name):
                self.write(content)
                with self.assertRaises(femem.SessionFileError):
                    SessionFile(self.file)
                self.assertEqual(self.read(), content)

    def test_numbers_within_a_window_are_read(self):
        for name, blocks in TAKEN.items():
            with self.subTest(name):
                self.write(contents(blocks))
                SessionFile(self.file).abandon()

    def test_any_records_with_right_sums_are_read_or_refused(self):
        """Random records, whole and in pieces: `SessionFileError` or a file, and no other error."""
        chance = random.Random(4)
        pieces = [b"\1", b"\2", b"\3", b"\4", b"\5", b"\6", b"\7", text(b"k"), ADD, READ, create(), answer(), answer(3, 1, 1)]
        pieces += [numbered(2, 33), asked(33), asked(34, READ, b"k"), numbered(3, 33) + answer(), kept(b"k"), b"\0", bytes(9)]
        read = 0
        for _ in range(6000):
            payload = b"".join(chance.choices(pieces, k=chance.randrange(5)))
            if chance.random() < 0.3:
                at = chance.randrange(len(payload) + 1)
                payload = payload[:at] + bytes([chance.randrange(256)]) + payload[at + 1 :]
            self.write(header() + block() + block(payload, 33, 33, chance.choice([33, 34, 35, 36])))
            try:
                SessionFile(self.file).abandon()
                read += 1
            except femem.SessionFileError:
                pass
        self.assertGreater(read, 100)

    def test_the_short_way_of_reading_refuses_the_same(self):
        """Accesses with the answer that they happened are matched at once, others are checked field by field."""
        for kind, code, operand in itertools.product((4, 5, 6, 11), range(14, 26), (0, 1)):
            frame = struct.pack(">IBQBQIQ", 30, kind, 0, code, 1, 2, operand)
            is_one = kind in (5, 11) and code in range(16, 24) and (operand == 0 or code in (19, 20, 21, 23))
            self.assertEqual(bool(sessionstate.is_access(frame)), is_one)
            for told, value, length in itertools.product((0, 1, 2, 3, 4, 11), (0, 1), (0, 1)):
                gives = code in (16, 17, 18, 23)
                has_happened = is_one and told == (1 if gives else 2) and length == 0 and (gives or value == 0)
                found = sessionstate.has_happened(frame + answer(told, value, length))
                self.assertEqual(bool(found), has_happened, (kind, code, operand, told, value, length))

    def test_a_key_costs_few_steps_to_read(self):
        """Calls of Python's functions, since seconds depend on the machine."""
        count = 2000
        keys = [b"key %d" % k for k in range(count)]
        rewritten = block(b"".join(kept(key, told=answer(1, 5)) for key in keys), 33, 33, 33)
        grown, number = [], 33
        for key in keys:
            grown.append(block(asked(number, key=key) + numbered(3, number) + answer(1, 5), number, number, number + 1))
            number += 1
        for blocks, most in (([rewritten], 2), (grown, 8)):
            self.write(header() + block() + b"".join(blocks))
            calls = 0

            def called(frame, event, argument):
                nonlocal calls
                calls += event == "call"

            sys.setprofile(called)
            try:
                file = SessionFile(self.file)
            finally:
                sys.setprofile(None)
            self.assertEqual(file.keys(), keys)
            file.abandon()
            self.assertLess(calls, (most + 0.5) * count)

    def test_a_link_at_the_new_file_is_not_followed(self):
        victim = self.path + ".victim"
        for make in (os.symlink, os.link):
            with open(victim, "w") as file:
                file.write("precious")
            make(victim, self.file + ".new")
            file = SessionFile(self.file)
            file.remove()
            with open(victim) as kept_file:
                self.assertEqual(kept_file.read(), "precious")
            self.assertFalse(os.path.lexists(self.file + ".new"))

    def test_a_former_process_may_have_asked_for_several_floors(self):
        """As the C client does: the server's floor is any of them, and the others are asked for again."""
        server = self.server()
        with Client(self.path, 7) as client:
            word = client.create("word", 1, full=True)
            floor = client._core._outbox.window.floor
        for stands in (0, 5, 32, 40, 70):
            with self.subTest(stands=stands):
                top = floor + 70
                self.write(header(7) + block(b"", 0, 0, 0, 7) + block(b"", floor, top, top, 7))
                for model in (server.model.state, server.model.stored):
                    model.sessions[7] = (floor + stands, {})
                with Client(self.path, session_file=self.file) as client:
                    client.int_fetch_add(word, 0, 1, timeout=LONG)
                    self.assertEqual(client._core._outbox.window.floor, top)
                os.unlink(self.file)

    @unittest.skipUnless(shutil.which("strace"), "strace is not installed")
    def test_nothing_is_sent_before_the_sync_of_its_note(self):
        """By the recorded system calls of two processes, the second of which finds the first one's file: a file that is opened is
        synced with its folder before anything is sent, and each request's note is written and synced before it is sent. A new file is
        synced before it replaces the old one, and its folder before anything more is sent."""
        self.server()
        with Client(self.path, 8) as other:
            word = other.create("word", 1, full=True)
        program = (
            f"import sys; sys.path.insert(0, {FOLDER!r})\nfrom femem import Client, _sessionfile, requests\n"
            "_sessionfile._SHORT, _sessionfile._GROWTH = 600, 1\n"
            f"with Client({self.path!r}, session_file={self.file!r}) as client:\n"
            f"    for step in range(40): client.once('step %d' % step, requests.int_fetch_add({word.id}, 0, 1))\n"
        )
        trace = self.path + ".trace"
        watched = "trace=write,fsync,fdatasync,sendto,openat,rename"
        words = ["strace", "-f", "-y", "-xx", "-s", "4096", "-e", watched, "-o", trace, sys.executable, "-c", program]
        sent = replaced = 0
        unsynced, synced = b"", b""
        spelled = lambda text: "".join(f"\\x{byte:02x}" for byte in os.fsencode(text))
        name, folder = spelled(".session"), f"<{spelled(os.path.dirname(os.path.abspath(self.file)))}>"
        for _ in range(2):
            done = subprocess.run(words, capture_output=True, text=True, timeout=LONG)
            if done.returncode != 0 and "ptrace" in done.stderr:
                self.skipTest("this machine allows no tracing")
            self.assertEqual(done.returncode, 0, done.stderr)
            due = {"file", "folder"}  # what has to be synced before anything is sent
            with open(trace) as lines:
                for line in lines:
                    strings = re.findall('"((?:\\\\x[0-9a-f]{2})*)"', line)
                    content = bytes.fromhex(strings[0].replace("\\x", "")) if strings else b""
                    if " write(" in line and name in line:
                        unsynced += content
                    elif "sync(" in line and name in line:
                        synced, unsynced = synced + unsynced, b""
                        due.discard("file")
                    elif "sync(" in line and folder in line:
                        due.discard("folder")
                    elif "sendto(" in line:
                        self.assertEqual(due, set())
                        for note in self.notes(content):
                            self.assertIn(note, synced)
                            sent += 1
                    elif "rename(" in line:
                        self.assertEqual(unsynced, b"")
                        due.add("folder")
                        replaced += 1
        self.assertEqual(sent, 40)
        self.assertGreater(replaced, 3)

    @staticmethod
    def notes(content):
        """What the file must have of the accesses in messages that are sent."""
        at = 0
        while at + 5 <= len(content):
            length, kind = struct.unpack_from(">IB", content, at)
            if kind == 5:
                yield b"\1" + 2 * content[at + 5 : at + 13]
            at += 4 + length


if __name__ == "__main__":
    unittest.main()
