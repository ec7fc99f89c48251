"""Frames: the worked exchange of docs/formats.md, each kind, and what is refused."""

import unittest

import paths  # noqa: F401

from femem import _frames as frames
from femem._errors import ProtocolError


def spelled(text):
    return bytes.fromhex(text.replace(" ", ""))


# The exchange of docs/formats.md: what the client sends, and the reply.
EXCHANGE = [
    (
        frames.attach(7),
        "00000009 01 0000000000000007",
        frames.Welcome(7, 1),
        "00000011 41 0000000000000007 0000000000000001",
    ),
    (
        frames.create(1, b"cells", 2, False),
        "0000001f 02 0000000000000001 05 63656c6c730000000000000000000000 00000002 00",
        frames.Answer(1, frames.ARRAY, 1, 2),
        "00000016 42 0000000000000001 03 0000000000000001 00000002",
    ),
    (
        frames.pack_access(30, frames.ACCESS, 2, frames.WRITEEF, 1, 0, 42),
        "0000001e 05 0000000000000002 13 0000000000000001 00000000 000000000000002a",
        frames.Answer(2, frames.DONE),
        "00000016 42 0000000000000002 02 0000000000000000 00000000",
    ),
    (
        frames.pack_access(30, frames.ACCESS, 3, frames.READFE, 1, 0, 0),
        "0000001e 05 0000000000000003 10 0000000000000001 00000000 0000000000000000",
        frames.Answer(3, frames.VALUE, 42),
        "00000016 42 0000000000000003 01 000000000000002a 00000000",
    ),
    (
        frames.pack_access(30, frames.ACCESS, 4, frames.READXX, 1, 0, 0),
        "0000001e 05 0000000000000004 12 0000000000000001 00000000 0000000000000000",
        frames.Answer(4, frames.VALUE, 42),
        "00000016 42 0000000000000004 01 000000000000002a 00000000",
    ),
    (
        frames.pack_access(30, frames.NOWAIT, 5, frames.READFE, 1, 0, 0),
        "0000001e 0b 0000000000000005 10 0000000000000001 00000000 0000000000000000",
        frames.Answer(5, frames.NOT_NOW),
        "00000016 42 0000000000000005 0b 0000000000000000 00000000",
    ),
]

OTHER_MESSAGES = [
    (frames.find(1, b"cells"), "0000001a 03 0000000000000001 05 63656c6c730000000000000000000000"),
    (frames.find(1, b"x" * 16), "0000001a 03 0000000000000001 10" + "78" * 16),
    (frames.find(1, b"x" * 17), "0000002a 0d 0000000000000001 11" + "78" * 17 + "00" * 15),
    (frames.create(1, b"x" * 32, 65536, True), "0000002f 0c 0000000000000001 20" + "78" * 32 + "00010000 01"),
    (frames.remove(3, 9), "00000011 04 0000000000000003 0000000000000009"),
    (frames.cancel(3), "00000009 06 0000000000000003"),
    (frames.settle(33), "00000009 07 0000000000000021"),
    (frames.bye(), "00000001 08"),
    (frames.report(), "00000001 09"),
]

OTHER_REPLIES = [
    (frames.Withdrawn(3), "00000009 43 0000000000000003"),
    (frames.Settled(33), "00000009 44 0000000000000021"),
    (frames.Goodbye(7), "00000009 45 0000000000000007"),
    (frames.Refusal(2, frames.NUMBER_USED), "0000000a 46 0000000000000002 05"),
    (frames.Report("waiting 0\n"), "0000000b 47" + b"waiting 0\n".hex()),
]

BAD = {
    "length 0": "00000000",
    "length above the longest": "00040002",
    "length of all ones": "ffffffff",
    "kind of the client": "00000009 01",
    "unknown kind": "00000009 48",
    "length of another kind": "00000010 41",
    "report of no bytes": "00000001 47",
    "report that is not UTF-8": "00000002 47 ff",
    "floor 0": "00000011 41 0000000000000007 0000000000000000",
    "floor above the greatest": "00000011 41 0000000000000007 7fffffffffffffe1",
    "answer 0": "00000016 42 0000000000000002 00 0000000000000000 00000000",
    "answer 12": "00000016 42 0000000000000002 0c 0000000000000000 00000000",
    "done with a value": "00000016 42 0000000000000002 02 0000000000000001 00000000",
    "value with a length": "00000016 42 0000000000000002 01 0000000000000001 00000001",
    "refusal 0": "0000000a 46 0000000000000002 00",
    "refusal 11": "0000000a 46 0000000000000002 0b",
}


class Frames(unittest.TestCase):
    def test_the_exchange_of_the_docs(self):
        for message, client, reply, server in EXCHANGE:
            self.assertEqual(message, spelled(client))
            self.assertEqual(frames.ReplyDecoder().feed(spelled(server)), [reply])

    def test_other_kinds(self):
        for message, text in OTHER_MESSAGES:
            self.assertEqual(message, spelled(text))
        for reply, text in OTHER_REPLIES:
            self.assertEqual(frames.ReplyDecoder().feed(spelled(text)), [reply])

    def test_any_pieces(self):
        stream = b"".join(spelled(text) for _, _, _, text in EXCHANGE)
        stream += b"".join(spelled(text) for _, text in OTHER_REPLIES)
        whole = frames.ReplyDecoder().feed(stream)
        for size in range(1, 60):
            decoder = frames.ReplyDecoder()
            got = []
            for at in range(0, len(stream), size):
                got += decoder.feed(stream[at : at + size])
            self.assertEqual(got, whole)

    def test_a_bad_frame_is_refused_as_soon_as_it_is_bad(self):
        good = spelled("0000000b 47") + b"waiting 0\n"
        for name, text in BAD.items():
            with self.subTest(name):
                decoder = frames.ReplyDecoder()
                decoder.feed(good)
                with self.assertRaisesRegex(ProtocolError, "offset 15"):
                    decoder.feed(spelled(text))
                decoder = frames.ReplyDecoder()
                self.assertEqual(decoder.feed(spelled(text)[:-1]), [])

    def test_memory_is_bounded(self):
        decoder = frames.ReplyDecoder()
        decoder.feed(spelled("00040001 47"))
        for _ in range(4):
            self.assertEqual(decoder.feed(b"a" * 65535), [])
        self.assertEqual(decoder.feed(b"aaaa"), [frames.Report("a" * 262_144)])
        self.assertEqual(len(decoder._rest), 0)


if __name__ == "__main__":
    unittest.main()
