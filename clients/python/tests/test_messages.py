"""Messages and their bytes, and lines and their words, without a program."""

from __future__ import annotations

import unittest

from remixdb import (
    Absent,
    BadMessage,
    Bye,
    Delete,
    DeviceFault,
    Done,
    Get,
    HistorySpent,
    NotAReply,
    NumbersSpent,
    OutOfMemory,
    Put,
    Quit,
    Refusal,
    Sync,
    Synced,
    Value,
)
from remixdb.messages import Message, read_reply
from remixdb.text import BadLine, hex_of, line_of, quoted, read_words, request_of


class Requests(unittest.TestCase):
    def test_their_bytes(self) -> None:
        self.assertEqual(hex_of(Put(b"a", b"1")), "00000009 01 0001 61 00000001 31")
        self.assertEqual(hex_of(Put(b"a", b"")), "00000008 01 0001 61 00000000")
        self.assertEqual(hex_of(Delete(b"x")), "00000004 02 0001 78")
        self.assertEqual(hex_of(Get(b"a")), "00000004 03 0001 61")
        self.assertEqual(hex_of(Sync()), "00000001 04")
        self.assertEqual(hex_of(Quit()), "00000001 09")

    def test_bounds_are_those_of_the_store(self) -> None:
        Put(b"k" * 1_024, b"v" * 65_535)
        for key, value in ((b"", b""), (b"k" * 1_025, b""), (b"k", b"v" * 65_536)):
            self.assertRaises(ValueError, Put, key, value)
        Delete(b"k" * 1_024)
        for each in (Delete, Get):
            for key in (b"", b"k" * 1_025):
                self.assertRaises(ValueError, each, key)


class Replies(unittest.TestCase):
    def read(self, body: str) -> Message:
        return read_reply(bytes.fromhex(body))

    def test_their_fields(self) -> None:
        self.assertEqual(self.read("81 0000000000000007"), Done(7))
        self.assertEqual(self.read("82 0000000000000001 00000002 6162"), Value(1, b"ab"))
        self.assertEqual(self.read("83 0000000000000001"), Absent(1))
        self.assertEqual(self.read("84 0000000000000001"), Synced(1))
        self.assertEqual(self.read("84 4000000000000000"), Synced(2**62))
        self.assertEqual(self.read("89"), Bye())

    def test_refusals_carry_their_fields(self) -> None:
        bad = self.read("e1 000000000000001d 04")
        assert isinstance(bad, BadMessage)
        self.assertEqual((bad.at, bad.code), (29, 4))
        fault = self.read("e4 0a")
        assert isinstance(fault, DeviceFault)
        self.assertEqual(fault.device, 10)
        self.assertIsInstance(self.read("e5"), OutOfMemory)
        history = self.read("e7 4000000000000000")
        assert isinstance(history, HistorySpent)
        self.assertEqual(history.number, 2**62)
        numbers = self.read("e8 4000000000000001")
        assert isinstance(numbers, NumbersSpent)
        self.assertEqual(numbers.next, 2**62 + 1)
        for each in (bad, fault, history, numbers):
            self.assertIsInstance(each, Refusal)

    def test_a_code_that_is_not_known_is_told(self) -> None:
        told = str(BadMessage(5, 99))
        self.assertEqual(told, "bad message at byte 5, code 99: this client does not know the code")

    def test_fields_are_bytes(self) -> None:
        for other in ("a", bytearray(b"a"), [97]):
            with self.subTest(other=other), self.assertRaises(TypeError):
                Get(other)  # type: ignore[arg-type]

    def test_what_is_no_reply_is_told(self) -> None:
        for body in (
            "01",
            "04",
            "81",
            "81 00",
            "82 0000000000000001 00000002 61",
            "84 00000000000001",
            "84 0000000000000001 00",
            "89 00",
            "e7",
            "e8 00",
            "",
        ):
            with self.subTest(body=body), self.assertRaises(NotAReply):
                self.read(body)

    def test_they_are_spelled_as_they_came(self) -> None:
        self.assertEqual(hex_of(Value(1, b"1")), "0000000e 82 0000000000000001 00000001 31")
        self.assertEqual(hex_of(Synced(1)), "00000009 84 0000000000000001")
        self.assertEqual(hex_of(BadMessage(0, 4)), "0000000a e1 0000000000000000 04")
        self.assertEqual(hex_of(DeviceFault(0)), "00000002 e4 00")
        self.assertEqual(hex_of(HistorySpent(2**62)), "00000009 e7 4000000000000000")
        self.assertEqual(hex_of(NumbersSpent(2**62)), "00000009 e8 4000000000000000")


class Lines(unittest.TestCase):
    def test_words_quotes_and_escapes(self) -> None:
        self.assertEqual(read_words("put a 1"), [b"put", b"a", b"1"])
        self.assertEqual(read_words(' \tput  "a b"\t"" '), [b"put", b"a b", b""])
        self.assertEqual(read_words(r'\x00\xFf\n\\\" "\x20\""'), [b'\x00\xff\n\\"', b' "'])
        self.assertEqual(read_words("é"), [b"\xc3\xa9"])
        self.assertEqual(read_words(""), [])

    def test_bad_words_are_refused(self) -> None:
        for line in (r"\q", r"\x1", r"\x+1", "\\", '"a', 'a"b', '"a"b', r'"a\"'):
            with self.subTest(line=line), self.assertRaises(BadLine):
                read_words(line)

    def test_every_byte_can_be_typed_as_it_is_printed(self) -> None:
        every = bytes(range(256))
        self.assertEqual(read_words(quoted(every)), [every])
        self.assertEqual(quoted(b'a "\\\n\x00\xff'), r'"a \"\\\n\x00\xff"')
        self.assertEqual(quoted("é\u202e".encode()), r'"é\xe2\x80\xae"')

    def test_requests(self) -> None:
        self.assertEqual(request_of([b"put", b"a", b"1"]), Put(b"a", b"1"))
        self.assertEqual(request_of([b"delete", b"a"]), Delete(b"a"))
        self.assertEqual(request_of([b"get", b"a"]), Get(b"a"))
        self.assertEqual(request_of([b"sync"]), Sync())
        self.assertEqual(request_of([b"quit"]), Quit())

    def test_what_is_wanted_is_told(self) -> None:
        for words, wanted in (
            ([b"put", b"a"], "put KEY VALUE is wanted"),
            ([b"quit", b"now"], "quit is wanted"),
            ([b"sync", b"now"], "sync is wanted, and sync has 1 word after it"),
            ([b"delete"], "delete KEY is wanted, and delete has 0 words after it"),
            ([b"frob"], "there are put KEY VALUE, delete KEY, get KEY, sync, quit"),
            ([b"\xff"], "there is no request"),
            ([b"get", b""], "a key has 1 to 1024 bytes, and this one has 0"),
        ):
            with self.subTest(words=words), self.assertRaisesRegex(BadLine, wanted):
                request_of(words)

    def test_replies_in_words(self) -> None:
        self.assertEqual(line_of(Done(0)), "done 0")
        self.assertEqual(line_of(Value(1, b"x y")), 'value 1 "x y"')
        self.assertEqual(line_of(Absent(1)), "absent 1")
        self.assertEqual(line_of(Bye()), "bye")
        self.assertEqual(line_of(DeviceFault(3)), "refused: device fault on device 3")
        self.assertEqual(line_of(Synced(2)), "synced 2")
        self.assertEqual(line_of(OutOfMemory()), "refused: out of memory")
        self.assertEqual(
            line_of(HistorySpent(2**62)),
            "refused: history spent: the next update would be number 4611686018427387904",
        )
        self.assertEqual(
            line_of(NumbersSpent(2**62)),
            "refused: numbers spent: the next file would be number 4611686018427387904",
        )
        self.assertEqual(
            line_of(BadMessage(9, 2)),
            "refused: bad message at byte 9, code 2: there is no such request",
        )
