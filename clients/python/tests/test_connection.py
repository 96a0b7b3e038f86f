"""The module as a program uses it."""

from __future__ import annotations

import io
import os
import socket
import unittest
from pathlib import Path
from unittest import mock

from remixdb import (
    Absent,
    BadMessage,
    Bye,
    Connection,
    Delete,
    DeviceFault,
    Done,
    Get,
    HistorySpent,
    NotAReply,
    NumbersSpent,
    OutOfMemory,
    Program,
    ProgramFailed,
    Put,
    Quit,
    SessionEnded,
    Sync,
    Synced,
    Value,
    start_program,
)
from remixdb.connection import PROGRAM_VARIABLE, place_of

from .support import SECONDS, fresh_folder


class Sessions(unittest.TestCase):
    def test_requests_are_answered(self) -> None:
        with start_program() as store:
            self.assertEqual(store.ask(Put(b"a", b"1")), Done(0))
            self.assertEqual(store.ask(Get(b"a")), Value(1, b"1"))
            self.assertEqual(store.ask(Get(b"b")), Absent(1))
            self.assertEqual(store.ask(Quit()), Bye())
            self.assertEqual(store.close(), 0)

    def test_requests_may_be_sent_before_replies_are_taken(self) -> None:
        with start_program() as store:
            for number in range(100):
                store.send(Put(b"%d" % number, b""))
            for number in range(100):
                self.assertEqual(store.receive(), Done(number))

    def test_the_longest_key_and_value_come_back(self) -> None:
        key, value = b"k" * 1_024, b"v" * 65_535
        with start_program() as store:
            store.ask(Put(key, value))
            self.assertEqual(store.ask(Get(key)), Value(1, value))

    def test_a_close_without_a_quit_ends_well(self) -> None:
        store = start_program()
        self.assertEqual(store.ask(Get(b"a")), Absent(0))
        self.assertEqual(store.close(), 0)
        self.assertEqual(store.close(), 0)

    def test_a_close_with_replies_left_does_not_hang(self) -> None:
        store = start_program()
        store.ask(Put(b"a", b"v" * 65_535))
        for _ in range(100):
            store.send(Get(b"a"))
        self.assertIn(store.close(), (0, 5))

    def test_a_bad_message_is_raised_and_ends_the_session(self) -> None:
        with self.assertRaises(ProgramFailed) as failed, start_program() as store:
            store.ask(Put(b"a", b"1"))
            store.send_bytes(bytes.fromhex("00000001 10"))
            with self.assertRaises(BadMessage) as caught:
                store.receive()
            self.assertEqual((caught.exception.at, caught.exception.code), (13, 2))
            with self.assertRaises(SessionEnded) as ended:
                store.receive()
            self.assertEqual(ended.exception.status, 1)
        self.assertEqual(failed.exception.status, 1)

    def test_a_refusal_is_not_lost_where_more_was_sent(self) -> None:
        with self.assertRaises(ProgramFailed), start_program() as store:
            store.send_bytes(bytes.fromhex("00000001 10"))
            self.assertEqual(store._child.wait(SECONDS), 1)
            store.send(Get(b"a"))
            self.assertRaises(BadMessage, store.receive)
            self.assertRaises(SessionEnded, store.receive)

    def test_a_status_of_the_closing_write_is_raised(self) -> None:
        # Each reply came, and the program failed after that.
        replies = r"\000\000\000\011\201\000\000\000\000\000\000\000\000"
        with self.assertRaises(ProgramFailed) as failed:
            with Program("sh", "-c", f"printf '{replies}'; cat >/dev/null; exit 4") as store:
                self.assertEqual(store.ask(Put(b"a", b"1")), Done(0))
        self.assertEqual(failed.exception.status, 4)

    def test_an_exception_of_the_block_goes_before_a_status(self) -> None:
        with self.assertRaises(KeyError):
            with Program("sh", "-c", "cat >/dev/null; exit 4"):
                raise KeyError

    def test_a_close_by_hand_answers_the_status(self) -> None:
        store = Program("sh", "-c", "cat >/dev/null; exit 4")
        self.assertEqual(store.close(), 4)

    def test_a_session_that_has_ended_is_told(self) -> None:
        with start_program() as store:
            store.ask(Quit())
            with self.assertRaises(SessionEnded) as ended:
                store.receive()
            self.assertEqual(ended.exception.status, 0)


    def test_deletes_and_syncs_are_answered(self) -> None:
        with start_program() as store:
            self.assertEqual(store.ask(Delete(b"a")), Done(0))
            self.assertEqual(store.ask(Put(b"a", b"1")), Done(1))
            self.assertEqual(store.ask(Sync()), Synced(2))
            self.assertEqual(store.ask(Delete(b"a")), Done(2))
            self.assertEqual(store.ask(Get(b"a")), Absent(3))
            self.assertEqual(store.ask(Sync()), Synced(3))


class Folders(unittest.TestCase):
    """The folder that a program is started over."""

    def test_updates_last_over_sessions(self) -> None:
        folder = fresh_folder(self)
        with start_program(dir=folder) as store:
            self.assertEqual(store.ask(Put(b"a", b"1")), Done(0))
            self.assertEqual(store.ask(Sync()), Synced(1))
        with start_program(dir=Path(folder)) as store:
            self.assertEqual(store.ask(Get(b"a")), Value(1, b"1"))
            self.assertEqual(store.ask(Put(b"b", b"2")), Done(1))

    def test_a_folder_in_use_is_told_by_the_status(self) -> None:
        folder = fresh_folder(self)
        with start_program(dir=folder) as store:
            store.ask(Put(b"a", b"1"))
            with self.assertRaises(ProgramFailed) as failed, start_program(dir=folder) as second:
                with self.assertRaises(SessionEnded) as ended:
                    second.ask(Get(b"a"))
                self.assertEqual(ended.exception.status, 4)
            self.assertEqual(failed.exception.status, 4)
            self.assertEqual(store.ask(Sync()), Synced(1))

    def test_any_name_of_a_folder_is_a_place(self) -> None:
        self.assertEqual(place_of(None), "mem")
        for name, place in (("/a/b", "/a/b"), ("a/b", "./a/b"), ("mem", "./mem"), ("-a", "./-a")):
            self.assertEqual(place_of(name), place)
            self.assertEqual(place_of(Path(name)), place)
        self.assertRaises(ValueError, place_of, "")
        self.assertRaises(TypeError, place_of, 7)

    def test_the_program_is_started_with_two_words(self) -> None:
        for folder, place in ((None, b"mem"), ("mem", b"./mem"), ("a b", b"./a b")):
            with mock.patch.dict(os.environ, {PROGRAM_VARIABLE: "echo"}):
                with start_program(dir=folder) as store:
                    self.assertEqual(store._replies.read(), b"script " + place + b"\n")


class Streams(unittest.TestCase):
    def test_a_refusal_leaves_the_connection_in_use(self) -> None:
        replies = io.BytesIO(bytes.fromhex("00000001 e5 00000001 89"))
        store = Connection(replies, io.BytesIO())
        self.assertRaises(OutOfMemory, store.ask, Get(b"a"))
        self.assertEqual(store.ask(Quit()), Bye())

    def test_each_refusal_is_raised_with_its_fields(self) -> None:
        spent = "4000000000000000"
        sent = bytes.fromhex(f"00000002 e4 00 00000009 e7 {spent} 00000009 e8 {spent}")
        store = Connection(io.BytesIO(sent + bytes.fromhex("00000009 84 " + spent)), io.BytesIO())
        with self.assertRaises(DeviceFault) as fault:
            store.ask(Sync())
        self.assertEqual(fault.exception.device, 0)
        with self.assertRaises(HistorySpent) as history:
            store.ask(Put(b"a", b"1"))
        self.assertEqual(history.exception.number, 2**62)
        with self.assertRaises(NumbersSpent) as numbers:
            store.ask(Delete(b"a"))
        self.assertEqual(numbers.exception.next, 2**62)
        self.assertEqual(store.ask(Sync()), Synced(2**62))

    def test_requests_are_sent_as_their_bytes(self) -> None:
        sent = io.BytesIO()
        store = Connection(io.BytesIO(), sent)
        for request in (Delete(b"a"), Sync()):
            store.send(request)
        self.assertEqual(sent.getvalue(), bytes.fromhex("00000004 02 0001 61 00000001 04"))

    def test_what_is_no_reply_is_told(self) -> None:
        for sent in (b"HTTP/1.1 200 OK", bytes.fromhex("00000000"), bytes.fromhex("00000001 01")):
            with self.subTest(sent=sent), self.assertRaises(NotAReply):
                Connection(io.BytesIO(sent), io.BytesIO()).receive()

    def test_an_end_inside_a_reply_is_told(self) -> None:
        for sent in (b"", b"\0\0\0", bytes.fromhex("00000009 81 00")):
            with self.subTest(sent=sent), self.assertRaises(SessionEnded) as ended:
                Connection(io.BytesIO(sent), io.BytesIO()).receive()
            self.assertIsNone(ended.exception.status)

    def test_a_socket_does_as_well_as_pipes(self) -> None:
        here, there = socket.socketpair()
        with here, there, Connection(here.makefile("rb"), here.makefile("wb")) as store:
            store.send(Quit())
            self.assertEqual(there.recv(5), bytes.fromhex("00000001 09"))
            there.sendall(bytes.fromhex("00000001 89"))
            self.assertEqual(store.receive(), Bye())
