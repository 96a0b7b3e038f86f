"""The program at its edge: bytes in, bytes, notes and a status out."""

from __future__ import annotations

import array
import fcntl
import os
import signal
import subprocess
import tempfile
import termios
import threading
import time
import unittest
from typing import IO

from .support import (
    ABSENT_1,
    BAD_MESSAGE_NOTE,
    BYE,
    DELETE_A,
    DONE_0,
    DONE_1,
    GET_A,
    MEMORY_LIMITS,
    MEMORY_NOTE,
    NOT_LOADED,
    PUT_A,
    QUIT,
    SCRIPT,
    SECONDS,
    STREAM_NOTE,
    SYNC,
    SYNCED_0,
    SYNCED_1,
    VALUE_1_OF_A,
    WORDS_NOTE,
    Ended,
    built_path,
    program_path,
    run_program,
    run_script,
    run_within,
    start_script,
)


def bad_message(at: int, code: int) -> bytes:
    """The reply to a message that is none."""
    return bytes.fromhex("0000000a e1") + at.to_bytes(8, "big") + bytes([code])


def wait_until_taken(pipe: IO[bytes]) -> None:
    """Waits until the reader of a pipe has taken all that was written to it."""
    left = array.array("i", [1])
    end = time.monotonic() + SECONDS
    while left[0] and time.monotonic() < end:
        fcntl.ioctl(pipe, termios.FIONREAD, left)


class Sessions(unittest.TestCase):
    """Whole inputs, and all that comes of them."""

    def test_a_put_is_read_back(self) -> None:
        wanted = Ended(0, DONE_0 + VALUE_1_OF_A + BYE, b"")
        self.assertEqual(run_script(PUT_A + GET_A + QUIT), wanted)

    def test_an_empty_input_gives_nothing(self) -> None:
        self.assertEqual(run_script(b""), Ended(0, b"", b""))

    def test_an_input_may_end_without_a_quit(self) -> None:
        self.assertEqual(run_script(PUT_A), Ended(0, DONE_0, b""))

    def test_an_absent_key_is_told(self) -> None:
        absent = bytes.fromhex("00000009 83 0000000000000000")
        self.assertEqual(run_script(GET_A), Ended(0, absent, b""))

    def test_the_last_put_of_a_key_counts(self) -> None:
        put_again = bytes.fromhex("00000009 01 0001 61 00000001 32")
        done_1 = bytes.fromhex("00000009 81 0000000000000001")
        value_2 = bytes.fromhex("0000000e 82 0000000000000002 00000001 32")
        wanted = Ended(0, DONE_0 + done_1 + value_2, b"")
        self.assertEqual(run_script(PUT_A + put_again + GET_A), wanted)

    def test_nothing_after_a_quit_is_answered(self) -> None:
        self.assertEqual(run_script(QUIT + PUT_A), Ended(0, BYE, b""))

    def test_the_longest_key_and_value_fit(self) -> None:
        key, value = b"k" * 1_024, b"v" * 65_535
        put = bytes.fromhex("00010406 01 0400") + key + bytes.fromhex("0000ffff") + value
        get = bytes.fromhex("00000403 03 0400") + key
        answer = bytes.fromhex("0001000c 82 0000000000000001 0000ffff") + value
        self.assertEqual(run_script(put + get), Ended(0, DONE_0 + answer, b""))

    def test_a_delete_takes_a_value_away(self) -> None:
        absent = bytes.fromhex("00000009 83 0000000000000002")
        wanted = Ended(0, DONE_0 + VALUE_1_OF_A + DONE_1 + absent, b"")
        self.assertEqual(run_script(PUT_A + GET_A + DELETE_A + GET_A), wanted)

    def test_a_delete_of_an_absent_key_is_an_update(self) -> None:
        self.assertEqual(run_script(DELETE_A + GET_A), Ended(0, DONE_0 + ABSENT_1, b""))

    def test_a_sync_answers_how_many_updates_there_were(self) -> None:
        wanted = Ended(0, SYNCED_0 + DONE_0 + SYNCED_1 + SYNCED_1 + BYE, b"")
        self.assertEqual(run_script(SYNC + PUT_A + SYNC + SYNC + QUIT), wanted)

    def test_an_empty_value_is_a_value(self) -> None:
        put = bytes.fromhex("00000008 01 0001 61 00000000")
        answer = bytes.fromhex("0000000d 82 0000000000000001 00000000")
        self.assertEqual(run_script(put + GET_A), Ended(0, DONE_0 + answer, b""))

    def test_many_requests_are_answered_in_order(self) -> None:
        sent, wanted = b"", b""
        for number in range(5_000):
            key = b"%05d" % number
            sent += bytes.fromhex("0000000d 01 0005") + key + bytes.fromhex("00000001 31")
            wanted += bytes.fromhex("00000009 81") + number.to_bytes(8, "big")
        self.assertEqual(run_script(sent), Ended(0, wanted, b""))


class BadMessages(unittest.TestCase):
    """Each reason for which a message is refused."""

    def assert_refused(self, message: str, code: int) -> None:
        sent = bytes.fromhex(message)
        wanted = Ended(1, bad_message(0, code), BAD_MESSAGE_NOTE)
        self.assertEqual(run_script(sent), wanted)
        wanted = Ended(1, DONE_0 + bad_message(len(PUT_A), code), BAD_MESSAGE_NOTE)
        self.assertEqual(run_script(PUT_A + sent), wanted)

    def test_a_body_of_no_bytes(self) -> None:
        self.assert_refused("00000000", 1)

    def test_a_body_that_is_too_long_is_not_read(self) -> None:
        self.assert_refused("00010407", 1)
        self.assert_refused("ffffffff", 1)

    def test_an_unknown_request(self) -> None:
        self.assert_refused("00000001 10", 2)

    def test_a_body_that_ends_inside_a_field(self) -> None:
        self.assert_refused("00000002 03 00", 3)
        self.assert_refused("00000003 03 0001", 3)
        self.assert_refused("00000008 01 0001 61 00000001", 3)

    def test_a_key_of_no_bytes(self) -> None:
        self.assert_refused("00000008 01 0000 00000001 31", 4)

    def test_a_key_that_is_too_long(self) -> None:
        self.assert_refused("00000409 01 0401" + "61" * 1_025 + "00000001 31", 4)

    def test_a_value_that_is_too_long(self) -> None:
        self.assert_refused("00000008 01 0001 61 00010000", 5)

    def test_faults_of_a_delete_and_of_a_sync(self) -> None:
        self.assert_refused("00000002 02 00", 3)
        self.assert_refused("00000003 02 0001", 3)
        self.assert_refused("00000003 02 0000", 4)
        self.assert_refused("00000003 02 0401", 4)
        self.assert_refused("00000005 02 0001 61 00", 7)
        self.assert_refused("00000002 04 00", 7)

    def test_bytes_after_the_last_field(self) -> None:
        self.assert_refused("00000002 09 00", 7)
        self.assert_refused("00000005 03 0001 61 00", 7)

    def test_nothing_after_it_is_answered(self) -> None:
        sent = bytes.fromhex("00000001 10") + PUT_A
        self.assertEqual(run_script(sent), Ended(1, bad_message(0, 2), BAD_MESSAGE_NOTE))

    def test_an_end_inside_a_message_gets_no_reply(self) -> None:
        for end in range(1, len(PUT_A)):
            self.assertEqual(run_script(PUT_A[:end]), Ended(1, b"", BAD_MESSAGE_NOTE))


class Streams(unittest.TestCase):
    """Pieces of any size, replies that are waited for, and streams that fail."""

    def feed(self, pieces: "list[bytes]") -> Ended:
        """Feeds each piece only once the program has taken the one before."""
        child = start_script()
        assert child.stdin is not None
        for piece in pieces:
            child.stdin.write(piece)
            wait_until_taken(child.stdin)
        output, notes = child.communicate(timeout=SECONDS)
        return Ended(child.returncode, output, notes)

    def test_messages_may_come_in_single_bytes(self) -> None:
        sent = PUT_A + GET_A + QUIT
        pieces = [sent[place : place + 1] for place in range(len(sent))]
        self.assertEqual(self.feed(pieces), Ended(0, DONE_0 + VALUE_1_OF_A + BYE, b""))

    def test_messages_may_be_cut_anywhere(self) -> None:
        sent = PUT_A + GET_A + QUIT
        for cut in range(1, len(sent)):
            ended = self.feed([sent[:cut], sent[cut:]])
            self.assertEqual(ended, Ended(0, DONE_0 + VALUE_1_OF_A + BYE, b""))

    def test_each_reply_comes_before_the_next_request(self) -> None:
        child = start_script()
        watch = threading.Timer(SECONDS, child.kill)
        watch.start()
        try:
            assert child.stdin is not None and child.stdout is not None
            for request, wanted in ((PUT_A, DONE_0), (GET_A, VALUE_1_OF_A), (QUIT, BYE)):
                child.stdin.write(request)
                came = b""
                while len(came) < len(wanted):
                    piece = child.stdout.read(len(wanted) - len(came))
                    self.assertTrue(piece, "the program waits for more input before it answers")
                    came += piece
                self.assertEqual(came, wanted)
            self.assertEqual(child.communicate(timeout=SECONDS), (b"", b""))
            self.assertEqual(child.returncode, 0)
        finally:
            watch.cancel()

    def test_a_reply_comes_although_the_next_request_has_begun(self) -> None:
        child = start_script()
        watch = threading.Timer(SECONDS, child.kill)
        watch.start()
        try:
            assert child.stdin is not None and child.stdout is not None
            child.stdin.write(PUT_A + GET_A[:3])
            came = child.stdout.read(len(DONE_0))
            self.assertEqual(came, DONE_0)
            output, _ = child.communicate(GET_A[3:], timeout=SECONDS)
            self.assertEqual(output, VALUE_1_OF_A)
        finally:
            watch.cancel()

    def test_replies_of_many_times_the_buffer_come_whole(self) -> None:
        sent, wanted = self.long_replies(count=40)
        self.assertEqual(run_script(sent), Ended(0, wanted, b""))

    def test_a_program_that_is_stopped_in_a_write_goes_on(self) -> None:
        # A stop cuts the write of a long reply short wherever the pipe is full.
        sent, wanted = self.long_replies(count=20)
        child = start_script()
        assert child.stdin is not None and child.stdout is not None
        feeder = threading.Thread(target=child.stdin.write, args=(sent,))
        feeder.start()
        came = b""
        while len(came) < len(wanted):
            time.sleep(0.01)
            child.send_signal(signal.SIGSTOP)
            child.send_signal(signal.SIGCONT)
            piece = child.stdout.read(50_000)
            self.assertTrue(piece, "the replies end early")
            came += piece
        feeder.join(SECONDS)
        self.assertEqual(came, wanted)
        self.assertEqual(child.communicate(timeout=SECONDS), (b"", b""))
        self.assertEqual(child.returncode, 0)

    def long_replies(self, count: int) -> "tuple[bytes, bytes]":
        """A put of the longest value and so many gets of it, and all their replies."""
        value = b"v" * 65_535
        put = bytes.fromhex("00010007 01 0001 61 0000ffff") + value
        answer = bytes.fromhex("0001000c 82 0000000000000001 0000ffff") + value
        return put + GET_A * count, DONE_0 + answer * count

    def test_a_reader_that_is_gone_is_a_failed_stream(self) -> None:
        reader, writer = os.pipe()
        os.close(reader)
        with os.fdopen(writer, "wb") as output:
            child = start_script(output)
        _, notes = child.communicate(PUT_A + GET_A, timeout=SECONDS)
        self.assertEqual((child.returncode, notes), (5, STREAM_NOTE))

    def test_a_reader_that_leaves_later_is_a_failed_stream(self) -> None:
        reader, writer = os.pipe()
        with os.fdopen(writer, "wb") as output:
            child = start_script(output)
        assert child.stdin is not None
        child.stdin.write(PUT_A)
        self.assertEqual(os.read(reader, len(DONE_0)), DONE_0)
        os.close(reader)
        _, notes = child.communicate(GET_A, timeout=SECONDS)
        self.assertEqual((child.returncode, notes), (5, STREAM_NOTE))

    @unittest.skipUnless(os.path.exists("/dev/full"), "no device here is always full")
    def test_a_full_device_is_a_failed_stream(self) -> None:
        with open("/dev/full", "wb") as output:
            child = start_script(output)
        _, notes = child.communicate(PUT_A, timeout=SECONDS)
        self.assertEqual((child.returncode, notes), (5, STREAM_NOTE))

    @unittest.skipUnless(os.path.exists("/dev/full"), "no device here is always full")
    def test_a_full_device_is_a_failed_stream_at_a_quit_too(self) -> None:
        with open("/dev/full", "wb") as output:
            child = start_script(output)
        _, notes = child.communicate(QUIT, timeout=SECONDS)
        self.assertEqual((child.returncode, notes), (5, STREAM_NOTE))

    def test_an_input_that_cannot_be_read_is_a_failed_stream(self) -> None:
        with tempfile.TemporaryDirectory() as folder:
            unreadable = os.open(folder, os.O_RDONLY)
            run = subprocess.run(
                [program_path(), *SCRIPT], stdin=unreadable, capture_output=True, timeout=SECONDS
            )
            os.close(unreadable)
        self.assertEqual(Ended(run.returncode, run.stdout, run.stderr), Ended(5, b"", STREAM_NOTE))


class Memory(unittest.TestCase):
    """Less and less memory, in steps of 50 KiB."""

    def test_a_session_runs_or_memory_is_told(self) -> None:
        ends = {run_within(limit, b"", *SCRIPT) for limit in MEMORY_LIMITS}
        ends = {ended for ended in ends if ended.status != NOT_LOADED}
        self.assertEqual(ends, {Ended(0, b"", b""), Ended(6, b"", MEMORY_NOTE)})


class Words(unittest.TestCase):
    """The words after the program's name."""

    def test_other_words_are_refused(self) -> None:
        for words in (
            "",
            "script",
            "mem",
            "mem script",
            "script mem mem",
            "script -- x",
            "script -x",
            "script --",
            "chek x",
        ):
            with self.subTest(words=words):
                self.assertEqual(run_program(PUT_A, *words.split()), Ended(2, b"", WORDS_NOTE))

    def test_an_empty_word_is_a_word(self) -> None:
        for words in (("script", "mem", ""), ("script", ""), ("", "mem")):
            with self.subTest(words=words):
                self.assertEqual(run_program(PUT_A, *words), Ended(2, b"", WORDS_NOTE))

    def test_a_word_that_is_no_text_is_refused(self) -> None:
        # The system hands words over as bytes. These are no UTF-8: a lone byte, an overlong
        # letter, half of a pair.
        for word in (b"\xff", b"mem\xff", b"\xc1\xad", b"\xed\xa0\x80"):
            for words in (("script", word), (word, "mem"), ("script", "mem", word)):
                with self.subTest(words=words):
                    self.assertEqual(run_program(PUT_A, *words), Ended(2, b"", WORDS_NOTE))

    def test_the_name_of_the_program_is_no_word(self) -> None:
        for name, words, status in (("script", ["mem"], 2), ("mem", ["script", "mem"], 0)):
            with self.subTest(name=name):
                run = subprocess.run(
                    [name, *words],
                    executable=built_path(),
                    input=b"",
                    capture_output=True,
                    timeout=SECONDS,
                )
                notes = WORDS_NOTE if status else b""
                self.assertEqual(
                    Ended(run.returncode, run.stdout, run.stderr), Ended(status, b"", notes)
                )

    def test_the_program_runs_from_any_folder_and_through_a_link(self) -> None:
        with tempfile.TemporaryDirectory() as folder:
            link = os.path.join(folder, "store")
            os.symlink(program_path(), link)
            run = subprocess.run(
                [link, *SCRIPT], cwd=folder, input=QUIT, capture_output=True, timeout=SECONDS
            )
        self.assertEqual(Ended(run.returncode, run.stdout, run.stderr), Ended(0, BYE, b""))
