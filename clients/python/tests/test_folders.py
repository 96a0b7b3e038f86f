"""The program over a folder: what the next run finds there, and how a run ends that cannot use it."""

from __future__ import annotations

import os
import resource
import shutil
import signal
import subprocess
import tempfile
import unittest
from pathlib import Path
from typing import Tuple

from .log_file import FILE, read_entries
from .support import (
    ABSENT_0,
    BAD_MESSAGE_NOTE,
    BYE,
    DELETE_A,
    DONE_0,
    DONE_1,
    GET_A,
    MEMORY_LIMITS,
    MEMORY_NOTE,
    NOT_LOADED,
    PUT_A,
    QUIT,
    SECONDS,
    SYNC,
    SYNCED_1,
    VALUE_1_OF_A,
    Ended,
    built_path,
    fresh_folder,
    run_program,
    run_within,
    start_script,
    take,
)

HEADER = "a5 00000011 00 0000000000000000 0000000000000000"
"""The first frame of a log."""

PUT_A_FRAME = "a5 00000021 01 0000000000000000 00000001 00000000 0000000000000000 0001 61 00000001 31"
"""The frame of one update, which puts a to 1."""

LOG_OF_PUT_A = bytes.fromhex(HEADER + PUT_A_FRAME + "00")
DEVICE_NOTE = b"remixdb: device 0 failed\n"


def run_in(folder: str, sent: bytes) -> Ended:
    return run_program(sent, "script", folder)


def done(number: int) -> bytes:
    return bytes.fromhex("00000009 81") + number.to_bytes(8, "big")


def log_of(folder: str) -> bytes:
    return Path(folder, FILE).read_bytes()


def make_log(folder: str, content: bytes) -> None:
    os.mkdir(folder)
    Path(folder, FILE).write_bytes(content)


class Reopening(unittest.TestCase):
    """What a run leaves for the next one."""

    def test_an_update_that_was_synced_is_there_again(self) -> None:
        folder = fresh_folder(self)
        wanted = Ended(0, DONE_0 + SYNCED_1 + BYE, b"")
        self.assertEqual(run_in(folder, PUT_A + SYNC + QUIT), wanted)
        self.assertEqual(log_of(folder), LOG_OF_PUT_A)
        self.assertEqual(run_in(folder, GET_A), Ended(0, VALUE_1_OF_A, b""))

    def test_a_log_that_another_wrote_is_read(self) -> None:
        folder = fresh_folder(self)
        make_log(folder, LOG_OF_PUT_A)
        self.assertEqual(run_in(folder, GET_A), Ended(0, VALUE_1_OF_A, b""))
        self.assertEqual(log_of(folder), LOG_OF_PUT_A)

    def test_an_end_keeps_what_was_accepted(self) -> None:
        # By a quit, by the end of the input, by a message that is none, and inside a message.
        for end, status in ((QUIT, 0), (b"", 0), (bytes.fromhex("00000001 10"), 1), (PUT_A[:5], 1)):
            with self.subTest(end=end):
                folder = fresh_folder(self)
                ended = run_in(folder, PUT_A + end)
                self.assertEqual(ended.status, status)
                self.assertEqual(ended.notes, BAD_MESSAGE_NOTE if status else b"")
                self.assertEqual(run_in(folder, GET_A), Ended(0, VALUE_1_OF_A, b""))

    def test_a_reader_that_is_gone_keeps_what_was_accepted(self) -> None:
        folder = fresh_folder(self)
        reader, writer = os.pipe()
        os.close(reader)
        with os.fdopen(writer, "wb") as output:
            child = start_script(output, folder)
        child.communicate(PUT_A, timeout=SECONDS)
        self.assertEqual(child.returncode, 5)
        self.assertEqual(run_in(folder, GET_A), Ended(0, VALUE_1_OF_A, b""))

    def test_a_folder_that_is_opened_again_numbers_on(self) -> None:
        folder = fresh_folder(self)
        for number in range(20):
            ended = run_in(folder, DELETE_A if number % 3 else PUT_A)
            self.assertEqual(ended, Ended(0, done(number), b""))
        entries = read_entries(log_of(folder))
        self.assertEqual(entries, [(b"a", None if number % 3 else b"1") for number in range(20)])

    def test_a_log_only_grows(self) -> None:
        folder = fresh_folder(self)
        before = b""
        for _ in range(5):
            run_in(folder, PUT_A + SYNC + PUT_A)
            after = log_of(folder)
            # The last byte is the gate of the next frame, and opens.
            self.assertTrue(after.startswith(before[:-1]))
            self.assertGreater(len(after), len(before))
            before = after

    def test_a_delete_is_there_again(self) -> None:
        folder = fresh_folder(self)
        run_in(folder, PUT_A + SYNC)
        self.assertEqual(run_in(folder, DELETE_A), Ended(0, DONE_1, b""))
        absent = bytes.fromhex("00000009 83 0000000000000002")
        self.assertEqual(run_in(folder, GET_A), Ended(0, absent, b""))

    def test_bytes_after_a_closed_gate_are_none(self) -> None:
        # A frame that was not finished: its gate is still closed.
        begun = bytes.fromhex("00000021 01 0000000000000001 00000001")
        for rest in (b"\0", b"\xff" * 100, begun):
            with self.subTest(rest=rest):
                folder = fresh_folder(self)
                make_log(folder, LOG_OF_PUT_A + rest)
                self.assertEqual(run_in(folder, GET_A + PUT_A + SYNC).status, 0)
                self.assertEqual(read_entries(log_of(folder)), [(b"a", b"1")] * 2)
                wanted = bytes.fromhex("0000000e 82 0000000000000002 00000001 31")
                self.assertEqual(run_in(folder, GET_A), Ended(0, wanted, b""))

    def test_a_file_without_a_whole_frame_is_an_empty_log(self) -> None:
        header = bytes.fromhex(HEADER)
        for content in (b"", b"\0", b"\0" + header, header, header[:9], b"no log"):
            with self.subTest(content=content):
                folder = fresh_folder(self)
                make_log(folder, content)
                self.assertEqual(run_in(folder, GET_A + PUT_A + SYNC).output, ABSENT_0 + DONE_0 + SYNCED_1)
                self.assertEqual(log_of(folder), LOG_OF_PUT_A)

    def test_many_bytes_are_written_before_a_sync(self) -> None:
        folder = fresh_folder(self)
        value = b"v" * 65_535
        put = bytes.fromhex("00010007 01 0001 61 0000ffff") + value
        with start_script(place=folder) as child:
            assert child.stdin is not None and child.stdout is not None
            child.stdin.write(put * 4)
            self.assertEqual(take(child.stdout, 4 * len(DONE_0)), b"".join(map(done, range(4))))
            self.assertEqual(len(log_of(folder)), 22 + 1)  # A frame has 5 bytes of its own.
            # By now 262,216 bytes are pending, so a fifth update has them written first.
            child.stdin.write(put)
            self.assertEqual(take(child.stdout, len(DONE_0)), done(4))
            self.assertEqual(len(log_of(folder)), 22 + 5 + 13 + 4 * (12 + 65_542) + 1)
            child.communicate(timeout=SECONDS)
        self.assertEqual(read_entries(log_of(folder)), [(b"a", value)] * 5)

    def test_the_longest_key_and_value_are_there_again(self) -> None:
        folder = fresh_folder(self)
        key, value = b"k" * 1_024, b"v" * 65_535
        put = bytes.fromhex("00010406 01 0400") + key + bytes.fromhex("0000ffff") + value
        self.assertEqual(run_in(folder, put), Ended(0, DONE_0, b""))
        answer = bytes.fromhex("0001000c 82 0000000000000001 0000ffff") + value
        get = bytes.fromhex("00000403 03 0400") + key
        self.assertEqual(run_in(folder, get), Ended(0, answer, b""))

    def test_other_files_are_left_alone(self) -> None:
        folder = fresh_folder(self)
        os.mkdir(folder)
        for name in ("notes", "log", "log00"):
            Path(folder, name).write_bytes(b"mine")
        self.assertEqual(run_in(folder, PUT_A + SYNC).status, 0)
        for name in ("notes", "log", "log00"):
            self.assertEqual(Path(folder, name).read_bytes(), b"mine")


class Places(unittest.TestCase):
    """The word that says where the updates are kept."""

    def test_a_place_may_be_named_in_any_way(self) -> None:
        parent = os.path.dirname(fresh_folder(self))
        for place in ("store", "./mem", "two words", "é", "./-x", "store/", os.path.join(parent, "b")):
            with self.subTest(place=place):
                for wanted in (ABSENT_0, VALUE_1_OF_A):
                    run = subprocess.run(
                        [built_path(), "script", place],
                        cwd=parent,
                        input=GET_A + PUT_A * (wanted == ABSENT_0),
                        capture_output=True,
                        timeout=SECONDS,
                    )
                    self.assertEqual((run.returncode, run.stderr), (0, b""))
                    self.assertTrue(run.stdout.startswith(wanted))
                shutil.rmtree(os.path.join(parent, place))

    def test_memory_makes_no_file(self) -> None:
        parent = os.path.dirname(fresh_folder(self))
        run = subprocess.run(
            [built_path(), "script", "mem"],
            cwd=parent,
            input=PUT_A + SYNC,
            capture_output=True,
            timeout=SECONDS,
        )
        self.assertEqual((run.returncode, os.listdir(parent)), (0, []))


class Refusals(unittest.TestCase):
    """Folders that a run cannot use. Nothing is read, answered or written then."""

    def assert_refused(self, folder: str, status: int, notes: bytes) -> None:
        with tempfile.TemporaryFile() as requests:
            requests.write(PUT_A + SYNC)
            requests.seek(0)
            run = subprocess.run(
                [built_path(), "script", folder], stdin=requests, capture_output=True, timeout=SECONDS
            )
            # The place in a file is shared with the program.
            self.assertEqual(os.lseek(requests.fileno(), 0, os.SEEK_CUR), 0)
        self.assertEqual((run.returncode, run.stdout), (status, b""))
        self.assertRegex(run.stderr, notes)

    def assert_damaged(self, content: str, cause: str) -> None:
        """A log with this content is refused for this cause, and stays as it is."""
        folder = fresh_folder(self)
        make_log(folder, bytes.fromhex(content))
        note = b"^remixdb: devices refused: " + cause.encode() + b"\n$"
        self.assert_refused(folder, 3, note)
        self.assertEqual(log_of(folder), bytes.fromhex(content))
        self.assertEqual(os.listdir(folder), [FILE])

    def test_a_torn_header(self) -> None:
        # Whole frames end where an open gate begins one that is not whole.
        self.assert_damaged(HEADER + "a5", "TornHeader strip 0 at 22")
        self.assert_damaged(HEADER + PUT_A_FRAME + "a5 00", "TornHeader strip 0 at 60")
        self.assert_damaged(HEADER + "a5 00000000 00", "TornHeader strip 0 at 22")
        self.assert_damaged(HEADER + PUT_A_FRAME, "TornHeader strip 0 at 22")
        self.assert_damaged(HEADER + "a5 02000001 00", "TornHeader strip 0 at 22")

    def test_a_first_frame_that_is_no_header(self) -> None:
        self.assert_damaged("a5 00000001 07 00", "BadEntry strip 0 frame 0 at 0")
        self.assert_damaged(PUT_A_FRAME + "00", "BadEntry strip 0 frame 0 at 0")
        self.assert_damaged("a5 00000001 00 00", "BadEntry strip 0 frame 0 at 1")
        short = "a5 00000010 00 0000000000000000 00000000000000 00"
        self.assert_damaged(short, "BadEntry strip 0 frame 0 at 9")
        long = "a5 00000012 00 0000000000000000 0000000000000000 00 00"
        self.assert_damaged(long, "BadEntry strip 0 frame 0 at 17")

    def test_a_header_of_another_strip(self) -> None:
        header = "a5 00000011 00 0000000000000001 0000000000000001 00"
        self.assert_damaged(header, "BadEntry strip 0 frame 0 at 1")

    def test_a_broken_entry(self) -> None:
        head = "01 0000000000000000 00000001 00000000 0000000000000000"
        for payload, at in (
            ("02", 0),
            ("01 00000000", 1),
            ("01 0000000000000000 00000000", 9),
            ("01 0000000000000000 00000001", 13),
            (head + "0000 00000000", 25),
            (head + "0401", 25),
            (head + "0002 61", 27),
            (head + "0001 61 00010000", 28),
            (head + "0001 61 00000002 31", 32),
            (head + "0001 61 00000001 31 00", 33),
        ):
            with self.subTest(payload=payload):
                length = len(bytes.fromhex(payload)).to_bytes(4, "big").hex()
                frame = "a5" + length + payload
                cause = f"BadEntry strip 0 frame 22 at {at}"
                self.assert_damaged(HEADER + frame + "00", cause)

    def test_a_gap(self) -> None:
        late = PUT_A_FRAME.replace("01 0000000000000000", "01 0000000000000001", 1)
        self.assert_damaged(HEADER + late + "00", "LogGap want 0 found 1")
        self.assert_damaged(HEADER + PUT_A_FRAME * 2 + "00", "LogGap want 1 found 0")
        late_header = "a5 00000011 00 0000000000000000 0000000000000005 00"
        self.assert_damaged(late_header, "LogGap want 0 found 5")
        other = "a5 00000011 00 0000000000000008 0000000000000009 00"
        self.assert_damaged(other, "LogGap want 0 found 9")

    def test_a_folder_that_cannot_be_made(self) -> None:
        parent = fresh_folder(self)
        self.assert_refused(os.path.join(parent, "store"), 4, b"^remixdb: device [0-9]+ failed\n$")
        self.assertFalse(os.path.exists(parent))

    def test_a_place_that_is_no_folder(self) -> None:
        parent = os.path.dirname(fresh_folder(self))
        Path(parent, "file").write_bytes(b"mine")
        for place in ("file", "file/store"):
            with self.subTest(place=place):
                note = b"^remixdb: device [0-9]+ failed\n$"
                self.assert_refused(os.path.join(parent, place), 4, note)
        self.assertEqual(Path(parent, "file").read_bytes(), b"mine")

    def test_a_log_that_is_no_file(self) -> None:
        folder = fresh_folder(self)
        os.makedirs(os.path.join(folder, FILE))
        self.assert_refused(folder, 4, b"^" + DEVICE_NOTE + b"$")

    def test_a_second_writer(self) -> None:
        folder = fresh_folder(self)
        with start_script(place=folder) as first:
            assert first.stdin is not None and first.stdout is not None
            first.stdin.write(PUT_A)
            self.assertEqual(take(first.stdout, len(DONE_0)), DONE_0)
            before = log_of(folder)
            for _ in range(3):
                self.assert_refused(folder, 4, b"^" + DEVICE_NOTE + b"$")
            self.assertEqual(log_of(folder), before)
            self.assertEqual(first.communicate(SYNC, timeout=SECONDS), (SYNCED_1, b""))
            self.assertEqual(first.returncode, 0)
        self.assertEqual(run_in(folder, GET_A), Ended(0, VALUE_1_OF_A, b""))


class Faults(unittest.TestCase):
    """A log that has no room for a while, since the system lets the program's files grow no more."""

    def start_within(self, folder: str, most: int) -> "subprocess.Popen[bytes]":
        """Starts a session whose files have at most so many bytes."""

        def limit() -> None:
            # Without this the system ends the program.
            signal.signal(signal.SIGXFSZ, signal.SIG_IGN)
            resource.setrlimit(resource.RLIMIT_FSIZE, (most, resource.RLIM_INFINITY))

        return subprocess.Popen(
            [built_path(), "script", folder],
            preexec_fn=limit,
            restore_signals=False,
            bufsize=0,
            stdin=subprocess.PIPE,
            stdout=subprocess.PIPE,
            stderr=subprocess.PIPE,
        )

    def ask(self, child: "subprocess.Popen[bytes]", request: bytes, reply: str) -> None:
        assert child.stdin is not None and child.stdout is not None
        child.stdin.write(request)
        wanted = bytes.fromhex(reply)
        self.assertEqual(take(child.stdout, len(wanted)), wanted)

    def test_a_sync_that_fails_is_told_and_the_next_one_goes_on(self) -> None:
        folder = fresh_folder(self)
        with self.start_within(folder, most=40) as child:
            self.ask(child, PUT_A, DONE_0.hex())
            self.ask(child, SYNC, "00000002 e4 00")
            self.ask(child, SYNC, "00000002 e4 00")
            self.ask(child, GET_A, VALUE_1_OF_A.hex())
            room = (resource.RLIM_INFINITY, resource.RLIM_INFINITY)
            resource.prlimit(child.pid, resource.RLIMIT_FSIZE, room)
            self.ask(child, SYNC, SYNCED_1.hex())
            self.ask(child, PUT_A, DONE_1.hex())
            self.ask(child, QUIT, BYE.hex())
            self.assertEqual(child.communicate(timeout=SECONDS), (b"", DEVICE_NOTE))
            self.assertEqual(child.returncode, 4)
        self.assertEqual(read_entries(log_of(folder)), [(b"a", b"1")] * 2)

    def test_an_end_that_cannot_write_keeps_what_was_synced(self) -> None:
        folder = fresh_folder(self)
        with self.start_within(folder, most=len(LOG_OF_PUT_A)) as child:
            self.ask(child, PUT_A, DONE_0.hex())
            self.ask(child, SYNC, SYNCED_1.hex())
            self.ask(child, DELETE_A, DONE_1.hex())
            self.assertEqual(child.communicate(timeout=SECONDS), (b"", DEVICE_NOTE))
            self.assertEqual(child.returncode, 4)
        self.assertEqual(run_in(folder, GET_A), Ended(0, VALUE_1_OF_A, b""))

    def test_a_log_that_cannot_be_begun_is_a_fault(self) -> None:
        folder = fresh_folder(self)
        with self.start_within(folder, most=10) as child:
            self.assertEqual(child.communicate(PUT_A, timeout=SECONDS), (b"", DEVICE_NOTE))
            self.assertEqual(child.returncode, 4)
        self.assertEqual(run_in(folder, GET_A), Ended(0, ABSENT_0, b""))


class Memory(unittest.TestCase):
    """Less and less memory, in steps of 50 KiB."""

    def test_what_was_synced_is_there_whenever_memory_ran_out(self) -> None:
        statuses = set()
        for limit in MEMORY_LIMITS:
            with self.subTest(limit=limit):
                folder = fresh_folder(self)
                ended = run_within(limit, PUT_A + SYNC + QUIT, "script", folder)
                if ended.status == NOT_LOADED:
                    continue
                statuses.add(ended.status)
                self.assertIn((ended.status, ended.notes), [(0, b""), (6, MEMORY_NOTE)])
                kept = Ended(0, VALUE_1_OF_A, b"")
                allowed = [kept] if SYNCED_1 in ended.output else [kept, Ended(0, ABSENT_0, b"")]
                self.assertIn(run_in(folder, GET_A), allowed)
        self.assertEqual(statuses, {0, 6})


def can_trace() -> bool:
    """Whether the calls of a program can be counted here."""
    words = ["strace", "-o", os.devnull, "true"]
    return shutil.which("strace") is not None and subprocess.run(words, capture_output=True).returncode == 0


@unittest.skipUnless(can_trace(), "the calls of a program are counted by strace, which does not run here")
class Calls(unittest.TestCase):
    """How often a run writes and syncs."""

    WRITES = ("write", "pwrite64", "writev", "pwritev", "ftruncate")
    SYNCS = ("fsync", "fdatasync")

    def count(self, sent: bytes) -> Tuple[int, int]:
        """The writes and the syncs of a session over a folder that has one update."""
        folder = fresh_folder(self)
        make_log(folder, LOG_OF_PUT_A)
        told = os.path.join(os.path.dirname(folder), "calls")
        with open(os.path.join(os.path.dirname(folder), "requests"), "w+b") as requests:
            requests.write(sent)
            requests.seek(0)
            calls = ",".join(self.WRITES + self.SYNCS)
            words = ["strace", "-f", "-qq", "-o", told, "-e", f"trace={calls}", "-P", f"{folder}/{FILE}"]
            run = subprocess.run(
                [*words, built_path(), "script", folder], stdin=requests, capture_output=True, timeout=SECONDS
            )
        self.assertEqual((run.returncode, run.stderr), (0, b""))
        names = [line.split("(")[0].split()[-1] for line in Path(told).read_text().splitlines()]
        return (
            sum(name in self.WRITES for name in names),
            sum(name in self.SYNCS for name in names),
        )

    def test_a_sync_makes_two_writes_and_two_syncs(self) -> None:
        writes, syncs = self.count(QUIT)
        self.assertEqual(writes, 0)
        self.assertEqual(self.count((PUT_A + SYNC) * 10), (20, syncs + 20))
        self.assertEqual(self.count(PUT_A * 10 + SYNC), (2, syncs + 2))

    def test_a_sync_with_nothing_to_write_makes_none(self) -> None:
        _, syncs = self.count(QUIT)
        self.assertEqual(self.count(SYNC * 10), (0, syncs))
        self.assertEqual(self.count(PUT_A + SYNC * 10), (2, syncs + 2))
