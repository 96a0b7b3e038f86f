"""The command line, over pipes and at a terminal."""

from __future__ import annotations

import os
import pty
import select
import signal
import subprocess
import sys
import tempfile
import time
import unittest
from pathlib import Path
from typing import Dict, Tuple

from remixdb.connection import PROGRAM_VARIABLE

from .support import SECONDS, fresh_folder

CLIENT = str(Path(__file__).resolve().parents[1] / "remixdb-client")


def run_client(lines: str, *options: str, **environment: str) -> Tuple[int, str, str]:
    """Runs the client on lines that are there at once."""
    run = subprocess.run(
        [sys.executable, CLIENT, *options],
        input=lines.encode("utf-8", "surrogateescape"),
        stdout=subprocess.PIPE,
        stderr=subprocess.PIPE,
        env={**os.environ, **environment},
        timeout=SECONDS,
    )
    return run.returncode, run.stdout.decode(), run.stderr.decode()


class Piped(unittest.TestCase):
    def test_each_line_is_answered(self) -> None:
        lines = 'put a 1\nget a\n\nput "two words" "a\\x00\\n"\r\nget "two words"\nget b\nquit\n'
        replies = 'done 0\nvalue 1 "1"\ndone 1\nvalue 2 "a\\x00\\n"\nabsent 2\nbye\n'
        self.assertEqual(run_client(lines), (0, replies, ""))

    def test_nothing_after_a_quit_is_read(self) -> None:
        self.assertEqual(run_client("quit\nfrob\n"), (0, "bye\n", ""))

    def test_the_last_line_needs_no_end(self) -> None:
        self.assertEqual(run_client("put a 1"), (0, "done 0\n", ""))

    def test_no_line_is_no_fault(self) -> None:
        self.assertEqual(run_client(""), (0, "", ""))

    def test_any_bytes_and_any_locale(self) -> None:
        lines = b"put k \xff\xc3\xa9\nget k\n".decode("utf-8", "surrogateescape")
        for locale in ("C", "C.UTF-8"):
            status, replies, notes = run_client(lines, LC_ALL=locale, PYTHONUTF8="0")
            self.assertEqual((status, replies, notes), (0, 'done 0\nvalue 1 "\\xffé"\n', ""))

    def test_a_bad_line_ends_a_piped_session(self) -> None:
        status, replies, notes = run_client("put a 1\nput a\nget a\n")
        self.assertEqual((status, replies), (2, "done 0\n"))
        wanted = "line 2: put KEY VALUE is wanted, and put has 1 word after it"
        self.assertEqual(notes, f"remixdb-client: {wanted}\n")

    def test_frames_are_shown_apart_from_replies(self) -> None:
        status, replies, notes = run_client("put a 1\n", "--hex")
        self.assertEqual((status, replies), (0, "done 0\n"))
        self.assertEqual(
            notes, "> 00000009 01 0001 61 00000001 31\n< 00000009 81 0000000000000000\n"
        )

    def test_deletes_and_syncs_are_answered(self) -> None:
        lines = "put a 1\nsync\ndelete a\nget a\nsync\n"
        replies = "done 0\nsynced 1\ndone 1\nabsent 2\nsynced 2\n"
        self.assertEqual(run_client(lines), (0, replies, ""))

    def test_a_folder_keeps_updates_over_sessions(self) -> None:
        folder = fresh_folder(self)
        replies = "done 0\nsynced 1\nbye\n"
        self.assertEqual(run_client("put a 1\nsync\nquit\n", "--dir", folder), (0, replies, ""))
        replies = 'value 1 "1"\ndone 1\n'
        self.assertEqual(run_client("get a\ndelete a\n", f"--dir={folder}"), (0, replies, ""))
        self.assertEqual(run_client("get a\n", "--dir", folder), (0, "absent 2\n", ""))

    def test_a_folder_that_cannot_be_made_is_told(self) -> None:
        folder = os.path.join(fresh_folder(self), "store")
        status, replies, notes = run_client("get a\n", "--dir", folder)
        self.assertEqual((status, replies), (1, ""))
        self.assertRegex(notes, "remixdb: device [0-9]+ failed\n")
        self.assertIn("the program ended with status 4", notes)

    def test_a_folder_without_a_name_is_refused(self) -> None:
        status, replies, notes = run_client("get a\n", "--dir", "")
        self.assertEqual((status, replies), (2, ""))
        self.assertIn("a folder's name is wanted, and this word is empty", notes)

    def test_help_is_given(self) -> None:
        status, told, notes = run_client("", "--help")
        self.assertEqual((status, notes), (0, ""))
        self.assertIn("put KEY VALUE", told)
        self.assertIn("--dir FOLDER", told)
        self.assertIn("put KEY VALUE", run_client("help\n")[1])

    def test_other_options_are_refused(self) -> None:
        self.assertEqual(run_client("", "--frob")[0], 2)

    def test_a_line_is_answered_before_the_next_is_there(self) -> None:
        client = subprocess.Popen(
            [sys.executable, CLIENT], stdin=subprocess.PIPE, stdout=subprocess.PIPE
        )
        assert client.stdin is not None and client.stdout is not None
        client.stdin.write(b"put a 1\n")
        client.stdin.flush()
        self.assertEqual(client.stdout.readline(), b"done 0\n")
        client.communicate(timeout=SECONDS)
        self.assertEqual(client.returncode, 0)


class Trouble(unittest.TestCase):
    def fake_program(self, script: str) -> Dict[str, str]:
        """An environment in which a shell script stands for the program."""
        folder = tempfile.TemporaryDirectory()
        self.addCleanup(folder.cleanup)
        path = os.path.join(folder.name, "program")
        with open(path, "w", encoding="utf-8") as file:
            file.write("#!/bin/sh\n" + script)
        os.chmod(path, 0o755)
        return {PROGRAM_VARIABLE: path}

    def test_a_program_that_is_not_there(self) -> None:
        status, replies, notes = run_client("get a\n", **{PROGRAM_VARIABLE: "/nowhere"})
        self.assertEqual((status, replies), (1, ""))
        wanted = "cannot start /nowhere: No such file or directory"
        self.assertEqual(notes, f"remixdb-client: {wanted}\n")

    def test_a_program_that_ends_early(self) -> None:
        status, replies, notes = run_client("get a\n", **self.fake_program("exit 6\n"))
        self.assertEqual((status, replies), (1, ""))
        self.assertIn("the program ended with status 6", notes)

    def test_what_is_no_reply_ends_it(self) -> None:
        fake = self.fake_program("echo HTTP/1.1 200 OK; cat >/dev/null\n")
        status, replies, notes = run_client("get a\n", **fake)
        self.assertEqual((status, replies), (1, ""))
        self.assertEqual(notes, "remixdb-client: no reply has a body of 1213486160 bytes\n")

    def test_a_program_that_ends_badly_is_told(self) -> None:
        fake = self.fake_program("cat >/dev/null; exit 4\n")
        told = "remixdb-client: the program ended with status 4\n"
        self.assertEqual(run_client("", **fake), (1, "", told))

    def test_a_refusal_is_a_reply_and_a_status(self) -> None:
        refusal, bye = r"\000\000\000\001\345", r"\000\000\000\001\211"
        fake = self.fake_program(f"printf '{refusal}{bye}'; cat >/dev/null\n")
        wanted = (1, "refused: out of memory\nbye\n", "")
        self.assertEqual(run_client("get a\nquit\n", **fake), wanted)

    def test_an_interrupt_ends_a_wait_for_a_reply(self) -> None:
        client = subprocess.Popen(
            [sys.executable, CLIENT],
            stdin=subprocess.PIPE,
            stdout=subprocess.PIPE,
            stderr=subprocess.PIPE,
            env={**os.environ, **self.fake_program("echo ready >&2; sleep 60\n")},
        )
        assert client.stdin is not None and client.stderr is not None
        client.stdin.write(b"get a\n")
        client.stdin.flush()
        self.assertEqual(client.stderr.readline(), b"ready\n")
        time.sleep(0.2)
        client.send_signal(signal.SIGINT)
        self.assertEqual(client.communicate(timeout=SECONDS), (b"", b""))
        self.assertEqual(client.returncode, -signal.SIGINT)

    def test_output_that_nobody_reads_ends_it_quietly(self) -> None:
        client = subprocess.Popen(
            [sys.executable, CLIENT],
            stdin=subprocess.PIPE,
            stdout=subprocess.PIPE,
            stderr=subprocess.PIPE,
        )
        assert client.stdout is not None
        client.stdout.close()
        _, notes = client.communicate(b"get a\nget a\n", timeout=SECONDS)
        self.assertEqual((client.returncode, notes), (-signal.SIGPIPE, b""))

    @unittest.skipUnless(os.path.exists("/dev/full"), "no device here is always full")
    def test_output_that_has_no_room_is_told(self) -> None:
        for options in ([], ["--help"]):
            for unbuffered in ("", "1"):
                with self.subTest(options=options), open("/dev/full", "wb") as full:
                    run = subprocess.run(
                        [sys.executable, CLIENT, *options],
                        input=b"get a\n",
                        stdout=full,
                        stderr=subprocess.PIPE,
                        env={**os.environ, "PYTHONUNBUFFERED": unbuffered},
                        timeout=SECONDS,
                    )
                told = b"remixdb-client: cannot go on: No space left on device\n"
                self.assertEqual((run.returncode, run.stderr), (1, told))


class Terminal:
    """A client at a terminal that the test types on."""

    def __init__(self) -> None:
        self.seen = ""
        self._place = 0
        self._pid, self._terminal = pty.fork()
        if self._pid == 0:
            os.environ["TERM"] = "dumb"
            os.execv(sys.executable, [sys.executable, CLIENT])

    def type(self, text: str) -> None:
        os.write(self._terminal, text.encode())

    def comes(self, text: str, seconds: float) -> bool:
        """Reads until the text has come, after what has come before, and tells whether it did."""
        end = time.monotonic() + seconds
        while text not in self.seen[self._place :]:
            left = max(0, end - time.monotonic())
            if not select.select([self._terminal], [], [], left)[0]:
                return False
            self.seen += os.read(self._terminal, 4_096).decode()
        self._place = self.seen.index(text, self._place) + len(text)
        return True

    def wait_for(self, text: str) -> None:
        """Reads until the text has come."""
        if not self.comes(text, SECONDS):
            raise AssertionError(f"{text!r} did not come: {self.seen!r}")

    def interrupt(self) -> None:
        """Types Ctrl-C until there is a new prompt.

        Python notices an interrupt late if it comes just before it begins to wait for a key.
        """
        for _ in range(SECONDS):
            self.type("\x03")
            if self.comes("remixdb> ", seconds=1):
                return
        raise AssertionError(f"the interrupt did nothing: {self.seen!r}")

    def wait(self) -> int:
        """The exit status, once what is left has been read."""
        try:
            while os.read(self._terminal, 4_096):
                pass
        except OSError:
            pass
        os.close(self._terminal)
        _, status = os.waitpid(self._pid, 0)
        return os.WEXITSTATUS(status) if os.WIFEXITED(status) else -os.WTERMSIG(status)


class Typed(unittest.TestCase):
    def test_a_bad_line_does_not_end_it(self) -> None:
        terminal = Terminal()
        terminal.wait_for("remixdb> ")
        terminal.type("put a 1\n")
        terminal.wait_for("done 0")
        terminal.type("frob\n")
        terminal.wait_for('there is no request "frob"')
        terminal.type("get a\n")
        terminal.wait_for('value 1 "1"')
        terminal.type("quit\n")
        terminal.wait_for("bye")
        self.assertEqual(terminal.wait(), 0)

    def test_an_interrupt_drops_the_line_that_was_begun(self) -> None:
        terminal = Terminal()
        terminal.wait_for("remixdb> ")
        terminal.type("put a 1\n")
        terminal.wait_for("done 0")
        terminal.wait_for("remixdb> ")
        terminal.type("frob")
        terminal.wait_for("frob")
        terminal.interrupt()
        terminal.type("get a\n")
        terminal.wait_for('value 1 "1"')
        terminal.wait_for("remixdb> ")
        terminal.type("\x04")
        self.assertEqual(terminal.wait(), 0)
        self.assertNotIn("there is no request", terminal.seen)
