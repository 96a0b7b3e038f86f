"""What several tests need: messages in hexadecimal, and runs of the program with a limit of time."""

from __future__ import annotations

import os
import resource
import subprocess
import tempfile
import unittest
from pathlib import Path
from typing import IO, NamedTuple, Union

from remixdb.connection import PROGRAM_VARIABLE, program_path

SECONDS = 30
"""How long a run may take. A program that waits for what never comes fails its test by this."""

SCRIPT = ("script", "mem")

MEMORY_LIMITS = range(1_000 * 1_024, 6_000 * 1_024, 50 * 1_024)
"""From too little to load the program to more than enough for a session."""

NOT_LOADED = 127
"""The status of a program that the system has no memory to load."""

BAD_MESSAGE_NOTE = b"remixdb: session ended by a bad message\n"
WORDS_NOTE = b"remixdb: words are not in the stated form\n"
STREAM_NOTE = b"remixdb: stream failed\n"
MEMORY_NOTE = b"remixdb: out of memory\n"

PUT_A = bytes.fromhex("00000009 01 0001 61 00000001 31")
DELETE_A = bytes.fromhex("00000004 02 0001 61")
GET_A = bytes.fromhex("00000004 03 0001 61")
SYNC = bytes.fromhex("00000001 04")
QUIT = bytes.fromhex("00000001 09")
DONE_0 = bytes.fromhex("00000009 81 0000000000000000")
DONE_1 = bytes.fromhex("00000009 81 0000000000000001")
VALUE_1_OF_A = bytes.fromhex("0000000e 82 0000000000000001 00000001 31")
ABSENT_0 = bytes.fromhex("00000009 83 0000000000000000")
ABSENT_1 = bytes.fromhex("00000009 83 0000000000000001")
SYNCED_0 = bytes.fromhex("00000009 84 0000000000000000")
SYNCED_1 = bytes.fromhex("00000009 84 0000000000000001")
BYE = bytes.fromhex("00000001 89")


def built_path() -> str:
    """The program itself, without the script that builds it."""
    named = os.environ.get(PROGRAM_VARIABLE)
    return named or str(Path(program_path()).resolve().parent / "out" / "remixdb")


class Ended(NamedTuple):
    """What a run left."""

    status: int
    output: bytes
    notes: bytes


def run_program(sent: bytes, *words: Union[str, bytes]) -> Ended:
    """Runs the program on an input that is there at once."""
    run = subprocess.run(
        [program_path(), *words],
        input=sent,
        stdout=subprocess.PIPE,
        stderr=subprocess.PIPE,
        timeout=SECONDS,
    )
    return Ended(run.returncode, run.stdout, run.stderr)


def run_script(sent: bytes) -> Ended:
    """Runs a session on an input that is there at once."""
    return run_program(sent, *SCRIPT)


def run_within(limit: int, sent: bytes, *words: str) -> Ended:
    """Runs the program with at most so many bytes of memory."""
    run = subprocess.run(
        [built_path(), *words],
        preexec_fn=lambda: resource.setrlimit(resource.RLIMIT_AS, (limit, limit)),
        input=sent,
        capture_output=True,
        timeout=SECONDS,
    )
    return Ended(run.returncode, run.stdout, run.stderr)


def start_script(
    output: Union[int, IO[bytes]] = subprocess.PIPE, place: str = "mem"
) -> "subprocess.Popen[bytes]":
    """Starts a session whose input is fed by the test, byte for byte as it is written."""
    return subprocess.Popen(
        [program_path(), "script", place],
        bufsize=0,
        stdin=subprocess.PIPE,
        stdout=output,
        stderr=subprocess.PIPE,
    )


def fresh_folder(test: unittest.TestCase) -> str:
    """The path of a folder that is not there yet. What is made there goes when the test ends."""
    parent = tempfile.TemporaryDirectory(prefix="remixdb-test-")
    test.addCleanup(parent.cleanup)
    return os.path.join(parent.name, "store")


def take(stream: IO[bytes], count: int) -> bytes:
    """The next bytes of a stream, so many, or fewer where it ends."""
    came = b""
    while len(came) < count:
        piece = stream.read(count - len(came))
        if not piece:
            break
        came += piece
    return came
