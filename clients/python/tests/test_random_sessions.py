"""Random sessions, some of them broken, beside a model that shares no code with the store."""

from __future__ import annotations

import random
import threading
import unittest
from typing import IO, Iterator, List

from .model import Session, message, session_over
from .support import (
    BAD_MESSAGE_NOTE,
    SECONDS,
    Ended,
    fresh_folder,
    run_program,
    run_script,
    start_script,
)

SESSIONS = 300
FOLDERS = 40
SESSIONS_OF_A_FOLDER = 8
KEY_LENGTHS = (1, 1, 2, 3, 7, 8, 9, 16, 17, 1_024)
VALUE_LENGTHS = (0, 1, 5, 200, 3_000, 65_535)
PIECES = (1, 3, 7, 100, 5_000, 70_000)


def some_bytes(source: random.Random, count: int) -> bytes:
    return bytes(source.getrandbits(8) for _ in range(count))


def some_key(source: random.Random) -> bytes:
    """A key of few different bytes, so that keys begin alike and one is the front of another."""
    return bytes(source.choices(b"\x00\x7f\x80\xff", k=source.choice(KEY_LENGTHS)))


def some_message(source: random.Random, keys: List[bytes]) -> bytes:
    key = source.choice(keys)
    field = len(key).to_bytes(2, "big") + key
    chance = source.random()
    if chance < 0.40:
        value = some_bytes(source, 1) * source.choice(VALUE_LENGTHS)
        return message(b"\x01" + field + len(value).to_bytes(4, "big") + value)
    if chance < 0.50:
        return message(b"\x02" + field)
    if chance < 0.91:
        return message(b"\x03" + field)
    if chance < 0.95:
        return message(b"\x04")
    if chance < 0.97:
        return message(b"\x09")
    return message(some_bytes(source, source.randrange(13)))


def maybe_broken(source: random.Random, whole: bytes) -> bytes:
    """Mostly the message itself; else with one bit turned, or without its end."""
    chance = source.random()
    place = source.randrange(len(whole))
    if chance < 0.02:
        turned = whole[place] ^ 1 << source.randrange(8)
        return whole[:place] + bytes([turned]) + whole[place + 1 :]
    if chance < 0.03:
        return whole[:place]
    return whole


def some_session(source: random.Random) -> bytes:
    keys = [some_key(source) for _ in range(source.randint(1, 6))]
    count = source.randint(0, 30)
    sent = b"".join(maybe_broken(source, some_message(source, keys)) for _ in range(count))
    ends = source.choice((b"", message(b"\x09"), message(b"\x09") + b"\x00", b"\x00\x00"))
    return sent + ends


def cut(source: random.Random, whole: bytes) -> Iterator[bytes]:
    at = 0
    while at < len(whole):
        count = source.choice(PIECES)
        yield whole[at : at + count]
        at += count


def feed(pieces: Iterator[bytes], into: IO[bytes]) -> None:
    """Writes the pieces one by one, as long as there is a reader."""
    try:
        for piece in pieces:
            into.write(piece)
        into.close()
    except BrokenPipeError:
        pass


def run_in_pieces(source: random.Random, sent: bytes) -> Ended:
    with start_script() as program:
        assert program.stdin is not None
        feeder = threading.Thread(target=feed, args=(cut(source, sent), program.stdin))
        feeder.start()
        assert program.stdout is not None and program.stderr is not None
        output, notes = program.stdout.read(), program.stderr.read()
        status = program.wait(SECONDS)
        feeder.join(SECONDS)
    return Ended(status, output, notes)


def ended_as(status: int, output: bytes) -> Ended:
    return Ended(status, output, BAD_MESSAGE_NOTE if status else b"")


class RandomSessions(unittest.TestCase):
    """Each seed is a session, or a folder, of its own, so that a failure can be run again."""

    def test_they_are_answered_as_the_model_says(self) -> None:
        statuses = set()
        for seed in range(SESSIONS):
            with self.subTest(seed=seed):
                source = random.Random(seed)
                sent = some_session(source)
                wanted = ended_as(*session_over(sent))
                self.assertEqual(run_script(sent), wanted)
                self.assertEqual(run_in_pieces(source, sent), wanted)
                statuses.add(wanted.status)
        self.assertEqual(statuses, {0, 1})

    def test_those_over_one_folder_go_on_where_the_one_before_ended(self) -> None:
        for seed in range(FOLDERS):
            with self.subTest(seed=seed):
                source = random.Random(seed)
                folder, model = fresh_folder(self), Session()
                for _ in range(SESSIONS_OF_A_FOLDER):
                    sent = some_session(source)
                    wanted = ended_as(*session_over(sent, model))
                    self.assertEqual(run_program(sent, "script", folder), wanted)
