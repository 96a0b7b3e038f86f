"""Runs that are killed at random moments, and what the next run finds in their folder.

A kill leaves what the program wrote, synced or not, so it does not show that a sync reaches the disk. It shows that
at each moment the folder holds every update that was answered as synced, in order, and no part of another.
"""

from __future__ import annotations

import os
import random
import select
import signal
import subprocess
import threading
import time
import unittest
from pathlib import Path
from typing import Dict, List, NamedTuple, Optional, Tuple

from .log_file import FILE, Entry, read_entries
from .model import message
from .support import (
    ABSENT_0,
    BYE,
    DONE_0,
    GET_A,
    PUT_A,
    QUIT,
    SECONDS,
    SYNC,
    SYNCED_1,
    VALUE_1_OF_A,
    Ended,
    built_path,
    fresh_folder,
    run_program,
)

KILLS = 100
KILLS_OF_NEW_FOLDERS = 50
SEED = 11
KEYS = [b"key %d" % number for number in range(40)]
LOOKS = [message(b"\x03" + len(key).to_bytes(2, "big") + key) for key in KEYS]
LENGTHS = (0, 0, 0, 10, 100, 3_000)
LONG_CHANCE = 0.002
"""Enough long values that at times so much is pending that an update writes it."""

REPLIES_MOST = 10_000
"""A kill comes within so many bytes of replies."""

START_SECONDS = 0.03
"""Or it comes so soon after a start, when the log is being read."""

Asked = Optional[Entry]
"""What a request asks: an update, or a sync where it is None."""


class Known(NamedTuple):
    """What must be in a folder: so many of these updates at least, and all of them at most."""

    updates: List[Entry]
    synced: int

    def rows(self, count: int) -> Dict[bytes, bytes]:
        rows: Dict[bytes, bytes] = {}
        for key, value in self.updates[:count]:
            if value is None:
                rows.pop(key, None)
            else:
                rows[key] = value
        return rows


def spell(asked: Asked) -> bytes:
    if asked is None:
        return SYNC
    key, value = asked
    field = len(key).to_bytes(2, "big") + key
    if value is None:
        return message(b"\x02" + field)
    return message(b"\x01" + field + len(value).to_bytes(4, "big") + value)


def some_request(source: random.Random) -> Asked:
    """A random update or sync. Each value is another one, so that none can be taken for another."""
    chance = source.random()
    if chance < 0.12:
        return None
    key = source.choice(KEYS)
    if chance < 0.35:
        return key, None
    length = 60_000 if source.random() < LONG_CHANCE else source.choice(LENGTHS)
    return key, b"%016x" % source.getrandbits(64) + b"v" * length


def bodies_of(replies: bytes) -> List[bytes]:
    """The bodies of the replies that came whole."""
    bodies = []
    place = 0
    while len(replies) >= place + 4:
        end = place + 4 + int.from_bytes(replies[place : place + 4], "big")
        if len(replies) < end:
            break
        bodies.append(replies[place + 4 : end])
        place = end
    return bodies


class Run:
    """A run over a folder that will be killed."""

    def __init__(self, folder: str) -> None:
        self.asked: List[Asked] = []
        self.child = subprocess.Popen(
            [built_path(), "script", folder], bufsize=0, stdin=subprocess.PIPE, stdout=subprocess.PIPE
        )
        assert self.child.stdin is not None and self.child.stdout is not None
        self._requests, self._replies = self.child.stdin, self.child.stdout
        self._feeder: Optional[threading.Thread] = None

    def send(self, data: bytes) -> None:
        self._requests.write(data)

    def read(self, deadline: float) -> bytes:
        """Some replies, or none where none came by then."""
        left = max(0.0, deadline - time.monotonic())
        if not select.select([self._replies], [], [], left)[0]:
            return b""
        return os.read(self._replies.fileno(), 65_536)

    def feed(self, source: random.Random) -> None:
        """Sends random requests, beside the test, until the program is gone."""

        def go_on() -> None:
            try:
                while True:
                    asked = [some_request(source) for _ in range(source.randrange(1, 30))]
                    self.asked += asked  # From here on they may count.
                    self.send(b"".join(map(spell, asked)))
            except BrokenPipeError:
                pass

        self._feeder = threading.Thread(target=go_on)
        self._feeder.start()

    def kill(self) -> bytes:
        """Kills it, and answers the replies that are left."""
        self.child.kill()
        left = self._replies.read()
        self.child.wait(SECONDS)
        if self._feeder:
            self._feeder.join(SECONDS)
        self._replies.close()
        self._requests.close()
        return left


def read_looks(run: Run, deadline: float) -> Tuple[bytes, bool]:
    """The replies to one look at each key, and whether all came by then."""
    replies = b""
    run.send(b"".join(LOOKS))
    while len(bodies_of(replies)) < len(KEYS):
        piece = run.read(deadline)
        if not piece:
            return replies, False
        replies += piece
    return replies, True


def read_some(run: Run, count: int, deadline: float) -> bytes:
    """At least so many bytes of replies, as far as they came by then."""
    replies = b""
    while len(replies) < count:
        piece = run.read(deadline)
        if not piece:
            break
        replies += piece
    return replies


class Kills(unittest.TestCase):
    def number_found(self, known: Known, looks: List[bytes]) -> int:
        """The number to which the folder reopened. It is one that is allowed, and so is each value."""
        found = int.from_bytes(looks[0][1:9], "big")
        self.assertLessEqual(known.synced, found, "an update that was synced is gone")
        self.assertLessEqual(found, len(known.updates), "there is an update that nobody made")
        rows = known.rows(found)
        front = found.to_bytes(8, "big")
        for key, look in zip(KEYS, looks):
            value = rows.get(key)
            wanted = b"\x83" + front
            if value is not None:
                wanted = b"\x82" + front + len(value).to_bytes(4, "big") + value
            self.assertEqual(look, wanted)
        return found

    def last_synced(self, known: Known, asked: List[Asked], replies: List[bytes]) -> int:
        """The last number that was answered as synced. Each reply that came is the right one."""
        number = synced = known.synced
        for each, reply in zip(asked, replies):
            if each is None:
                self.assertEqual(reply, b"\x84" + number.to_bytes(8, "big"))
                synced = number
            else:
                self.assertEqual(reply, b"\x81" + number.to_bytes(8, "big"))
                number += 1
        return synced

    def run_and_kill(self, folder: str, known: Known, source: random.Random) -> Known:
        """One run that ends by a kill. Answers what the next one has to find."""
        run = Run(folder)
        try:
            soon = source.random() < 0.2
            seconds = source.uniform(0, START_SECONDS) if soon else SECONDS
            looks, are_whole = read_looks(run, time.monotonic() + seconds)
            if not are_whole:
                self.assertTrue(soon, "the program does not answer")
                return known
            found = self.number_found(known, bodies_of(looks))
            # What an opening has read is on the disk.
            known = Known(known.updates[:found], found)
            run.feed(source)
            replies = read_some(run, source.randrange(REPLIES_MOST), time.monotonic() + SECONDS)
            time.sleep(source.uniform(0, 0.002))
        finally:
            left = run.kill()
            self.assertEqual(run.child.returncode, -signal.SIGKILL)
        synced = self.last_synced(known, run.asked, bodies_of(replies + left))
        return Known(known.updates + [each for each in run.asked if each is not None], synced)

    def test_every_update_that_was_synced_outlasts_them(self) -> None:
        folder, source = fresh_folder(self), random.Random(SEED)
        known = Known([], 0)
        for _ in range(KILLS):
            known = self.run_and_kill(folder, known, source)
        ended = run_program(b"".join(LOOKS) + QUIT, "script", folder)
        self.assertEqual((ended.status, ended.notes), (0, b""))
        *looks, bye = bodies_of(ended.output)
        self.assertEqual(bye, BYE[4:])
        found = self.number_found(known, looks)
        self.assertGreater(found, KILLS)
        # The log's file has each of them once, and in order.
        entries = read_entries(Path(folder, FILE).read_bytes())
        self.assertEqual(len(entries), found)
        self.assertTrue(entries == known.updates[:found], "the log's file has other updates")

    def test_a_folder_that_is_being_made_can_be_opened_again(self) -> None:
        source = random.Random(SEED)
        for _ in range(KILLS_OF_NEW_FOLDERS):
            folder = fresh_folder(self)
            run = Run(folder)
            try:
                run.send(PUT_A + SYNC)
                came = run.read(time.monotonic() + source.uniform(0, START_SECONDS))
            finally:
                came += run.kill()
            self.assertTrue((DONE_0 + SYNCED_1).startswith(came))
            ended = run_program(GET_A, "script", folder)
            kept = Ended(0, VALUE_1_OF_A, b"")
            self.assertIn(ended, [kept] if SYNCED_1 in came else [kept, Ended(0, ABSENT_0, b"")])
