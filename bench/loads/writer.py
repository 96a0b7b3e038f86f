"""Writes requests, and beside each the reply that it must get.

The replies are worked out here, from a plain dictionary, and by neither of the programs that are
measured.
"""

from __future__ import annotations

import random
from typing import BinaryIO, Dict

SEED = 20_261_130
KEY_BYTES = 16
VALUE_BYTES = 100


class Writer:
    """Writes requests, and beside each its reply."""

    def __init__(self, requests: BinaryIO, replies: BinaryIO) -> None:
        self._requests = requests
        self._replies = replies
        self._rows: Dict[bytes, bytes] = {}
        self._updates = 0

    def go_on(self, updates: int, rows: Dict[bytes, bytes]) -> None:
        """Begins after so many updates, which left these rows, and maybe others."""
        self._updates = updates
        self._rows = rows

    def put(self, key: bytes, value: bytes) -> None:
        self._rows[key] = value
        self._requests.write(frame(b"\x01" + field(key) + len(value).to_bytes(4, "big") + value))
        self._done()

    def delete(self, key: bytes) -> None:
        self._rows.pop(key, None)
        self._requests.write(frame(b"\x02" + field(key)))
        self._done()

    def get(self, key: bytes) -> None:
        """Asks for a key that is there."""
        value = self._rows[key]
        front = self._updates.to_bytes(8, "big")
        self._requests.write(frame(b"\x03" + field(key)))
        self._replies.write(frame(b"\x82" + front + len(value).to_bytes(4, "big") + value))

    def sync(self) -> None:
        self._requests.write(frame(b"\x04"))
        self._replies.write(frame(b"\x84" + self._updates.to_bytes(8, "big")))

    def quit(self) -> None:
        self._requests.write(frame(b"\x09"))
        self._replies.write(frame(b"\x89"))

    def _done(self) -> None:
        self._replies.write(frame(b"\x81" + self._updates.to_bytes(8, "big")))
        self._updates += 1


def field(key: bytes) -> bytes:
    return len(key).to_bytes(2, "big") + key


def frame(body: bytes) -> bytes:
    return len(body).to_bytes(4, "big") + body


def some_bytes(source: random.Random, count: int) -> bytes:
    return source.getrandbits(8 * count).to_bytes(count, "big")
