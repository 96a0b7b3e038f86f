"""Each request deletes a random key that is absent. All that stays is the log."""

import random

from .load import LOGGING, Aim, Load
from .writer import KEY_BYTES, SEED, Writer, some_bytes


def write(writer: Writer, count: int) -> None:
    source = random.Random(SEED)
    for _ in range(count):
        writer.delete(some_bytes(source, KEY_BYTES))


LOAD = Load("deletes of absent keys", 1_000_000, write, (Aim(1.3, None), Aim(None, 1.7, LOGGING)))
