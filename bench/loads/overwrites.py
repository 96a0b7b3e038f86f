"""Each request puts one of ten thousand keys, in random order. All that grows is the log."""

import random

from .load import LOGGING, Aim, Load
from .writer import KEY_BYTES, SEED, VALUE_BYTES, Writer, some_bytes

KEYS = 10_000


def write(writer: Writer, count: int) -> None:
    source = random.Random(SEED)
    keys = [some_bytes(source, KEY_BYTES) for _ in range(KEYS)]
    for _ in range(count):
        writer.put(source.choice(keys), some_bytes(source, VALUE_BYTES))


LOAD = Load("puts over 10,000 keys", 2_000_000, write, (Aim(1.4, None), Aim(None, 2.0, LOGGING)))
