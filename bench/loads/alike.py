"""Each request puts a key of the greatest length, in random order. All begin with the same thousand bytes."""

import random

from .load import LOGGING, Aim, Load
from .writer import SEED, VALUE_BYTES, Writer, some_bytes

LONGEST_KEY_BYTES = 1_024
ALIKE = b"k" * 1_000


def write(writer: Writer, count: int) -> None:
    source = random.Random(SEED)
    for _ in range(count):
        own = some_bytes(source, LONGEST_KEY_BYTES - len(ALIKE))
        writer.put(ALIKE + own, some_bytes(source, VALUE_BYTES))


LOAD = Load(
    "puts of keys alike in 1,000 of 1,024 bytes",
    50_000,
    write,
    (Aim(2.5, None), Aim(None, None, LOGGING, more=64)),
)
