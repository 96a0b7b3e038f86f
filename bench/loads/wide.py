"""Each request puts a value of the greatest length."""

import random

from .load import Aim, Load
from .writer import KEY_BYTES, SEED, Writer, some_bytes

WIDEST_VALUE_BYTES = 65_535


def write(writer: Writer, count: int) -> None:
    source = random.Random(SEED)
    for _ in range(count):
        writer.put(some_bytes(source, KEY_BYTES), some_bytes(source, WIDEST_VALUE_BYTES))


LOAD = Load("puts of 65,535 bytes", 1_000, write, (Aim(time=1.5, memory=3),))
