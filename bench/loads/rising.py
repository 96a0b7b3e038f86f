"""Each request puts a key above all before it."""

import random

from .load import Aim, Load
from .writer import KEY_BYTES, SEED, VALUE_BYTES, Writer, some_bytes


def write(writer: Writer, count: int) -> None:
    source = random.Random(SEED)
    for number in range(count):
        writer.put(number.to_bytes(KEY_BYTES, "big"), some_bytes(source, VALUE_BYTES))


LOAD = Load("puts in rising order", 200_000, write, (Aim(time=1.5, memory=2.2),))
