"""Puts of random keys, with a sync after each so many."""

import random

from .load import ONE_SYNC, TWO_SYNCS, Aim, Load
from .writer import KEY_BYTES, SEED, VALUE_BYTES, Writer, some_bytes

PUTS_OF_A_SYNC = 500


def write(writer: Writer, count: int) -> None:
    source = random.Random(SEED)
    for number in range(1, count + 1):
        writer.put(some_bytes(source, KEY_BYTES), some_bytes(source, VALUE_BYTES))
        if number % PUTS_OF_A_SYNC == 0:
            writer.sync()


LOAD = Load(
    "puts, with a sync each 500",
    200_000,
    write,
    (Aim(1.3, 1.7, TWO_SYNCS), Aim(1.5, 1.7, ONE_SYNC)),
    is_on_files=True,
)
