"""Each put is followed by a sync, and each reply is waited for."""

import random

from .load import ONE_SYNC, TWO_SYNCS, Aim, Load
from .writer import KEY_BYTES, SEED, VALUE_BYTES, Writer, some_bytes


def write(writer: Writer, count: int) -> None:
    source = random.Random(SEED)
    for _ in range(count):
        writer.put(some_bytes(source, KEY_BYTES), some_bytes(source, VALUE_BYTES))
        writer.sync()


LOAD = Load(
    "puts, each with a sync, one at a time",
    5_000,
    write,
    (Aim(1.15, None, TWO_SYNCS), Aim(2.1, None, ONE_SYNC)),
    is_one_at_a_time=True,
    is_on_files=True,
)
