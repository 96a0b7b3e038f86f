"""Random keys are asked for, over as many rows as there are requests."""

import random

from .load import Aim, Load
from .new_keys import VALUE, key_of, put_new
from .writer import SEED, Writer


def before(writer: Writer, count: int) -> None:
    put_new(writer, 0, count)


def write(writer: Writer, count: int) -> None:
    source = random.Random(SEED)
    for _ in range(count):
        key = key_of(source.randrange(count))
        writer.go_on(count, {key: VALUE})
        writer.get(key)


LOAD = Load("gets over as many rows", 1_000_000, write, (Aim(time=1.5, memory=None),), before=before)
