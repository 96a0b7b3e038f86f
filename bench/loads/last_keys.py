"""The last million of the puts of new keys. A put of them is to take at most 1.6 times one of the first million."""

from .load import Aim, Load
from .new_keys import put_new
from .writer import Writer

TIMES_BEFORE = 3


def before(writer: Writer, count: int) -> None:
    put_new(writer, 0, TIMES_BEFORE * count)


def write(writer: Writer, count: int) -> None:
    writer.go_on(TIMES_BEFORE * count, {})
    put_new(writer, TIMES_BEFORE * count, count)


LOAD = Load(
    "puts of new random keys, over three times as many rows",
    1_000_000,
    write,
    (Aim(2.0, None),),
    before=before,
)
