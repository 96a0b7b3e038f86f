"""The first million of the puts of new keys, in the way of the last one, so that both can be compared."""

from .load import Aim, Load
from .new_keys import put_new
from .writer import Writer


def before(writer: Writer, count: int) -> None:
    """Nothing comes before."""


def write(writer: Writer, count: int) -> None:
    put_new(writer, 0, count)


LOAD = Load("puts of new random keys, over no rows", 1_000_000, write, (Aim(2.0, None),), before=before)
