"""A log of so many entries of 139 bytes is opened, and one of its keys is asked for."""

from hashlib import blake2b

from .load import ONE_SYNC, Aim, Load
from .writer import KEY_BYTES, Writer

VALUE_BYTES = 105
"""An entry has 12 bytes before its pair, and the pair 6 beside its key and its value."""


def key_of(number: int) -> bytes:
    """Another key for each number, in no order."""
    return blake2b(number.to_bytes(8, "big"), digest_size=KEY_BYTES).digest()


def value_of(number: int) -> bytes:
    return (key_of(number) * VALUE_BYTES)[:VALUE_BYTES]


def fill(writer: Writer, count: int) -> None:
    for number in range(count):
        writer.put(key_of(number), value_of(number))


def write(writer: Writer, count: int) -> None:
    asked = count // 2
    writer.go_on(count, {key_of(asked): value_of(asked)})
    writer.get(key_of(asked))
    writer.quit()


LOAD = Load(
    "entries of a log, opened", 1_000_000, write, (Aim(1.5, 2.0, ONE_SYNC),), is_on_files=True, fill=fill
)
