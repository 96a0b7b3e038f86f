"""Each request puts a key that is not there, in random order."""

from hashlib import blake2b

from .load import Aim, Load
from .writer import KEY_BYTES, VALUE_BYTES, Writer

VALUE = bytes(VALUE_BYTES)


def key_of(number: int) -> bytes:
    """Another key for each number, in no order."""
    return blake2b(number.to_bytes(8, "big"), digest_size=KEY_BYTES).digest()


def put_new(writer: Writer, first: int, count: int) -> None:
    """Puts so many keys, from that of a number on."""
    for number in range(first, first + count):
        writer.put(key_of(number), VALUE)


def write(writer: Writer, count: int) -> None:
    put_new(writer, 0, count)


LOAD = Load("puts of new random keys", 4_000_000, write, (Aim(time=2.0, memory=None),))
