"""Each request puts a key of the greatest length, in rising order. Of each 65 that follow each other all begin alike and
differ at the end alone, so each parts a full leaf by an anchor of nearly the greatest length, whose prefixes no other one
has: these use up the nodes of the trie.
"""

import random

from .load import Aim, Load
from .writer import SEED, VALUE_BYTES, Writer, some_bytes

GROUP = 65
ALIKE = b"x" * 1_020


def write(writer: Writer, count: int) -> None:
    source = random.Random(SEED)
    for number in range(count):
        group, member = divmod(number, GROUP)
        key = group.to_bytes(2, "big") + ALIKE + member.to_bytes(2, "big")
        writer.put(key, some_bytes(source, VALUE_BYTES))


LOAD = Load("puts of keys that fill the trie", 50_000, write, (Aim(time=3, memory=None),))
