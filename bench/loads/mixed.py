"""Half the requests put random keys, and half get keys that are there, in random order."""

import random
from typing import List

from .load import Aim, Load
from .writer import KEY_BYTES, SEED, VALUE_BYTES, Writer, some_bytes


def write(writer: Writer, count: int) -> None:
    source = random.Random(SEED)
    is_get = [True] * (count // 2) + [False] * (count - count // 2 - 1)
    source.shuffle(is_get)
    keys: List[bytes] = []
    for is_next_get in [False] + is_get:
        if is_next_get:
            writer.get(keys[source.randrange(len(keys))])
        else:
            keys.append(some_bytes(source, KEY_BYTES))
            writer.put(keys[-1], some_bytes(source, VALUE_BYTES))


LOAD = Load("random puts and gets", 1_000_000, write, (Aim(time=1.5, memory=2.0),))
