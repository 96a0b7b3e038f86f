"""Writes a load: the requests as one file, and the replies that they must get as another. With the word fill or before
it writes those that come before the load.

The bench runs this in a process of its own, since a program that it starts counts the memory of
the process that started it as its own peak.
"""

import sys

from . import all_loads
from .writer import Writer


def main(name: str, count: str, requests: str, replies: str, part: str) -> None:
    load = all_loads()[name]
    write = {"fill": load.fill, "before": load.before}.get(part, load.write)
    assert write is not None
    with open(requests, "wb") as asked, open(replies, "wb") as wanted:
        write(Writer(asked, wanted), int(count))


if __name__ == "__main__":
    main(*sys.argv[1:])
