"""What a load is."""

from __future__ import annotations

from typing import Callable, NamedTuple, Optional, Tuple

from .writer import Writer

PLAIN = "plain"
LOGGING = "plain with a log"
ONE_SYNC = "plain with one sync"
TWO_SYNCS = "plain with two syncs"


class Aim(NamedTuple):
    """What RemixDB may use at most, beside another program: ratios, or more memory by so much."""

    time: Optional[float]
    memory: Optional[float]
    beside: str = PLAIN
    more: Optional[int] = None
    """How many MiB of memory it may use more."""


class Load(NamedTuple):
    """What the programs are asked. One request at a time means that each reply is waited for."""

    title: str
    count: int
    write: Callable[[Writer, int], None]
    aims: Tuple[Aim, ...]
    """The first is to the program whose ratios are told first."""

    is_one_at_a_time: bool = False
    is_on_files: bool = False
    """Whether the programs keep their updates in files. Each run begins with an empty folder."""

    fill: Optional[Callable[[Writer, int], None]] = None
    """Requests that each program is asked once, before its runs, so that each opens what they left."""

    before: Optional[Callable[[Writer, int], None]] = None
    """Requests that each run is asked first. The time begins once they are answered."""
