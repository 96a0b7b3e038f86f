"""What was measured, as ratios with their spread."""

from __future__ import annotations

import statistics
from typing import Callable, List, NamedTuple, Optional

from loads import PLAIN, Aim, Load

from .programs import REMIXDB
from .runs import Cost, Costs

Figure = Callable[[Cost], Optional[float]]


class Spread(NamedTuple):
    """The median of the rounds, the least and the greatest."""

    median: float
    least: float
    greatest: float

    def __str__(self) -> str:
        return f"{self.median:.2f} ({self.least:.2f} to {self.greatest:.2f})"


class Measured(NamedTuple):
    """A load, what the runs took, and the ratio of instructions where a tool counts them."""

    load: Load
    costs: Costs
    instructions: Optional[float]

    def ratio(self, figure: Figure, other: str) -> Optional[Spread]:
        """RemixDB's figure over another program's, of the same round, where each run has it."""
        pairs = list(zip(map(figure, self.costs[REMIXDB]), map(figure, self.costs[other])))
        known = [ours / theirs for ours, theirs in pairs if ours and theirs]
        if not known or len(known) < len(pairs):
            return None
        return Spread(statistics.median(known), min(known), max(known))

    def middle(self, program: str, figure: Figure) -> Optional[float]:
        """The median of a program's figure, where each run has it."""
        costs = self.costs[program]
        known = [value for value in map(figure, costs) if value is not None]
        return statistics.median(known) if len(known) == len(costs) else None

    def missed(self, aim: Aim) -> List[str]:
        """What an aim is missed in. What is not known or not aimed at is not missed."""
        tests = [("time", seconds, aim.time), ("memory", memory, aim.memory)]
        found = [(name, self.ratio(figure, aim.beside), most) for name, figure, most in tests]
        missed = [name for name, ratio, most in found if ratio and most and ratio.median > most]
        more = self.more_memory(aim.beside)
        return missed + ["memory"] if aim.more and more and more > aim.more else missed

    def more_memory(self, other: str) -> Optional[float]:
        """How many MiB more RemixDB held than another program, by the medians."""
        ours, theirs = self.middle(REMIXDB, memory), self.middle(other, memory)
        return None if ours is None or theirs is None else (ours - theirs) / 1_024

    def misses(self) -> bool:
        return any(self.missed(aim) for aim in self.load.aims)

    def title(self) -> str:
        return f"{self.load.count:,} {self.load.title}"

    def title_of(self, aim: Aim) -> str:
        """The title of the ratios to which an aim is set."""
        return self.title() if aim.beside == PLAIN else f"{self.title()}, beside {aim.beside}"


def seconds(cost: Cost) -> float:
    return cost.seconds


def processor(cost: Cost) -> float:
    return cost.processor


def memory(cost: Cost) -> Optional[float]:
    return cost.memory


def told(ratio: object) -> str:
    return "-" if ratio is None else str(ratio)


def told_aim(measured: Measured, aim: Aim) -> str:
    """An aim, and whether it is met."""
    parts = [("time", aim.time, ""), ("memory", aim.memory, ""), ("memory", aim.more, " MiB more")]
    text = ", ".join(f"{name} {most}{unit}" for name, most, unit in parts if most)
    misses = measured.missed(aim)
    if misses:
        return f"{text}: {' and '.join(misses)} missed"
    is_of_memory = aim.memory is not None or aim.more is not None
    if not is_of_memory or measured.ratio(memory, aim.beside) is not None:
        return f"{text}: met"
    return f"{text}: {'met in time, ' if aim.time else ''}memory not known"


def amount(value: Optional[float], unit: str, factor: float = 1) -> str:
    return "-" if value is None else f"{value / factor:.2f} {unit}"
