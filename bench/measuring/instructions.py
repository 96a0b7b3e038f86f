"""The instructions of a program on a load, as a tool of the system counts them."""

from __future__ import annotations

import re
import shutil
import subprocess
from pathlib import Path
from typing import Callable, List, NamedTuple, Optional

from loads import Load

from .programs import Failure, Files, Program, write_load
from .runs import fill, run_once

TRACED_SHARE = 50
"""Instructions are counted on one request of so many, since valgrind is slow."""

FUNCTIONS_SHOWN = 15
FUNCTION_LINE = r"\(\s*([\d.]+%)\)\s+\S*?:(\S.*?)(?: \[.*\])?$"
"""A line of callgrind_annotate: a function's share, and its name after its file."""


class Counter(NamedTuple):
    """A tool that counts instructions."""

    command: str
    words: Callable[[Path], List[str]]
    """The words that have it write to a file."""

    count: str
    """The pattern of the count in that file."""


COUNTERS = [
    Counter(
        "perf",
        lambda file: ["stat", "-x", ",", "-e", "instructions:u", "-o", str(file)],
        r"^(\d+),",
    ),
    Counter(
        "valgrind",
        lambda file: ["-q", "--tool=callgrind", f"--callgrind-out-file={file}"],
        r"^(?:totals|summary): (\d+)",
    ),
]


def counted(
    counter: Counter, load: Load, program: Program, files: Files, folder: Path
) -> Optional[int]:
    """The instructions of a run. What the tool wrote stays in the folder."""
    tool = shutil.which(counter.command)
    if tool is None:
        return None
    told = folder / f"{program.name}.{counter.command}"
    try:
        traced = program._replace(command=[tool, *counter.words(told), *program.command])
        run_once(load, traced, files)
        found = re.search(counter.count, told.read_text(), re.MULTILINE)
    except (Failure, OSError):
        return None  # The tool may not count here. That the program runs is known by now.
    return int(found.group(1)) if found else None


def counted_for_requests(
    counter: Counter, load: Load, program: Program, files: Files, folder: Path
) -> Optional[int]:
    """The instructions of a load without those of a start and an end, and of what comes before."""
    nothing = Files(folder / "nothing", folder / "nothing", folder / "replies", before=files.before)
    nothing.requests.touch()
    idle = counted(counter, load._replace(is_one_at_a_time=False), program, nothing, folder)
    fill(program, files)
    busy = counted(counter, load, program, files, folder)
    return None if idle is None or busy is None else busy - idle


def count_instructions(
    name: str, load: Load, programs: List[Program], folder: Path
) -> Optional[float]:
    """The ratio of instructions on a smaller input, by the first tool that counts them here."""
    files = write_load(name, load, max(load.count // TRACED_SHARE, 1), folder)
    for counter in COUNTERS:
        ours, theirs = (
            counted_for_requests(counter, load, program, files, folder) for program in programs[:2]
        )
        if ours and theirs:
            return ours / theirs
    return None


def functions_of(program: Program, folder: Path) -> List[str]:
    """The functions that took most instructions of the last run under valgrind, most first."""
    profile = folder / f"{program.name}.valgrind"
    if not profile.exists() or shutil.which("callgrind_annotate") is None:
        return []
    words = ["callgrind_annotate", "--auto=no", "--threshold=99", str(profile)]
    told = subprocess.run(words, stdout=subprocess.PIPE, stderr=subprocess.DEVNULL, text=True)
    lines = re.findall(FUNCTION_LINE, told.stdout, re.MULTILINE)
    return [f"{share:>8}  {name}" for share, name in lines][:FUNCTIONS_SHOWN]
