"""The programs that are measured, and the files of a load."""

from __future__ import annotations

import os
import shutil
import subprocess
import sys
from pathlib import Path
from typing import List, NamedTuple, Optional

from loads import LOGGING, ONE_SYNC, PLAIN, TWO_SYNCS, Load

BENCH = Path(__file__).resolve().parents[1]
TOP = BENCH.parent
PROGRAM_VARIABLE = "REMIXDB_PROGRAM"

REMIXDB = "remixdb"
BESIDE = "beside"


class Failure(Exception):
    """The bench cannot go on. The text says why."""


class Program(NamedTuple):
    name: str
    command: List[str]
    place: Optional[Path] = None
    """The folder that it keeps files in, where it keeps any."""


class Built(NamedTuple):
    """The paths of what is measured, and of the one beside, where there is one."""

    remixdb: str
    plain: str
    beside: Optional[str] = None


class Files(NamedTuple):
    """A load on disk, and where a program's replies go."""

    requests: Path
    wanted: Path
    replies: Path
    filling: Optional["Files"] = None
    """What is asked before it, once."""

    before: Optional["Files"] = None
    """What is asked before it, in each run."""


def find(command: str) -> str:
    """A command that the bench cannot do without."""
    found = shutil.which(command)
    if found is None:
        raise Failure(f"the bench needs {command}, which is not here")
    return found


def build(folder: Path, beside: Optional[str] = None) -> Built:
    """What is measured, built where it is not."""
    if beside is not None and shutil.which(beside) is None:
        raise Failure(f"there is no program {beside}")
    return Built(remixdb(), plain(folder), beside and str(Path(beside).resolve()))


def remixdb() -> str:
    """RemixDB, built where it is not. What is measured is the program without its script."""
    wrapper = os.environ.get(PROGRAM_VARIABLE) or str(TOP / "remixdb")
    if subprocess.run([wrapper, "script", "mem"], stdin=subprocess.DEVNULL).returncode:
        raise Failure(f"{wrapper} does not run")
    return os.environ.get(PROGRAM_VARIABLE) or str(TOP / "out" / "remixdb")


def plain(folder: Path) -> str:
    """The plain program, built anew."""
    path = str(folder / "plain")
    words = [find("rustc"), "-O", "--edition", "2021", "-o", path, str(BENCH / "plain.rs")]
    if subprocess.run(words).returncode:
        raise Failure("plain.rs does not build")
    return path


def programs_of(load: Load, built: Built, places: Path) -> List[Program]:
    """The programs that a load is given to, RemixDB first. Those with files have a folder each in `places`."""
    return over_files(built, places) if load.is_on_files else over_memory(built)


def over_memory(built: Built) -> List[Program]:
    programs = [
        Program(REMIXDB, [built.remixdb, "script", "mem"]),
        Program(PLAIN, [built.plain]),
        Program(LOGGING, [built.plain, "log"]),
    ]
    if built.beside:
        programs.append(Program(BESIDE, [built.beside, "script", "mem"]))
    return programs


def over_files(built: Built, places: Path) -> List[Program]:
    """The same over files, each in a folder of its own."""
    ours, beside, one, two = (places / name for name in ("remixdb", "beside", "one", "two"))
    programs = [
        Program(REMIXDB, [built.remixdb, "script", str(ours)], ours),
        Program(TWO_SYNCS, [built.plain, "file2", str(two / "log")], two),
        Program(ONE_SYNC, [built.plain, "file", str(one / "log")], one),
    ]
    if built.beside:
        programs.append(Program(BESIDE, [built.beside, "script", str(beside)], beside))
    return programs


def write_load(name: str, load: Load, count: int, folder: Path) -> Files:
    """Has a load written, with what comes before it."""
    filling = write_part(name, count, folder, "fill") if load.fill else None
    before = write_part(name, count, folder, "before") if load.before else None
    return write_part(name, count, folder, "load")._replace(filling=filling, before=before)


def write_part(name: str, count: int, folder: Path, part: str) -> Files:
    """Has a part of a load written, by a process of its own."""
    requests, wanted, replies = (folder / f"{part}-{file}" for file in ("requests", "wanted", "replies"))
    words = [name, str(count), str(requests), str(wanted), part]
    subprocess.run([sys.executable, "-m", "loads", *words], cwd=BENCH, check=True)
    return Files(requests, wanted, replies)
