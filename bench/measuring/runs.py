"""Runs of a program on a load, and what they took."""

from __future__ import annotations

import filecmp
import os
import resource
import shutil
import subprocess
import threading
import time
from pathlib import Path
from typing import IO, Callable, Dict, List, NamedTuple, Optional

from loads import Load

from .programs import Failure, Files, Program


PIECE = 1 << 20
"""How many bytes are moved at once between a file and a pipe."""


class Cost(NamedTuple):
    """What a run took. Memory, in KiB, is None where the bench itself was larger than the program."""

    seconds: float
    processor: float
    memory: Optional[int]


Costs = Dict[str, List[Cost]]
"""The costs of each program's runs, by its name."""


def memory_of(usage: resource.struct_rusage) -> Optional[int]:
    """A child's peak of memory in KiB. It begins with its parent's, which may hide its own."""
    floor = resource.getrusage(resource.RUSAGE_SELF).ru_maxrss
    return usage.ru_maxrss if usage.ru_maxrss > floor else None


def wait(child: "subprocess.Popen[bytes]", program: Program) -> resource.struct_rusage:
    """Waits for a program that has to end well."""
    _, status, usage = os.wait4(child.pid, 0)
    child.returncode = os.WEXITSTATUS(status) if os.WIFEXITED(status) else -os.WTERMSIG(status)
    if child.returncode:
        raise Failure(f"{program.name} ended with status {child.returncode}")
    return usage


def compare_replies(program: Program, files: Files) -> None:
    """Compares the replies of a run with the wanted ones."""
    if not filecmp.cmp(files.replies, files.wanted, shallow=False):
        raise Failure(f"{program.name} gave other replies than are wanted")


def run_on_files(program: Program, files: Files) -> Cost:
    """Runs a program from a file to a file, and compares its replies with the wanted ones."""
    with open(files.requests, "rb") as requests, open(files.replies, "wb") as replies:
        start = time.perf_counter()
        child = subprocess.Popen(program.command, stdin=requests, stdout=replies)
        usage = wait(child, program)
        seconds = time.perf_counter() - start
    compare_replies(program, files)
    return Cost(seconds, usage.ru_utime + usage.ru_stime, memory_of(usage))


def feed(requests: Path, into: IO[bytes]) -> None:
    """Writes requests, as long as there is a reader."""
    with open(requests, "rb") as source:
        try:
            shutil.copyfileobj(source, into, PIECE)
        except BrokenPipeError:
            pass


def ask_all(child: "subprocess.Popen[bytes]", files: Files) -> None:
    """Sends requests, and takes as many bytes as their replies have."""
    assert child.stdin is not None and child.stdout is not None
    feeder = threading.Thread(target=feed, args=(files.requests, child.stdin))
    feeder.start()
    left = files.wanted.stat().st_size
    with open(files.replies, "wb") as replies:
        while left:
            piece = child.stdout.read(min(left, PIECE))
            if not piece:
                break
            replies.write(piece)
            left -= len(piece)
    feeder.join()


def processor_so_far(child: "subprocess.Popen[bytes]") -> float:
    """The processor time that a child has taken, as Linux tells it."""
    fields = Path(f"/proc/{child.pid}/stat").read_text().rpartition(")")[2].split()
    return (int(fields[11]) + int(fields[12])) / os.sysconf("SC_CLK_TCK")


def run_after(program: Program, files: Files) -> Cost:
    """Runs a program over pipes on what comes before a load and then on the load, and takes the time of the load alone."""
    assert files.before is not None
    with subprocess.Popen(
        program.command, bufsize=0, stdin=subprocess.PIPE, stdout=subprocess.PIPE
    ) as child:
        assert child.stdin is not None
        ask_all(child, files.before)
        processor, start = processor_so_far(child), time.perf_counter()
        ask_all(child, files)
        seconds = time.perf_counter() - start
        child.stdin.close()
        usage = wait(child, program)
    compare_replies(program, files.before)
    compare_replies(program, files)
    return Cost(seconds, usage.ru_utime + usage.ru_stime - processor, memory_of(usage))


def cut_frames(data: bytes) -> List[bytes]:
    """The messages of a file, each with its length in front."""
    frames = []
    place = 0
    while place < len(data):
        end = place + 4 + int.from_bytes(data[place : place + 4], "big")
        frames.append(data[place:end])
        place = end
    return frames


def ask_in_turn(requests: int, replies: int, frames: List[bytes], wanted: List[bytes]) -> bool:
    """Sends each request once the reply before it has come. Tells whether all are as wanted."""
    for frame, want in zip(frames, wanted):
        try:
            os.write(requests, frame)
        except BrokenPipeError:
            return False
        came = os.read(replies, len(want))
        while len(came) < len(want):
            piece = os.read(replies, len(want) - len(came))
            if not piece:
                return False
            came += piece
        if came != want:
            return False
    return True


def run_one_at_a_time(program: Program, files: Files) -> Cost:
    """Runs a program over pipes, one request at a time, and takes the time up to the last reply."""
    frames = cut_frames(files.requests.read_bytes())
    wanted = cut_frames(files.wanted.read_bytes())
    with subprocess.Popen(
        program.command, bufsize=0, stdin=subprocess.PIPE, stdout=subprocess.PIPE
    ) as child:
        assert child.stdin is not None and child.stdout is not None
        start = time.perf_counter()
        is_right = ask_in_turn(child.stdin.fileno(), child.stdout.fileno(), frames, wanted)
        seconds = time.perf_counter() - start
        child.stdin.close()
        usage = wait(child, program)
    if not is_right:
        raise Failure(f"{program.name} gave other replies than are wanted")
    return Cost(seconds, usage.ru_utime + usage.ru_stime, memory_of(usage))


def empty(program: Program) -> None:
    """Leaves a program's folder empty, where it has one."""
    if program.place:
        shutil.rmtree(program.place, ignore_errors=True)
        program.place.mkdir(parents=True)


def run_once(load: Load, program: Program, files: Files) -> Cost:
    """Runs a program on a load, over an empty folder or over what filled it."""
    if files.filling is None:
        empty(program)
    return run_of(load, files)(program, files)


def run_of(load: Load, files: Files) -> Callable[[Program, Files], Cost]:
    """How a load is run."""
    if files.before:
        return run_after
    return run_one_at_a_time if load.is_one_at_a_time else run_on_files


def fill(program: Program, files: Files) -> None:
    """Fills a program's folder, where the load has it filled."""
    if files.filling:
        empty(program)
        run_on_files(program, files.filling)


def run_load(load: Load, programs: List[Program], files: Files, rounds: int) -> Costs:
    """Runs the programs in turn, so many times, and in each second round in reverse."""
    costs: Costs = {program.name: [] for program in programs}
    for program in programs:
        fill(program, files)
    for number in range(rounds):
        for program in programs if number % 2 == 0 else reversed(programs):
            # So no run waits for what another one left to be written. One round alone compares replies.
            if rounds > 1 and program.place:
                os.sync()
            costs[program.name].append(run_once(load, program, files))
    return costs
