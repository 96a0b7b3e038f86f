"""The figures, on standard output and in documents."""

from __future__ import annotations

import datetime
import os
import platform
import re
import subprocess
from pathlib import Path
from typing import List

from .figures import Measured, amount, memory, processor, seconds, told, told_aim
from loads import Aim

from .programs import BENCH, BESIDE, TOP

FIGURES = BENCH / "figures.md"
README = TOP / "README.md"
WIDTHS = (74, 22, 22, 22, 14, 0)
COLUMNS = ("time", "processor time", "memory", "instructions", "aim at most")


def print_row(cells: List[str]) -> None:
    print("".join(f"{cell:<{width}}" for cell, width in zip(cells, WIDTHS)).rstrip(), flush=True)


def ratios_to(measured: Measured, other: str) -> List[str]:
    return [told(measured.ratio(figure, other)) for figure in (seconds, processor, memory)]


def ratio_cells(measured: Measured, aim: Aim) -> List[str]:
    """The ratios to the program that an aim is set to. Instructions are counted beside the first one."""
    ratios = ratios_to(measured, aim.beside)
    is_counted = measured.instructions is not None and aim is measured.load.aims[0]
    counted = f"{measured.instructions:.2f}" if is_counted else "-"
    return [measured.title_of(aim), *ratios, counted, told_aim(measured, aim)]


def program_cells(measured: Measured, name: str) -> List[str]:
    times = [amount(measured.middle(name, figure), "s") for figure in (seconds, processor)]
    return [*times, amount(measured.middle(name, memory), "MiB", 1_024)]


def report(measured: Measured) -> None:
    """Prints a load's ratios, and below them the medians of each program."""
    for aim in measured.load.aims:
        print_row(ratio_cells(measured, aim))
    for name in measured.costs:
        print_row([f"    {name}", *program_cells(measured, name)])
    if BESIDE in measured.costs:
        print_row(["    ratio to the one beside", *ratios_to(measured, BESIDE)])


def commit() -> str:
    """The commit that is measured, and whether files differ from it."""
    words = ["git", "-C", str(TOP), "describe", "--always", "--dirty=, with changes"]
    try:
        told = subprocess.run(words, stdout=subprocess.PIPE, stderr=subprocess.DEVNULL, text=True)
    except OSError:
        return "unknown"
    return told.stdout.strip() or "unknown"


def processor_name() -> str:
    try:
        found = re.search(r"model name\s*: (.*)", Path("/proc/cpuinfo").read_text())
    except OSError:
        found = None
    return found.group(1).strip() if found else platform.machine()


def row(cells: List[str]) -> str:
    return f"| {' | '.join(cells)} |"


def table(head: List[str], rows: List[List[str]]) -> List[str]:
    return [row(head), "|" + "---|" * len(head), *map(row, rows)]


def write_figures(all_measured: List[Measured], rounds: int, busy: float, disk: str) -> None:
    """Writes figures.md, and the ratios into README's table."""
    programs = [
        [measured.title(), name, *program_cells(measured, name)]
        for measured in all_measured
        for name in measured.costs
    ]
    lines = [
        "# Figures",
        "",
        "RemixDB beside a plain program, as `bench/run --write` measured them. [The bench](README.md)",
        "says what is compared and what each column is. This page is written by it.",
        "",
        *table(
            ["Measured", ""],
            [
                ["date", datetime.date.today().isoformat()],
                ["commit", commit()],
                ["processors", f"{os.cpu_count()}, {processor_name()}"],
                ["load of the machine before", f"{busy:.1f}"],
                ["rounds", str(rounds)],
                ["file system of the files", disk],
            ],
        ),
        "",
        "Ratios of RemixDB to the plain program: the median of the rounds, the least and the greatest.",
        "",
        *table(["Load", *(name.capitalize() for name in COLUMNS)], ratio_rows(all_measured)),
        "",
        *beside_table(all_measured),
        "The medians of each program:",
        "",
        *table(["Load", "Program", "Time", "Processor time", "Memory"], programs),
        "",
    ]
    FIGURES.write_text("\n".join(lines), encoding="utf-8")
    write_short_table(all_measured)


def ratio_rows(all_measured: List[Measured]) -> List[List[str]]:
    return [ratio_cells(measured, aim) for measured in all_measured for aim in measured.load.aims]


def beside_table(all_measured: List[Measured]) -> List[str]:
    """The ratios to another RemixDB, if one was measured."""
    rows = [[it.title(), *ratios_to(it, BESIDE)] for it in all_measured if BESIDE in it.costs]
    if not rows:
        return []
    head = ["Load", *(name.capitalize() for name in COLUMNS[:3])]
    return ["Ratios to RemixDB as it was before, of the same rounds:", "", *table(head, rows), ""]


def with_medians(text: str, measured: Measured, aim: Aim) -> str:
    """The text with the medians that an aim is set to, in the row of this title."""
    title = measured.title_of(aim)
    figures = [(seconds, aim.time), (memory, aim.memory)]
    ratios = [measured.ratio(figure, aim.beside) if most else None for figure, most in figures]
    cells = [f"{it.median:.2f}" if it else "" for it in ratios]
    old = rf"^\| {re.escape(title)} \|[^|]*\|[^|]*\|"
    return re.sub(old, lambda _: f"| {title} | {' | '.join(cells)} |", text, flags=re.MULTILINE)


def write_short_table(all_measured: List[Measured]) -> None:
    """Puts the medians into the rows of README's table that begin with a load's title."""
    text = README.read_text(encoding="utf-8")
    for measured in all_measured:
        for aim in measured.load.aims:
            text = with_medians(text, measured, aim)
    README.write_text(text, encoding="utf-8")
