"""Labels of papers, which the repository's reader does not have: none stands in a file or a commit message."""

from __future__ import annotations

import re
import subprocess
from pathlib import Path
from typing import List

from .findings import Findings
from .sources import lines_of

LABEL = re.compile(
    r"\b(?:D(?:[1-9]|1\d|2[0-3])|T[1-5]|R(?:[1-9]|1\d|20)|W(?:[1-9]|1[0-6])|S[1-7])\b"
    r"|\b[Rr]ows? \d+\b|\b[Ii]ssues? #?\d+\b|\b[Pp]apers?\b|/work/shared"
)
BYTES = re.compile(r"[0-9A-Fa-f]{2}(?:[0-9A-Fa-f]{2})*")
DRAWN = (".svg", ".png")
MERGE = re.compile(r"(?:<{7}|>{7}) |={7}$")


def labels_in(line: str) -> List[str]:
    """The labels in a line. A byte in hexadecimal digits has another such byte beside it."""
    found = []
    for label in LABEL.finditer(line):
        before = re.search(r"(\w+)[ ,]+$", line[: label.start()])
        after = re.match(r"[ ,]+(\w+)", line[label.end() :])
        beside = [it.group(1) for it in (before, after) if it]
        is_byte = BYTES.fullmatch(label.group()) and any(BYTES.fullmatch(it) for it in beside)
        if not is_byte:
            found.append(label.group())
    return found


def check_files(top: Path, files: List[str], findings: Findings) -> None:
    for path in files:
        if path.startswith("tools/") or path.endswith(DRAWN):
            continue  # The tools name the labels that they look for.
        labels = [
            (number, label)
            for number, line in enumerate([path, *lines_of(top / path)])
            for label in labels_in(line)
        ]
        findings.count(not labels)
        for number, label in labels:
            findings.look(False, path, number, f"{label} is a label of a paper")


def check_merges(top: Path, files: List[str], findings: Findings) -> None:
    """No file has the marks of a merge that was not finished."""
    for path in files:
        if not path.endswith(DRAWN):
            marks = [number for number, line in enumerate(lines_of(top / path), 1) if MERGE.match(line)]
            findings.count(not marks)
            for number in marks:
                findings.look(False, path, number, "a mark of a merge that was not finished")


def check_messages(top: Path, findings: Findings) -> None:
    words = ["git", "-C", str(top), "log", "--format=%x00%h%n%B"]
    try:
        told = subprocess.run(words, stdout=subprocess.PIPE, stderr=subprocess.DEVNULL)
    except OSError:
        return
    for message in told.stdout.decode("utf-8", "replace").split("\0")[1:]:
        commit, *lines = message.splitlines()
        labels = [label for line in lines for label in labels_in(line)]
        text = f"the message names {', '.join(labels)}, a label of a paper"
        findings.look(not labels, f"commit {commit}", 1, text)
