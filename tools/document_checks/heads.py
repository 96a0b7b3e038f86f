"""The heads of crates, and what comments of the code name of the documents."""

from __future__ import annotations

import itertools
import re
from pathlib import Path
from typing import Dict, List, Tuple

from .findings import Findings
from .pages import SPAN, anchor_of, anchors_of
from .sources import Crate, Sources, lines_of

LABELS = ("Stands for", "Promises", "Goes in", "Comes out", "Stands on", "Begin at", "Leaves open")
LABELED = re.compile(r"//! ([A-Z][a-z]+(?: [a-z]+)?) {2,}(.*)")
GOES_ON = re.compile(r"//! {4,}(.*)")
FILE = re.compile(r"\b(?:src|specs|proofs)/[\w/.]+\.(?:rt|antt)")
DOCUMENT = re.compile(r"\b(docs/[\w/.-]+\.md)(?:, \"([^\"]+)\")?")


def root_of(top: Path, crate: Crate) -> Path:
    source = top / "crates" / crate.name / "src"
    return source / "main.rt" if (source / "main.rt").exists() else source / "lib.rt"


def head_of(root: Path) -> Dict[str, Tuple[int, str]]:
    """The labels of a head, each with its line and what it says."""
    head: Dict[str, Tuple[int, str]] = {}
    last = ""
    for number, line in enumerate(lines_of(root), 1):
        if not line.startswith("//!"):
            break
        labeled, goes_on = LABELED.match(line), GOES_ON.match(line)
        if labeled:
            last = labeled.group(1)
            head[last] = (number, labeled.group(2))
        elif goes_on and last:
            head[last] = (head[last][0], f"{head[last][1]} {goes_on.group(1)}")
    return head


def check_head(top: Path, crate: Crate, sources: Sources, findings: Findings) -> None:
    root = root_of(top, crate)
    path = str(root.relative_to(top))
    if not root.exists():
        findings.look(False, path, 1, "there is no such file")
        return
    head = head_of(root)
    known = [label for label in head if label in LABELS]
    has = {*head, "Begin at"} if "Used by" in head else {*head}  # The older form of a head.
    lacking = [label for label in LABELS if label not in has]
    findings.look(not lacking, path, 1, f"the head has no line {', '.join(lacking)}")
    findings.look(known == sorted(known, key=LABELS.index), path, 1, "the head's labels are out of order")
    for number, text in head.values():
        for file in FILE.findall(text):
            # A head may name definitions of the crates that it stands on.
            crates = [crate.name, *crate.uses]
            has = any((top / "crates" / each / file).exists() for each in crates)
            findings.look(has, path, number, f"there is no {file}")
    if "Stands on" in head:
        number, text = head["Stands on"]
        named = {word for word in re.findall(r"\w+", text) if word in sources.crates}
        wanted = {low for low in crate.uses if low in sources.crates}
        told = ", ".join(sorted(wanted)) or "nothing"
        findings.look(named == wanted, path, number, f"crates.txt says that it stands on {told}")
    if "Begin at" in head:
        number, text = head["Begin at"]
        for span in SPAN.findall(text):
            if re.fullmatch(r"\w+(::\w+)*", span):
                has = sources.has_member(span) if "::" in span else sources.has_name(span)
                findings.look(has, path, number, f"nothing is named {span}")


def check_comments(top: Path, files: List[str], findings: Findings) -> None:
    """The documents that code names are there, with the headings that it names."""
    for path in files:
        if not path.endswith((".rt", ".antt")):
            continue
        for number, line in enumerate(lines_of(top / path), 1):
            for page, heading in DOCUMENT.findall(line):
                findings.look((top / page).exists(), path, number, f"there is no {page}")
                if heading and (top / page).exists():
                    has = anchor_of(heading) in anchors_of(top / page)
                    findings.look(has, path, number, f"{page} has no heading {heading}")


def check_topics(top: Path, crate: Crate, sources: Sources, findings: Findings) -> None:
    """Each file of definitions and of lemmas says what it is about; the lemmas to know that it names are there."""
    folder = top / "crates" / crate.name
    for file in sorted([*(folder / "specs").glob("*.antt"), *(folder / "proofs").glob("*.antt")]):
        if file.name == "Lib.antt":
            continue
        path = str(file.relative_to(top))
        comment = itertools.takewhile(lambda line: line.startswith("--"), lines_of(file))
        about = " ".join(line.lstrip("- ") for line in comment)
        findings.look(bool(about), path, 1, "no line at its head says what it is about")
        _, _, known = about.partition("To know:")
        for name in SPAN.findall(known):
            has = name in crate.names or sources.has_name(name)
            findings.look(has, path, 1, f"nothing is named {name}")


def check_heads(top: Path, files: List[str], sources: Sources, findings: Findings) -> None:
    for crate in sources.crates.values():
        check_head(top, crate, sources, findings)
        check_topics(top, crate, sources, findings)
    check_comments(top, files, findings)
