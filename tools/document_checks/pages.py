"""The documents: their words in backticks, their links, and their tables."""

from __future__ import annotations

import re
from functools import lru_cache
from pathlib import Path
from typing import List, NamedTuple, Optional, Set

from .findings import Findings
from .sources import Crate, Sources, lines_of

SPAN = re.compile(r"`([^`]+)`")
LINK = re.compile(r"(?<!!)\[[^\]]*\]\(([^)\s]+)\)|!\[[^\]]*\]\(([^)\s]+)\)")

# A name that is no more, and what it became.
RENAMED = re.compile(r"`[^`]+`(?= →)")

# `CALL`: `clause`, `clause` (`Definition`), `clause` and `clause`
CLAIM = re.compile(r"`([\w:]+)`: ((?:`\w+(?:::\w+)*`(?: \([^)]*\))?(?:, (?=`)| and (?=`))?)+)")
NAME = re.compile(r"[A-Za-z_][\w-]*(?:::[A-Za-z_]\w*)*")
PATH = re.compile(r"[\w.*{}/-]*(?:/[\w.*-]*|\.(?:rt|antt|md|py|edit|txt|rs|svg))")
HEX = re.compile(r"(?:[0-9A-F]{2})+")
ARROW = re.compile(r"--(\w+)(?=:)")
CONSTANT = re.compile(r"[A-Z][A-Z0-9]*(?:_[A-Z0-9]+)+")


class Page(NamedTuple):
    """A document. One under docs/promises is about a crate."""

    path: str
    lines: List[str]
    crate: Optional[str]


def pages_of(top: Path, files: List[str], sources: Sources) -> List[Page]:
    pages = []
    for path in files:
        if path.endswith(".md"):
            about = Path(path).stem if path.startswith("docs/promises/") else None
            crate = about if about in sources.crates else None
            pages.append(Page(path, lines_of(top / path), crate))
    return pages


def kit_words(top: Path) -> Set[str]:
    path = top / "tools" / "kit-words.txt"
    lines = lines_of(path) if path.exists() else []
    return {word for line in lines for word in line.partition("#")[0].split()}


def is_block(line: str) -> bool:
    """Whether the line stands in a block of text as it is typed."""
    return line.startswith("    ")


def anchor_of(heading: str) -> str:
    """The name by which a link reaches a heading."""
    text = re.sub(r"[^\w\- ]", "", heading.replace("`", "").strip().lower())
    return text.replace(" ", "-")


@lru_cache(maxsize=None)
def anchors_of(path: Path) -> Set[str]:
    return {anchor_of(line.lstrip("#")) for line in lines_of(path) if line.startswith("#")}


class PageChecks:
    """Checks pages against what the sources declare."""

    def __init__(self, sources: Sources, words: Set[str], findings: Findings) -> None:
        self._sources = sources
        self._words = words
        self._findings = findings

    def check(self, page: Page) -> None:
        for number, line in enumerate(page.lines, 1):
            if is_block(line):
                self._check_arrows(page, number, line)
                continue
            for span in SPAN.findall(RENAMED.sub("", line)):
                self._check_span(page, number, span.strip())
            for call, clauses in CLAIM.findall(line):
                self._check_claim(page, number, call, SPAN.findall(re.sub(r"\([^)]*\)", "", clauses)))
            for link in LINK.findall(line):
                self._check_link(page, number, link[0] or link[1])
            if line.startswith("|"):
                self._check_constants(page, number, line)

    def _look(self, page: Page, number: int, is_right: bool, text: str) -> None:
        self._findings.look(is_right, page.path, number, text)

    def _check_arrows(self, page: Page, number: int, line: str) -> None:
        """The calls on the arrows of a life."""
        for call in ARROW.findall(line):
            is_call = any(crate.has_call(call) for crate in self._sources.crates.values())
            self._look(page, number, is_call, f"no call is named {call}")

    def _check_span(self, page: Page, number: int, span: str) -> None:
        """A word in backticks: a path, or a name that the sources declare."""
        first = re.split(r"[ (<{]", span, maxsplit=1)[0]
        rest = span[len(first) :].lstrip()
        if first in self._words or HEX.fullmatch(first) or len(first) == 1:
            return
        if PATH.fullmatch(first):
            self._look(page, number, self._has_path(page, first), f"there is no {first}")
        elif NAME.fullmatch(first) and (not rest or rest[0] in "(<{"):
            self._look(page, number, self._has_name(first), f"nothing is named {first}")

    def _has_name(self, name: str) -> bool:
        has = self._sources.has_member if "::" in name else self._sources.has_name
        return has(name)

    def _has_path(self, page: Page, named: str) -> bool:
        """Whether a file is there: from the top, beside the page, or in a crate. NAME stands for any name."""
        top = self._sources.top
        if named.startswith("/"):
            return Path(named).exists()
        pattern = re.sub(r"^\./", "", named).rstrip("/")
        if not (top / pattern).exists():
            pattern = re.sub(r"\b[A-Z]+\b", "*", pattern)
        crates = [top / "crates" / crate.name for crate in self._sources.among(page.crate)]
        inside = [crate / part for crate in crates for part in ("src", "specs", "proofs", "must-fail")]
        if "/" not in pattern and any(next(folder.rglob(pattern), None) for folder in inside):
            return True
        folders = [top, (top / page.path).parent, *crates]
        forms = [pattern] if "." in pattern else [pattern, f"{pattern}.rt", f"{pattern}.antt"]
        return any(next(folder.glob(form), None) for folder in folders for form in forms)

    def _check_claim(self, page: Page, number: int, call: str, clauses: List[str]) -> None:
        """A call and clauses of it, or a crate and calls of it."""
        if call in self._sources.crates:
            crate = self._sources.crates[call]
            for each in clauses:
                has = each in crate.members or each in crate.names
                self._look(page, number, has, f"{call} has no {each}")
            return
        having = self._having(call, page.crate) or self._having(call, None)
        if not having:
            self._look(page, number, False, f"no call is named {call}")
        for clause in clauses:
            has = any(clause in crate.clauses_of(call) for crate in having)
            self._look(page, number, has or not having, f"{call} has no clause {clause}")

    def _having(self, call: str, crate: Optional[str]) -> List[Crate]:
        """The crates that have the call, among this one or, with none, among all."""
        near = self._sources.among(crate)
        return [each for each in near if each.has_call(call) or each.clauses_of(call)]

    def _check_link(self, page: Page, number: int, link: str) -> None:
        if re.match(r"[a-z]+:", link):
            return
        path, _, anchor = link.partition("#")
        target = (self._sources.top / page.path).parent / path if path else self._sources.top / page.path
        self._look(page, number, target.exists(), f"the link {link} leads nowhere")
        if anchor and target.is_file():
            has = anchor in anchors_of(target)
            self._look(page, number, has, f"the link {link} names no heading")

    def _check_constants(self, page: Page, number: int, line: str) -> None:
        """A number in a row of a table that names a constant is that constant's."""
        said = SPAN.sub("", line)
        if not re.search(r"\d[\d,]*\d|\d\^|\^\d", said):
            return
        for constant in set(CONSTANT.findall(" ".join(SPAN.findall(line)))):
            value = self._sources.value_of(constant)
            if value is not None:
                has = any(re.search(rf"(?<![\w^,]){re.escape(form)}(?![\w,]\d)", line) for form in forms_of(value))
                self._look(page, number, has, f"{constant} is {value:,}, and this row does not say so")


def forms_of(value: int) -> List[str]:
    """How a number may be written."""
    forms = [f"{value:,}", str(value), f"{value:02X}"]
    for number, end in ((value, ""), (value + 1, " - 1")):
        if number > 1 and number & (number - 1) == 0:
            forms.append(f"2^{number.bit_length() - 1}{end}")
    return forms
