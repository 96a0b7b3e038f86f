"""The picture of the floors and the tables of crates, against crates.txt."""

from __future__ import annotations

import re
from typing import Dict, List, Tuple

from .findings import Findings
from .pages import Page, SPAN, is_block
from .sources import Sources

ARCHITECTURE = "docs/architecture.md"
INDEX = "docs/promises/README.md"
HEADING = "## The floors"
CRATE = re.compile(r"[a-z][a-z0-9_]*")


def section(page: Page, heading: str) -> List[Tuple[int, str]]:
    """The lines below a heading, up to the next one of its kind."""
    lines = list(enumerate(page.lines, 1))
    starts = [at for at, (_, line) in enumerate(lines) if line == heading]
    if not starts:
        return []
    rest = lines[starts[0] + 1 :]
    ends = [at for at, (_, line) in enumerate(rest) if line.startswith("## ")]
    return rest[: ends[0]] if ends else rest


def floors_of(page: Page) -> List[Tuple[int, List[str]]]:
    """The crates of each floor, the highest first. A line that is further in goes on with the floor above it."""
    floors: List[Tuple[int, List[str]]] = []
    for number, line in section(page, HEADING):
        if not is_block(line):
            if floors:
                break
            continue
        cells = re.split(r"\s{2,}", line.strip())
        crates = [cell for cell in cells if CRATE.fullmatch(cell)]
        if line.startswith("     ") and floors:
            floors[-1][1].extend(crates)
        else:
            floors.append((number, crates))
    return floors


def check_picture(page: Page, sources: Sources, findings: Findings) -> None:
    floors = floors_of(page)
    heights: Dict[str, int] = {}
    for height, (number, crates) in enumerate(reversed(floors)):
        for crate in crates:
            is_known = crate in sources.crates
            findings.look(is_known, page.path, number, f"crates.txt has no crate {crate}")
            findings.look(crate not in heights, page.path, number, f"{crate} is drawn twice")
            heights[crate] = height
    first = floors[0][0] if floors else 1
    for name, crate in sources.crates.items():
        findings.look(name in heights, page.path, first, f"{name} is not drawn among the floors")
        for low in crate.uses:
            if low in heights and name in heights:
                stands = heights[low] < heights[name]
                findings.look(stands, page.path, first, f"{name} does not stand above {low}")


def check_table(page: Page, sources: Sources, findings: Findings) -> None:
    """The table of crates: a row each, whose last cell names the crates that it stands on."""
    seen = set()
    for number, line in section(page, HEADING):
        cells = [cell.strip() for cell in line.strip("|").split("|")]
        named = SPAN.fullmatch(cells[0])
        if not line.startswith("|") or not named or named.group(1) not in sources.crates:
            continue
        crate = sources.crates[named.group(1)]
        seen.add(crate.name)
        wanted = {low for low in crate.uses if low in sources.crates}
        is_right = cells[-1] == "all below" or set(SPAN.findall(cells[-1])) == wanted
        told = ", ".join(sorted(wanted)) or "none"
        findings.look(is_right, page.path, number, f"{crate.name} stands on {told}")
    for name in sources.crates:
        findings.look(name in seen, page.path, 1, f"{name} has no row in the table of crates")


def check_index(pages: List[Page], sources: Sources, findings: Findings) -> None:
    """Each crate has a page of promises, and the index leads to it."""
    paths = {page.path: page for page in pages}
    index = "\n".join(paths[INDEX].lines) if INDEX in paths else ""
    for name in sources.crates:
        page = f"docs/promises/{name}.md"
        is_there = page in paths and any(line.strip() for line in paths[page].lines)
        findings.look(is_there, "crates.txt", 1, f"{name} has no page {page}, or an empty one")
        findings.look(f"]({name}.md)" in index, INDEX, 1, f"no link leads to {name}.md")


def check_floors(pages: List[Page], sources: Sources, findings: Findings) -> None:
    found = [page for page in pages if page.path == ARCHITECTURE]
    findings.look(bool(found), ARCHITECTURE, 1, "there is no such page")
    for page in found:
        check_picture(page, sources, findings)
        check_table(page, sources, findings)
    check_index(pages, sources, findings)
