"""All checks of a repository's documents."""

from __future__ import annotations

import subprocess
from pathlib import Path
from typing import List

from .findings import Findings
from .floors import check_floors
from .heads import check_heads
from .labels import check_files, check_merges, check_messages
from .pages import PageChecks, kit_words, pages_of
from .sources import Sources
from .wording import check_wording

LEFT_OUT = {".git", "out", "__pycache__"}


def files_of(top: Path) -> List[str]:
    """The repository's files that are text, by their paths from its top: those that git knows or does not ignore."""
    words = ["git", "-C", str(top), "ls-files", "-co", "--exclude-standard", "-z"]
    try:
        told = subprocess.run(words, stdout=subprocess.PIPE, stderr=subprocess.DEVNULL)
        names = told.stdout.decode().split("\0") if told.returncode == 0 else []
    except OSError:
        names = []
    if not names:
        paths = [it.relative_to(top) for it in top.rglob("*")]
        names = [str(it) for it in paths if not LEFT_OUT.intersection(it.parts)]
    return sorted(name for name in names if name and (top / name).is_file())


def check(top: Path) -> Findings:
    findings = Findings()
    sources = Sources(top)
    files = files_of(top)
    pages = pages_of(top, files, sources)
    checks = PageChecks(sources, kit_words(top), findings)
    for page in pages:
        checks.check(page)
    check_floors(pages, sources, findings)
    check_heads(top, files, sources, findings)
    check_wording(pages, findings)
    check_files(top, files, findings)
    check_merges(top, files, findings)
    check_messages(top, findings)
    return findings


def main(top: Path) -> int:
    findings = check(top)
    for line in findings.wrong:
        print(line)
    print(f"{findings.passed} passed, {len(findings.wrong)} failed", flush=True)
    return 1 if findings.wrong else 0
