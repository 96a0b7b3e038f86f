"""Words that documents do not use, since a plainer one says the same."""

from __future__ import annotations

import re
from typing import List

from .findings import Findings
from .pages import SPAN, Page

PLAINER = {
    r"\b[Ww]ant of memory\b": "out of memory",
    r"\bat Ok\b": "if it succeeds",
    r"\bat stake\b": "what may survive",
    r"\b(?<!falling )(?<!fall )behind\b": "after",
    r"\btells? its (?:bytes|content)\b": "whose bytes contracts can see",
    r"\byields? to\b": "of lower rank",
}


def check_wording(pages: List[Page], findings: Findings) -> None:
    for page in pages:
        found = [
            (number, word.group(), plainer)
            for number, line in enumerate(page.lines, 1)
            for pattern, plainer in PLAINER.items()
            for word in re.finditer(pattern, SPAN.sub("", line))
        ]
        findings.count(not found)
        for number, word, plainer in found:
            findings.look(False, page.path, number, f"'{word}': say '{plainer}'")
