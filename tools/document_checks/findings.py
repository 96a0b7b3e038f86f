"""What the checks found: how many things they looked at, and what is wrong."""

from __future__ import annotations

from typing import List


class Findings:
    """Counts each thing that was looked at, and keeps a line for each that is wrong."""

    def __init__(self) -> None:
        self.passed = 0
        self.wrong: List[str] = []

    def count(self, is_right: bool) -> None:
        """Counts one thing, whose faults are told apart."""
        self.passed += is_right

    def look(self, is_right: bool, path: str, line: int, text: str) -> None:
        """Counts one thing. The text says what is wrong where it is not right."""
        if is_right:
            self.passed += 1
        else:
            self.wrong.append(f"{path}:{line}: {text}")
