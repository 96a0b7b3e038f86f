"""Where the programs keep their files while they are measured."""

from __future__ import annotations

import subprocess
import tempfile
from contextlib import contextmanager
from pathlib import Path
from typing import Iterator


@contextmanager
def place_within(folder: Path) -> Iterator[Path]:
    """A scratch folder within this one, which is made where it is absent."""
    folder.mkdir(parents=True, exist_ok=True)
    with tempfile.TemporaryDirectory(prefix="bench-", dir=folder) as name:
        yield Path(name).resolve()


def disk_of(folder: Path) -> str:
    """The kind of file system that a folder is on."""
    words = ["stat", "-f", "-c", "%T", str(folder)]
    try:
        told = subprocess.run(words, stdout=subprocess.PIPE, stderr=subprocess.DEVNULL, text=True)
    except OSError:
        return "unknown"
    return told.stdout.strip() or "unknown"
