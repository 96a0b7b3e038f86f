"""Draws the ratios with their spread, as an SVG. This needs Python's matplotlib, in any Python of the path."""

from __future__ import annotations

import json
import os
import shutil
import subprocess
import sys
from pathlib import Path
from typing import List, Optional

from .figures import Measured, memory, seconds
from .programs import TOP

PICTURE = TOP / "docs" / "figures.svg"


def artist() -> Optional[str]:
    """A Python that has matplotlib: this one, or the system's."""
    for python in (sys.executable, shutil.which("python3", path=os.defpath)):
        words = [str(python), "-c", "import matplotlib"]
        if python and subprocess.run(words, stderr=subprocess.DEVNULL).returncode == 0:
            return python
    return None


def draw_picture(python: str, all_measured: List[Measured]) -> None:
    """Has the picture drawn by a process of its own, so that the bench itself stays small."""
    bars = [
        {"load": measured.title_of(aim), "what": what, "ratio": ratio, "aim": most}
        for measured in all_measured
        for aim in measured.load.aims
        for what, ratio, most in (
            ("time", measured.ratio(seconds, aim.beside), aim.time),
            ("memory", measured.ratio(memory, aim.beside), aim.memory),
        )
        if ratio and most
    ]
    words = [python, str(Path(__file__).with_name("drawing.py")), str(PICTURE)]
    subprocess.run(words, input=json.dumps(bars), text=True, check=True)
