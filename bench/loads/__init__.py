"""The loads, each a module of its own with a LOAD. A new one is a file here, and a name in NAMES."""

from __future__ import annotations

from importlib import import_module
from typing import Dict

from .load import LOGGING, ONE_SYNC, PLAIN, TWO_SYNCS, Aim, Load

__all__ = ["Aim", "LOGGING", "Load", "NAMES", "ONE_SYNC", "PLAIN", "TWO_SYNCS", "all_loads"]

NAMES = (
    "mixed",
    "rising",
    "wide",
    "deletes",
    "overwrites",
    "gets",
    "alike",
    "filling",
    "new_keys",
    "first_keys",
    "last_keys",
    "one_at_a_time",
    "synced_each",
    "synced_often",
    "opening",
)


def all_loads() -> Dict[str, Load]:
    """The loads by their names, in the order in which they are measured."""
    return {name: import_module(f".{name}", __name__).LOAD for name in NAMES}
