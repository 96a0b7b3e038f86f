"""What a log's file holds, worked out from docs/formats.md and from nothing else."""

from __future__ import annotations

from typing import Iterator, List, Optional, Tuple

Entry = Tuple[bytes, Optional[bytes]]
"""A key, and its value, or None where it is deleted."""

FILE = "log0"
OPEN_GATE = 0xA5
HEADER = bytes(17)
ENTRIES_KIND = 1
DELETION_TAG = 0xFFFF_FFFF


def payloads(content: bytes) -> Iterator[bytes]:
    """The payloads of the whole frames."""
    place = 0
    while content[place : place + 1] == bytes([OPEN_GATE]):
        length = int.from_bytes(content[place + 1 : place + 5], "big")
        end = place + 5 + length
        assert len(content) > end, f"the frame at {place} is not whole"
        yield content[place + 5 : end]
        place = end


def entries_of(payload: bytes, first: int) -> List[Entry]:
    """The entries of a payload, the first of which is to have this number."""
    assert payload[0] == ENTRIES_KIND
    assert int.from_bytes(payload[1:9], "big") == first
    entries: List[Entry] = []
    place = 13
    for _ in range(int.from_bytes(payload[9:13], "big")):
        key = place + 14  # After a caller, an ordinal and the key's length.
        tag = key + int.from_bytes(payload[key - 2 : key], "big")
        length = int.from_bytes(payload[tag : tag + 4], "big")
        place = tag + 4
        if length == DELETION_TAG:
            entries.append((payload[key:tag], None))
        else:
            entries.append((payload[key:tag], payload[place : place + length]))
            place += length
    assert place == len(payload)
    return entries


def read_entries(content: bytes) -> List[Entry]:
    """The entries of a log that begins at number 0."""
    header, *rest = payloads(content)
    assert header == HEADER
    entries: List[Entry] = []
    for payload in rest:
        entries += entries_of(payload, first=len(entries))
    return entries
