"""What documents show: commands with their output, and messages with their meaning."""

from __future__ import annotations

import re
import subprocess
import unittest
from pathlib import Path
from typing import Iterator, List, Tuple

from remixdb.connection import program_path
from remixdb.messages import LENGTH_BYTES, REPLIES, read_reply

from .model import Session
from .support import SECONDS, fresh_folder, run_script

TOP = Path(__file__).resolve().parents[3]
PAGES = ("README.md", "docs/client.md")
FOLDER = re.compile(r"/tmp/[\w/-]+")
"""A folder that a page shows. A test has a new one in its place, for each page."""

FORMATS = TOP / "docs" / "formats.md"


def commands_in(page: Path) -> Iterator[Tuple[str, str]]:
    """The commands of a page that feed a program, each with the output that the page shows."""
    blocks = re.split(r"\n(?!    )", page.read_text(encoding="utf-8"))
    for block in blocks:
        lines = [line[4:] for line in block.splitlines() if line.startswith("    ")]
        starts = [at for at, line in enumerate(lines) if line.startswith("$ ")] + [len(lines)]
        for at, end in zip(starts, starts[1:]):
            if lines[at].startswith("$ printf "):
                yield lines[at][2:], "".join(line + "\n" for line in lines[at + 1 : end])


def rows_of(heading: str) -> List[List[str]]:
    """The cells of each row of the first table below a heading of the formats."""
    text = FORMATS.read_text(encoding="utf-8").split(f"\n{heading}\n", 1)[1]
    table = re.search(r"(?:^\|.*\n)+", text, re.MULTILINE)
    assert table is not None, f"no table below {heading}"
    rows = [line.strip("|").split("|") for line in table.group().splitlines()]
    return [[cell.strip() for cell in row] for row in rows[2:]]


def messages_in(cell: str) -> List[bytes]:
    """The messages that a cell shows, in hexadecimal digits."""
    return [bytes.fromhex(digits) for digits in re.findall(r"`([0-9A-F]{8}[0-9A-F ]*)`", cell)]


class Commands(unittest.TestCase):
    def test_each_gives_what_its_page_shows(self) -> None:
        shown = 0
        for page in PAGES:
            folder = fresh_folder(self)
            for command, wanted in commands_in(TOP / page):
                with self.subTest(page=page, command=command):
                    command = FOLDER.sub(folder, command)
                    # The program of the tests is the repository's own, if no other is named.
                    command = command.replace("./remixdb", program_path())
                    run = subprocess.run(
                        ["sh", "-c", command], cwd=TOP, capture_output=True, timeout=SECONDS
                    )
                    self.assertEqual(run.stdout.decode(), wanted)
                    shown += 1
        self.assertGreaterEqual(shown, 3)


class Formats(unittest.TestCase):
    def test_requests_have_the_code_of_their_row(self) -> None:
        for code, word, _, example in rows_of("### Requests"):
            (message,) = messages_in(example)
            with self.subTest(word=word):
                self.assertEqual(message[LENGTH_BYTES], int(code, 16))
                self.assertEqual(len(message) - LENGTH_BYTES, int.from_bytes(message[:4], "big"))
                reply = Session().answer(message[LENGTH_BYTES:])
                self.assertEqual(run_script(message).output[LENGTH_BYTES:], reply)

    def test_replies_have_the_code_of_their_row(self) -> None:
        rows = rows_of("### Replies")
        self.assertEqual({int(row[0], 16) for row in rows}, set(REPLIES))
        for code, word, *_, example in rows:
            (message,) = messages_in(example)
            with self.subTest(word=word):
                reply = read_reply(message[LENGTH_BYTES:])
                self.assertEqual((reply.first_byte, reply.word), (int(code, 16), word))
                self.assertEqual(b"".join(reply.pieces()), message)

    def test_refusals_have_the_code_of_their_row(self) -> None:
        for code, _, examples in rows_of("### Refusal codes"):
            for message in messages_in(examples):
                with self.subTest(message=message.hex()):
                    wanted = bytes.fromhex("0000000a e1 0000000000000000") + bytes([int(code)])
                    self.assertEqual(run_script(message).output, wanted)
