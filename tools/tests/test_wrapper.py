"""The script ./remixdb, in a small repository whose toolchain is a shell script that notes its calls."""

from __future__ import annotations

import os
import shutil
import subprocess
import tempfile
import time
import unittest
from pathlib import Path
from typing import List

WRAPPER = Path(__file__).resolve().parents[2] / "remixdb"
SECONDS = 60

RT = """\
#!/bin/sh
echo "$*" >>"$CALLS"
[ "$1" = run ] || exit 0
sleep 0.3
if grep -q broken src/main.rt; then
    echo "fn main: proved"
    echo "error: it is broken"
    exit 1
fi
mkdir -p out
printf '#!/bin/sh\\necho "built with $*"; exit 3\\n' >out/remixdb
chmod +x out/remixdb
"""


class Wrapper(unittest.TestCase):
    def setUp(self) -> None:
        folder = tempfile.TemporaryDirectory()
        self.addCleanup(folder.cleanup)
        self.top = Path(folder.name).resolve() / "repository"
        self.calls = self.top.parent / "calls"
        commands = self.top.parent / "commands"
        for path in ("remixdb/src", "low/src/inner", "low/specs"):
            (self.top / "crates" / path).mkdir(parents=True)
        (self.top / "crates.txt").write_text("remixdb: low\nlow:\n")
        (self.top / "crates/remixdb/src/main.rt").write_text("fn main() {}\n")
        (self.top / "crates/low/src/lib.rt").write_text("mod inner;\n")
        shutil.copy(WRAPPER, self.top / "remixdb")
        commands.mkdir()
        (commands / "rt").write_text(RT)
        (commands / "rt").chmod(0o755)
        path = f"{commands}:{os.environ['PATH']}"
        self.environment = {**os.environ, "PATH": path, "CALLS": str(self.calls)}

    def command(self) -> List[str]:
        return [str(self.top / "remixdb"), "script", "mem"]

    def run_it(self) -> "subprocess.CompletedProcess[str]":
        return subprocess.run(
            self.command(),
            env=self.environment,
            stdin=subprocess.DEVNULL,
            capture_output=True,
            text=True,
            timeout=SECONDS,
        )

    def builds(self) -> int:
        """How often the program was built so far."""
        lines = self.calls.read_text().splitlines() if self.calls.exists() else []
        return sum(line.startswith("run ") for line in lines)

    def assert_rebuilt(self) -> None:
        before = self.builds()
        self.run_it()
        self.run_it()
        self.assertEqual(self.builds(), before + 1)

    def test_it_is_built_once_and_takes_the_place_of_the_script(self) -> None:
        run = self.run_it()
        self.assertEqual((run.returncode, run.stdout, run.stderr), (3, "built with script mem\n", ""))
        self.run_it()
        self.assertEqual(self.builds(), 1)

    def test_each_kind_of_edit_is_seen(self) -> None:
        crates = self.top / "crates"
        edits = {
            "a file is written": lambda: (crates / "low/src/lib.rt").write_text("mod inner; \n"),
            "a file is added": lambda: (crates / "low/src/more.rt").write_text(""),
            "an old file is moved in": lambda: self.move_old_file_in(crates / "low/specs/Old.antt"),
            "a file is removed": lambda: (crates / "low/src/more.rt").unlink(),
            "a folder is removed": lambda: (crates / "low/src/inner").rmdir(),
            "the specs are removed": lambda: shutil.rmtree(crates / "low/specs"),
            "a crate is added": lambda: (crates / "more/src").mkdir(parents=True),
            "a crate is removed": lambda: shutil.rmtree(crates / "more"),
            "crates.txt is written": lambda: (self.top / "crates.txt").write_text("remixdb:\n"),
        }
        self.run_it()
        for what, edit in edits.items():
            with self.subTest(what=what):
                time.sleep(0.02)
                edit()
                self.assert_rebuilt()

    def move_old_file_in(self, path: Path) -> None:
        path.write_text("")
        folder = path.parent.stat()
        os.utime(path, (1, 1))
        os.utime(path.parent, (folder.st_atime, 1))

    def test_what_checks_leave_is_no_edit(self) -> None:
        self.run_it()
        (self.top / "crates/low/out").mkdir()
        (self.top / "crates/low/out/lib").write_text("")
        self.run_it()
        self.assertEqual(self.builds(), 1)

    def test_two_at_once_build_once(self) -> None:
        for has_flock in (True, False):
            with self.subTest(has_flock=has_flock):
                if not has_flock:
                    self.hide_flock()
                shutil.rmtree(self.top / "out", ignore_errors=True)
                before = self.builds()
                both = [
                    subprocess.Popen(
                        self.command(), env=self.environment, stdout=subprocess.PIPE, text=True
                    )
                    for _ in range(2)
                ]
                told = [each.communicate(timeout=SECONDS)[0] for each in both]
                self.assertEqual(told, ["built with script mem\n"] * 2)
                self.assertEqual(self.builds(), before + 1)
                left = sorted(path.name for path in (self.top / "out").iterdir())
                self.assertEqual([name for name in left if "build" in name or "held" in name], [])

    def hide_flock(self) -> None:
        """Leaves a path on which there is no flock."""
        commands = self.top.parent / "few"
        commands.mkdir()
        for folder in ("/bin", "/usr/bin"):
            for path in Path(folder).iterdir():
                if path.name != "flock" and not (commands / path.name).exists():
                    (commands / path.name).symlink_to(path)
        self.environment["PATH"] = f"{self.top.parent / 'commands'}:{commands}"

    def test_a_lock_whose_holder_was_killed_is_taken(self) -> None:
        self.hide_flock()
        killed = subprocess.Popen(["true"])
        killed.wait()
        (self.top / "out").mkdir()
        (self.top / "out/lock.held").symlink_to(str(killed.pid))
        self.assertEqual(self.run_it().returncode, 3)

    def test_a_build_that_fails_is_shown_and_tried_again(self) -> None:
        main = self.top / "crates/remixdb/src/main.rt"
        main.write_text("broken\n")
        run = self.run_it()
        told = "error: it is broken\nremixdb: the program could not be built\n"
        self.assertEqual((run.returncode, run.stdout, run.stderr), (125, "", told))
        main.write_text("fn main() {}\n")
        self.assertEqual(self.run_it().returncode, 3)

    def test_no_toolchain_is_told(self) -> None:
        self.hide_flock()
        self.environment["PATH"] = str(self.top.parent / "few")
        run = self.run_it()
        told = "remixdb: the toolchain's command rt is not on the path\n"
        self.assertEqual((run.returncode, run.stderr), (125, told))
