"""Builds the program, runs every test against it, and counts them on a line of its own."""

import signal
import subprocess
import sys
import unittest
from collections import Counter
from pathlib import Path

from remixdb.connection import program_path


TEST_SECONDS = 120
"""How long a test may take. One that waits for what never comes is an error, and the next one runs."""


class Result(unittest.TextTestResult):
    """Counts the tests that failed, each once, and ends those that hang."""

    def startTest(self, test: unittest.TestCase) -> None:
        super().startTest(test)
        # Again and again, since what a test leaves on its way out may hang as well.
        signal.setitimer(signal.ITIMER_REAL, TEST_SECONDS, 5)

    def stopTest(self, test: unittest.TestCase) -> None:
        signal.setitimer(signal.ITIMER_REAL, 0)
        super().stopTest(test)


def restore_signals() -> None:
    """Puts the default handlers back.

    A job in the background of a script begins with interrupts ignored, and so would what it starts.
    """
    signal.signal(signal.SIGINT, signal.default_int_handler)
    for number in (signal.SIGQUIT, signal.SIGHUP, signal.SIGTERM):
        signal.signal(number, signal.SIG_DFL)


def give_up(*_: object) -> None:
    raise TimeoutError(f"the test took more than {TEST_SECONDS} seconds")


def is_built() -> bool:
    """Runs a session without input, so that no test has to wait for a build."""
    words = [program_path(), "script", "mem"]
    try:
        return subprocess.run(words, stdin=subprocess.DEVNULL).returncode == 0
    except OSError as fault:
        print(fault, file=sys.stderr)
        return False


def main() -> int:
    restore_signals()
    if not is_built():
        print(f"the tests need a program that runs: {program_path()}", file=sys.stderr)
        print("0 passed, 1 failed")
        return 1
    here = Path(__file__).resolve().parent
    tests = unittest.defaultTestLoader.discover(str(here), top_level_dir=str(here.parent))
    signal.signal(signal.SIGALRM, give_up)
    result = unittest.TextTestRunner(verbosity=1, resultclass=Result).run(tests)
    for reason, count in Counter(reason for _, reason in result.skipped).items():
        print(f"skipped {count}: {reason}")
    faults = [test for test, _ in result.failures + result.errors] + result.unexpectedSuccesses
    # The parts of a test that failed count as that test.
    failed = len({getattr(test, "test_case", test).id() for test in faults})
    passed = max(0, result.testsRun - failed - len(result.skipped))
    print(f"{passed} passed, {failed} failed", flush=True)
    return 1 if failed else 0


if __name__ == "__main__":
    sys.exit(main())
