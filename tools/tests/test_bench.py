"""The bench's words and its figures. That it runs, and that replies agree, is its own quick run."""

from __future__ import annotations

import io
import subprocess
import sys
import unittest
from pathlib import Path
from typing import Tuple

BENCH = Path(__file__).resolve().parents[2] / "bench"
sys.path.insert(0, str(BENCH))

from loads import LOGGING, Aim, Load, all_loads  # noqa: E402
from loads.writer import Writer  # noqa: E402
from measuring.figures import Measured, Spread, memory, seconds, told_aim  # noqa: E402
from measuring.runs import Cost, cut_frames  # noqa: E402
from measuring.telling import with_medians  # noqa: E402


def run_bench(*words: str) -> Tuple[int, str]:
    run = subprocess.run([str(BENCH / "run"), *words], capture_output=True, text=True, timeout=60)
    return run.returncode, run.stderr


class Words(unittest.TestCase):
    def test_no_rounds_are_refused_with_a_reason(self) -> None:
        for word in ("0", "-1", "two"):
            status, told = run_bench(f"--rounds={word}")
            self.assertEqual(status, 2)
            self.assertIn(f"{word} is no number of rounds: at least 1 is wanted", told)

    def test_a_quick_run_writes_nothing(self) -> None:
        for word in ("--write", "--picture"):
            status, told = run_bench("--quick", word)
            self.assertEqual(status, 2)
            self.assertIn("a quick run measures nothing", told)


class Figures(unittest.TestCase):
    def measured(self, *aims: Aim) -> Measured:
        load = Load("puts", 1_000, lambda writer, count: None, aims)
        costs = {
            "remixdb": [Cost(2, 2, 300), Cost(3, 3, 300), Cost(8, 8, 300)],
            "plain": [Cost(2, 2, None), Cost(2, 2, 100), Cost(2, 2, 100)],
            "plain with a log": [Cost(1, 1, 150), Cost(1, 1, 150), Cost(1, 1, 150)],
        }
        return Measured(load, costs, None)

    def told(self, aim: Aim) -> str:
        return told_aim(self.measured(aim), aim)

    def test_a_ratio_is_of_the_same_round(self) -> None:
        self.assertEqual(self.measured().ratio(seconds, "plain"), Spread(1.5, 1.0, 4.0))

    def test_a_ratio_that_lacks_a_round_is_not_known(self) -> None:
        self.assertIsNone(self.measured().ratio(memory, "plain"))

    def test_an_aim_is_met_or_missed_by_the_median(self) -> None:
        self.assertEqual(self.told(Aim(1.5, None)), "time 1.5: met")
        self.assertEqual(self.told(Aim(1.4, None)), "time 1.4: time missed")
        wanted = "time 1.5, memory 3: met in time, memory not known"
        self.assertEqual(self.told(Aim(1.5, 3)), wanted)

    def test_an_aim_may_be_beside_another_program(self) -> None:
        self.assertEqual(self.told(Aim(None, 2.0, LOGGING)), "memory 2.0: met")
        self.assertEqual(self.told(Aim(None, 1.9, LOGGING)), "memory 1.9: memory missed")
        self.assertEqual(self.told(Aim(2.9, 1.9, LOGGING)), "time 2.9, memory 1.9: time and memory missed")

    def test_an_aim_may_be_so_much_memory_more(self) -> None:
        measured = self.measured(Aim(None, None, LOGGING, more=1))
        self.assertEqual(self.told(Aim(None, None, LOGGING, more=1)), "memory 1 MiB more: met")
        measured.costs["remixdb"] = [Cost(1, 1, 1_300)] * 3
        aim = measured.load.aims[0]
        self.assertEqual(told_aim(measured, aim), "memory 1 MiB more: memory missed")

    def test_each_aim_has_a_row_of_its_own(self) -> None:
        measured = self.measured(Aim(1.5, None), Aim(None, 2.0, LOGGING))
        table = "| 1,000 puts | 9 | 9 | 1.5 |\n| 1,000 puts, beside plain with a log | | | |\n"
        for aim in measured.load.aims:
            table = with_medians(table, measured, aim)
        wanted = "| 1,000 puts | 1.50 |  | 1.5 |\n| 1,000 puts, beside plain with a log |  | 2.00 | |\n"
        self.assertEqual(table, wanted)

    def test_each_load_has_a_title_of_its_own(self) -> None:
        titles = [(load.count, load.title) for load in all_loads().values()]
        self.assertEqual(len(set(titles)), len(titles))


class Loads(unittest.TestCase):
    def test_each_request_has_its_reply(self) -> None:
        requests, replies = io.BytesIO(), io.BytesIO()
        writer = Writer(requests, replies)
        writer.put(b"a", b"1")
        writer.get(b"a")
        writer.delete(b"a")
        writer.sync()
        writer.quit()
        asked = "00000009 01 0001 61 00000001 31 00000004 03 0001 61 00000004 02 0001 61"
        self.assertEqual(requests.getvalue(), bytes.fromhex(asked + "00000001 04 00000001 09"))
        wanted = "00000009 81 0000000000000000 0000000e 82 0000000000000001 00000001 31"
        wanted += "00000009 81 0000000000000001 00000009 84 0000000000000002 00000001 89"
        self.assertEqual(replies.getvalue(), bytes.fromhex(wanted))

    def test_what_opens_a_log_goes_on_after_what_fills_it(self) -> None:
        load = all_loads()["opening"]
        assert load.fill is not None
        filled, asked, wanted = io.BytesIO(), io.BytesIO(), io.BytesIO()
        load.fill(Writer(filled, io.BytesIO()), 10)
        load.write(Writer(asked, wanted), 10)
        (get, quit_), (value, _) = cut_frames(asked.getvalue()), cut_frames(wanted.getvalue())
        self.assertEqual(quit_, bytes.fromhex("00000001 09"))
        self.assertEqual(value[5:13], (10).to_bytes(8, "big"))
        # The row that is asked for is one of those that were put, under the same length and key.
        self.assertIn(bytes.fromhex("00000080 01") + get[5:] + value[13:], cut_frames(filled.getvalue()))

    def test_an_entry_of_the_log_that_is_opened_has_139_bytes(self) -> None:
        filled = io.BytesIO()
        load = all_loads()["opening"]
        assert load.fill is not None
        load.fill(Writer(filled, io.BytesIO()), 1)
        # A message has the length of its body and a code before the pair; an entry a caller and an ordinal.
        self.assertEqual(len(filled.getvalue()) - 5 + 12, 139)
