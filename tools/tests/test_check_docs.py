"""The check of documents, over small repositories: each thing that it has to find, and nothing else."""

from __future__ import annotations

import subprocess
import tempfile
import unittest
from pathlib import Path
from typing import List

from document_checks.run import check

HEAD = """\
//! A crate.
//!
//! Stands for   a well
//! Promises     water
//! Goes in      a pump
//! Comes out    water
//! Stands on    LOWER
//! Begin at     src/lib.rt, `FIRST`
//! Leaves open  rain
//! Bytes        docs/architecture.md, "The floors"
"""

LOW = HEAD.replace("LOWER", "nothing").replace("FIRST", "Well::draw") + """\
pub const DEPTH_MAX: usize = 1_024;
pub const WIDTH_MAX: usize = DEPTH_MAX + 2;

pub trait Well {
    ghost depth: { Self → ℕ };

    fn draw(&mut self)
        ensures drawn { depth self.new ≡ 1 };
}

pub enum Trouble {
    Dry { at: u64 },
}

impl Well for Pump<u8> {
    fn draw(&mut self)
        requires idle { x }
        ensures drawn { x }
        ensures exact { x }
    {
    }
}

pub fn draw_all()
    ensures { x }
{
}
"""

SPECS = """\
-- Wells.

-- a well that is full
abbrev pub IsFull : ℕ → Type 0
IsFull n = n ≡ 0

-- a lemma
pub depth-after_draw : (n : ℕ) → IsFull n
"""

ARCHITECTURE = """\
# Architecture

## The floors

    high                 what is on top
    low                  what is below

| Crate | Stands on |
|---|---|
| `low` | none |
| `high` | `low` |
"""

HIGH = HEAD.replace("LOWER", "low").replace("FIRST", "lift") + "pub fn lift() {}\n"

PAGES = {
    "crates.txt": "high: low thiserror\nlow:\n",
    "crates/low/src/lib.rt": LOW,
    "crates/low/specs/Wells.antt": SPECS,
    "crates/high/src/lib.rt": HIGH,
    "docs/architecture.md": ARCHITECTURE,
    "docs/promises/README.md": "# Promises\n\n[low](low.md), [high](high.md)\n",
    "docs/promises/low.md": "# low\n",
    "docs/promises/high.md": "# high\n",
    "tools/kit-words.txt": "Vec  # a word of the library\n",
}


class Checked(unittest.TestCase):
    """Writes a repository and checks it."""

    def setUp(self) -> None:
        folder = tempfile.TemporaryDirectory()
        self.addCleanup(folder.cleanup)
        self.top = Path(folder.name)
        for path, text in PAGES.items():
            self.write(path, text)

    def write(self, path: str, text: str) -> None:
        target = self.top / path
        target.parent.mkdir(parents=True, exist_ok=True)
        target.write_text(text, encoding="utf-8")

    def wrong(self) -> List[str]:
        return check(self.top).wrong

    def assert_right(self, text: str) -> None:
        self.write("README.md", text)
        self.assertEqual(self.wrong(), [])

    def assert_wrong(self, text: str, *wrong: str) -> None:
        self.write("README.md", text)
        self.assertEqual(self.wrong(), [f"README.md:{line}" for line in wrong])


class Names(Checked):
    def test_what_is_declared_may_be_named(self) -> None:
        self.assert_right(
            "`Well`, `Well::draw`, `draw_all`, `Trouble::Dry`, `Dry { at }`, `Well::depth`,\\n"
            "`IsFull`, `depth-after_draw`, `low`, `Vec<u8>`, `lib::draw_all`, `low::draw_all`, `A5 00`\n"
        )

    def test_other_names_are_wrong(self) -> None:
        self.assert_wrong("One.\n`Wells2`\n`IsEmpty`", "2: nothing is named Wells2", "3: nothing is named IsEmpty")
        self.assert_wrong("`Well::fill`", "1: nothing is named Well::fill")
        self.assert_wrong("`depth-after_fill`", "1: nothing is named depth-after_fill")

    def test_an_old_name_may_stand_before_an_arrow(self) -> None:
        self.assert_right("`Pool` → `Well`\n")
        self.assert_wrong("`Well` → `Pool`\n", "1: nothing is named Pool")

    def test_a_block_as_it_is_typed_is_left_alone(self) -> None:
        self.assert_right("Text.\n\n    `nothing` of [this](nowhere.md)\n")

    def test_an_arrow_names_a_call(self) -> None:
        self.assert_right("Life.\n\n    full --draw: succeeds--> dry\n")
        self.assert_wrong("Life.\n\n    full --fill: succeeds--> dry\n", "3: no call is named fill")


class Clauses(Checked):
    def test_clauses_of_a_call_may_be_named(self) -> None:
        self.assert_right(
            "| x | `Well::draw`: `drawn`; `Pump::draw`: `idle`, `exact` (`IsFull`) and `drawn` |\n"
            "| x | `Well`: `depth`, `drawn` |\n"
            "| x | `low`: `Well::draw`, `draw_all` |\n"
        )

    def test_other_clauses_are_wrong(self) -> None:
        self.assert_wrong("`Well::draw`: `exact`", "1: Well::draw has no clause exact")
        self.assert_wrong("`Pump::draw`: `drawn`, `depth`", "1: Pump::draw has no clause depth")
        self.assert_wrong("`high`: `draw_all`", "1: high has no draw_all")

    def test_a_page_of_promises_speaks_of_its_crate_first(self) -> None:
        self.write("crates/high/src/lib.rt", HIGH + "pub fn draw()\n    ensures mine { x }\n{\n}\n")
        self.write("docs/promises/high.md", "# high\n\n`draw`: `mine`\n")
        self.assertEqual(self.wrong(), [])
        self.write("docs/promises/high.md", "# high\n\n`draw`: `drawn`\n")
        self.assertEqual(self.wrong(), ["docs/promises/high.md:3: draw has no clause drawn"])


class Paths(Checked):
    def test_paths_and_links_lead_somewhere(self) -> None:
        self.assert_right(
            "`crates/low/src/lib.rt`, `src/lib.rt`, `crates/NAME/specs/`, `Wells.antt`, `specs/Wells`,\\n"
            "[a](docs/architecture.md#the-floors), [b](#here), [c](https://example.org)\n# Here\n"
        )

    def test_other_paths_and_links_are_wrong(self) -> None:
        self.assert_wrong("`src/main.rt`", "1: there is no src/main.rt")
        self.assert_wrong("`/none/such.rt`", "1: there is no /none/such.rt")
        self.assert_wrong("[a](docs/none.md)", "1: the link docs/none.md leads nowhere")
        self.assert_wrong("[a](#there)", "1: the link #there names no heading")


class Numbers(Checked):
    def test_a_number_beside_a_constant_is_its_own(self) -> None:
        self.assert_right("| depth | 1 to 1,024 | `DEPTH_MAX` |\n| width | 1,026 | `WIDTH_MAX` |\n| x | 1 to `DEPTH_MAX` |")
        wrong = "1: DEPTH_MAX is 1,024, and this row does not say so"
        self.assert_wrong("| depth | 1 to 1,025 | `DEPTH_MAX` |", wrong)
        self.assert_wrong("| depth | 1 to 11,024 | `DEPTH_MAX` |", wrong)


class Floors(Checked):
    def assert_picture(self, old: str, new: str, *wrong: str) -> None:
        self.write("docs/architecture.md", ARCHITECTURE.replace(old, new))
        self.assertEqual(self.wrong(), [f"docs/architecture.md:{line}" for line in wrong])

    def test_a_line_further_in_goes_on_with_its_floor(self) -> None:
        self.write("crates.txt", "high: low\nlow:\nlower:\n")
        self.write("crates/lower/src/lib.rt", LOW)
        self.write("docs/promises/README.md", "[a](low.md) [b](high.md) [c](lower.md)\n")
        self.write("docs/promises/lower.md", "# lower\n")
        table = "| `low` | none |\n| `lower` | none |"
        text = ARCHITECTURE.replace("is below\n", "is below\n      lower\n").replace("| `low` | none |", table)
        self.write("docs/architecture.md", text)
        self.assertEqual(self.wrong(), [])

    def test_a_crate_that_is_not_drawn(self) -> None:
        self.assert_picture("    low                  what is below\n", "", "5: low is not drawn among the floors")

    def test_a_crate_that_is_drawn_twice(self) -> None:
        self.assert_picture("high      ", "high  low", "5: low is drawn twice", "5: high does not stand above low")

    def test_a_crate_that_does_not_exist(self) -> None:
        self.assert_picture("low      ", "low  mud", "6: crates.txt has no crate mud")

    def test_a_crate_beside_what_it_stands_on(self) -> None:
        one_floor = "    high  low                 all of it\n"
        both = "    high                 what is on top\n    low                  what is below\n"
        self.assert_picture(both, one_floor, "5: high does not stand above low")

    def test_a_table_that_disagrees(self) -> None:
        self.assert_picture("| `high` | `low` |", "| `high` | none |", "11: high stands on low")

    def test_a_crate_without_a_page(self) -> None:
        (self.top / "docs/promises/low.md").unlink()
        self.write("docs/promises/README.md", "[high](high.md)\n")
        wanted = ["crates.txt:1: low has no page docs/promises/low.md, or an empty one"]
        wanted += ["docs/promises/README.md:1: no link leads to low.md"]
        self.assertEqual(self.wrong(), wanted)

    def test_a_page_that_is_empty(self) -> None:
        self.write("docs/promises/low.md", "\n")
        wanted = ["crates.txt:1: low has no page docs/promises/low.md, or an empty one"]
        self.assertEqual(self.wrong(), wanted)


class Heads(Checked):
    def assert_head(self, old: str, new: str, *wrong: str) -> None:
        self.write("crates/high/src/lib.rt", HIGH.replace(old, new))
        self.assertEqual(self.wrong(), [f"crates/high/src/lib.rt:{line}" for line in wrong])

    def test_a_label_that_is_lacking_or_out_of_order(self) -> None:
        self.assert_head("//! Goes in      a pump\n", "", "1: the head has no line Goes in")
        both = "//! Goes in      a pump\n//! Comes out    water\n"
        turned = "//! Comes out    water\n//! Goes in      a pump\n"
        self.assert_head(both, turned, "1: the head's labels are out of order")

    def test_crates_that_it_does_not_stand_on(self) -> None:
        wrong = "7: crates.txt says that it stands on low"
        self.assert_head("Stands on    low", "Stands on    nothing", wrong)

    def test_what_it_names(self) -> None:
        self.assert_head("src/lib.rt", "src/main.rt", "8: there is no src/main.rt")
        self.assert_head("`lift`", "`lower`", "8: nothing is named lower")
        self.assert_head("docs/architecture.md", "docs/none.md", "10: there is no docs/none.md")
        self.assert_head('"The floors"', '"Pumps"', "10: docs/architecture.md has no heading Pumps")


class Topics(Checked):
    def test_a_file_that_does_not_say_what_it_is_about(self) -> None:
        self.write("crates/low/proofs/WellLemmas.antt", "use Wells\n")
        wanted = "crates/low/proofs/WellLemmas.antt:1: no line at its head says what it is about"
        self.assertEqual(self.wrong(), [wanted])

    def test_lemmas_to_know_that_are_not_there(self) -> None:
        known = "-- Wells. To know: `depth-after_draw`,\n-- `depth-before`.\n"
        self.write("crates/low/proofs/WellLemmas.antt", known)
        wanted = "crates/low/proofs/WellLemmas.antt:1: nothing is named depth-before"
        self.assertEqual(self.wrong(), [wanted])


class Wording(Checked):
    def test_a_plainer_word_is_told(self) -> None:
        self.assert_wrong("The byte behind it.", "1: 'behind': say 'after'")
        self.assert_right("Positions never falling behind.\n")


class Labels(Checked):
    def test_labels_are_found_in_any_file(self) -> None:
        for label in ("D6", "T3", "R19", "W2", "S1", "row 7", "issue 9", "the paper"):
            with self.subTest(label=label):
                self.write("crates/low/must-fail/x.edit", f"file: src/lib.rt\nold: as {label} says\n")
                wrong = self.wrong()
                self.assertEqual(len(wrong), 1)
                self.assertTrue(wrong[0].startswith("crates/low/must-fail/x.edit:2: "), wrong)

    def test_bytes_and_other_words_are_none(self) -> None:
        self.assert_right("The bytes `D8 00` and `A5 D6`, R21, T6, a row, E4, U64, 32 rows.\n")

    def test_marks_of_an_unfinished_merge(self) -> None:
        self.write("crates/low/args", "<<<<<<< one\na\n=======\nb\n>>>>>>> other\n")
        told = "a mark of a merge that was not finished"
        self.assertEqual(self.wrong(), [f"crates/low/args:{line}: {told}" for line in (1, 3, 5)])

    def test_labels_in_commit_messages(self) -> None:
        git = ["git", "-C", str(self.top), "-c", "user.name=a", "-c", "user.email=a@b"]
        subprocess.run([*git, "init", "-q"], check=True)
        for message in ("A plain one", "As D6 says"):
            subprocess.run([*git, "add", "-A"], check=True)
            subprocess.run([*git, "commit", "-q", "--allow-empty", "-m", message], check=True)
        wrong = self.wrong()
        self.assertEqual(len(wrong), 1)
        self.assertIn("the message names D6", wrong[0])
