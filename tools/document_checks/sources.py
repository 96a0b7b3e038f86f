"""What a repository declares: crates, calls with their clauses, and all other names.

The sources are read line by line. That is enough, since `rt fmt` lays them out.
"""

from __future__ import annotations

import re
from pathlib import Path
from typing import Dict, List, Optional, Set

# A line of Rattle that opens something, and the name that it gives it.
CONTEXT = re.compile(r"^(?:pub(?:\(\w+\))? )?(?:(trait|struct|enum) (\w+)|(impl)\b)")
FUNCTION = re.compile(r"\bfn (\w+)")
CLAUSE = re.compile(r"^\s*(?:requires|ensures)\*? (\w+) ?\{")
GHOST = re.compile(r"\bghost (\w+)(?::| =)")
ITEM = re.compile(r"\b(?:struct|enum|trait|type|const|static|mod|macro_rules!) (\w+)")
CONSTANT = re.compile(r"\bconst (\w+): \w+ = ([^;]+);")
FIELD = re.compile(r"^\s+(?:pub(?:\(\w+\))? )?([a-z_]\w*): ")
VARIANT = re.compile(r"^\s+([A-Z]\w*)(?: \{|\(|,)")

# A line of antt that declares something. A lemma's name may have hyphens.
DECLARED = re.compile(
    r"^\s*(?:(?:abbrev|unfoldable|opaque|pub|record|data|rec|mod)\s+)*([^\s:{}()=|]+)\s*(?:$|[:{(])"
)
PYTHON = re.compile(r"^\s*(?:def|class) (\w+)|^\s*([A-Za-z_]\w*)(?:: [^=]+)? =|^\s+(\w+): ")


def lines_of(path: Path) -> List[str]:
    return path.read_text(encoding="utf-8", errors="replace").splitlines()


def impl_type(line: str) -> Optional[str]:
    """The type of an `impl` line: the one after `for` where it implements a trait."""
    rest = re.sub(r"<[^<>]*>", "", re.sub(r"<[^<>]*>", "", line))
    found = re.search(r"\bimpl (?:[\w:]+ for )?(\w+)", rest)
    return found.group(1) if found else None


class Crate:
    """What one crate declares."""

    def __init__(self, name: str, uses: List[str]) -> None:
        self.name = name
        self.uses = uses
        self.clauses: Dict[str, Set[str]] = {}
        """The clauses of each call, under `call`, `Type::call` and `module::call`; the ghost items of each type."""
        self.names: Set[str] = set()
        self.members: Set[str] = set()
        """Each `Type::member` and `module::item`."""
        self.constants: Dict[str, str] = {}

    def read(self, folder: Path) -> None:
        for path in sorted((folder / "src").rglob("*.rt")):
            self._read_rattle(path)
        for part in ("specs", "proofs"):
            for path in sorted((folder / part).rglob("*.antt")):
                self.names.add(path.stem)
                for line in lines_of(path):
                    found = DECLARED.match(line)
                    if found:
                        self.names.add(found.group(1))

    def _read_rattle(self, path: Path) -> None:
        module = path.stem
        self.names.add(module)
        within: Optional[str] = None
        calls: List[str] = []
        for line in lines_of(path):
            if line.lstrip().startswith("//"):
                continue
            if line.startswith("}"):
                within = None
            opened = CONTEXT.match(line)
            if opened:
                within = opened.group(2) or impl_type(line)
            function = FUNCTION.search(line)
            if function:
                calls = [function.group(1), f"{module}::{function.group(1)}"]
                calls += [f"{within}::{function.group(1)}"] if within else []
                for call in calls:
                    self.clauses.setdefault(call, set())
            self._read_line(line, module, within, calls)

    def _read_line(self, line: str, module: str, within: Optional[str], calls: List[str]) -> None:
        clause = CLAUSE.match(line)
        if clause:
            self.names.add(clause.group(1))
            for call in calls:
                self.clauses[call].add(clause.group(1))
        ghost = GHOST.search(line)
        if ghost and within:
            self.clauses.setdefault(within, set()).add(ghost.group(1))
        constant = CONSTANT.search(line)
        if constant:
            self.constants[constant.group(1)] = constant.group(2)
        for pattern in (FUNCTION, ITEM, FIELD, VARIANT, GHOST):
            for found in pattern.finditer(line):
                self.names.add(found.group(1))
                self.members.add(f"{module}::{found.group(1)}")
                if within:
                    self.members.add(f"{within}::{found.group(1)}")

    def has_call(self, call: str) -> bool:
        return call in self.clauses

    def clauses_of(self, call: str) -> Set[str]:
        """The clauses of a call. Those of a type are of all its calls."""
        found = set(self.clauses.get(call, ()))
        for name, clauses in self.clauses.items():
            if name.startswith(f"{call}::"):
                found |= clauses
        return found


class Sources:
    """The crates of a repository, and the names of its Python programs."""

    def __init__(self, top: Path) -> None:
        self.top = top
        self.crates: Dict[str, Crate] = {}
        for line in lines_of(top / "crates.txt"):
            named, _, uses = line.partition("#")[0].partition(":")
            if named.strip():
                name = named.split()[0]
                self.crates[name] = Crate(name, uses.split())
                self.crates[name].read(top / "crates" / name)
        self.python: Set[str] = set()
        for folder in ("clients", "bench", "tools"):
            for path in sorted((top / folder).rglob("*.py")):
                self.python.add(path.stem)
                for line in lines_of(path):
                    found = PYTHON.match(line)
                    if found:
                        self.python.add(next(filter(None, found.groups())))

    def among(self, crate: Optional[str]) -> List[Crate]:
        """The crate of that name, where a page is one crate's, or all."""
        return [self.crates[crate]] if crate in self.crates else list(self.crates.values())

    def has_name(self, name: str) -> bool:
        return (
            name in self.crates
            or name in self.python
            or any(name in crate.names for crate in self.crates.values())
        )

    def has_member(self, path: str) -> bool:
        """Whether `Type::member`, `module::item` or `crate::item` is declared."""
        first, _, rest = path.partition("::")
        if first in self.crates:
            return rest in self.crates[first].names or rest in self.crates[first].members
        last = "::".join(path.split("::")[-2:])
        return any(last in crate.members for crate in self.crates.values())

    def value_of(self, constant: str) -> Optional[int]:
        """The value of a constant that is a number, or a sum of such, where all crates that have it agree."""
        found = {self._value(constant, 0)}
        return found.pop()

    def _value(self, constant: str, depth: int) -> Optional[int]:
        texts = {c.constants[constant] for c in self.crates.values() if constant in c.constants}
        if len(texts) != 1 or depth > 5:
            return None
        text = re.sub(r" as \w+", "", texts.pop()).replace("_", "\0")
        text = re.sub(r"(?<=\d)\0(?=\d)", "", text).replace("\0", "_")
        for name in set(re.findall(r"[A-Z][A-Z_]+", text)):
            value = self._value(name, depth + 1)
            if value is None:
                return None
            text = re.sub(rf"\b{name}\b", str(value), text)
        if not re.fullmatch(r"(?:0x[0-9A-Fa-f]+|[\d\s+*()<-])+", text):
            return None
        return int(eval(text, {"__builtins__": {}}))  # Digits and operators alone.
