#!/usr/bin/env python3
"""Counts the lines of each crate by kind, and the lengths of its functions.

    python3 bench/count.py [CRATES]      the folder of the crates, `crates` where none is given

A line of a .rt file is code, contract (`requires`, `ensures`, invariants, measures, tactics), ghost
(`ghost use` and ghost items), comment or blank; specs and proofs are counted by their files' lines.
`use` and `mod` lines are code and are counted once more by themselves. A function's length is told
without its contract. The product is all but the tests, what is timed and the worked scripts.
"""
import re
import statistics
import sys
from dataclasses import dataclass, field
from pathlib import Path

CLAUSE = re.compile(r"^\s*(requires|ensures|invariant|invariants|decreases|measure|ghost)\b")
TACTIC = re.compile(r"^\s*#!?\[tactic")
FUNCTION = re.compile(r"^\s*(pub(\([^)]*\))?\s+)?(const\s+)?(unsafe\s+)?fn\s+([A-Za-z_0-9]+)")
IMPORT = re.compile(r"^\s*(pub(\([^)]*\))? )?(use|mod)\b")
BESIDE = {"farm_bench", "farm_desk_tests", "farm_fakes", "farm_play", "farm_tests", "farm_worked"}
KINDS = ("code", "contract", "ghost", "comment", "blank")


def bare(line: str) -> str:
    """The line without texts, characters and comments."""
    line = re.sub(r"b?'(\\.|[^'\\])'", "''", line)
    line = re.sub(r'b?"(\\.|[^"\\])*"', '""', line)
    return re.sub(r"//.*", "", line)


def depth(line: str) -> int:
    """How many more braces it opens than it closes."""
    text = bare(line)
    return text.count("{") - text.count("}")


@dataclass
class Clause:
    """A contract or ghost item that goes on over several lines."""

    kind: str
    open: int
    text: str

    def ends(self) -> bool:
        if self.open > 0:
            return False
        text = self.text.rstrip()
        if self.kind == "ghost":
            return text.endswith((";", ","))
        return "{" in text


def kinds(lines: list[str]) -> list[str]:
    """The kind of each line."""
    told = []
    clause: Clause | None = None
    for line in lines:
        begun = CLAUSE.match(line)
        if clause is not None:
            clause.open += depth(line)
            clause.text += bare(line)
            told.append(clause.kind)
        elif not line.strip():
            told.append("blank")
        elif line.lstrip().startswith("//"):
            told.append("comment")
        elif TACTIC.match(line):
            told.append("contract")
        elif begun:
            kind = "ghost" if begun.group(1) == "ghost" else "contract"
            clause = Clause(kind, depth(line), bare(line))
            told.append(kind)
        else:
            told.append("code")
        if clause is not None and clause.ends():
            clause = None
    return told


def lengths(lines: list[str], told: list[str]) -> list[int]:
    """How many lines of code each function has."""
    found = []
    at = 0
    while at < len(lines):
        start, at = at, at + 1
        if told[start] != "code" or not FUNCTION.match(lines[start]):
            continue
        open_braces, begun, length = 0, False, 0
        for place in range(start, len(lines)):
            if told[place] != "code":
                continue
            length += 1
            text = bare(lines[place])
            begun = begun or "{" in text
            open_braces += depth(lines[place])
            at = place + 1
            if open_braces <= 0 and (begun or text.rstrip().endswith(";")):
                break
        found.append(length)
    return found


@dataclass
class Counts:
    """What one crate has."""

    files: int = 0
    imports: int = 0
    specs: int = 0
    proofs: int = 0
    by_kind: dict[str, int] = field(default_factory=lambda: dict.fromkeys(KINDS, 0))
    functions: list[int] = field(default_factory=list)

    def add(self, other: "Counts") -> None:
        self.files += other.files
        self.imports += other.imports
        self.specs += other.specs
        self.proofs += other.proofs
        self.functions += other.functions
        for kind in KINDS:
            self.by_kind[kind] += other.by_kind[kind]

    def row(self, name: str) -> str:
        code = self.by_kind["code"]
        ordered = sorted(self.functions)
        spread = "| 0 | | | |"
        if ordered:
            ninth = ordered[int(0.9 * len(ordered))]
            spread = f"| {len(ordered)} | {statistics.median(ordered):g} | {ninth} | {ordered[-1]} |"
        share = f"{self.proofs / code:.2f}" if code else ""
        of_kinds = " | ".join(str(self.by_kind[kind]) for kind in KINDS)
        return f"| {name} | {self.files} | {of_kinds} | {self.imports} | {self.specs} | {self.proofs} | {share} {spread}"


def lines_below(folder: Path) -> int:
    return sum(len(path.read_text().splitlines()) for path in folder.rglob("*.antt"))


def of_crate(folder: Path) -> Counts:
    counts = Counts(specs=lines_below(folder / "specs"), proofs=lines_below(folder / "proofs"))
    for path in sorted((folder / "src").rglob("*.rt")):
        lines = path.read_text().splitlines()
        told = kinds(lines)
        counts.files += 1
        counts.functions += lengths(lines, told)
        for line, kind in zip(lines, told):
            counts.by_kind[kind] += 1
            counts.imports += kind == "code" and bool(IMPORT.match(line))
    return counts


def main() -> None:
    top = Path(sys.argv[1] if len(sys.argv) > 1 else "crates")
    heads = "Crate, Files, Code, Contract, Ghost, Comment, Blank, `use` `mod`, Specs, Proofs, Proofs a line of code"
    heads += ", Functions, Median, Ninth of ten, Longest"
    print(f"| {heads.replace(', ', ' | ')} |")
    print("|---|" + "---|" * 14)
    product, total = Counts(), Counts()
    for folder in sorted(top.iterdir()):
        if (folder / "src").is_dir():
            counts = of_crate(folder)
            total.add(counts)
            if folder.name not in BESIDE:
                product.add(counts)
            print(counts.row(folder.name))
    print(product.row("the product"))
    print(total.row("all"))


if __name__ == "__main__":
    main()
