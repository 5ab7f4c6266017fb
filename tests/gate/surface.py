"""The library's surface: the public names of each crate, read from its sources.

python3 tests/gate/surface.py                    compares them with the list in docs/LIBRARY.md; where they differ it
                                                 shows how, and ends with 1
python3 tests/gate/surface.py --write            writes the list anew
python3 tests/gate/surface.py --page [CRATE ..]  prints these crates' names, or all, with their signatures and what
                                                 their comments say first
"""
from __future__ import annotations

import difflib
import pathlib
import re
import sys
from dataclasses import dataclass, field

TOP = pathlib.Path(__file__).resolve().parents[2]
PAGE = TOP / "docs/LIBRARY.md"

ITEM = re.compile(r"^pub (?:const )?(fn|struct|enum|trait|const|type) (\w+)", re.M)
METHOD = re.compile(r"^    pub (?:const )?fn (\w+)", re.M)
IMPL = re.compile(r"^impl(?:<[^\n{]*?>)? (\w+)(?:<[^\n{]*>)?(?:\s+where[^{]*)? \{\n(.*?)^\}", re.M | re.S)
CLAUSE = re.compile(r"\s(?:requires|ensures|decreases|terminates|where ghost)\b")


@dataclass
class Item:
    """A public name: its kind, its signature without contract, what its comment says first, and the
    public functions of a type or a trait."""

    kind: str
    name: str
    signature: str
    says: str
    methods: list[Item] = field(default_factory=list)


@dataclass
class Group:
    """Names that a root re-exports together, and what the comment above them says."""

    says: str
    items: list[Item] = field(default_factory=list)


def first_sentence(comment: str) -> str:
    """The first sentence of a comment, on one line."""
    line = " ".join(comment.split())
    end = re.search(r"\.(?= |$)", line)
    return line[: end.end()] if end else line


def comment_before(text: str, at: int) -> str:
    """The lines `///` that stand before an item, above its attributes."""
    lines = text[:at].split("\n")[:-1]
    said: list[str] = []
    for line in reversed(lines):
        bare = line.strip()
        if bare.startswith("///"):
            said.append(bare.removeprefix("///").strip())
        elif not bare.startswith("#[") and not (not said and bare.endswith(")]")):
            break
    return " ".join(reversed(said))


def without_comments(text: str) -> str:
    return re.sub(r"^\s*//.*\n|\s*//.*$", "", text, flags=re.M)


def on_one_line(text: str) -> str:
    line = " ".join(without_comments(text).split())
    line = re.sub(r"([(\[<]) ", r"\1", line)
    return re.sub(r",? ([)\]>])(?!=)", r"\1", line).replace(", }", " }")


def function_signature(text: str, at: int) -> str:
    """A function's head, from `fn` to where its contract or its body begins."""
    depth = 0
    for end in range(at, len(text)):
        sign = text[end]
        depth += (sign in "([") - (sign in ")]")
        if depth == 0 and (sign in "{;" or CLAUSE.match(text, end)):
            return on_one_line(text[at:end])
    return on_one_line(text[at:])


def body_of(text: str, at: int) -> str:
    """What stands between the braces that open next; empty where an item has none."""
    opens = re.compile(r"[{;]").search(text, at)
    if opens is None or opens[0] == ";":
        return ""
    depth = 0
    for end in range(opens.start(), len(text)):
        depth += (text[end] == "{") - (text[end] == "}")
        if depth == 0:
            return text[opens.end() : end]
    return ""


def variants(body: str) -> str:
    parts: list[str] = []
    depth, start = 0, 0
    body = re.sub(r"#\[[^\n]*\]\n", "\n", without_comments(body)) + ","
    for at, sign in enumerate(body):
        depth += (sign in "({[") - (sign in ")}]")
        if sign == "," and depth == 0:
            if body[start:at].strip():
                parts.append(on_one_line(body[start:at]))
            start = at + 1
    return ", ".join(parts)


def type_signature(kind: str, text: str, at: int) -> str:
    """A struct with its public fields, an enum with its variants."""
    head = re.compile(r"[^{;=(]*").match(text, at)
    assert head
    name = on_one_line(re.split(r"\swhere\b", head[0])[0])
    if kind == "enum":
        return f"{name} {{ {variants(body_of(text, at))} }}"
    if text[head.end()] == "(":
        return on_one_line(text[at : text.index(";", at)])
    fields = re.findall(r"^    pub (?!ghost)(\w+: [^\n]*?),?$", body_of(text, at), re.M)
    private = re.search(r"^    (?:pub\([a-z]+\) )?\w+: ", body_of(text, at), re.M)
    parts = fields + ([".."] if private else [])
    return f"{name} {{ {', '.join(parts)} }}" if parts else name


def traits_functions(body: str) -> list[Item]:
    return [Item("fn", m[1], function_signature(body, m.start() + 4),
                 first_sentence(comment_before(body, m.start())))
            for m in re.finditer(r"^    fn (\w+)", body, re.M)]


class Crate:
    """The sources of one library."""

    def __init__(self, folder: pathlib.Path) -> None:
        self.name = folder.name
        self.folder = folder / "src"
        self.root = (self.folder / "lib.rt").read_text()
        self.texts = {file.relative_to(self.folder).with_suffix("").as_posix(): file.read_text()
                      for file in sorted(self.folder.rglob("*.rt"))}
        self.methods: dict[str, list[Item]] = {}
        for text in self.texts.values():
            for impl in IMPL.finditer(text):
                found = self.methods.setdefault(impl[1], [])
                for m in METHOD.finditer(impl[2]):
                    at = impl[2].index("fn", m.start())
                    found.append(Item("fn", m[1], function_signature(impl[2], at),
                                      first_sentence(comment_before(impl[2], m.start()))))

    def says(self) -> str:
        head = re.match(r"(?://![^\n]*\n)*", self.root)
        assert head
        return first_sentence(re.sub(r"^//! ?", "", head[0], flags=re.M).split("\n\n")[0])

    def item(self, name: str, text: str) -> Item | None:
        for m in ITEM.finditer(text):
            if m[2] == name:
                return self.described(m[1], m[2], text, m.start())
        return None

    def described(self, kind: str, name: str, text: str, start: int) -> Item:
        at = start + len("pub ")
        says = first_sentence(comment_before(text, start))
        if kind == "fn":
            return Item(kind, name, function_signature(text, text.index("fn", at)), says)
        if kind in ("const", "type"):
            return Item(kind, name, on_one_line(text[at : text.index(";", at)]), says)
        if kind == "trait":
            head = re.compile(r"[^{]*").match(text, at)
            assert head
            return Item(kind, name, on_one_line(head[0]), says, traits_functions(body_of(text, at)))
        return Item(kind, name, type_signature(kind, text, at), says, self.methods.get(name, []))

    def found(self, path: list[str]) -> Item | None:
        """The item that a path of this crate's own modules leads to, through their own `pub use`."""
        text = self.texts.get("/".join(path[:-1]), "")
        item = self.item(path[-1], text)
        if item:
            return item
        for tree in re.findall(r"^pub use ([^;]+);", text, re.M):
            for inner in leaves(tree):
                if inner[-1] != path[-1]:
                    continue
                below = inner[1:] if inner[0] == "crate" else path[:-1] + inner
                return self.found(below)
        return None


def leaves(tree: str) -> list[list[str]]:
    """The paths of a use tree: `a::{b, c}` gives a::b and a::c."""
    head, brace, names = tree.partition("{")
    parts = [part for part in head.strip().split("::") if part]
    if not brace:
        return [parts]
    return [parts + [name.strip()] for name in names.rstrip("} \n").split(",") if name.strip()]


def groups_of(crate: Crate, crates: dict[str, Crate]) -> list[Group]:
    """What a root has, group by group: a group begins at a comment before `pub use` or `pub mod`."""
    groups: list[Group] = []
    said: list[str] = []
    pending = ""
    for line in crate.root.split("\n"):
        if line.startswith("// "):
            said.append(line[3:])
        elif line.startswith("pub use") or pending:
            pending += line
            if not pending.endswith(";"):
                continue
            if said or not groups:
                groups.append(Group(" ".join(said)))
            said = []
            for path in leaves(pending.removeprefix("pub use").removesuffix(";")):
                item = shown(crate, crates, path)
                if not any(item.name == it.name for it in groups[-1].items):
                    groups[-1].items.append(item)
            pending = ""
        elif line.startswith("pub mod"):
            module = line.removeprefix("pub mod ").removesuffix(";")
            text = crate.texts[module]
            items = [crate.described(m[1], m[2], text, m.start()) for m in ITEM.finditer(text)]
            for it in items:
                it.name = f"{module}::{it.name}"
            groups.append(Group(f"`{module}`: " + first_sentence(
                re.sub(r"^//! ?", "", text.split("\n\n")[0].split("ghost use")[0], flags=re.M)), items))
            said = []
        elif not line.startswith("//") and line.strip():
            said = []
    if not groups:
        groups = [Group("", [crate.described(m[1], m[2], crate.root, m.start())
                             for m in ITEM.finditer(crate.root)])]
    return groups


def shown(crate: Crate, crates: dict[str, Crate], path: list[str]) -> Item:
    """A re-exported name: the crate's own, or another crate's, which is named alone."""
    if path[0] in crate.texts:
        item = crate.found(path)
        if item is None:
            raise SystemExit(f"surface: {crate.name}: nothing public at {'::'.join(path)}")
        return item
    return Item("of", path[-1], f"{'::'.join(path)}", "")


def libraries() -> dict[str, Crate]:
    """The crates with a root that is a library's, in the order of crates.txt."""
    order = [line.partition(":")[0].split()[0] for line in (TOP / "crates.txt").read_text().split("\n")
             if line and not line.startswith("#")]
    return {name: Crate(TOP / "crates" / name) for name in order
            if (TOP / "crates" / name / "src/lib.rt").exists()}


def entry(item: Item) -> list[str]:
    if item.kind == "of":
        return [f"- `{item.name}`, as `{item.signature}`"]
    said = f": {item.says}" if item.says else ""
    lines = [f"- `{item.signature}`{said}"]
    for it in item.methods:
        told = f": {it.says}" if it.says else ""
        lines.append(f"  - `{it.signature}`{told}")
    return lines


def page(crates: dict[str, Crate]) -> str:
    """The names with their signatures: each crate, its groups, its items."""
    lines: list[str] = []
    for crate in crates.values():
        groups = groups_of(crate, crates)
        lines += [f"# {crate.name}", "", crate.says(), ""]
        for group in groups:
            if group.says:
                lines += [group.says, ""]
            for item in group.items:
                lines += entry(item)
            lines.append("")
    return "\n".join(lines).rstrip("\n") + "\n"


def listed(item: Item) -> str:
    """An item by its kind and name, with the names of its functions."""
    if item.kind == "of":
        return f"- {item.signature}"
    methods = ", ".join(it.name for it in item.methods)
    return f"- {item.kind} {item.name}" + (f": {methods}" if methods else "")


def names(crates: dict[str, Crate]) -> str:
    """The list of names: of each crate one line an item, in the order of its root."""
    lines = ["# Public names", "",
             "The names that each library exports, with the functions of its types and traits. A test compares this",
             "list with the sources; `python3 tests/gate/surface.py --write` makes it anew, and `--page CRATE` prints a",
             "crate's names with their signatures and comments.", ""]
    for crate in crates.values():
        items = [item for group in groups_of(crate, crates) for item in group.items]
        if items:
            lines += [f"## {crate.name}", "", *map(listed, items), ""]
    return "\n".join(lines).rstrip("\n") + "\n"


def differs(made: str) -> bool:
    """Shows how the kept list differs from what the sources say."""
    kept = PAGE.read_text() if PAGE.exists() else ""
    shown_name = PAGE.relative_to(TOP).as_posix()
    sys.stdout.writelines(difflib.unified_diff(kept.splitlines(True), made.splitlines(True),
                                               f"{shown_name} (kept)", f"{shown_name} (sources)"))
    return kept != made


def main(arguments: list[str]) -> int:
    crates = libraries()
    if arguments[:1] == ["--page"] and set(arguments[1:]) <= set(crates):
        sys.stdout.write(page({name: crates[name] for name in arguments[1:] or crates}))
        return 0
    if arguments not in ([], ["--write"]):
        print(__doc__)
        return 2
    made = names(crates)
    if arguments:
        PAGE.write_text(made)
        return 0
    wrong = differs(made)
    print("0 passed, 1 failed" if wrong else "1 passed, 0 failed")
    return 1 if wrong else 0


if __name__ == "__main__":
    sys.exit(main(sys.argv[1:]))
