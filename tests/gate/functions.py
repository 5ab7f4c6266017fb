"""The functions of a crate's source files, which stand as rt fmt leaves them."""
from __future__ import annotations

import os
import re
from typing import Dict, List, NamedTuple, Sequence, Tuple

FUNCTION = re.compile(r"( *)(?:pub(?:\([a-z]+\))? )?(?:(?:const|unsafe) )*fn (\w+)")
TYPE = re.compile(r"(?m)^(?:pub(?:\([a-z]+\))? )?(?:struct|enum) (\w+)")


class Function(NamedTuple):
    """A function of a crate's source: its name as the prover prints it, and its lines, from 1, with its attributes,
    where the prover places some of its errors."""

    name: str
    file: str
    first: int
    last: int

    def proof_folders(self) -> Tuple[str, ...]:
        """The folders of its proof files. One that calls itself has a + before its name."""
        *above, own = self.name.split("::")[1:]
        return tuple("/".join(["proofs", *above, it, ""]) for it in (own, f"+{own}"))

    def has(self, file: str, line: int) -> bool:
        """Whether this place lies in the function or in its proof files."""
        return file == self.file and self.first <= line <= self.last or file.startswith(self.proof_folders())


def module_of(file: str) -> str:
    """Returns the path of a file's module below its crate, as queries::boards of src/queries/boards.rt."""
    path = file.removeprefix("src/").removesuffix(".rt")
    return "" if path in ("lib", "main") else path.replace("/", "::")


def joined(*parts: str) -> str:
    return "::".join(it for it in parts if it)


def modules_of_types(texts: Dict[str, str]) -> Dict[str, str]:
    """Returns the module of each struct and enum, by its name, of the texts of a crate's files."""
    return {name: module_of(file) for file, text in texts.items() for name in TYPE.findall(text)}


def impl_name(head: str, module: str, types: Dict[str, str]) -> str:
    """Returns the path under which the prover has an impl's functions.

    Of `impl<T> Keeper<T> {` that is the type's own, of `impl From<Vec<T>> for Fault {` it is FaultFromVec of the module
    where the impl stands, of `impl Put for Pair<'_, Row> {` it is PairRowPut, and of `impl Put for &[u8] {`
    RefSliceU8Put.
    """
    own = re.match(r"impl<([^{]*?)>(?= )", head)
    parameters = re.findall(r"(?:^|, )'?(\w+)", own[1]) if own else []
    rest = (head[own.end() :] if own else head.removeprefix("impl")).partition(" where ")[0]
    of_trait, is_trait, of_type = rest.rpartition(" for ")
    shape = ""
    for sign, word in (("&mut ", "RefMut"), ("&", "Ref"), ("[", "Slice")):
        if of_type.startswith(sign):
            shape, of_type = shape + word, of_type.removeprefix(sign)
    named = re.search(r"(\w+)\s*(<[^{]*>)?\]?\s*(?:\{|$)", of_type)
    assert named, f"an impl of no type: {head}"
    name, arguments = named.groups("")
    if shape:
        name = shape + (name[:1].upper() + name[1:] if name not in parameters else "")
    if not is_trait:
        return joined(types.get(name, module), name)
    words = re.findall(r"(?<!')\b[A-Z]\w*", arguments + of_trait)
    return joined(module, name + "".join(it for it in words if it not in parameters))


def end_of(lines: Sequence[str], at: int, indent: str) -> int:
    """Returns where the function whose head is at this index ends: at its closing brace, or where what holds it ends."""
    for end in range(at, len(lines)):
        line = lines[end]
        if line in (f"{indent}}}", f"{indent}{{}}") or end == at and line.endswith("}"):
            return end
        if line.strip() and not line.startswith(indent):
            return end - 1
    return len(lines) - 1


def start_of(lines: Sequence[str], at: int, indent: str) -> int:
    """Returns where the comments and attributes of the function whose head is at this index begin."""
    while at and lines[at - 1].strip() and lines[at - 1].startswith(indent):
        if lines[at - 1].endswith(("{", "}", ";")) and not lines[at - 1].strip().startswith("//"):
            break
        at -= 1
    return at


def functions_of(crate: str, file: str, text: str, types: Dict[str, str]) -> List[Function]:
    """Returns the functions of a source file, in order."""
    found: List[Function] = []
    inside, lines = "", text.split("\n")
    for at, line in enumerate(lines):
        if re.match(r"impl\b", line):
            whole = " ".join(it.strip() for it in lines[at : at + 6]).partition("{")[0] + "{"
            inside = impl_name(whole, module_of(file), types)
        elif line == "}":
            inside = ""
        head = FUNCTION.match(line)
        if head:
            within = inside if head[1] and inside else module_of(file)
            name = joined(crate, within, head[2])
            first, last = start_of(lines, at, head[1]), end_of(lines, at, head[1])
            found.append(Function(name, file, first + 1, last + 1))
    return found


def sources_of(folder: str) -> Dict[str, str]:
    """Returns the texts of a crate's source files by their paths in it."""
    found = {}
    for at, _, names in os.walk(f"{folder}/src"):
        for name in names:
            with open(f"{at}/{name}", encoding="utf-8") as it:
                found[os.path.relpath(f"{at}/{name}", folder)] = it.read()
    return found
