#!/usr/bin/env python3
"""waves.py [CRATE | CRATE/EDIT ..]: tries the wrong bodies crates/NAME/wrong/*.edit, many in one check.
waves.py --read: only reads them, within a second: each has to be the text of one function, or of a constant under
a law, and to apply once.
waves.py --tests [NAME ..]: tries the bodies of tests/edge, which no clause can refuse, by tests (edge.py).

An edit has the form of a must-fail edit of rt ci: a line 'file: src/..', then pairs of lines 'old: TEXT' and
'new: TEXT', each old text once in the file. All of an edit lies in one function. rt ci checks a crate once for
each edit in must-fail/. Here a copy of the crate gets many edits at once, at most one a function, and the check
reads only the edited functions and what they call: that is a wave. Two edits of one function go into two waves.
An edit of a constant lies in no function: its line 'law: PATH' names the function in the crate that has to fail,
and it is tried alone, since other functions may fail for it too.

An edit is refused where its function is not proved and an error stands at the function's own lines or in its own
proof files. What calls an edited function stays unproved too, but has no error of its own, so no edit passes for
the sake of another. Nor does one fail for it: the prover leaves what calls an edited function, so an edit that a
wave doesn't refuse is tried once more alone.

The libraries below are those that rt ci left in crates/*/out, where nothing has changed since, or those of other
commands of rt; what is missing is built. The last lines are the processor time and 'N passed, M failed'; the
status is 1 where one failed.
"""
from __future__ import annotations

import os
import re
import resource
import signal
import sys
import tempfile
from typing import Any, Collection, Dict, List, NamedTuple, Optional, Sequence, Set, Tuple

sys.dont_write_bytecode = True
import edge
from functions import Function, functions_of, modules_of_types, sources_of
from toolchain import load_rt


rt: Any = load_rt()
Texts = Dict[str, str]  # of a crate's source files, by their paths in it
Told = Tuple[str, bool, str]  # an edit, whether it was refused, and what to say
Key = Tuple[str, str]  # a crate and what is done with it


class BadEdit(Exception):
    """An edit that cannot be tried, and why."""


class Edit(NamedTuple):
    """A wrong body: its name, the function that has to fail, its new lines by file and number, and whether it is
    tried alone."""

    name: str
    function: Function
    lines: Dict[Tuple[str, int], str]
    is_alone: bool = False


# --- edits and waves ---


LAW = re.compile(r"(?m)^law: (\S+)$")


def law_of(crate: Any, file: str, sources: Texts) -> Optional[Function]:
    """Returns the function that an edit's line 'law: PATH' names, None without such a line, or raises BadEdit."""
    with open(file, encoding="utf-8") as it:
        said = LAW.search(it.read())
    if not said:
        return None
    for path, text in sources.items():
        for function in functions_of(crate.name, path, text, modules_of_types(sources)):
            if function.name == f"{crate.name}::{said[1]}":
                return function
    raise BadEdit(f"there is no function {said[1]}")


def read_edit(crate: Any, file: str, sources: Texts) -> Edit:
    """Returns the edit that a file says, or raises BadEdit."""
    if not file.endswith(".edit"):
        raise BadEdit("an edit's name ends in .edit")
    texts, why = rt.read_edit(file, crate.folder)
    if why:
        raise BadEdit(why)
    lines: Dict[Tuple[str, int], str] = {}
    touched: Set[Optional[Function]] = set()
    for path, text in texts.items():
        if path not in sources:
            raise BadEdit(f"{path} is no source file")
        functions = functions_of(crate.name, path, sources[path], modules_of_types(sources))
        # (an edit's texts are single lines, so the edited file has as many lines as before)
        for at, (old, new) in enumerate(zip(sources[path].split("\n"), text.split("\n")), 1):
            if old != new:
                lines[path, at] = new
                touched.add(next((it for it in reversed(functions) if it.has(path, at)), None))
    name, law = os.path.basename(file).removesuffix(".edit"), law_of(crate, file, sources)
    if law and touched == {None}:
        return Edit(name, law, lines, is_alone=True)
    function = touched.pop() if len(touched) == 1 else None
    if law or function is None:
        raise BadEdit("what it changes is not the text of one function, or of none under a law")
    return Edit(name, function, lines)


def waves_of(edits: Sequence[Edit]) -> List[List[Edit]]:
    """Returns the edits in as few waves as can be with at most one edit a function in each."""
    waves: List[List[Edit]] = []
    for edit in edits:
        wave = next((it for it in waves if all(edit.function != other.function for other in it) and not it[0].is_alone), None)
        if wave is None or edit.is_alone:
            waves.append([edit])
        else:
            wave.append(edit)
    return waves


def edited(sources: Texts, wave: Sequence[Edit]) -> Texts:
    """Returns the texts of the files that a wave changes."""
    lines: Dict[str, List[str]] = {}
    for edit in wave:
        for (path, at), line in edit.lines.items():
            lines.setdefault(path, sources[path].split("\n"))[at - 1] = line
    return {path: "\n".join(it) for path, it in lines.items()}


# --- what the prover says of a wave ---

PLACE = re.compile(r"(?:note: )?(?:\./)?((?:src|proofs)/\S+?):(\d+):\d+: (.*)")
# What only tells that a proof names something that the edit took away, or that another's proof is missing.
NAMES = re.compile(r"has no field|is not in scope|has no `")
CITES = re.compile(r"was not admitted")
UNCOVERED = re.compile(r"the borrow checker does not cover")
NOT_REFUSED = "NOT REFUSED"


def errors_in(function: Function, lines: Sequence[str]) -> List[str]:
    """Returns the lines that refuse something at the function's place."""
    found = []
    for line in lines:
        at = PLACE.match(line)
        is_error = at and (" error: " in f" {at[3]}" or "it is not proved" in at[3])
        if at and is_error and function.has(at[1], int(at[2])) and not CITES.search(line):
            found.append(line)
        # (what a type keeps of a value that the function makes has no place but its name)
        if line.startswith(f"fn {function.name}: no proof: ") and "did not prove" in line:
            found.append(line)
    return found


def judge(edit: Edit, lines: Sequence[str], changed: Texts) -> Tuple[bool, str]:
    """Returns whether the check whose lines these are refused the edit, and what to say."""
    own = errors_in(edit.function, lines)
    bad = next((it for it in own if rt.unread(it, changed)), "")
    if bad:
        return False, f"BAD EDIT: the prover cannot read the edited text, so no contract was tried: {bad[:200]}"
    if not re.match(r"only=\d+ proved=\d+$", lines[-1]):
        first = next((it for it in lines if "error" in it), lines[0])
        return False, f"BAD EDIT: the check of its wave ended without a verdict: {(own or [first])[0][:300]}"
    stands = [it for it in lines if it.startswith(f"fn {edit.function.name}: ")]
    if not stands:
        return False, f"BAD EDIT: the prover names no function {edit.function.name}"
    if UNCOVERED.search(stands[0]):
        return False, f"BAD EDIT: the prover does not cover the edited text, so no contract was tried: {stands[0][:300]}"
    if not own or stands[0].endswith(": proved"):
        return False, f"{NOT_REFUSED}: {edit.function.name} has no error of its own with this edit"
    first = next((it for it in own if not NAMES.search(it)), "")
    if not first:
        why = "only because a proof file names what the edit took away, so this says little"
        return True, f"refused ({why}: change a value and keep the names): {own[0][:160]}"
    return True, f"refused: {first[:160]}"


def try_edit(crate: Any, edit: Edit, found: Told, wave: Sequence[Edit], sources: Texts, kept: str) -> Told:
    """Returns what came of an edit: what was found in its wave, or alone where others of the wave may have hidden it."""
    if len(wave) == 1 or not found[2].startswith(NOT_REFUSED):
        return found
    return try_wave(crate, [edit], sources, kept)[0]


def try_wave(crate: Any, wave: Sequence[Edit], sources: Texts, kept: str) -> List[Told]:
    """Checks the crate's copy with a wave's edits, and returns for each whether it was refused and what to say."""
    only = [word for edit in wave for word in ("--only", edit.function.name)]
    texts = edited(sources, wave)
    ran = rt.checked(crate, texts, ["--jobs", "1", *only], kept)
    if ran.returncode == -signal.SIGKILL:
        # (most likely for memory)
        ran = rt.checked(crate, texts, ["--jobs", "1", *only], kept)
    lines = [it for it in ran.stdout.split("\n") if it.strip()] or ["it said nothing"]
    if rt.rtlib.STALE.search(ran.stdout):
        lines = ["error: the kept work of a library could not be used"]
    return [(f"{crate.name}/{edit.name}", *judge(edit, lines, texts)) for edit in wave]


def edit_files(crate: Any, chosen: Collection[str] = ()) -> List[str]:
    """Returns the files of a crate's edits: of those that are chosen, or of all."""
    folder = f"{crate.folder}/wrong"
    names = sorted(os.listdir(folder)) if os.path.isdir(folder) else []
    return [f"{folder}/{it}" for it in names if not chosen or it.removesuffix(".edit") in chosen]


def edits_of(crate: Any, sources: Texts, chosen: Collection[str] = ()) -> Tuple[List[Edit], List[Told]]:
    """Returns the edits of a crate that can be tried, and of the others what to say."""
    edits: List[Edit] = []
    told: List[Told] = []
    for file in edit_files(crate, chosen):
        try:
            edits.append(read_edit(crate, file, sources))
        except BadEdit as why:
            told.append((f"{crate.name}/{os.path.basename(file)}", False, f"BAD EDIT: {why}"))
    return edits, told


def read_all(crates: Sequence[Any]) -> int:
    """Reads the edits of the crates, says which can't be tried, and returns the status."""
    read = [edits_of(it, sources_of(it.folder)) for it in crates]
    tell([it for _, told in read for it in told])
    bad = sum(len(told) for _, told in read)
    print(f"{sum(len(edits) for edits, _ in read)} further wrong bodies apply, {bad} don't")
    return 1 if bad else 0


def try_edits(crate: Any, chosen: Collection[str] = ()) -> List[bool]:
    """Tries the edits of a crate, says of each what came of it, and returns whether each was refused."""
    sources = sources_of(crate.folder)
    edits, told = edits_of(crate, sources, chosen)
    waves = waves_of(edits)
    # (further waves take what the first checked of the functions that they leave alone)
    with tempfile.TemporaryDirectory(prefix="waves-") as kept:
        for wave in waves:
            found = try_wave(crate, wave, sources, kept)
            told += [try_edit(crate, edit, it, wave, sources, kept) for edit, it in zip(wave, found)]
    return tell(told)


def tell(told: Sequence[Told]) -> List[bool]:
    """Prints what came of a crate's edits, and returns whether each was refused."""
    # (one call, since crates end side by side)
    print("".join(f"{name}: {text}\n" for name, _, text in told), end="", flush=True)
    return [is_refused for _, is_refused, _ in told]


# --- the libraries below ---


def libraries_of(crates: Sequence[Any]) -> List[Any]:
    """Returns the repository's libraries below these crates, each after those that it uses."""
    return list(dict.fromkeys(it for crate in crates for it in crate.below()))


def changed_at(library: Any) -> float:
    """Returns when the newest of a library's files was written."""
    return float(max(os.path.getmtime(it) for it in rt.rtlib.files_of(library.folder)))


def is_of_one_run(libraries: Sequence[Any]) -> bool:
    """Returns whether one rt ci left the rlibs of all these libraries, and nothing has changed since."""
    made: Dict[str, float] = {}
    for it in libraries:
        if not os.path.isdir(it.rlib) or os.path.exists(f"{os.path.dirname(it.rlib)}/stamp"):
            return False
        made[it.name] = os.path.getmtime(it.rlib)
        if made[it.name] < max([changed_at(it), *(made[dep.name] for dep in it.deps)]):
            return False
    return True


def tasks_of(crates: Sequence[Any], chosen: Dict[str, Set[str]]) -> Dict[Key, Any]:
    """Returns the tasks that try the crates' edits, and before them those that build what is missing below."""
    libraries = libraries_of(crates)
    stand = is_of_one_run(libraries)
    tasks: Dict[Key, Any] = {}
    for it in libraries:
        waits = [(dep.name, "library") for dep in it.below()]

        def build(given: Dict[Key, Any], jobs: int, it: Any = it, waits: List[Key] = waits) -> bool:
            is_well = all(given[key] for key in waits)
            return is_well and (stand or not it.build_rlib(["--jobs", str(jobs)], anew=False))

        tasks[it.name, "library"] = (waits, it.count(rb"\n"), rt.need(it), build)
    for it in crates:
        waits = [(dep.name, "library") for dep in it.below()]

        def tried(given: Dict[Key, Any], _jobs: int, it: Any = it, waits: List[Key] = waits) -> List[bool]:
            if all(given[key] for key in waits):
                return try_edits(it, chosen.get(it.name, ()))
            return tell([(it.name, False, "a library below was not built")])

        tasks[it.name, "edits"] = (waits, it.count(rb"\n"), rt.need(it), tried)
    return tasks


def chosen_edits(words: Sequence[str]) -> Dict[str, Set[str]]:
    """Returns the crates that the words name, each with the edits that are chosen of it, none for all."""
    chosen: Dict[str, Set[str]] = {}
    for word in words:
        name, _, edit = word.partition("/")
        chosen.setdefault(name, set()).update([edit] if edit else [])
    return chosen


def main(words: List[str]) -> int:
    os.environ.pop(rt.rtlib.ALLOW_C, None)
    if words[:1] == ["--tests"]:
        return edge.main(words[1:])
    reads = words == ["--read"]
    chosen = chosen_edits([] if reads else words)
    crates = [it for it in rt.rtlib.crates_below(os.getcwd())
              if edit_files(it, chosen.get(it.name, ())) and (not chosen or it.name in chosen)]
    lost = {*chosen} - {it.name for it in crates}
    if lost or not crates:
        sys.exit(f"waves.py: no such file in crates/NAME/wrong here for {', '.join(sorted(lost)) or 'any crate'}")
    if reads:
        return read_all(crates)
    held = rt.rtlib.lock([*crates, *libraries_of(crates)])
    given = rt.in_lanes(tasks_of(crates, chosen))
    for it in held:
        os.close(it)
    refused = [it for crate in crates for it in given[crate.name, "edits"]]
    used = resource.getrusage(resource.RUSAGE_CHILDREN)
    print(f"wrong bodies: {(used.ru_utime + used.ru_stime) / 60:.1f} processor minutes")
    print(f"{refused.count(True)} passed, {refused.count(False)} failed")
    return 0 if all(refused) else 1


if __name__ == "__main__":
    sys.exit(main(sys.argv[1:]))
