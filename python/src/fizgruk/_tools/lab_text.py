"""A lab file's types and boards, read as `farm import` reads them."""
from typing import Any, Dict, List, NamedTuple, Sequence, Tuple

from fizgruk import toml_text, words
from fizgruk.words import LONGEST_EVERY, MOST_BOARDS, MOST_OF_A_TYPE, MOST_TYPES, BadFile

CHECKS = ("none", "hours", "jobs")
# The keys of a lab file's tables, and what is said of another that isn't misspelt.
KEYS = {"types": ("check", "every"), "boards": ("type", "tags")}
HINTS = {("boards", "health"): ": desk health sets it", ("types", "every"): ": it has no check"}


class Addition(NamedTuple):
    """A command that adds a type or a board; `section` is the table of the file that it is in."""

    section: str
    name: str
    body: Dict[str, Any]

    def told(self) -> str:
        return f"{self.section[:-1]} {self.name}"

    def key(self) -> str:
        return f"{self.section[:-1]}.{self.name}"


def additions_of(text: str) -> List[Addition]:
    """The commands of a lab file in the order of `farm import`: the types in the byte order of
    their names, then the boards in theirs. The first fault is raised as BadFile."""
    tree = toml_text.tree_of(text)
    found = []
    for section, body_of, named in (("types", type_of, words.name_of), ("boards", board_of, words.board_name_of)):
        rows = words.table_of(tree.get(section, {}), section)
        for name in sorted(rows, key=str.encode):
            try:
                named(name, "its name")
                row = words.table_of(rows[name], "it")
                found.append(Addition(section, name, {"name": name, **body_of(row)}))
            except BadFile as fault:
                line = toml_text.line_of(text, (section, name))
                raise BadFile(f"line {line}: {section[:-1]} {name}: {fault}") from fault
    return found


def warnings_of(text: str, more: Sequence[str] = ()) -> List[str]:
    """What a lab file has that the desk will ignore, each key once, in the order of their lines;
    and that it has nothing else. `more` are keys of boards that somebody else has a use for."""
    tree, used = toml_text.tree_of(text), [("boards", it) for it in more]
    found: Dict[Tuple[str, str], List[Sequence[str]]] = {}
    for section, rows in tree.items():
        if section not in KEYS:
            found.setdefault(("", section), []).append((section,))
            continue
        for name, row in rows.items():
            for key in row:
                if is_ignored(section, key, row) and (section, key) not in used:
                    found.setdefault((section, key), []).append((section, name, key))
    lines = sorted((toml_text.line_of(text, paths[0]), warning_of(it, paths)) for it, paths in found.items())
    empty = [] if any(tree.get(it) for it in KEYS) else ["it has neither types nor boards"]
    return [f"line {line}: {warning}" for line, warning in lines] + empty


def beyond_limits(types: int, kinds: Sequence[str]) -> List[str]:
    """What a farm has no room for, of a lab of so many types, and of boards of these types."""
    counts = [("types", types, MOST_TYPES), ("boards", len(kinds), MOST_BOARDS)]
    counts += [(f"boards of type {it}", kinds.count(it), MOST_OF_A_TYPE) for it in sorted(set(kinds))]
    return [
        f"it has {count} {what}, and a farm has room for {most}"
        for what, count, most in counts if count > most
    ]


def is_ignored(section: str, key: str, row: Dict[str, Any]) -> bool:
    if (section, key) == ("types", "every"):
        return bool(row.get("check", "none") == "none")
    return key not in KEYS[section]


def warning_of(key: Tuple[str, str], paths: List[Sequence[str]]) -> str:
    """That a key is ignored, at its first place, and how often more; and which one may be meant."""
    section, word = key
    where = f"{section[:-1]} {paths[0][1]}: " if section else ""
    more = f", and {len(paths) - 1} more" if len(paths) > 1 else ""
    meant = words.nearest(word, KEYS.get(section, KEYS))
    hint = f": is {meant} meant?" if meant and meant != word else HINTS.get(key, "")
    return f"{where}{word} is ignored{more}{hint}"


def type_of(row: Dict[str, Any]) -> Dict[str, Any]:
    check = row.get("check", "none")
    if check not in CHECKS:
        raise BadFile("check is none of none, hours and jobs")
    if check == "none":
        return {}
    every = words.whole_of(row.get("every"), "every")
    if not 1 <= every <= LONGEST_EVERY:
        raise BadFile(f"every is {every}, and is 1 to {LONGEST_EVERY:,}")
    return {"check": check, "every": every}


def board_of(row: Dict[str, Any]) -> Dict[str, Any]:
    kind = words.name_of(row.get("type"), "type")
    tags = words.tags_of(row.get("tags"))
    for tag in tags:
        if tag.split("=")[0] == "name":
            raise BadFile(f"tag {tag} isn't a board's own: its name is its tag of this key")
    return {"type": kind, "tags": tags}
