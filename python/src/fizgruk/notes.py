"""Notes of boards: where one stands, whose it is, where one reads on. A lab keeps them in a file of TOML,
of which farm-dispatch makes notes.json in its folder, for the site."""
import dataclasses
import json
from typing import Any, Dict

from fizgruk import calls, present, toml_text, words
from fizgruk.words import BadFile

FILE, LAB_FILE = "notes.json", "/etc/farm/notes.toml"
KEYS = ("place", "owner", "wiki", "comment", "reason")
ADDRESSES = ("https://", "http://")
LONGEST = 1000  # letters of a text
LONGEST_FILE = 1_000_000
Note = Dict[str, str]


@dataclasses.dataclass(frozen=True)
class BoardNotes:
    """Each board's notes by their keys, and what is wrong with the lab's file, if something is: then
    these are what it said before."""

    boards: Dict[str, Note]
    fault: str = ""

    def of(self, board: str) -> Note:
        return self.boards.get(board, {})


def notes_in(text: str) -> Dict[str, Note]:
    """What a lab's file says. The first fault is raised as BadFile, with its line."""
    tree = toml_text.tree_of(text)
    for section in tree:
        if section != "boards":
            line = toml_text.line_of(text, (section,))
            raise BadFile(f"line {line}: there is no table {section}: [boards.NAME] is meant")
    boards = words.table_of(tree.get("boards", {}), "boards")
    found = {}
    for name, row in boards.items():
        try:
            words.name_of(name, "its name")
            found[name] = _note_of(words.table_of(row, "it"))
        except BadFile as fault:
            line = toml_text.line_of(text, ("boards", name))
            raise BadFile(f"line {line}: board {name}: {fault}") from fault
    return found


def with_reason(text: str, board: str, reason: str) -> str:
    """A lab's file in which it is noted why a board has its health; an empty reason is taken out. Raises BadFile
    where that can't be written into it line by line."""
    before = notes_in(text)
    row = toml_text.tree_of(text).get("boards", {}).get(board)
    lines = text.splitlines(keepends=True)
    said = [f"reason = {json.dumps(reason, ensure_ascii=False)}\n"] if reason else []
    if row is None:
        lines += ["" if text.endswith("\n") or not text else "\n", f'[boards."{board}"]\n', *said] if reason else []
    else:
        at = toml_text.line_of(text, ("boards", board, *(["reason"] if "reason" in row else [])))
        lines[at - 1 if "reason" in row else at : at] = said
    after = {**before, board: {**before.get(board, {}), "reason": reason}}
    try:
        if _without_empty(notes_in("".join(lines))) == _without_empty(after):
            return "".join(lines)
    except BadFile as fault:
        raise BadFile(f"the reason of board {board} can't be written: {fault}") from fault
    raise BadFile(f"board {board} is written in another way there than as [boards.{board}]")


def _without_empty(boards: Dict[str, Note]) -> Dict[str, Note]:
    return {name: {key: it.strip() for key, it in row.items() if it.strip()} for name, row in boards.items() if any(row.values())}


def _note_of(row: Dict[str, Any]) -> Note:
    for key, value in row.items():
        if key not in KEYS:
            raise BadFile(f"{key} is none of {', '.join(KEYS)}")
        if not isinstance(value, str) or len(value) > LONGEST:
            raise BadFile(f"{key} is no text of at most {LONGEST:,} letters")
    if row.get("wiki") and not row["wiki"].startswith(ADDRESSES):
        raise BadFile(f"wiki begins with none of {' and '.join(ADDRESSES)}")
    return {key: row[key].strip() for key in KEYS if row.get(key, "").strip()}


def told(said: object) -> BoardNotes:
    """What notes.json says, as far as it is that."""
    said = said if isinstance(said, dict) else {}
    boards = said.get("boards")
    found: Dict[str, Note] = {}
    for name, row in boards.items() if isinstance(boards, dict) else ():
        if isinstance(row, dict):
            note = {key: row[key][:LONGEST] for key in KEYS if isinstance(row.get(key), str)}
            found[str(name)] = note
    return BoardNotes(found, str(said.get("fault") or "")[:LONGEST])


def notes_of(desk: calls.Looker) -> BoardNotes:
    """The notes that the dispatcher shows; none where there are none."""
    return told(present.said_in(desk, FILE))
