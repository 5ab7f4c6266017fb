"""farm-from-labgrid: a lab file from the places that labgrid's coordinator keeps."""
import argparse
import os
from typing import Any, Dict, List, Optional, Sequence, Tuple

from farm_import import lab_file
from fizgruk import notes
from fizgruk._tools import parsers

PROGRAM = "farm-from-labgrid"
ABOUT = """\
Reads PLACES, the places.yaml in which labgrid's coordinator keeps its places, and writes a lab \
file that 'farm import' takes: a board for each place, with its tags."""
FAULT = "PLACES or the lab file can't be used, PLACES isn't of its kind, or PyYAML isn't there."
# What a place has that is carried over, or told in words of its own.
KNOWN = (
    "name", "tags", "aliases", "comment", "matches", "acquired", "acquired_resources",
    "reservation", "allowed",
)
# When a place was made and changed, which each has.
TIMES = ("created", "changed")
NOTHING: Tuple[object, ...] = (None, "", "null", "Null", "NULL", "~", [], {})


def main(words: Optional[Sequence[str]] = None) -> int:
    return lab_file.run(PROGRAM, lambda: parser_of().parse_args(words), lab_of)


def parser_of() -> parsers.Parser:
    parser = lab_file.parser_of(PROGRAM, ABOUT, lab_file.statuses_of(FAULT))
    parser.option("places", "PLACES", "The coordinator's places.yaml.")
    about = """\
The tag whose value is the board's type (default %(default)s). The tag stays a tag."""
    parser.option("--type-tag", "KEY", about, default="board")
    about = """\
Write the places' comments there, as notes of boards (/etc/farm/notes.toml has the lab's); none may be
there."""
    parser.option("--notes", "FILE", about)
    about = "The type of places without that tag, which are not told then (default place)."
    parser.option("--type", "NAME", about)
    return parser


def lab_of(options: argparse.Namespace) -> lab_file.LabFile:
    """The lab of a coordinator's places."""
    if options.notes and os.path.lexists(options.notes):
        raise lab_file.Unreadable(f"{options.notes} is there: name another, and put both together")
    lab, comments = lab_file.LabFile(), {}
    for name, place in places_of(options.places).items():
        before = set(lab.boards)
        carry(lab, name, place, options)
        comment = place.get("comment")
        if comment not in NOTHING and options.notes:
            comments.update({it: str(comment) for it in lab.boards.keys() - before})
    if options.notes:
        write_notes(lab, options.notes, comments)
    return lab


def write_notes(lab: lab_file.LabFile, file: str, comments: Dict[str, str]) -> None:
    """Writes the comments of boards as their notes."""
    lines = []
    for board, comment in sorted(comments.items()):
        if len(comment) > notes.LONGEST:
            lab.note(f"place {board}", f"its comment is cut to {notes.LONGEST:,} letters")
        text = lab_file.basic(comment[: notes.LONGEST])
        lines += [f"[boards.{lab_file.key_of(board)}]", f"comment = {text}", ""]
    with open(file, "x", encoding="utf-8") as new:
        new.write("\n".join(lines))


def places_of(file: str) -> Dict[str, Dict[str, Any]]:
    """The places of a file by their names. All words in it are texts, as they are written."""
    with open(file, encoding="utf-8") as text:
        places = lab_file.yaml_of(file, text, "BaseLoader")
    places = {} if places in NOTHING else places
    if not isinstance(places, dict):
        raise lab_file.Unreadable(f"{file} has no places by their names")
    for name, place in places.items():
        # (each has something that the coordinator writes of it, which exporters' and clients' files have nowhere)
        if not isinstance(place, dict) or place.keys().isdisjoint({*KNOWN, *TIMES}):
            what = f"'{name}' has nothing that a place has; the coordinator's is places.yaml"
            raise lab_file.Unreadable(f"{file} is no file of places: {what}")
    return places


def carry(lab: lab_file.LabFile, name: str, place: Dict[str, Any], options: argparse.Namespace) -> None:
    """Makes a place a board, and notes what a board has no room for."""
    where = f"place {name}"
    tags = {} if place.get("tags") in NOTHING else place["tags"]
    if not isinstance(tags, dict) or not all(isinstance(it, str) for it in tags.values()):
        raise lab_file.Unreadable(f"{where}: its tags aren't words by their keys")
    kind = tags.get(options.type_tag)
    if not kind:
        kind = options.type or "place"
        lab.note(where, f"it has no tag {options.type_tag}: its type is {kind}", options.type is not None)
    kind = lab.add_type(where, kind)
    lab.add_board(where, name, kind, [f"{key}={value}" for key, value in tags.items()])
    note_rest(lab, where, place, bool(options.notes))


def note_rest(lab: lab_file.LabFile, where: str, place: Dict[str, Any], has_notes: bool) -> None:
    """Notes the rest of a place; its comment isn't lost where notes of boards are written."""
    for alias in _items(place.get("aliases")):
        lab.note(where, f"alias {alias} isn't carried over")
    if place.get("comment") not in NOTHING and not has_notes:
        lab.note(where, f"comment {' '.join(str(place['comment']).split())!r} isn't carried over")
    for match in _items(place.get("matches")):
        lab.note(where, f"match {_match_text(match)} isn't carried over", True)
    for key in ("acquired", "reservation"):
        if place.get(key) not in NOTHING:
            lab.note(where, f"{key} {place[key]} isn't carried over: the board is nobody's")
    for user in _items(place.get("allowed")):
        lab.note(where, f"allowed {user} isn't carried over: a board is its holder's alone")
    for key in place:
        if key not in KNOWN and place[key] not in NOTHING:
            lab.note(where, f"{key} {place[key]} isn't carried over", key in TIMES)


def _items(value: Any) -> List[Any]:
    return value if isinstance(value, list) else []


def _match_text(match: Any) -> str:
    """A match as labgrid prints it: exporter, group, class, and the resource's name."""
    if not isinstance(match, dict):
        return str(match)
    words = [match.get(key) or "*" for key in ("exporter", "group", "cls")]
    text = "/".join(words + ([match["name"]] if match.get("name") not in NOTHING else []))
    return text + (f" -> {match['rename']}" if match.get("rename") not in NOTHING else "")
