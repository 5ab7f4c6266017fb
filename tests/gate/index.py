#!/usr/bin/env python3
"""index.py: writes the index of tests/README.md from the first lines of the files; with --check it only says whether it is so."""
import ast
import pathlib
import sys

TESTS = pathlib.Path(__file__).resolve().parent.parent
README = TESTS / "README.md"
BEGIN, END = "<!-- index -->\n", "<!-- /index -->\n"


def about(file):
    """The first sentence of what a file says of itself."""
    text = file.read_text(encoding="utf-8")
    if file.suffix == ".py":
        said = ast.get_docstring(ast.parse(text)) or ""
    else:
        lines = text.splitlines()[1:]
        said = "\n".join(it.lstrip("# ") for it in lines[: next((at for at, it in enumerate(lines) if not it.startswith("#")), 0)])
    paragraph = " ".join(said.split("\n\n")[0].split())
    first = paragraph.partition(". ")[0].rstrip(".:")
    return first.partition("; ")[0] if len(first) > 200 else first


def is_listed(file):
    if file.suffix == ".sh":
        return file.parent.name == "program"
    return file.name.startswith("test_") or "\n    python3 tests/" in file.read_text(encoding="utf-8")


def lines():
    """A line a file, by folder."""
    files = [it for it in sorted(TESTS.rglob("*")) if it.suffix in (".py", ".sh") and "__pycache__" not in it.parts]
    return [f"- `{it.relative_to(TESTS)}`: {about(it)}\n" for it in files if is_listed(it)]


def main():
    text = README.read_text(encoding="utf-8")
    head, _, rest = text.partition(BEGIN)
    tail = rest.partition(END)[2]
    new = "".join([head, BEGIN, *lines(), END, tail])
    if sys.argv[1:] == ["--check"]:
        return new != text
    README.write_text(new, encoding="utf-8")
    return 0


if __name__ == "__main__":
    sys.exit(main())
