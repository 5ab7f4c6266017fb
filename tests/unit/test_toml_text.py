"""The reader of TOML: beside Python's own, what 1.1 has beyond 1.0, and lines by their keys."""
from __future__ import annotations

import os
import subprocess
import sys
from typing import Any, Callable, Dict, List, Optional, Union

import pytest
from fizgruk import toml_text
import served

TEXTS = [
    *(served.read(os.path.join(served.TOP, "examples", f"{it}.toml")) for it in ("lab", "boot", "multinode")),
    'a=1\nb.c="x"\n[d]\ne=[1,\n2, #x\n]\n[[f]]\ng=1\n[[f]]\ng=2\n[f.h]\ni=1.5e3\n',
    'x = """\na\\\n   b"c""""\n',
    "y='''a'b'''",
    '[types."a.b"]\ncheck="hours"\nevery=3',
    "",
    "a={b.c=1,b.d=2}",
    '[boards]\nb1={type="x",tags=[]}',
    "[a]\r\nb=1\r\n",
    'a="\\u00e9\\n"',
    "a=0x1f\nb=0o17\nc=0b11\nd=1_000\ne=-3\nf=true\ng=-inf",
    "[[a.b]]\n[a]\nb=1",
    "[a]\n[a]\n",
    "a={b=1}\n[a.c]\n",
    "a=[{b=1}]\n[[a]]\n",
    "a=01",
    "a=1.",
    'a="\\q"',
    "a=1 b=2",
    "[a.b.c]\nx=1\n[a]\nb.c.d=2\n",
    "[a.b.c]\nx=1\n[a]\nb.d=2\n",
    "[a]\nb.c=1\nb.d=2\n[a.e]\nf=1\n",
    "a.b=1\n[a]\nc=1",
    "a.b=1\na.b.c=2",
    "[a.b]\n[a]\nc=1\n",
    "[[a]]\n[a.b]\n[[a]]\n[a.b]\n",
    "[a]\n[[a]]\n",
    "[[a]]\n[a]\n",
    "=1",
    "a",
    "a=",
    "a={,}",
    'a="x\ny"',
    "a=[1,2",
    "a=[1 2]",
    "a=[,]",
    'a="\x01"',
    "[a",
    "[]",
    "a=truex",
    "a=1_",
    "a=+0x1",
    "a=0X1",
    '"a b"=1\n\'c\'=2\n""=3',
    'a."b.c".d=1',
]
# what TOML 1.1 has beyond 1.0, and what it comes to
NEWER: List[Any] = [
    ("a={b=1,}", {"a": {"b": 1}}),
    ("a = {\n  b = 1, # one\n  c = [\n],\n}\n", {"a": {"b": 1, "c": []}}),
    ('a="\\x62\\e"', {"a": "b\x1b"}),
    ("a=10:30\nb=2026-11-26 10:30Z", {"a": ("10:30",), "b": ("2026-11-26 10:30Z",)}),
    ("a=2026-02-30T10:30Z", None),
    ("a=24:00", None),
    ('a="\\ud800"', None),
    # no table is opened again
    ("[a.b]\nx=1\n[a]\nb.c=2\n", None),
    ("[a]\nb.c=1\n[a.b]\n", None),
    ("a=1\na=2", None),
]


def read(reader: Callable[[str], Dict[str, Any]], text: str) -> Union[Dict[str, Any], str]:
    try:
        return reader(text)
    except ValueError:
        return "no TOML"


@pytest.mark.skipif(sys.version_info < (3, 11), reason="this Python has no reader of TOML")
@pytest.mark.parametrize("text", TEXTS)
def test_it_reads_as_pythons_own_reader_does(text: str) -> None:
    import tomllib

    assert read(toml_text.loads, text) == read(tomllib.loads, text)


@pytest.mark.parametrize("text, wanted", NEWER)
def test_what_is_newer_than_pythons_own_reader(text: str, wanted: Optional[Dict[str, Any]]) -> None:
    try:
        found = toml_text.tree_of(text)
    except toml_text.NotToml:
        assert wanted is None
    else:
        assert found == wanted


# Reads the text at its input, in as much memory as such a text may take.
READS = """
import resource, sys
from fizgruk import toml_text
text = sys.stdin.read()
resource.setrlimit(resource.RLIMIT_AS, (300_000_000, 300_000_000))
try:
    print("read", len(toml_text.tree_of(text)))
except toml_text.NotToml as fault:
    print(fault)
"""


@pytest.mark.parametrize("form", ["{}a = 1", "[{}a]", "[[{}a]]", "x = {{}a = 1}", "x = 1\ny.z = '{}'\n{}a = 1"], ids=range(5))
def test_a_key_of_more_parts_than_the_desk_takes_is_refused_at_once(form: str) -> None:
    """The square of its parts would take gigabytes."""
    text = form.replace("{}", "a." * 30_000)
    ran = subprocess.run(
        [sys.executable, "-c", READS], input=text, stdout=subprocess.PIPE, text=True, check=False, timeout=600,
        env={**os.environ, "PYTHONPATH": os.path.join(served.TOP, "python/src")},
    )
    fault = f"a key has more than 80 parts (at line {1 + text.count(chr(10))})"
    assert (ran.returncode, ran.stdout[:300]) == (0, f"no TOML: {fault}\n")


def test_a_line_of_many_dots_is_read() -> None:
    text = f"x = '{'.' * 1000}' # {'.' * 1000}\n{'a.' * 2}a = 1"
    assert toml_text.tree_of(text) == {"x": "." * 1000, "a": {"a": {"a": 1}}}
    assert list(toml_text.tree_of("a." * 79 + "a = 1")) == ["a"]


def test_what_stands_deep_is_found_by_what_is_above() -> None:
    text = "x = 1\n[a]\n" + "b." * 40 + "b = 1\n"
    assert toml_text.line_of(text, ["a", *["b"] * 3]) == 3
    assert toml_text.told_at(text, ["a", *["b"] * 41]) == " (at line 3, column 29)"


@pytest.mark.parametrize("text, line", [("a=1\nb==2\n", 2), ("\n\n[a\n", 3), ("a=1\n[b]\nc=1\nc=2", 4)])
def test_it_names_the_line_of_a_fault(text: str, line: int) -> None:
    with pytest.raises(ValueError, match=rf"\(at line {line}\)$"):
        toml_text.loads(text)


@pytest.mark.parametrize("path, line", [("x", 1), ("a.b", 2), ("a.b.c", 3), ("a.d.e", 7), ("a.f", 9)])
def test_what_stands_in_a_file_is_found_by_its_line(path: str, line: int) -> None:
    text = "x = 1\n[a.b]\nc = [\n1,\n]\n[a]\nd.e = 3\n\nf = '''\n\n'''\n"
    assert toml_text.line_of(text, path.split(".")) == line


@pytest.mark.parametrize("text, line", [("= no TOML", 1), ("[types]\n= no TOML\n", 2), ("a = [\n1,\n", 1)])
def test_in_a_text_that_stays_no_toml_a_line_is_the_first_behind_what_is_one(text: str, line: int) -> None:
    assert toml_text.line_of(text, ["types", "bbb"]) == line
