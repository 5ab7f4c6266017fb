"""The words of job and lab files: names of 48 letters, tags of 32 and 64, sixteen of them."""
from __future__ import annotations

import re

import pytest
from fizgruk import words
from fizgruk.words import BadFile


@pytest.mark.parametrize("name", ["a", "A-Z_0.9", ".", "n" * 48])
def test_a_name(name: str) -> None:
    assert words.name_of(name, "type") == name


@pytest.mark.parametrize("value, why", [
    (None, "there is no type"),
    (3, "type isn't a text"),
    ("", "type '' isn't a name of 1 to 48 letters, digits, '-', '_', '.'"),
    ("a b", "type 'a b' isn't a name of 1 to 48 letters, digits, '-', '_', '.'"),
    ("é", "type 'é' isn't a name of 1 to 48 letters, digits, '-', '_', '.'"),
    ("a\n", "type 'a\\n' isn't a name of 1 to 48 letters, digits, '-', '_', '.'"),
    ("n" * 49, f"type {'n' * 49!r} isn't a name of 1 to 48 letters, digits, '-', '_', '.'"),
])
def test_no_name(value: object, why: str) -> None:
    with pytest.raises(BadFile, match=f"^{re.escape(why)}$"):
        words.name_of(value, "type")


def test_a_whole_number() -> None:
    assert words.whole_of(3, "count") == 3
    for value, why in ((None, "there is no count"), (True, "count isn't a whole number"), (3.0, "count isn't a whole")):
        with pytest.raises(BadFile, match=why):
            words.whole_of(value, "count")


def test_a_table() -> None:
    assert words.table_of({"a": 1}, "roles") == {"a": 1}
    with pytest.raises(BadFile, match="^roles isn't a table$"):
        words.table_of([], "roles")


def test_tags() -> None:
    assert words.tags_of(None) == []
    most = ["a", "a=b", "k" * 32, f"{'k' * 32}={'v' * 64}", "name=b1", *["x"] * 11]
    assert (len(most), words.tags_of(most)) == (16, most)


@pytest.mark.parametrize("value, why", [
    ("hdmi", "tags isn't an array of texts"),
    ([1], "tags isn't an array of texts"),
    (["a"] * 17, "there are 17 tags, and 16 at most are taken"),
    (["="] * 17, "there are 17 tags, and 16 at most are taken"),
    (["a", "a="], "'a=' isn't a tag: a key, or key=value"),
    (["=a"], "'=a' isn't a tag"),
    (["a=b=c"], "'a=b=c' isn't a tag"),
    ([""], "'' isn't a tag"),
    (["k" * 33], "isn't a tag"),
    ([f"a={'v' * 65}"], "isn't a tag"),
])
def test_no_tags(value: object, why: str) -> None:
    with pytest.raises(BadFile, match=re.escape(why)):
        words.tags_of(value)
