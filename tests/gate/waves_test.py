#!/usr/bin/env python3
"""Tests of waves.py: of its parts on texts, and of the whole on a crate of one file, which the prover checks."""
from __future__ import annotations

import os
import subprocess
import sys
import tempfile
import types
import unittest
from typing import Tuple

sys.path.insert(0, os.path.dirname(os.path.abspath(__file__)))
sys.dont_write_bytecode = True
import functions
import waves

SOURCE = """\
/// A heap.
pub struct Heap<T> {
    items: T,
}

impl<T: Drop> Heap<T> {
    /// Its size.
    pub fn size(&self) -> usize
        ensures {
            result ≡ 1
        }
    {
        1
    }

    fn none() {}
}

impl<'a, T: Drop> From<Held<T>> for Heap<'a> {
    fn from(held: Held<T>) -> Heap<'a> {
        held.heap()
    }
}

trait Sized {
    fn width(&self) -> usize;
}

const WIDTH: usize = 4;

#[tactic(auto)]
pub(crate) fn width() -> usize {
    WIDTH
}
"""


class Functions(unittest.TestCase):
    def setUp(self) -> None:
        self.found = functions.functions_of("shed", "src/a/heap.rt", SOURCE, {"Heap": "heaps"})

    def test_names_are_those_that_the_prover_prints(self) -> None:
        names = [it.name for it in self.found]
        self.assertEqual(
            names,
            [
                "shed::heaps::Heap::size",
                "shed::heaps::Heap::none",
                "shed::a::heap::HeapFromHeld::from",
                "shed::a::heap::width",
                "shed::a::heap::width",
            ],
        )

    def test_lines_go_from_its_comments_and_attributes_to_its_closing_brace(self) -> None:
        self.assertEqual([(it.first, it.last) for it in self.found], [(7, 14), (16, 16), (20, 22), (26, 26), (31, 34)])

    def test_the_root_has_no_module(self) -> None:
        self.assertEqual(functions.functions_of("shed", "src/lib.rt", "fn one() {}", {})[0].name, "shed::one")

    def test_an_impl_has_the_words_of_its_type_and_of_its_trait(self) -> None:
        names = {
            "impl<'a, T: Drop> From<Held<T>> for Heap<'a> {": "HeapFromHeld",
            "impl Upsert for Tagged<'_, BoardRow> {": "TaggedBoardRowUpsert",
            "impl<R: Read> Read for Tally<R> {": "TallyRead",
            "impl Input for &[u8] {": "RefSliceU8Input",
            "impl<R: Read> Input for &mut R {": "RefMutInput",
        }
        for head, name in names.items():
            self.assertEqual(functions.impl_name(head, "", {}), name)

    def test_types_are_found_with_their_modules(self) -> None:
        self.assertEqual(functions.modules_of_types({"src/a/heap.rt": SOURCE}), {"Heap": "a::heap"})

    def test_places_are_its_lines_and_its_proof_files(self) -> None:
        size = self.found[0]
        self.assertTrue(size.has("src/a/heap.rt", 13))
        self.assertFalse(size.has("src/a/heap.rt", 15))
        self.assertFalse(size.has("src/heap.rt", 13))
        self.assertTrue(size.has("proofs/heaps/Heap/size/Answers.antt", 400))
        self.assertTrue(size.has("proofs/heaps/Heap/+size/Proof.antt", 1))
        self.assertFalse(size.has("proofs/heaps/Heap/sizes/Proof.antt", 1))


class Edits(unittest.TestCase):
    def setUp(self) -> None:
        self.room = tempfile.TemporaryDirectory()
        self.addCleanup(self.room.cleanup)
        self.crate = types.SimpleNamespace(folder=self.room.name, name="shed")
        self.sources = {"src/heap.rt": SOURCE}
        self.write("src/heap.rt", SOURCE)

    def write(self, path: str, text: str) -> str:
        file = f"{self.room.name}/{path}"
        os.makedirs(os.path.dirname(file), exist_ok=True)
        with open(file, "w", encoding="utf-8") as it:
            it.write(text)
        return file

    def read(self, text: str) -> waves.Edit:
        return waves.read_edit(self.crate, self.write("wrong/an.edit", text), self.sources)

    def test_an_edit_has_its_function_and_its_lines(self) -> None:
        edit = self.read("file: src/heap.rt\nold:         1\nnew:         2\n")
        self.assertEqual((edit.name, edit.function.name), ("an", "shed::heap::Heap::size"))
        self.assertEqual(edit.lines, {("src/heap.rt", 13): "        2"})

    def test_an_absent_text_cannot_be_applied(self) -> None:
        with self.assertRaisesRegex(waves.BadEdit, "0 times, and not once"):
            self.read("file: src/heap.rt\nold: three\nnew: four\n")

    def test_what_is_no_function_cannot_be_tried(self) -> None:
        with self.assertRaisesRegex(waves.BadEdit, "not the text of one function"):
            self.read("file: src/heap.rt\nold: usize = 4;\nnew: usize = 5;\n")

    def test_two_functions_cannot_be_tried(self) -> None:
        with self.assertRaisesRegex(waves.BadEdit, "not the text of one function"):
            self.read("file: src/heap.rt\nold:         1\nnew:         2\nold:     WIDTH\nnew:     2\n")

    def test_a_constant_is_tried_under_a_law(self) -> None:
        edit = self.read("law: heap::width\nfile: src/heap.rt\nold: usize = 4;\nnew: usize = 5;\n")
        self.assertEqual((edit.function.name, edit.is_alone), ("shed::heap::width", True))
        self.assertEqual(edit.lines, {("src/heap.rt", 29): "const WIDTH: usize = 5;"})

    def test_a_law_has_to_be_there_and_its_edit_outside_of_functions(self) -> None:
        with self.assertRaisesRegex(waves.BadEdit, "no function heap::height"):
            self.read("law: heap::height\nfile: src/heap.rt\nold: usize = 4;\nnew: usize = 5;\n")
        with self.assertRaisesRegex(waves.BadEdit, "not the text of one function"):
            self.read("law: heap::width\nfile: src/heap.rt\nold:         1\nnew:         2\n")

    def test_an_edit_of_a_constant_has_a_wave_of_its_own(self) -> None:
        constant = self.read("law: heap::width\nfile: src/heap.rt\nold: usize = 4;\nnew: usize = 5;\n")
        first = self.read("file: src/heap.rt\nold:         1\nnew:         2\n")
        other = self.read("file: src/heap.rt\nold: held.heap()\nnew: held\n")
        self.assertEqual(waves.waves_of([constant, first, other]), [[constant], [first, other]])
        self.assertEqual(waves.waves_of([first, constant, other]), [[first, other], [constant]])

    def test_one_function_has_one_edit_in_a_wave(self) -> None:
        first = self.read("file: src/heap.rt\nold:         1\nnew:         2\n")
        other = self.read("file: src/heap.rt\nold: held.heap()\nnew: held\n")
        again = self.read("file: src/heap.rt\nold:         1\nnew:         3\n")
        self.assertEqual(waves.waves_of([first, other, again]), [[first, other], [again]])
        text = waves.edited(self.sources, [first, other])["src/heap.rt"]
        self.assertEqual(text, SOURCE.replace("        1\n", "        2\n").replace("held.heap()", "held"))


class Judgements(unittest.TestCase):
    def judge(self, *lines: str) -> Tuple[bool, str]:
        function = functions.Function("shed::heap::size", "src/heap.rt", 8, 14)
        return waves.judge(waves.Edit("an", function, {}), lines, {"src/heap.rt": ""})

    LAST = "only=2 proved=0"
    STANDS = "fn shed::heap::size: not proved"

    def test_refused_at_its_lines(self) -> None:
        said = self.judge("note: src/heap.rt:8:1: it is not proved that it ensures", self.STANDS, self.LAST)
        self.assertEqual(said, (True, "refused: note: src/heap.rt:8:1: it is not proved that it ensures"))

    def test_refused_in_its_proof_files(self) -> None:
        self.assertTrue(self.judge("./proofs/heap/size/Answers.antt:9:1: error: `returns`", self.STANDS, self.LAST)[0])

    def test_another_functions_error_does_not_refuse_it(self) -> None:
        stands = "fn shed::heap::size: no proof: it calls `shed::heap::one`, which is not proved"
        other = "note: src/heap.rt:20:1: it is not proved that it ensures"
        cites = "./proofs/heap/size/Proof.antt:1:1: error: `one` was not admitted"
        is_refused, text = self.judge(other, cites, stands, self.LAST)
        self.assertFalse(is_refused)
        self.assertTrue(text.startswith("NOT REFUSED: "))

    def test_what_a_type_keeps_is_told_at_the_functions_name(self) -> None:
        told = "fn shed::heap::size: no proof: expected answers; `search` did not prove `invariant_of-result`"
        self.assertTrue(self.judge(told, self.LAST)[0])
        self.assertFalse(self.judge(told.replace("::size", "::one"), self.STANDS, self.LAST)[0])

    def test_advice_is_no_error(self) -> None:
        advice = "./proofs/heap/size/Answers.antt:9:1: note: `omega` was called early"
        self.assertFalse(self.judge(advice, self.STANDS, self.LAST)[0])

    def test_a_proof_that_names_what_is_gone_says_little(self) -> None:
        gone = "./proofs/heap/size/Answers.antt:9:1: error: `returns`: `c` has no field `.size`"
        is_refused, text = self.judge(gone, self.STANDS, self.LAST)
        self.assertTrue(is_refused)
        self.assertIn("says little", text)

    def test_what_does_not_compile_is_a_bad_edit(self) -> None:
        is_refused, text = self.judge("src/heap.rt:13:9: error[E0308]: mismatched types", "rattle: stopped")
        self.assertFalse(is_refused)
        self.assertIn("ended without a verdict: src/heap.rt:13:9", text)

    def test_what_the_prover_does_not_cover_is_a_bad_edit(self) -> None:
        stands = "fn shed::heap::size: no proof: expected `size_spec`; the borrow checker does not cover this function yet"
        is_refused, text = self.judge(stands, self.LAST)
        self.assertFalse(is_refused)
        self.assertTrue(text.startswith("BAD EDIT: the prover does not cover the edited text"))


class Libraries(unittest.TestCase):
    """What rt ci left is taken where it is all of one run and nothing has changed since."""

    def setUp(self) -> None:
        room = tempfile.TemporaryDirectory()
        self.addCleanup(room.cleanup)
        self.lower, self.upper = self.library(room.name, "lower", 100), self.library(room.name, "upper", 200)
        self.upper.deps = [self.lower]

    def library(self, room: str, name: str, made_at: int) -> types.SimpleNamespace:
        folder = f"{room}/{name}"
        made = types.SimpleNamespace(name=name, folder=folder, rlib=f"{folder}/out/rlib/{name}.rlib", deps=[])
        os.makedirs(made.rlib)
        os.makedirs(f"{folder}/src")
        self.touch(f"{folder}/src/lib.rt", 50)
        os.utime(made.rlib, (made_at, made_at))
        return made

    def touch(self, file: str, at: int) -> None:
        with open(file, "w", encoding="utf-8"):
            pass
        os.utime(file, (at, at))

    def stand(self) -> bool:
        return waves.is_of_one_run([self.lower, self.upper])

    def test_of_one_run(self) -> None:
        self.assertTrue(self.stand())

    def test_a_changed_source(self) -> None:
        self.touch(f"{self.lower.folder}/src/lib.rt", 150)
        self.assertFalse(self.stand())

    def test_a_lower_one_made_anew(self) -> None:
        os.utime(self.lower.rlib, (250, 250))
        self.assertFalse(self.stand())

    def test_one_of_other_commands(self) -> None:
        self.touch(f"{self.lower.folder}/out/rlib/stamp", 100)
        self.assertFalse(self.stand())

    def test_a_missing_one(self) -> None:
        os.rmdir(self.lower.rlib)
        self.assertFalse(self.stand())


class Whole(unittest.TestCase):
    """The script on a crate with one edit of each kind."""

    LIB = """\
#![tactic(auto)]
ghost use Rattle.std.specs.Prelude.{◌≡◌, ◌+◌, ◌<◌};

/// The sum of three numbers.
pub fn sum(a: u64, b: u64, c: u64) -> u64
    requires { a + b + c < 1000 }
    ensures { result ≡ a + b + c }
{
    let start = a;
    start + b + c
}

/// One more.
pub fn next(a: u64) -> u64
    requires { a + 1 < 1000 }
    ensures { result ≡ a + 1 }
{
    sum(a, 1, 0)
}
"""
    EDITS = {
        "leaves_out_one": "old: start + b + c\nnew: start + b\n",
        "other_name": "old: let start = a;\nnew: let start = b - b + a;\n",
        "other_order": "old: sum(a, 1, 0)\nnew: sum(1, a, 0)\n",
        "not_there": "old: sum(a, 2, 0)\nnew: sum(a, 3, 0)\n",
        "two_more": "old: sum(a, 1, 0)\nnew: sum(a, 2, 0)\n",
    }

    def test_each_kind_of_edit(self) -> None:
        with tempfile.TemporaryDirectory() as room:
            for path, text in {
                "crates.txt": "tiny:\n",
                "crates/tiny/src/lib.rt": self.LIB,
                **{f"crates/tiny/wrong/{it}.edit": f"file: src/lib.rt\n{text}" for it, text in self.EDITS.items()},
            }.items():
                os.makedirs(os.path.dirname(f"{room}/{path}"), exist_ok=True)
                with open(f"{room}/{path}", "w", encoding="utf-8") as it:
                    it.write(text)
            words = [sys.executable, waves.__file__]
            ran = subprocess.run(words, cwd=room, stdin=subprocess.DEVNULL, capture_output=True, text=True)
        said = dict(it.partition(": ")[::2] for it in ran.stdout.splitlines() if it.startswith("tiny/"))
        self.assertTrue(said["tiny/leaves_out_one"].startswith("refused: "), ran.stdout)
        self.assertTrue(said["tiny/two_more"].startswith("refused: "), ran.stdout)
        self.assertTrue(said["tiny/other_name"].startswith("NOT REFUSED: "), ran.stdout)
        self.assertTrue(said["tiny/other_order"].startswith("NOT REFUSED: "), ran.stdout)
        self.assertIn("BAD EDIT: an 'old:' text is in src/lib.rt 0 times", said["tiny/not_there.edit"])
        self.assertEqual(ran.stdout.splitlines()[-1], "2 passed, 3 failed")
        self.assertEqual(ran.returncode, 1)


if __name__ == "__main__":
    unittest.main()
