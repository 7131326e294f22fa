#!/usr/bin/env python3
"""Tests of the document check: python3 tools/test_check_documents.py

tools/fixtures/good is a small repository without a fault; each of its files has the ending `.fixture`, which is
taken off in a copy, since the gate refuses Rattle files and a second crates.txt anywhere else. Each file of
tools/fixtures/broken makes one wrong tree of it and has every fault that the check must find there, by lines:

    file: PATH      which the next pairs change
    old: TEXT       stands once in that file; \\n is an end of line
    new: TEXT       what stands there instead
    times: N        how often `new` stands there (1 if left out)
    add: PATH       a new file, which has what `new` says
    remove: PATH    a file to take away
    program: TEXT   a shell script in the place of the built program
    fault: TEXT     a line that the check must print
"""

import contextlib
import io
import shutil
import subprocess
import sys
import tempfile
import unittest
from pathlib import Path

import check_documents

HERE = Path(__file__).resolve().parent
GOOD, BROKEN = HERE / "fixtures/good", HERE / "fixtures/broken"
PROGRAM = "crates/dyntensor/out/dyntensor"


def make_tree(top):
    for file in GOOD.rglob("*.fixture"):
        to = top / file.relative_to(GOOD).with_suffix("")
        to.parent.mkdir(parents=True, exist_ok=True)
        shutil.copyfile(file, to)


def write_program(top, text):
    (top / PROGRAM).parent.mkdir(parents=True, exist_ok=True)
    (top / PROGRAM).write_text(f"#!/bin/sh\n{text}\n")
    (top / PROGRAM).chmod(0o755)


def steps_of(text):
    """The lines of a broken tree as pairs of a word and a text."""
    pairs = [line.partition(":")[::2] for line in text.splitlines()]
    return [(word, rest[1:].replace("\\n", "\n")) for word, rest in pairs]


def apply(top, steps):
    path, old, new, times = "", None, None, 1
    for word, text in [*steps, ("end", "")]:
        if new is not None and word != "times":
            put(top / path, old, new * times)
            new, times = None, 1
        if word == "file":
            path = text
        elif word == "add":
            path, old = text, ""
            (top / path).write_text("")
        elif word == "old":
            old = text
        elif word == "new":
            new = text
        elif word == "times":
            times = int(text)
        elif word == "remove":
            (top / text).unlink()
        elif word == "program":
            write_program(top, text)


def put(file, old, new):
    text = file.read_text(encoding="utf-8")
    if text.count(old) != 1:
        raise ValueError(f"{file.name}: '{old}' stands there {text.count(old)} times")
    file.write_text(text.replace(old, new), encoding="utf-8")


def check(top):
    """The status, the faults and the notes that the check answers."""
    said = io.StringIO()
    with contextlib.redirect_stdout(said):
        status = check_documents.main([top])
    *lines, last = said.getvalue().splitlines()
    if not last.startswith("documents: "):
        raise ValueError(said.getvalue())
    return status, [it for it in lines if not it.startswith("note: ")], [it for it in lines if it.startswith("note: ")]


class Documents(unittest.TestCase):
    maxDiff = None

    def in_tree(self, steps):
        with tempfile.TemporaryDirectory() as room:
            make_tree(Path(room))
            apply(Path(room), steps)
            return check(Path(room))

    def test_good_tree_passes(self):
        status, faults, notes = self.in_tree([])
        self.assertEqual((status, faults), (0, []))
        self.assertEqual(len(notes), 1)
        self.assertIn("examples/shout: not replayed", notes[0])

    def test_good_tree_is_replayed_on_the_built_program(self):
        status, faults, notes = self.in_tree([("program", "cat m")])
        self.assertEqual((status, faults), (0, []))
        self.assertEqual(notes, ["note: examples/shout: replayed, 2 lines as stored"])

    def test_program_that_does_not_run_is_a_fault(self):
        with tempfile.TemporaryDirectory() as room:
            make_tree(Path(room))
            write_program(Path(room), "cat m")
            (Path(room) / PROGRAM).chmod(0o644)
            status, faults, _ = check(Path(room))
        self.assertEqual((status, len(faults)), (1, 1))
        self.assertIn("examples/shout:1: the program didn't run to its end on it", faults[0])

    def test_wanted_status_is_that_of_the_file(self):
        with tempfile.TemporaryDirectory() as room:
            make_tree(Path(room))
            write_program(Path(room), "cat m; exit 2")
            (Path(room) / "examples/shout/status").write_text("2\n")
            self.assertEqual(check(Path(room))[:2], (0, []))

    def test_sizes_over_the_aims_are_notes(self):
        steps = [("file", "crates/low/src/lib.rt"), ("old", "    assert_eq(last(three()), Some(3));\n"), ("new", "    assert_eq(last(three()), Some(3));\n"), ("times", "400")]
        status, faults, notes = self.in_tree(steps)
        self.assertEqual((status, faults), (0, []))
        self.assertIn("note: crates/low/src/lib.rt: 431 lines, where 400 are aimed at", notes)
        self.assertIn("note: crates/low/src/lib.rt:30: last_of_three has 400 lines, where 40 are aimed at", notes)

    def test_long_sentences_are_notes(self):
        status, faults, notes = self.in_tree([("file", "crates/low/README.md"), ("old", "How long it takes."), ("new", "How long " + "and how much " * 10 + "it takes.")])
        self.assertEqual((status, faults), (0, []))
        self.assertIn("note: crates/low/README.md: 1 sentences of more than 25 words, the longest of 34", notes)

    def test_no_checkout_is_refused(self):
        with tempfile.TemporaryDirectory() as room:
            ran = subprocess.run([sys.executable, "-B", HERE / "check_documents.py", room], capture_output=True, text=True)
            self.assertEqual((ran.returncode, ran.stdout), (1, f"{room}/crates.txt:1: there is no such file; give the top of a checkout\n"))

    def test_each_broken_tree_is_refused_with_its_faults(self):
        files = sorted(BROKEN.glob("*.txt"))
        self.assertTrue(files)
        for file in files:
            with self.subTest(file.stem):
                steps = steps_of(file.read_text(encoding="utf-8"))
                wanted = [text for word, text in steps if word == "fault"]
                status, faults, _ = self.in_tree([it for it in steps if it[0] != "fault"])
                self.assertEqual(status, 1)
                self.assertEqual(sorted(faults), sorted(wanted))


if __name__ == "__main__":
    unittest.main()
