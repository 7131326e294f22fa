#!/usr/bin/env python3
"""Tests of the replayer: worked rows, and that each example stores what it prints."""

import re
import tempfile
import unittest
from pathlib import Path

import check_report
import random_workloads
from replay import NOT_BUILT, Run, run, stored_run, value_of

EXAMPLES = Path(__file__).resolve().parent.parent / "examples"
FORMATS = EXAMPLES.parent / "docs/FORMATS.md"
ROW = re.compile(r"^\| (.+) \| `([^`]*)` \| ([0-5]) \|$", re.M)
V = "tensor v 5 as flat latches 1 / session s"
B = "tensor B 2 2 as flat flat latches 2 / load B b / print B"
BC = "tensor B 2 2 as flat flat latches 1 / tensor C 2 2 as flat flat latches 1 / load B b / load C c / session s"
BC_FILES = {"b": "1 1 1 / 1 2 2 / 2 2 3", "c": "1 1 4 / 2 1 5 / 2 2 6"}
# A script over one tensor, and what is printed.
SCRIPTS = [
    ("", "session 1 / history 0"),
    ("set v 2 7 / get v 2", "session 1 / 1 ok / 2 value 7 / history 2 / 1 1 / 1 2"),
    ("set v 1 18446744073709551615 / add v 1 2 / get v 1", "session 1 / 1 ok / 2 ok / 3 value 1 / history 3 / 1 1 / 1 2 / 1 3"),
    ("set v 1 -9223372036854775808 / get v 1", "session 1 / 1 ok / 2 value -9223372036854775808 / history 2 / 1 1 / 1 2"),
    ("get v 0 / get v 6 / set v 9 2.5", "session 1 / 1 refused range v 1 5 / 2 refused range v 1 5 / 3 refused range v 1 5 / history 0"),
    ("# a note / \tset  v\t02 +7\r /  / get v 2", "session 1 / 1 ok / 2 value 7 / history 2 / 1 1 / 1 2"),
    ("get v -1 / set w 1 1 / get v / get / set v", "session 1 / 1 refused form 7 / 2 refused name w / 3 refused rank v 0 1 / 4 refused form 4 / 5 refused form 6 / history 0"),
    ("set v 1 / set v x 1 / put v 1 1 / set v 1 1x / set 1 1 1", "session 1 / 1 refused rank v 0 1 / 2 refused form 7 / 3 refused form 1 / 4 refused form 9 / 5 refused form 5 / history 0"),
    ("set v 1 2.5 / set v 1 18446744073709551616 / set v 1 1e3", "session 1 / 1 refused number whole / 2 refused number range / 3 ok / history 1 / 1 3"),
]
BIG = "schema big { node A { run 1..16 post B } node B { run 1..4 post B } root A }"
TREE = "schema tree { node B { run 4..8 woven } root B }"
# A manifest, the other files, the status and what is printed.
WORKLOADS = [
    (B, {"b": "1 1 3.000 / 2 2 2.50e1 / 2 2 -5"}, 0, "history 0 / tensor B 2 / 1 1 3 / 2 2 20"),
    (B, {"b": "1 1 2.5"}, 2, "refused b 1 whole"),
    (B, {"b": "1 1"}, 2, "refused b 1 rank"),
    (B, {"b": "3 1 4"}, 2, "refused b 1 range"),
    (B, {"b": "3 x 4"}, 2, "refused b 1 range"),
    (B, {"b": "x 3 4"}, 2, "refused b 1 form"),
    (B, {"b": "1 1 1e20"}, 2, "refused b 1 number"),
    (B, {"b": "# two cells\r / \r / 1 1 4\r / 2 2 6"}, 0, "history 0 / tensor B 2 / 1 1 4 / 2 2 6"),
    (B, {}, 3, "shelf b"),
    ("print v", {}, 2, "refused m 1 name"),
    ("tensor v 0 as flat latches 1", {}, 2, "refused m 1 range"),
    ("tensor v 5 as flat latches 1 / tensor v 0 as flat latches 1", {}, 2, "refused m 2 twice"),
    ("tensor v 5 as tree latches 1", {}, 2, "refused m 1 name"),
    ("session s / tensor v 0 as flat latches 1", {}, 2, "refused m 2 order"),
    ("tensor v 5 as flat latches 1 1", {}, 2, "refused m 1 form"),
    (V + " / session t", {"s": "", "t": "get v 1"}, 0, "session 1 / session 2 / 1 value 0 / history 1 / 2 1"),
    (V + " / session t", {"s": ""}, 3, "shelf t"),
    ("schema q / tensor v 5 as big latches 1", {"q": BIG}, 2, "refused m 1 breach 6 A"),
    ("schema q / tensor v 5 as tree latches 1", {"q": TREE}, 2, "refused m 2 not built"),
    ("schema q / tensor v 5 as bush latches 1", {"q": TREE}, 2, "refused m 2 name"),
    ("schema q / schema q", {"q": TREE}, 2, "refused m 2 twice"),
    ("schema q", {"q": TREE.replace("tree", "flat")}, 2, "refused m 1 twice"),
    ("schema q", {"q": TREE.replace("8", "7")}, 2, "refused m 1 breach 3 B"),
    ("schema q", {"q": "# a comment / schema a { node"}, 2, "refused q 2 form 16"),
    ("schema q", {}, 3, "shelf q"),
    ("schema q / tensor v 5 as flat latches 1 / print v", {"q": TREE}, 0, "history 0 / tensor v 0"),
    (" / ".join(f"tensor t{n} 300 as flat latches 256" for n in range(4)), {}, 0, "history 0"),
    (" / ".join(f"tensor t{n} 300 as flat latches {256 if n < 4 else 1}" for n in range(5)), {}, 2, "refused m 5 limit"),
    (" / ".join(f"tensor t{n} 300 as flat latches 1" for n in range(33)), {}, 2, "refused m 33 limit"),
]
# A schema file, the status of a check of it and what is printed.
CHECKS = [
    ("", 0, ""),
    (BIG + " / " + TREE, 2, "big breach 6 A / tree ok"),
    (TREE, 0, "tree ok"),
    ("schema a { node", 2, "refused q 1 form 16"),
    ("schema s { node A { run 0..1 woven } node A { run 2..2 post C } root B }", 2, "s breach 1 A"),
    ("schema s { node A { run 2..2 post A } root A }", 2, "s breach 2 A"),
    ("schema s { node A { run 1..1 woven } root A }", 2, "s breach 3 A"),
    ("schema s { node A { run 1..2 woven } node A { run 1..2 woven } root B }", 2, "s breach 4 A"),
    ("schema s { node A { run 1..2 post C } root B }", 2, "s breach 4 A"),
    ("schema s { node A { run 1..2 woven } root B }", 2, "s breach 4 B"),
    ("schema s { node A { run 1..2 post B } node B { run 1..2 post A } root A }", 2, "s breach 5 A"),
    ("schema s { node A { run 1..9 post B } node B { run 1..4 post B } root A }", 2, "s breach 6 A"),
    ("schema s { node A { run 1..8 post B } node B { run 1..4 post B } root A }", 0, "s ok"),
    ("schema s { node A { run 1..2 woven } node B { run 1..2 pre A post B } root A }", 2, "s breach 7 B"),
    ("schema s { node A { run 1..2 woven } node B { run 1..2 pre A post B } root B }", 0, "s ok"),
]
# A query or batch over B and C, and what is printed behind its number.
CALLS = [
    ("query A(i,j) = B(i,k)*C(k,j)", "result 4 / 1 1 14 / 1 2 12 / 2 1 15 / 2 2 18"),
    ("query A(i,j) = B(i,j) + C(j,i)", "result 3 / 1 1 5 / 1 2 7 / 2 2 9"),
    ("query a = -B(i,j) * 2 - C(i,j)", "result 1 / -27"),
    ("query A(i,j) = B(i,k", "refused form 21"),
    ("query A(i,j) = B(i,j) + D(i) * B(i)", "refused name D"),
    ("query a(i) = C(i,i)", "refused repeated i"),
    ("query a = 3", "refused access 1"),
    ("query a(i,j) = B(i,j) + B(i,k)", "refused uncovered 2 j"),
    ("query", "refused form 6"),
    ("batch set B 1 1 5 ; add B 1 1 1;set C 1 1 0", "ok"),
    ("batch set B 1 1 5 ;", "refused form 20"),
    ("batch ; set B 1 1 5", "refused form 7"),
]
VALUES = [("3.", 3), ("3.000", 3), ("2.50e1", 25), ("1000e-3", 1), ("-0", 0), ("0e-999", 0), ("2.5", "whole"), ("1e-1", "whole"), ("-1", 2**64 - 1)]
VALUES += [(word, None) for word in (".5", "nan", "1e", "1e1000", "", "+", "--1", "1_0")]
VALUES += [("18446744073709551616", "range"), ("-9223372036854775809", "range"), ("1" + "0" * 4000 + "e-999", "range"), ("1e18", 10**18)]


def printed(manifest, files, not_built=NOT_BUILT, words=(b"run", b"m")):
    with tempfile.TemporaryDirectory() as room:
        for name, text in {**files, "m": manifest}.items():
            (Path(room) / name).write_bytes("\n".join(text.split(" / ")).encode())
        status, text = run([*words], room, not_built)
    return status, " / ".join(text.decode().splitlines())


def replay_in_order(folder, stored):
    """What is printed where the calls take effect in the order that a stored report has."""
    manifest = (folder / "args").read_bytes().split(b"\n")[1]
    return Run(folder / "data").report(manifest, check_report.history_of(stored))


class Replay(unittest.TestCase):
    def test_scripts_print_their_reports(self):
        for script, wanted in SCRIPTS:
            with self.subTest(script):
                self.assertEqual(printed(V, {"s": script}), (0, wanted))

    def test_manifests_and_data_end_as_they_must(self):
        for manifest, files, *wanted in WORKLOADS:
            with self.subTest(manifest, **files):
                self.assertEqual(printed(manifest, files), tuple(wanted))

    def test_schema_files_are_checked(self):
        for text, *wanted in CHECKS:
            with self.subTest(text):
                self.assertEqual(printed("", {"q": text}, words=(b"check", b"q")), tuple(wanted))
        self.assertEqual(printed("", {}, words=(b"check", b"q")), (3, "shelf q"))

    def test_rows_of_the_formats_are_what_it_prints(self):
        """Each worked row of docs/FORMATS.md that gives a whole script of the usual manifest, or a manifest and its data."""
        count = 0
        for case, text, status in ROW.findall(FORMATS.read_text(encoding="utf-8")):
            manifest = re.fullmatch(r"`(tensor B [^`]*)`, and b is `([^`]*)`", case)
            data = re.fullmatch(r"the same, and b is `([^`]*)`", case)
            script = re.fullmatch(r"`([^`]*)`", case)
            words = re.fullmatch(r"the words `([^`]*)`", case)
            if words:
                wanted_status, wanted_text = run(words[1].encode().split(b" "), "")
                wanted = wanted_status, wanted_text.decode().rstrip("\n").replace("\n", " / ")
            elif manifest or data:
                wanted = printed(B, {"b": (manifest or data).groups()[-1]})
            elif script:
                wanted = printed(V, {"s": script[1]})
            else:
                continue
            count += 1
            with self.subTest(case):
                self.assertEqual((int(status), text), wanted)
        self.assertGreaterEqual(count, 8)

    def test_queries_and_batches(self):
        for line, wanted in CALLS:
            with self.subTest(line):
                history = " / history 0" if "refused" in wanted else " / history 1 / 1 1"
                self.assertEqual(printed(BC, {**BC_FILES, "s": line}, {"session"}), (0, f"session 1 / 1 {wanted}{history}"))
                self.assertEqual(printed(BC, {**BC_FILES, "s": line}, {"query", "batch"}), (2, "refused s 1 not built"))

    def test_values(self):
        for word, wanted in VALUES:
            with self.subTest(word[:30]):
                self.assertEqual(value_of(word.encode()), wanted)

    def test_words_that_are_no_run(self):
        for words in ([], [b"run"], [b"go", b"m"], [b"run", b""], [b"run", b"\xff"], [b"run", b"m" * 256]):
            self.assertEqual(run(words, ".")[0], 1)
        for number in (b"", b"0", b"200001", b"+4", b"4\xff", b"0" * 255 + b"4"):
            self.assertEqual(run([b"sample", number], ".")[0], 1)
        for number in (b"4", b"04", b"0" * 254 + b"4"):
            self.assertEqual(run([b"sample", number], "."), (0, b"sample 4\ncount 8\nsum 20\n"))

    def test_examples_store_what_it_prints(self):
        folders = sorted(it.parent for it in EXAMPLES.glob("*/args"))
        self.assertTrue(folders)
        for folder in folders:
            with self.subTest(folder.name):
                status, text = stored_run(folder)
                stored = (folder / "stdout").read_bytes()
                if (folder / "any_order").is_file():
                    text = replay_in_order(folder, stored)
                self.assertEqual(text, stored)
                self.assertEqual(status, int((folder / "status").read_text()) if (folder / "status").is_file() else 0)

    def test_random_workloads_are_made_of_their_seed(self):
        for is_statements in (False, True):
            made = [random_workloads.made(4, "3", NOT_BUILT, random_workloads.VERBS, is_statements) for _ in range(2)]
            self.assertEqual(made[0], made[1])


if __name__ == "__main__":
    unittest.main()
