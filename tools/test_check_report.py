#!/usr/bin/env python3
"""Tests of the check of reports: true ones, and each thing that can be wrong."""

import tempfile
import unittest
from pathlib import Path

import check_report

MANIFEST = "tensor v 5 as flat latches 2 / session s / session t / print v"
FILES = {"s": "set v 1 3 / get v 5 / get v 9", "t": "add v 1 4 / set v 5 6"}
# Two sessions that change two cells of two latches at once, and look at both.
WHOLE_FILES = {"s": "batch set v 1 1; add v 5 10 / query a(i) = v(i)", "t": "batch add v 1 2 ;set v 5 7 / batch set v 1 1;set v 6 1"}
ROWS = "session 1 / 1 ok / 2 value {five} / 3 refused range v 1 5 / session 2 / 1 ok / 2 ok / history 4 / {turns} / tensor v 2 / 1 {one} / 5 6"


def judged(rows, files=FILES):
    """What is wrong with a report of these rows; None where nothing is."""
    with tempfile.TemporaryDirectory() as room:
        for name, text in {**files, "m": MANIFEST}.items():
            (Path(room) / name).write_bytes("\n".join(text.split(" / ")).encode())
        try:
            check_report.check(Path(room), b"m", "".join(f"{row}\n" for row in rows.split(" / ")).encode(), set())
        except check_report.Wrong as why:
            return str(why)
    return None


class Reports(unittest.TestCase):
    def test_true_reports(self):
        for turns, five, one in [
            ("1 1 / 1 2 / 2 1 / 2 2", 0, 7),
            ("2 1 / 2 2 / 1 1 / 1 2", 6, 3),
            ("2 1 / 1 1 / 2 2 / 1 2", 6, 3),
            ("1 1 / 2 1 / 1 2 / 2 2", 0, 7),
        ]:
            with self.subTest(turns):
                self.assertIsNone(judged(ROWS.format(turns=turns, five=five, one=one)))

    def test_a_batch_that_is_left_out(self):
        rows = "session 1 / 1 ok / 2 value 0 / 3 refused range v 1 5 / session 2 / 1 {} / 2 ok / history 3 / 1 1 / 1 2 / 2 2 / tensor v 2 / 1 3 / 5 6"
        self.assertIsNone(judged(rows.format("no memory")))
        self.assertEqual(judged(rows.format("ok")), "line 6: b'1 ok', and it has to be b'1 no memory'")

    def test_batches_take_effect_as_a_whole(self):
        rows = "session 1 / 1 ok / 2 result 2 / {seen} / session 2 / 1 ok / 2 refused range v 1 5 / history 3 / {turns} / tensor v 2 / {end}"
        for turns, seen, end, why in [
            ("1 1 / 2 1 / 1 2", "1 3 / 5 7", "1 3 / 5 7", None),
            ("2 1 / 1 1 / 1 2", "1 1 / 5 17", "1 1 / 5 17", None),
            ("1 1 / 1 2 / 2 1", "1 1 / 5 10", "1 3 / 5 7", None),
            # the first update of one before the other, and the second behind it
            ("1 1 / 2 1 / 1 2", "1 3 / 5 17", "1 3 / 5 17", "line 5: b'5 17', and it has to be b'5 7'"),
            # the query between the two updates of the other
            ("1 1 / 1 2 / 2 1", "1 3 / 5 10", "1 3 / 5 7", "line 4: b'1 3', and it has to be b'1 1'"),
        ]:
            with self.subTest(turns):
                self.assertEqual(judged(rows.format(turns=turns, seen=seen, end=end), WHOLE_FILES), why)

    def test_wrong_reports(self):
        for turns, five, one, why in [
            ("1 1 / 1 2 / 2 1 / 2 2", 6, 7, "line 3: b'2 value 6', and it has to be b'2 value 0'"),
            ("1 1 / 1 2 / 2 1 / 2 2", 0, 3, "line 14: b'1 3', and it has to be b'1 7'"),
            ("1 2 / 1 1 / 2 1 / 2 2", 0, 7, "turn 1 1: behind turn 1 2"),
            ("1 1 / 1 1 / 2 1 / 2 2", 0, 7, "turn 1 1: behind turn 1 1"),
            ("1 1 / 1 3 / 2 1 / 2 2", 0, 7, "turn 1 3: no accepted call"),
            ("1 1 / 3 1 / 2 1 / 2 2", 0, 7, "turn 3 1: no accepted call"),
            ("1 1 / x / 2 1 / 2 2", 0, 7, "line 8: fewer turns than it says"),
        ]:
            with self.subTest(turns):
                self.assertEqual(judged(ROWS.format(turns=turns, five=five, one=one)), why)

    def test_a_get_that_is_left_out(self):
        rows = "session 1 / 1 ok / 2 no memory / 3 refused range v 1 5 / session 2 / 1 ok / 2 ok / history 3 / 1 1 / 2 1 / 2 2 / tensor v 2 / 1 7 / 5 6"
        self.assertEqual(judged(rows), "turn 1 2: a get that isn't in the history")

    def test_no_history(self):
        self.assertEqual(judged("session 1 / 1 ok"), "no line `history`")


if __name__ == "__main__":
    unittest.main()
