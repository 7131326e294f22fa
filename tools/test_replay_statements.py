#!/usr/bin/env python3
"""Tests of what the replayer knows of statements: their texts, their refusals and their answers."""

import itertools
import random
import tempfile
import unittest
from pathlib import Path

from edge_statements import ANSWERED, ANSWERED_LARGE, LARGE, REFUSED, SESSIONS, TENSORS, files_of, refused
from random_statements import Maker
from replay import run
from replay_answers import MOST_PLACES, answer, dense, joined, places_of
from replay_statements import LineRefused, Reader, read_statement, text_of

BUILT = {"schema", "session", "batch"}
# The grammar, without limits. N stands for any name, 1 for any number.
GRAMMAR = {
    "stmt": [["N", "=", "expr"], ["N", "(", "vars", ")", "=", "expr"]],
    "vars": [["N"], ["N", ",", "vars"]],
    "expr": [["terms"], ["-", "terms"]],
    "terms": [["term"], ["term", "+", "terms"], ["term", "-", "terms"]],
    "term": [["factor"], ["factor", "*", "term"]],
    "factor": [["1"], ["N", "(", "vars", ")"], ["(", "expr", ")"]],
}
TOKENS = ["N", "N", "N", "1", "(", ")", ",", "=", "+", "-", "*"]
# A statement, and its canonical text.
CANONICAL = [
    ("y(i)=A(i,j)*x( j )+(z(i))", "y(i) = A(i,j) * x(j) + z(i)"),
    ("a=007*x(i)", "a = 7 * x(i)"),
    ("a = ((x(i)))", "a = x(i)"),
    ("a = (x(i) + x(i)) + x(i)", "a = x(i) + x(i) + x(i)"),
    ("a = x(i) + (x(i) + x(i))", "a = x(i) + (x(i) + x(i))"),
    ("a = x(i) - (x(i) - x(i))", "a = x(i) - (x(i) - x(i))"),
    ("a = (x(i) * x(i)) * x(i)", "a = x(i) * x(i) * x(i)"),
    ("a = x(i) * (x(i) * x(i))", "a = x(i) * (x(i) * x(i))"),
    ("a = x(i) + (x(i) * x(i))", "a = x(i) + x(i) * x(i)"),
    ("a = (x(i) + x(i)) * (x(i) - 1)", "a = (x(i) + x(i)) * (x(i) - 1)"),
    ("a = (-x(i)) * (-x(i))", "a = (-x(i)) * (-x(i))"),
    ("a = -(x(i) * x(i))", "a = -x(i) * x(i)"),
    ("a = -(x(i) + x(i))", "a = -(x(i) + x(i))"),
    ("a = -(-x(i))", "a = -(-x(i))"),
    ("a = (-x(i)) + x(i)", "a = -x(i) + x(i)"),
    ("a = x(i) + (-x(i))", "a = x(i) + (-x(i))"),
]


def printed(tensors, script):
    with tempfile.TemporaryDirectory() as room:
        for name, text in files_of(tensors, script).items():
            (Path(room) / name).write_bytes(text)
        status, text = run([b"run", b"m"], room, BUILT)
    return status, " / ".join(text.decode().splitlines())


def parsed(text):
    return Reader(text.encode(), 0, len(text.rstrip()) + 1).statement()


def fault_of_tokens(tokens):
    """Where some tokens stop beginning a statement, counted from 0, by Earley's method; None where they are a statement."""
    items = {("stmt", tuple(right), 0, 0) for right in GRAMMAR["stmt"]}
    columns = []
    for place in range(len(tokens) + 1):
        items = closed(items, columns, place)
        columns.append(items)
        if place == len(tokens):
            return None if any(name == "stmt" and dot == len(right) for name, right, dot, _ in items) else place
        items = {(name, right, dot + 1, start) for name, right, dot, start in items if right[dot : dot + 1] == (tokens[place],)}
        if not items:
            return place
    return None


def closed(items, columns, place):
    """The items of a column with all that they expect and complete."""
    found, todo = set(), [*items]
    while todo:
        item = todo.pop()
        if item in found:
            continue
        found.add(item)
        name, right, dot, start = item
        if dot == len(right):
            todo += [(n, r, d + 1, s) for n, r, d, s in (found if start == place else columns[start]) if r[d : d + 1] == (name,)]
        elif right[dot] in GRAMMAR:
            todo += [(right[dot], tuple(it), 0, place) for it in GRAMMAR[right[dot]]]
    return found


class Statements(unittest.TestCase):
    def test_forms_are_those_of_the_grammar(self):
        chance = random.Random(1)
        for _ in range(1500):
            tokens = random_tokens(chance)
            text = " ".join("n" if it == "N" else it for it in tokens)
            with self.subTest(text):
                place = fault_of_tokens(tokens)
                try:
                    parsed(text)
                    found = None
                except LineRefused as why:
                    found = str(why)
                wanted = None if place is None else f"form {2 * place + 1 if place < len(tokens) else len(text) + 1}"
                self.assertEqual(found, wanted)

    def test_canonical_texts(self):
        for text, wanted in CANONICAL:
            with self.subTest(text):
                self.assertEqual(text_of(parsed(text)).decode(), wanted)
                self.assertEqual(parsed(wanted), parsed(text))

    def test_refusals(self):
        for line, why in REFUSED:
            line, wanted = refused(line, why)
            with self.subTest(line):
                self.assertEqual(printed(TENSORS, line), (0, f"session 1 / 1 refused {wanted} / history 0"))

    def test_answers(self):
        for tensors, rows in ((TENSORS, ANSWERED), (LARGE, ANSWERED_LARGE)):
            for text, wanted in rows:
                with self.subTest(text):
                    self.assertEqual(printed(tensors, f"query {text}"), (0, f"session 1 / 1 result {wanted} / history 1 / 1 1"))

    def test_both_ways_to_answer_agree(self):
        chance = random.Random(2)
        tensors = {b"v": (3,), b"w": (2,), b"A": (3, 2), b"B": (2, 3), b"C": (3, 3), b"T": (2, 3, 2), b"F": (2, 2, 3, 3), b"G": (2, 3, 2, 2, 2)}
        cells = {name: random_cells(chance, dims) for name, dims in tensors.items()}
        maker, count = Maker(chance, tensors), 0
        for _ in range(600):
            text = b"query " + maker.text(0)
            with self.subTest(text.decode()):
                _, statement = read_statement(text, 6, len(text.rstrip(b" \t")) + 1, tensors)
                self.assertEqual(parsed(text_of(statement).decode()), statement)
                if places_of(statement, tensors) <= MOST_PLACES // 10:
                    count += 1
                    found = [{at: value for at, value in way(statement, tensors, cells).items() if value} for way in (dense, joined, answer)]
                    self.assertEqual(found[0], found[1])
                    self.assertEqual(found[0], found[2])
        self.assertGreater(count, 300)

    def test_updates_are_seen_by_later_queries(self):
        for script, wanted in SESSIONS:
            with self.subTest(script):
                self.assertEqual(printed(TENSORS, script), (0, f"session 1 / {wanted}"))


def random_tokens(chance):
    """Tokens that are a statement or almost one."""
    tokens = derived(chance, "stmt", 4)
    for _ in range(chance.choice([0, 1, 1, 2])):
        at = chance.randrange(len(tokens) + 1)
        tokens[at : at + chance.choice([0, 0, 1])] = [chance.choice(TOKENS)] * chance.choice([0, 1])
    return tokens[: chance.choice([len(tokens), len(tokens), chance.randrange(len(tokens) + 1)])]


def derived(chance, name, depth):
    """A random text of a part of the grammar; past its depth the first form of each part alone."""
    right = chance.choice(GRAMMAR[name]) if depth > 0 else GRAMMAR[name][0]
    return [it for part in right for it in (derived(chance, part, depth - 1) if part in GRAMMAR else [part])]


def random_cells(chance, dims):
    places = itertools.product(*(range(1, dim + 1) for dim in dims))
    return {at: chance.choice([1, 2, 5, 2**63, 2**64 - 1]) for at in places if chance.random() < 0.7}


if __name__ == "__main__":
    unittest.main()
