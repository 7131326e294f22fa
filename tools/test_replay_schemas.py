#!/usr/bin/env python3
"""Tests of what the replayer knows of schema files: the schemas of a text, its refusals and its canonical text."""

import itertools
import unittest

from replay_schemas import RESERVED, Kind, Schema, read_schemas, text_of

TREE = Schema("tree", [Kind("B", 4, 8, ("woven",))], "B")
LIST = Schema("list", [Kind("C", 1, 8, ("post", "C"))], "C")
BST = Schema("bst", [Kind("E", 1, 1, ("ends", "E", "E"))], "E")
THREE = b"""schema tree { node B { run 4..8 woven } root B }
schema list { node C { run 1..8 post C } root C }
schema bst { node E { run 1..1 pre E post E } root E }
"""
FIRST = THREE[: THREE.index(b"\n") + 1]
NODE = b"node B { run 1..1 woven }"
LONG = b"a" * 32
# Texts, and how each is refused.
REFUSED = [
    (b"schema", ("form", 1, 7)),
    (b"schema ", ("form", 1, 8)),
    (b"schema\n", ("form", 2, 1)),
    (b"schema\r", ("form", 1, 7)),
    (b"schema\r\r", ("form", 1, 8)),
    (b"schema\r\n", ("form", 2, 1)),
    (b"schema # a\r", ("form", 1, 11)),
    (b"schema # a", ("form", 1, 11)),
    (b"schema #\n\n", ("form", 3, 1)),
    (b"x", ("form", 1, 1)),
    (b"\t\r\n  .", ("form", 2, 3)),
    (b"# a comment\n # another\n\xc3", ("form", 3, 1)),
    (b"schema schema", ("form", 1, 8)),
    (b"schema " + LONG + b"a {", ("form", 1, 8)),
    (b"schema a { root", ("form", 1, 12)),
    (b"schema a { }", ("form", 1, 12)),
    (b"schema a {" + NODE + b"}", ("form", 1, 36)),
    (b"schema a { node B { run 1234567890..1 woven } root B }", ("form", 1, 25)),
    (b"schema a { node B { run 1.2 woven } root B }", ("form", 1, 26)),
    (b"schema a { node B { run 1...2 woven } root B }", ("form", 1, 28)),
    (b"schema a { node B { run 1. .2 woven } root B }", ("form", 1, 26)),
    (b"schema a { node B { run 1..2 } root B }", ("form", 1, 30)),
    (b"schema a { node B { run 1..2 flat } root B }", ("form", 1, 30)),
    (b"schema a { node B { run 1..2 post run } root B }", ("form", 1, 35)),
    (b"schema a { node B { run 1..2 pre B woven } root B }", ("form", 1, 36)),
    (b"schema a { node B { run 1..2 post B pre B } root B }", ("form", 1, 37)),
    (b"schema a {" + NODE * 16 + b"root B}}", ("form", 1, 418)),
    (b"schema a {" + NODE * 17, ("limit", 1, 411)),
    (b"schema a {" + NODE * 16 + b"\nnode node", ("limit", 2, 1)),
    (b"schema a {" + NODE * 16 + b"woven", ("form", 1, 411)),
    (THREE * 5 + FIRST + b" schema", ("limit", 17, 2)),
    (THREE * 5 + b"schema a {" + NODE + b"root B}root", ("form", 16, 43)),
    (THREE * 5 + b"schema a {" + NODE + b"root B}schema schema", ("limit", 16, 43)),
]
# The letters of tokens, and a word for each.
LETTERS = {"s": b"schema", "n": b"node", "r": b"run", "o": b"root", "e": b"pre", "p": b"post", "w": b"woven"}
LETTERS |= {"N": b"A_1", "1": b"007", "{": b"{", "}": b"}", ".": b".."}


def files_of_letters():
    """The letters of each file of at most two schemas that have at most two kinds each."""
    kinds = ["nN{r1.1" + links + "}" for links in ("pN", "eNpN", "w")]
    inner = ["".join(some) for count in (1, 2) for some in itertools.product(kinds, repeat=count)]
    schemas = ["sN{" + some + "oN}" for some in inner]
    return [""] + schemas + [a + b for a in schemas for b in schemas]


class Reading(unittest.TestCase):
    def test_three_schemas(self):
        self.assertEqual(read_schemas(THREE), [TREE, LIST, BST])
        self.assertEqual(read_schemas(THREE.replace(b" ", b"\r\n").replace(b"\n", b"#} schema\n")), [TREE, LIST, BST])

    def test_nothing(self):
        for text in (b"", b" \t\r\n", b"#", b"# schema\r", b"\n#\n"):
            self.assertEqual(read_schemas(text), [], text)

    def test_tokens_may_touch(self):
        touching = b"schema list{node C{run 01..000000008post C}root C}#"
        self.assertEqual(read_schemas(touching), [LIST])

    def test_names(self):
        name = LONG.decode()
        self.assertEqual(read_schemas(THREE.replace(b" C", b" " + LONG))[1], Schema("list", [Kind(name, 1, 8, ("post", name))], name))
        for word in sorted(RESERVED):
            self.assertEqual(read_schemas(b"schema " + word + b" {"), ("form", 1, 8))
            self.assertIsInstance(read_schemas(THREE.replace(b" C", b" " + word.upper())), list)

    def test_limits(self):
        kinds = read_schemas(b"schema a {" + NODE * 16 + b"root B}")
        self.assertEqual(kinds, [Schema("a", [Kind("B", 1, 1, ("woven",))] * 16, "B")])
        self.assertEqual(len(read_schemas(THREE * 5 + FIRST)), 16)

    def test_refusals(self):
        for text, refusal in REFUSED:
            self.assertEqual(read_schemas(text), refusal, text)

    def test_every_prefix(self):
        """A token is refused exactly where no file goes on with it, and the end exactly where the tokens are no file."""
        files = set(files_of_letters())
        prefixes = {file[:length] for file in files for length in range(len(file) + 1)}
        for letters in prefixes:
            words = b"".join(LETTERS[letter] + b"\n" for letter in letters)
            read = read_schemas(words)
            if letters in files:
                self.assertIsInstance(read, list, letters)
            else:
                self.assertEqual(read, ("form", len(letters) + 1, 1), letters)
            for letter in LETTERS:
                read = read_schemas(words + b" " + LETTERS[letter])
                is_there = read == ("form", len(letters) + 1, 2)
                # a third schema, or a third kind, is none of the files above
                if letters + letter not in prefixes and letter not in "sn":
                    self.assertTrue(is_there, letters + letter)
                if letters + letter in prefixes:
                    self.assertFalse(is_there, letters + letter)


class Writing(unittest.TestCase):
    def test_canonical_texts(self):
        self.assertEqual(text_of(LIST), b"schema list {\n  node C { run 1..8 post C }\n  root C\n}\n")
        self.assertEqual(text_of(TREE), b"schema tree {\n  node B { run 4..8 woven }\n  root B\n}\n")
        self.assertEqual(text_of(BST), b"schema bst {\n  node E { run 1..1 pre E post E }\n  root E\n}\n")

    def test_read_back(self):
        texts = [text_of(schema) for schema in (TREE, LIST, BST)]
        self.assertEqual(read_schemas(b"".join(texts)), [TREE, LIST, BST])


if __name__ == "__main__":
    unittest.main()
