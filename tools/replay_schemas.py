"""What the replayer knows of schema files: how a text is read, refused and written.

A schema is its name, its kinds and the name of its root's kind. A kind is its name, the two bounds of its runs and its
links: ("post", NAME), ("ends", PRE, POST) or ("woven",). A refusal is ("form", LINE, COLUMN) or ("limit", LINE, COLUMN).
"""

import re
from collections import namedtuple

MOST_SCHEMAS = MOST_KINDS = 16
# What stands between two tokens: blanks, line ends and comments.
BETWEEN = re.compile(rb"(?:[ \t\r\n]+|#[^\n]*)*")
WORD = re.compile(rb"[A-Za-z_][A-Za-z0-9_]*|[0-9]+|\.\.|[{}]")
NAME = re.compile(rb"[A-Za-z_][A-Za-z0-9_]{0,31}")
NUMBER = re.compile(rb"[0-9]{1,9}")
RESERVED = {b"schema", b"node", b"run", b"root", b"pre", b"post", b"woven"}

Schema = namedtuple("Schema", "name kinds root")
Kind = namedtuple("Kind", "name low high links")


class SchemaRefused(Exception):
    """A text is no schema file: why, and the place of the byte."""


class Tokens:
    """The tokens of a text, one after the other. A byte that begins none is one that nothing takes."""

    def __init__(self, text):
        self.text = text
        # one carriage return at the end is no part of the last line
        self.end = len(text) - text.endswith(b"\r")
        self.find(0)

    def find(self, place):
        """Finds the token at a place or behind it; at the end of the text there is none."""
        self.place = BETWEEN.match(self.text, place).end()
        found = WORD.match(self.text, self.place)
        self.word = found.group() if found else None
        self.behind = found.end() if found else self.place

    def refuse(self, why):
        raise SchemaRefused(why, self.end if self.place == len(self.text) else self.place)

    def take(self, is_wanted):
        """Takes a token, which is to be a wanted one."""
        if self.word is None or not is_wanted(self.word):
            self.refuse("form")
        word = self.word
        self.find(self.behind)
        return word

    def take_word(self, *words):
        return self.take(lambda word: word in words)

    def take_name(self):
        return self.take(lambda word: NAME.fullmatch(word) and word not in RESERVED).decode()

    def take_number(self):
        return int(self.take(NUMBER.fullmatch))


def read_links(tokens):
    first = tokens.take_word(b"post", b"pre", b"woven")
    if first == b"woven":
        return ("woven",)
    name = tokens.take_name()
    if first == b"post":
        return ("post", name)
    tokens.take_word(b"post")
    return ("ends", name, tokens.take_name())


def read_kind(tokens):
    """Reads a kind, whose `node` has been taken."""
    name = tokens.take_name()
    tokens.take_word(b"{")
    tokens.take_word(b"run")
    low = tokens.take_number()
    tokens.take_word(b"..")
    high = tokens.take_number()
    links = read_links(tokens)
    tokens.take_word(b"}")
    return Kind(name, low, high, links)


def read_schema(tokens):
    """Reads a schema, whose `schema` has been taken."""
    name = tokens.take_name()
    tokens.take_word(b"{")
    kinds = []
    while True:
        if tokens.word == b"node" and len(kinds) == MOST_KINDS:
            tokens.refuse("limit")
        # there is at least one kind
        if tokens.take_word(b"node", *[b"root"] * bool(kinds)) == b"root":
            break
        kinds.append(read_kind(tokens))
    root = tokens.take_name()
    tokens.take_word(b"}")
    return Schema(name, kinds, root)


def read_schemas(text):
    """The schemas of a text, or why it has none and where: ("form", LINE, COLUMN) or ("limit", LINE, COLUMN)."""
    tokens = Tokens(text)
    schemas = []
    try:
        while tokens.place < len(text):
            if tokens.word == b"schema" and len(schemas) == MOST_SCHEMAS:
                tokens.refuse("limit")
            tokens.take_word(b"schema")
            schemas.append(read_schema(tokens))
    except SchemaRefused as refused:
        why, place = refused.args
        return why, text.count(b"\n", 0, place) + 1, place - text.rfind(b"\n", 0, place)
    return schemas


def links_of(links):
    return {"post": "post {1}", "ends": "pre {1} post {2}", "woven": "woven"}[links[0]].format(*links)


def text_of(schema):
    """The canonical text of a schema."""
    kinds = "".join(f"  node {kind.name} {{ run {kind.low}..{kind.high} {links_of(kind.links)} }}\n" for kind in schema.kinds)
    return f"schema {schema.name} {{\n{kinds}  root {schema.root}\n}}\n".encode()
