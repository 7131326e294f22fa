#!/usr/bin/env python3
"""Prints what a run has to print, by the plain meaning of its files: python3 tools/replay.py FOLDER

FOLDER has the files args and data/, as those of examples/ do. This is where the expected output of an example comes
from. It shares nothing with the program: it reads the formats of docs/FORMATS.md in the plainest way, with Python's
numbers and dicts, and makes the calls in the order of their lines. Its own status is that of the run.

A tensor is a dict from coordinates to numbers modulo 2^64, where coordinates that aren't there have 0. NOT_BUILT lists
the forms that the program refuses as such; a form leaves the list in the change that builds it.
"""

import re
import sys
from pathlib import Path

from replay_answers import answer
from replay_sample import MOST_SAMPLE, sampled
from replay_schemas import read_schemas
from replay_statements import LineRefused, read_statement
from schema_rules import breach

NOT_BUILT = {"structures"}
USAGE = b"usage: dyntensor run MANIFEST | check SCHEMAS | sample N\n"
MODULUS = 2**64
FILE_LIMIT = 67_108_864
LINE_LIMIT = 4_096
FILE_NAME_LIMIT = 255
MOST_LINES = 700_000
MOST_CALLS = 65_536
MOST_UPDATES = 64
MOST_TENSORS, MOST_SESSIONS, MOST_PRINTS, MOST_SCHEMAS = 32, 16, 64, 16
MOST_LATCHES, MOST_TENSOR_LATCHES = 1_024, 256
MOST_COORDINATE = 2**32 - 1
MOST_ORDER = 5
NAME = re.compile(rb"[A-Za-z_][A-Za-z0-9_]{0,31}")
INDEX = re.compile(rb"[0-9]+")
VALUE = re.compile(rb"([+-]?)([0-9]+)(?:\.([0-9]*))?(?:[eE]([+-]?[0-9]{1,3}))?")
HEADERS = ("schema", "tensor", "load")


class Refused(Exception):
    """A file is refused: its name, the line and why."""


class NotFetched(Exception):
    """A file isn't there."""


# ---- lines, words and numerals


def lines_of(text):
    """Each line with its number, without one CR at its end."""
    lines = text.split(b"\n")
    if not lines[-1]:
        lines.pop()
    return [(number, line.removesuffix(b"\r")) for number, line in enumerate(lines, 1)]


def words_of(line):
    """Each word of a line with its column."""
    return [(found.start() + 1, found[0]) for found in re.finditer(rb"[^ \t]+", line)]


def content_lines(text):
    """The lines that aren't skipped, each with its number and its words."""
    for number, line in lines_of(text):
        words = words_of(line)
        if words and not words[0][1].startswith(b"#"):
            yield number, line, words


def end_column(line):
    return len(line.rstrip(b" \t")) + 1


def value_of(word):
    """The number of a value numeral, 'whole' or 'range' where it is none that a cell can hold, and None where it is no numeral."""
    found = VALUE.fullmatch(word)
    if not found:
        return None
    sign, digits, fraction, exponent = found.groups(b"")
    number, power = int_of(digits + fraction), int(exponent or 0) - len(fraction)
    if number and power < 0:
        # a number of d digits isn't a multiple of more than d tens
        if -power > len(digits + fraction) or number % 10**-power:
            return "whole"
        number //= 10**-power
    elif number and power > 0:
        number *= 10**power
    number = -number if sign == b"-" else number
    return number % MODULUS if -(2**63) <= number < MODULUS else "range"


def int_of(digits):
    """The number of a text of digits, however long it is."""
    head, tail = digits[:-4000], digits[-4000:]
    return int(tail) + (int_of(head) * 10 ** len(tail) if head else 0)


def written(value):
    return str(value if value < MODULUS // 2 else value - MODULUS)


# ---- the run


class Run:
    """One run over the files of a folder."""

    def __init__(self, files, not_built=NOT_BUILT):
        self.files, self.not_built = Path(files), not_built
        self.schemas, self.tensors, self.cells = ["flat"], {}, {}
        self.prints, self.sessions = [], []
        self.loaded = self.updates = self.script_bytes = 0
        self.verdicts = []

    def fetch(self, name):
        """The bytes of a file."""
        try:
            text = (self.files / name.decode()).read_bytes()
        except (OSError, ValueError):
            raise NotFetched(name) from None
        if len(text) > FILE_LIMIT:
            raise Refused(name, 0, "limit")
        return text

    def report(self, manifest, history=None):
        """The report of the calls in the order of this history, which is a list of turns; else session by session."""
        items = list(self.read_manifest(manifest))
        for item in items:
            self.prepare(manifest, *item)
        history = self.turns() if history is None else history
        rows = {turn: self.answered(*turn) for turn in history}
        text = []
        for session, verdicts in enumerate(self.verdicts, 1):
            text.append(f"session {session}")
            for number, verdict in enumerate(verdicts, 1):
                unmade = f"refused {verdict}" if isinstance(verdict, str) else "no memory"
                text += rows.get((session, number), [f"{number} {unmade}"])
        text.append(f"history {len(history)}")
        text += [f"{session} {number}" for session, number in history]
        for name in self.prints:
            nonzeros = listed(self.cells[name])
            text += [f"tensor {name.decode()} {len(nonzeros)}", *nonzeros]
        return "".join(f"{row}\n" for row in text).encode()

    def turns(self):
        """The turns of all accepted calls, session by session."""
        return [(session, number) for session, verdicts in enumerate(self.verdicts, 1) for number, it in enumerate(verdicts, 1) if not isinstance(it, str)]

    # ---- the manifest, first pass

    def read_manifest(self, name):
        """The items of a manifest, each with the number of its line and its words."""
        self.latches = 0
        for number, line, words in content_lines(self.fetch(name)):
            words = [word for _, word in words]
            why = self.manifest_fault(line, words)
            if why:
                raise Refused(name, number, why)
            yield number, words

    def manifest_fault(self, line, words):
        """The first fault of a line of the manifest; where there is none, what it declares is noted."""
        verb = words[0].decode("latin-1")
        if len(line) > LINE_LIMIT:
            return "limit"
        if not has_manifest_form(verb, words):
            return "form"
        if verb == "session" and self.sessions and "session" in self.not_built:
            return "not built"
        if verb in HEADERS and self.sessions:
            return "order"
        if verb in ("load", "print") and words[1] not in self.tensors:
            return "name"
        if verb == "tensor":
            return self.tensor_fault(words)
        noted, most = {"session": (self.sessions, MOST_SESSIONS), "print": (self.prints, MOST_PRINTS)}.get(verb, (None, 0))
        if noted is not None:
            if len(noted) == most:
                return "limit"
            noted.append(words[1])
        return None

    def tensor_fault(self, words):
        at = words.index(b"as", 2)
        dims, latches = tuple(int_of(word) for word in words[2:at]), int_of(words[-1])
        if words[1] in self.tensors:
            return "twice"
        if not (all(1 <= it <= MOST_COORDINATE for it in dims) and 1 <= latches <= MOST_TENSOR_LATCHES):
            return "range"
        if len(self.tensors) == MOST_TENSORS or self.latches + latches > MOST_LATCHES:
            return "limit"
        self.latches += latches
        self.tensors[words[1]], self.cells[words[1]] = dims, {}
        return None

    # ---- the manifest, second pass

    def prepare(self, manifest, number, words):
        """Does what a line of the manifest asks for before the sessions run."""
        verb = words[0]
        if verb == b"schema":
            self.read_schemas(manifest, number, words[1])
        if verb == b"tensor":
            formats = [word.decode() for word in words[words.index(b"as", 2) + 1 : -2]]
            if any(it not in self.schemas for it in formats):
                raise Refused(manifest, number, "name")
            if "structures" in self.not_built and any(it != "flat" for it in formats):
                raise Refused(manifest, number, "not built")
        if verb == b"load":
            self.load(words[1], words[2])
        if verb == b"session":
            text = self.fetch(words[1])
            self.script_bytes += len(text)
            if self.script_bytes > FILE_LIMIT:
                raise Refused(words[1], 0, "limit")
            self.verdicts.append(list(self.read_script(words[1], text)))

    def read_schemas(self, manifest, number, name):
        for schema in schemas_of(name, self.fetch(name)):
            broken = breach(schema)
            if schema.name in self.schemas:
                raise Refused(manifest, number, "twice")
            if len(self.schemas) > MOST_SCHEMAS:
                raise Refused(manifest, number, "limit")
            if broken:
                raise Refused(manifest, number, "breach {} {}".format(*broken))
            self.schemas.append(schema.name)

    def load(self, tensor, name):
        for number, line, words in content_lines(self.fetch(name)):
            words = [word for _, word in words]
            why = self.line_fault(line, words, self.tensors[tensor])
            if why:
                raise Refused(name, number, why)
            self.loaded += 1
            at = tuple(int(word) for word in words[:-1])
            self.cells[tensor][at] = (self.cells[tensor].get(at, 0) + value_of(words[-1])) % MODULUS

    def line_fault(self, line, words, dims):
        """The first fault of a line of a .tns file."""
        if len(line) > LINE_LIMIT or self.loaded == MOST_LINES:
            return "limit"
        if len(words) != len(dims) + 1:
            return "rank"
        for word, dim in zip(words, dims):
            if not INDEX.fullmatch(word):
                return "form"
            if not 1 <= int_of(word) <= dim:
                return "range"
        value = value_of(words[-1])
        return {None: "form", "whole": "whole", "range": "number"}.get(value)

    # ---- scripts

    def read_script(self, name, text):
        """The verdict on each line of a script: a call, or the text of a refusal."""
        for call, (number, line, words) in enumerate(content_lines(text), 1):
            verb = words[0][1].decode("latin-1")
            if len(line) > LINE_LIMIT or call > MOST_CALLS:
                raise Refused(name, number, "limit")
            if verb in ("query", "batch") and verb in self.not_built:
                raise Refused(name, number, "not built")
            try:
                verdict = self.read_call(verb, line, words)
            except LineRefused as refused:
                yield str(refused)
                continue
            self.updates += len(verdict[1]) if verb == "batch" else verb in ("set", "add")
            if self.loaded + self.updates > MOST_LINES:
                raise Refused(name, number, "limit")
            yield verdict

    def read_call(self, verb, line, words):
        rest = words[0][0] + len(verb)
        if verb == "query":
            return read_statement(line, rest, end_column(line), self.tensors)
        if verb == "batch":
            return verb, [self.judged(it) for it in read_batch(line, rest)]
        if verb not in ("set", "add", "get"):
            raise LineRefused(f"form {words[0][0]}")
        check_form(words, end_column(line))
        return self.judged(words)

    def judged(self, words):
        """The call or update of some words that have their form."""
        verb, name, *at = [word for _, word in words]
        value = value_of(at.pop()) if verb != b"get" else 0
        at = self.cell_at(name, [int_of(word) for word in at])
        if value in ("whole", "range"):
            raise LineRefused(f"number {value}")
        return verb.decode(), name, at, value

    def cell_at(self, name, at):
        if name not in self.tensors:
            raise LineRefused(f"name {name.decode()}")
        dims = self.tensors[name]
        if len(at) != len(dims):
            raise LineRefused(f"rank {name.decode()} {len(at)} {len(dims)}")
        for mode, (number, dim) in enumerate(zip(at, dims), 1):
            if not 1 <= number <= dim:
                raise LineRefused(f"range {name.decode()} {mode} {dim}")
        return tuple(at)

    def answered(self, session, number):
        """Makes the call of a turn, and gives the rows of the report that answer it."""
        verdict = self.verdicts[session - 1][number - 1]
        if verdict[0] == "query":
            rows = listed(answer(verdict[1], self.tensors, self.cells))
            return [f"{number} result {len(rows)}", *rows]
        if verdict[0] == "get":
            return [f"{number} value {written(self.cells[verdict[1]].get(verdict[2], 0))}"]
        for verb, name, at, value in verdict[1] if verdict[0] == "batch" else [verdict]:
            old = self.cells[name].get(at, 0) if verb == "add" else 0
            self.cells[name][at] = (old + value) % MODULUS
        return [f"{number} ok"]


def check_form(words, end):
    """Refuses the words of a `set`, `add` or `get` at the first that has another form, or at the end where one is missing."""
    has_value = words[0][1] != b"get"
    for place, (column, word) in enumerate(words[1:], 1):
        is_value = has_value and place > 1 and place == len(words) - 1
        form = NAME if place == 1 else VALUE if is_value else INDEX
        if not form.fullmatch(word):
            raise LineRefused(f"form {column}")
    if len(words) < 2 + has_value:
        raise LineRefused(f"form {end}")


def read_batch(line, start):
    """The words of each update of a batch, each with its column."""
    updates, from_column, parts = [], start, line[start - 1 :].split(b";")
    for place, part in enumerate(parts, 1):
        is_last = place == len(parts)
        words = [(from_column - 1 + column, word) for column, word in words_of(part)]
        end = end_column(line) if is_last else from_column + len(part)
        if words and words[0][1] not in (b"set", b"add"):
            raise LineRefused(f"form {words[0][0]}")
        if not words:
            raise LineRefused(f"form {end}")
        check_form(words, end)
        if place == MOST_UPDATES and not is_last:
            raise LineRefused(f"limit {end}")
        updates.append(words)
        from_column += len(part) + 1
    return updates


def has_manifest_form(verb, words):
    """Whether the words of a line fit a row of the table of a manifest's lines."""
    if verb == "tensor":
        order = (len(words) - 5) // 2
        if not (1 <= order <= MOST_ORDER and len(words) == 2 * order + 5):
            return False
        forms = [NAME, *[INDEX] * order, re.compile(b"as"), *[NAME] * order, re.compile(b"latches"), INDEX]
        return all(form.fullmatch(word) for form, word in zip(forms, words[1:]))
    names = {"schema": 0, "load": 1, "session": 0, "print": 1}.get(verb)
    if names is None or len(words) != (2 if verb != "load" else 3):
        return False
    return (not names or bool(NAME.fullmatch(words[1]))) and (verb == "print" or is_file_name(words[-1]))


def is_file_name(word):
    try:
        word.decode()
    except UnicodeDecodeError:
        return False
    return 1 <= len(word) <= FILE_NAME_LIMIT


def listed(cells):
    """A row for each nonzero, in ascending order of coordinates."""
    return [" ".join([*map(str, at), written(value)]) for at, value in sorted(cells.items()) if value]


def schemas_of(name, text):
    """The schemas of a file, or the refusal of the file."""
    schemas = read_schemas(text)
    if isinstance(schemas, tuple):
        why, line, column = schemas
        raise Refused(name, line, f"{why} {column}")
    return schemas


def checked(name, text):
    """What `check` prints of a schema file, and its status."""
    breaches = [(it.name, breach(it)) for it in schemas_of(name, text)]
    rows = [f"{it} breach {broken[0]} {broken[1]}\n" if broken else f"{it} ok\n" for it, broken in breaches]
    return 2 if any(broken for _, broken in breaches) else 0, "".join(rows).encode()


def is_sample(words):
    """Whether the words are `sample` and at most 255 digits for a number that has a sample."""
    if len(words) != 2 or words[0] != b"sample" or len(words[1]) > FILE_NAME_LIMIT:
        return False
    return bool(INDEX.fullmatch(words[1])) and 1 <= int_of(words[1]) <= MOST_SAMPLE


def run(words, files, not_built=NOT_BUILT):
    """The status of a run on these words, and what it prints."""
    if is_sample(words):
        return 0, sampled(int_of(words[1]))
    if len(words) != 2 or words[0] not in (b"run", b"check") or not is_file_name(words[1]):
        return 1, USAGE
    it = Run(files, not_built)
    try:
        if words[0] == b"check":
            return checked(words[1], it.fetch(words[1]))
        return 0, it.report(words[1])
    except NotFetched as why:
        return 3, b"shelf " + why.args[0] + b"\n"
    except Refused as why:
        name, line, what = why.args
        return 2, b"refused %s %d %s\n" % (name, line, what.encode())


def stored_run(folder):
    """The same for a stored run, whose words are the lines of its file args."""
    return run((folder / "args").read_bytes().split(b"\n")[:-1], folder / "data")


if __name__ == "__main__":
    if len(sys.argv) != 2:
        sys.exit("usage: replay.py FOLDER")
    status, text = stored_run(Path(sys.argv[1]))
    sys.stdout.buffer.write(text)
    sys.exit(status)
