#!/usr/bin/env python3
"""Checks that the documents say no more than the repository has: python3 tools/check_documents.py [ROOT]

It prints each fault as `FILE:LINE: what is wrong; what to do`, and ends with status 1 where there is one.
ROOT is the top of a checkout, by default the one that this script lies in. The documents are all its .md files.

How a document names things, so that they can be looked up:

- Every name stands in a code span, and every span of one word is looked up: in a crate's README it is a name that the
  crate's code, definitions or proofs have or use, or a file of it; elsewhere one of any crate. `a.b` are two names.
  The few other words are KNOWN_WORDS of names.py. A span of several words is shown text; only its names with a `_`
  are looked up. Outside of code spans stand no names with a `_` or `::` but those of crates.
- A call is `crate::call`, `crate::Type::method` or `crate::Type`, as the crate's root gives it out; what follows a `(`
  or `<` isn't read. In a crate's README that crate's may be written `Type::method`, and `call` where calls are listed.
  Those of std, of a primitive type or of a library that crates.txt names aren't looked up.
- Behind a claim stands what carries it: `[call: clause, clause]`, several calls joined by `;`. Each clause is one of that
  call's contract. For lemmas and tests the call is the word: `[lemma: name]`, `[test: name]`. A crate's README names its
  own lemmas and tests; other documents those of any crate. Each item under Proved of a crate's README has such a bracket.
- An edit is `name.edit`: of the README's crate, or of any crate.
- A path has a `/` or one of the endings in paths.py, in a code span or outside, and in a block of commands. It is looked
  up from the top, from the document's folder and, in a crate's README, from that crate's src/; a bare name of a file or
  folder may stand anywhere in the crate, or in the repository. A link is looked up from the document's folder. No path
  or link leads out of the repository. `*` and NAME stand for some name, and have to fit one file at least; of what lies
  in a folder `out`, which is built, the folder around it is looked up.
- A block whose opening line is ```text FILE shows that file byte for byte, FILE being its path from the top.
- README.md shows the stored run of the program: such a block for each file in its data/ and for its stdout, and a
  line `$ dyntensor WORDS` with the words of its file args.
- A row of a promise in docs/CLAIMS.md has behind it: `[crate::call: clause]` | `name.edit` | `[test: name]`.
- A crate's README has at most 600 words, blocks left out. Under Calls stands a ```rust block, whose lines stand together
  in a source file of that crate, as a test has them. The README of fiber_latch lists its kinds of steps.
- docs/DEFINITIONS.md names each file of specs/, unless that file's head says that no public clause cites it.
- docs/FORMATS.md has in its table of limits the name and the number of each limit of crates/dt_model/src/limits.rt.
- An entry of docs/DECISIONS.md with a line that begins with 'Superseded' keeps its old names, which aren't looked up.
- examples/NAME/ has args, data/, stdout and, if it isn't 0, status, as the program's own stored run.

Of sources it checks that each file of src/ begins with `//!`, that `///` stands on each function (tests, the functions
beside them in a file or folder `tests`, and what implements a trait excepted), that a line of meaning stands over each
definition in specs/ and each `pub` lemma in proofs/, and that no line of these two but an import is over 160 columns. A
must-fail edit changes code or a definition, and no `requires`, `ensures` or ghost.
"""

import os
import re
import sys
from functools import cached_property
from pathlib import Path

from layout import check_comments, check_definitions, check_edits, check_heads, check_limits, check_meanings, check_steps, check_width
from markdown import SPAN, bare, read_document, sentences_of, table_under
from names import FOREIGN, check_names, check_promises
from paths import check_markdown, home_of
from readmes import check_readmes, is_crate_readme
from sources import function_sizes, read_crates
from stored_runs import check_examples, check_shown_files

CRATE_HEADINGS = ["Calls", "What a contract sees", "Proved", "Only tested", "Not said", "Stands on"]
HOUSE_HEADINGS = ["What it does", "Build, check, run", "The promise", "Crates", "Only tested", "Not claimed", "Trusted"]
SENTENCE_AIM = 25
HARD_LIMIT = 800
FILE_AIMS = {"src": 400, "specs": 150, "proofs": 120}
FUNCTION_AIM, CRATE_AIM = 40, 100
SKIPPED = {".git", "out", "__pycache__"}


class Check:
    """One run over a checkout: what it found, and what it looks things up in."""

    def __init__(self, top):
        self.top, self.faults, self.notes = Path(top), [], []
        self.crates = read_crates(top)
        self.by_name = {crate.name: crate for crate in self.crates}
        self.foreign = FOREIGN | {it for crate in self.crates for it in crate.libraries} - {*self.by_name}
        self.files = all_files(self.top)
        self.documents = [self.document(path) for path in self.files if path.endswith(".md")]

    @cached_property
    def words(self):
        """Every name that a crate has, and those of files and folders."""
        found = {name for path in self.files for part in path.split("/") for name in (part, part.split(".")[0])}
        return found.union(*(crate.words for crate in self.crates))

    def fault(self, path, line, wrong, remedy):
        self.faults.append(f"{path}:{line}: {wrong}; {remedy}")

    def document(self, path):
        return read_document(path, (self.top / path).read_text(encoding="utf-8"))

    def named(self, path):
        return next((it for it in self.documents if it.path == path), None)


def all_files(top):
    """Every file of the repository from its top, except what is built and the fixtures of this check."""
    found = []
    for at, folders, names in os.walk(top):
        folders[:] = sorted(it for it in folders if it not in SKIPPED and f"{at}/{it}" != f"{top}/tools/fixtures")
        found += [os.path.relpath(f"{at}/{name}", top) for name in sorted(names)]
    return found


# ---- the crates and their sentences


def check_crates(check):
    for crate in check.crates:
        if not crate.sentence:
            check.fault("crates.txt", crate.line, f"{crate.name} has no sentence", "write it behind a # after the libraries")
            continue
        check_root_file(check, crate)
        check_crate_title(check, crate)
    check_rows(check, "docs/ARCHITECTURE.md")
    check_rows(check, "README.md")


def check_root_file(check, crate):
    path = crate.root_file.relative_to(check.top)
    if not crate.root_file.is_file():
        check.fault(path, 1, f"{crate.name} has no root file", "write src/lib.rt or src/main.rt, or take the crate off crates.txt")
        return
    first = crate.root_file.read_text(encoding="utf-8").split("\n", 1)[0]
    if first != f"//! {crate.sentence}":
        check.fault(path, 1, "the first line isn't the crate's sentence", f"write '//! {crate.sentence}' as in crates.txt")


def check_crate_title(check, crate):
    path = f"crates/{crate.name}/README.md"
    document = check.named(path)
    if document is None:
        check.fault(path, 1, f"{crate.name} has no README", "write one with the headings: " + ", ".join(CRATE_HEADINGS))
        return
    if document.lines[:1] != [f"# {crate.name}"]:
        check.fault(path, 1, "the title isn't the crate's name", f"write '# {crate.name}'")
    line, text = next(((n, it) for n, it in enumerate(document.lines[1:], 2) if it.strip()), (1, ""))
    if text != crate.sentence:
        check.fault(path, line, "under the title doesn't stand the crate's sentence", f"write '{crate.sentence}' as in crates.txt")


def check_rows(check, path):
    """The table of crates of a document has the crates of crates.txt in their order, with their sentences."""
    document = check.named(path)
    rows = table_under(document, "Crate") if document else []
    if not rows:
        check.fault(path, 1, "there is no table of crates", "write one whose first cells are 'Crate' and a sentence")
        return
    names = [bare(cells[0]) for _, cells in rows]
    for (line, cells), name in zip(rows, names):
        if name not in check.by_name:
            check.fault(path, line, f"{name} is no crate of crates.txt", "drop the row, or list the crate")
        elif "](" in cells[0] and f"crates/{name}/README.md)" not in cells[0]:
            check.fault(path, line, f"the row of {name} leads to another file", f"let it lead to crates/{name}/README.md")
        elif check.by_name[name].sentence not in ("", *cells[1:2]):
            check.fault(path, line, f"the sentence of {name} differs", f"write '{check.by_name[name].sentence}' as in crates.txt")
    for crate in check.crates:
        if crate.name not in names:
            check.fault(path, rows[0][0], f"{crate.name} has no row", "add it where crates.txt has the crate")
    listed = [name for name in names if name in check.by_name]
    for place, name in enumerate(names):
        if name in names[:place]:
            check.fault(path, rows[place][0], f"{name} has a row already", "drop this one")
    if [*dict.fromkeys(listed)] != [name for name in check.by_name if name in names]:
        check.fault(path, rows[0][0], "the rows stand in another order than in crates.txt", "put them in the order " + ", ".join(check.by_name))


# ---- forms, headings and sizes


def check_forms(check):
    for document in check.documents:
        check_markdown(check, document)


def check_headings(check):
    for document in check.documents:
        if document.path == "README.md":
            check_order(check, document, HOUSE_HEADINGS)
        elif is_crate_readme(check, document):
            check_order(check, document, CRATE_HEADINGS)


def check_sentences(check):
    """Notes how many sentences of a document are longer than aimed at."""
    for document in check.documents:
        counts = [len(re.findall(r"[\w'^-]+", it)) for block in document.blocks for it in sentences_of(block)]
        long = [it for it in counts if it > SENTENCE_AIM]
        if long:
            check.notes.append(f"{document.path}: {len(long)} sentences of more than {SENTENCE_AIM} words, the longest of {max(long)}")


def check_stands_on(check):
    """The last heading of a crate's README names no crate of the house that crates.txt doesn't have behind its name."""
    for document in check.documents:
        home = home_of(check, document.path)
        start = next((line for line, title in document.sections(2) if home and title == "Stands on"), len(document.lines))
        spans = [(block.line, span) for block in document.blocks if block.line > start for span in SPAN.findall(block.text)]
        for line, name in spans:
            if name in check.by_name and name not in home.libraries:
                check.fault(document.path, line, f"{home.name} doesn't stand on {name}", "name what crates.txt has behind its name")


def check_order(check, document, wanted):
    found = document.sections(2)
    for place, title in enumerate(wanted):
        line, given = found[place] if place < len(found) else (len(document.lines), "no heading")
        if given != title:
            check.fault(document.path, line, f"here stands '{given}' in the place of '## {title}'", "have these headings in order: " + ", ".join(wanted))
            return
    if len(found) > len(wanted):
        check.fault(document.path, found[len(wanted)][0], f"'{found[len(wanted)][1]}' is one heading too many", "put it under one of: " + ", ".join(wanted))


def check_sizes(check):
    for crate in check.crates:
        for kind, aim in FILE_AIMS.items():
            for file in sorted((crate.folder / kind).rglob("*.*t")):
                check_file_size(check, file, aim)
        check_functions(check, crate)


def check_file_size(check, file, aim):
    count, path = len(file.read_text(encoding="utf-8").splitlines()), file.relative_to(check.top)
    if count > HARD_LIMIT:
        check.fault(path, HARD_LIMIT + 1, f"it has {count} lines", f"split it: {HARD_LIMIT} is the most, and {aim} the aim")
    elif count > aim:
        check.notes.append(f"{path}: {count} lines, where {aim} are aimed at")


def check_functions(check, crate):
    count = 0
    for file in sorted((crate.folder / "src").rglob("*.rt")):
        for name, line, lines in function_sizes(file.read_text(encoding="utf-8")):
            count += 1
            if lines > FUNCTION_AIM:
                check.notes.append(f"{file.relative_to(check.top)}:{line}: {name} has {lines} lines, where {FUNCTION_AIM} are aimed at")
    if count > CRATE_AIM:
        check.notes.append(f"crates/{crate.name}: {count} functions, where {CRATE_AIM} are aimed at")


RULES = [check_crates, check_forms, check_promises, check_names, check_headings, check_sentences, check_stands_on]
RULES += [check_shown_files, check_examples, check_sizes, check_edits, check_limits]
RULES += [check_heads, check_comments, check_meanings, check_width, check_readmes, check_definitions, check_steps]


def main(words):
    top = Path(words[0] if words else Path(__file__).resolve().parent.parent)
    if not (top / "crates.txt").is_file():
        print(f"{top}/crates.txt:1: there is no such file; give the top of a checkout")
        return 1
    check = Check(top)
    for rule in RULES:
        rule(check)
    for note in check.notes:
        print(f"note: {note}")
    for fault in check.faults:
        print(fault)
    count = len(check.faults)
    print(f"documents: {count or 'no'} fault{'s' if count > 1 else ''}")
    return 1 if check.faults else 0


if __name__ == "__main__":
    sys.exit(main(sys.argv[1:]))
