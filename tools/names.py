"""The rule of the document check on names: calls and their clauses, lemmas, tests, edits and all other names."""

import fnmatch
import re

from markdown import SPAN, table_under
from paths import ENDINGS, check_links, check_paths, home_of

CALL = re.compile(r"([a-z][a-z0-9_]*)::([A-Za-z_][A-Za-z0-9_]*(?:::[A-Za-z_][A-Za-z0-9_]*)*)")
METHOD = re.compile(r"[A-Z][A-Za-z0-9_]*::[A-Za-z_][A-Za-z0-9_]*")
EDIT = re.compile(r"[A-Za-z0-9_*-]+\.edit")
NAME = re.compile(r"[A-Za-z_][A-Za-z0-9_]*(?:[.-][A-Za-z0-9_]+)*")
NAME_WITHOUT_SPAN = re.compile(r"\b[A-Za-z]\w*(?:_|::)\w[\w:]*")
# What stands behind a claim: `[call: clause, clause; other_call: clause]`, `[lemma: name]` or `[test: name]`.
CLAIM = re.compile(r"`\[([^`\]]*)\]`")
CLAIM_PART = re.compile(r"\s*([^\s:]+(?:::[^\s:]+)*):\s+(\S+(?:,\s*\S+)*)\s*")
STATED = {"lemma": lambda crate: crate.lemmas, "test": lambda crate: crate.tests}
FOREIGN = {"std", "bool", "char", "str", *(f"{kind}{size}" for kind in "iu" for size in (8, 16, 32, 64, 128, "size"))}
# What the cells of a promise behind its sentence are.
PROMISE_CELLS = [
    ("calls with their clauses", re.compile(rf"{CLAIM.pattern}(,? {CLAIM.pattern})*")),
    ("edits", re.compile(r"(`[^`]+\.edit`(, `[^`]+\.edit`)*)?")),
    ("tests", re.compile(r"(`\[test: [^`]*\]`)?")),
]
# Words of scripts, of the standard library and of grammars that documents use beside the names of the code.
KNOWN_WORDS = {"set", "add", "get", "batch", "query", "tensor", "load", "session", "print", "schema", "order", "name", "twice", "rank", "whole", "number", "nan", "Box", "cmp", "NAME", "FILE"}


def check_names(check):
    for document in check.documents:
        superseded = superseded_lines(document)
        for block in document.blocks:
            if block.line not in superseded:
                check_block(check, document.path, block)
        for fence in document.fences:
            if not fence.shows_file:
                check_commands(check, document.path, fence)


def check_promises(check):
    """Each promise of docs/CLAIMS.md has its call and clause, its edits and its tests in the columns for them."""
    document = check.named("docs/CLAIMS.md")
    for line, cells in table_under(document, "Promise") if document else []:
        for cell, (what, form) in zip(cells[1:], PROMISE_CELLS):
            if not form.fullmatch(cell):
                check.fault(document.path, line, f"the cell '{cell}' isn't {what}", "write: `[crate::call: clause]` | `name.edit` | `[test: name]`")


def check_commands(check, path, fence):
    """The calls and paths of a block that shows no file: of commands, as a rule."""
    for line, text in enumerate(fence.text.splitlines(), fence.line + 1):
        check_paths(check, path, line, text)
        for name in NAME_WITHOUT_SPAN.findall(text):
            if name.split("::")[0] in check.by_name:
                check_call(check, path, line, name)


def superseded_lines(document):
    """The lines of the entries of the record of decisions that are superseded."""
    if document.path != "docs/DECISIONS.md":
        return set()
    starts = [line for line, _ in document.sections(2)] + [len(document.lines) + 1]
    entries = [range(start, end) for start, end in zip(starts, starts[1:])]
    return {line for it in entries if any(document.lines[n - 1].startswith("Superseded") for n in it) for line in it}


def check_block(check, path, block):
    """Looks up all that a paragraph, list item or table row names."""
    for found in SPAN.finditer(block.text):
        line, span = block.line_at(found.start()), " ".join(found[1].split())
        if span.startswith("[") and ":" in span:
            check_claim(check, path, line, span)
        else:
            check_span(check, path, line, span)
    check_links(check, path, block)
    check_plain(check, path, block)


def check_plain(check, path, block):
    """What stands outside of code spans has no names, but those of crates, and its paths are looked up."""
    for number, text in enumerate(block.plain()[1].split("\n"), block.line):
        check_paths(check, path, number, re.sub(r"[()\[\]{}<>|!?\"'*]", " ", text))
        for name in NAME_WITHOUT_SPAN.findall(text):
            if name not in check.by_name:
                check.fault(path, number, f"the name {name} stands outside of a code span", "put it between backticks, so that it is looked up")


# ---- what a code span is


def check_span(check, path, line, span):
    name = bare_name(span)
    if "::" in span:
        check_call(check, path, line, span)
    elif EDIT.fullmatch(name):
        check_edit(check, path, line, name)
    elif "/" in span or any(word.endswith(ENDINGS) for word in name.split()):
        check_paths(check, path, line, span)
    elif NAME.fullmatch(name):
        check_word(check, path, line, name)
    else:
        for word in filter(NAME_WITHOUT_SPAN.fullmatch, span.split()):
            check_word(check, path, line, word)


def bare_name(span):
    """A span's name without arguments or parameters behind it."""
    return re.sub(r"(<.*>|\(.*\))$", "", span).rstrip(".,:;")


def call_in(check, path, span):
    """The crate and the path in it that a code span names, if it names a call."""
    home, name = home_of(check, path), bare_name(" ".join(span.split()))
    found = CALL.fullmatch(name)
    if found and found[1] in check.by_name:
        return check.by_name[found[1]], found[2]
    is_homes = home and (METHOD.fullmatch(name) or name in home.public and name.islower())
    return (home, name) if is_homes else None


def check_call(check, path, line, span):
    if span.split("::")[0] in check.foreign:
        return
    called = call_in(check, path, span)
    if called is None:
        check.fault(path, line, f"`{span}` is no call of a crate of crates.txt", "write crate::call or crate::Type::method, alone in its code span")
    elif called[0].labels_of(called[1]) is None:
        remedy = "name what that crate's root gives out, another crate's with that crate in front, or drop the claim"
        check.fault(path, line, f"`{span}` isn't public in crates/{called[0].name}/src", remedy)


def check_edit(check, path, line, name):
    home = home_of(check, path)
    if not fnmatch.filter([it for crate in home_or_all(check, path) for it in crate.edits], name):
        where = f"crates/{home.name}/must-fail" if home else "any crate's must-fail"
        check.fault(path, line, f"the edit {name} isn't in {where}", "name one that is there, or write it")


def check_word(check, path, line, name):
    home = home_of(check, path)
    # a constant is mostly a limit, which a lower crate has
    known = (home or check).words if not name.isupper() else check.words, check.by_name, KNOWN_WORDS
    parts = [name] if any(name in it for it in known) else name.split(".")
    if not all(any(part in it for it in known) for part in parts):
        where = f"crates/{home.name}" if home else "any crate"
        check.fault(path, line, f"there is no `{name}` in {where}", "name what is there, another crate's call with that crate in front, or drop the claim")


def home_or_all(check, path):
    home = home_of(check, path)
    return [home] if home else check.crates


# ---- what stands behind a claim


def check_claim(check, path, line, span):
    """Each part names a call with clauses of its contract, or lemmas, or tests."""
    for part in span.strip("[]").split(";"):
        found = CLAIM_PART.fullmatch(part)
        if not found or not span.endswith("]"):
            check.fault(path, line, f"`{span}` is no list of calls with their clauses", "write `[call: clause, clause; other_call: clause]`")
            return
        names = [it.strip() for it in found[2].split(",")]
        if found[1] in STATED:
            check_stated(check, path, line, found[1], names)
        else:
            check_clauses(check, path, line, found[1], names)


def check_stated(check, path, line, kind, names):
    """Lemmas and tests of the README's crate; elsewhere of any."""
    home = home_of(check, path)
    for name in names:
        if not any(name in STATED[kind](crate) for crate in home_or_all(check, path)):
            where = f"crates/{home.name}" if home else "any crate"
            check.fault(path, line, f"the {kind} `{name}` isn't in {where}", "name it as it is there, or drop the claim")


def check_clauses(check, path, line, called, names):
    """Each of the clauses is of the contract of the call."""
    check_call(check, path, line, called)
    crate, item = call_in(check, path, called) or (None, None)
    labels = crate.labels_of(item) if crate else None
    for name in names if labels is not None else []:
        if name not in labels:
            wrong = f"the clause `{name}` isn't in the contract of {crate.name}::{item} (it has {', '.join(sorted(labels)) or 'none'})"
            check.fault(path, line, wrong, "name the clause as it is there, or drop the claim")
