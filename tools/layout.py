"""The rules of the document check on source files: heads, comments over functions and definitions, and width."""

import re

from markdown import SPAN, table_under
from sources import FUNCTION, OWNER, depth_of, item_lines

WIDTH = 160
# A name that a file of definitions or proofs declares, at the beginning of a line.
STATEMENT = re.compile(r"(?:abbrev )?(pub )?(?:abbrev )?(?:(?:record|data) )?([^\s:(){}]+)(?: [({].*)? :(?: |$)")
NOT_STATED = {"use", "mod", "syntax", "ruleset", "let", "where"}
# Files whose names are those of the checker's goals.
ANSWERS = {"Answers", "Invariants", "Proof"}
LIMITS_FILE = "src/limits.rt"
LIMIT = re.compile(r"^pub const ([A-Z][A-Z0-9_]*): [a-z0-9]+ = ([0-9][0-9_]*);", re.M)
LATCH_CRATE = "fiber_latch"
STEP_TRAITS = {"Play", "Join", "Split"}
KINDS = "Kinds of steps"
UNCITED = "no public clause cites"


def check_heads(check):
    """Each source file begins with a sentence that says what lives there."""
    for crate in check.crates:
        for path, text in crate.texts.items():
            if not text.startswith("//! "):
                check.fault(path.relative_to(check.top), 1, "the file has no head", "begin it with //! and a sentence that says what lives there")


def check_comments(check):
    """Each function has a line of its own, except those of tests, and those that implement a trait, which have the trait's."""
    for crate in check.crates:
        for path, text in crate.texts.items():
            if "tests" not in path.relative_to(crate.folder).with_suffix("").parts:
                check_functions_have_comments(check, path.relative_to(check.top), text.splitlines())


def check_functions_have_comments(check, path, lines):
    of_traits = lines_of_trait_impls(lines)
    for place, line in enumerate(lines):
        head = FUNCTION.match(line)
        if head and place not in of_traits and not has_comment(lines, place):
            check.fault(path, place + 1, f"{head[3]} has no line of its own", "write above it, behind ///, what no clause says: what it is for, unit, base or cost")


def lines_of_trait_impls(lines):
    found = set()
    for place, line in enumerate(lines):
        head = OWNER.match(line)
        if head and head[1] == "impl" and re.search(r"\sfor\s", head[2]):
            found.update(range(place, place + len(item_lines(lines, place))))
    return found


def has_comment(lines, place):
    """Whether there is a comment above, or the function is a test."""
    for line in map(str.strip, reversed(lines[:place])):
        if line.startswith("///") or line == "#[test]":
            return True
        if not (line.startswith(("#", "//")) or line.endswith("]")):
            return False
    return False


def check_meanings(check):
    """Each definition, and each `pub` lemma outside of answers, has a line above it with its meaning."""
    for crate in check.crates:
        for folder in ("specs", "proofs"):
            for file in crate.files(folder, "antt"):
                if file.stem not in ANSWERS:
                    check_file_meanings(check, file, folder == "proofs")


def check_file_meanings(check, file, is_proof):
    lines = file.read_text(encoding="utf-8").splitlines()
    for place, line in enumerate(lines):
        found = STATEMENT.match(line)
        if not found or found[2] in NOT_STATED or " = " in line[: found.end()] or is_proof and not found[1]:
            continue
        above = lines[place - 1] if place else ""
        if not above.startswith("-- ") or above.startswith("-- --"):
            check.fault(file.relative_to(check.top), place + 1, f"{found[2]} has no line of meaning", "write above it, behind --, what it says, to be read aloud")


def check_width(check):
    """Definitions and proofs have at most so many columns; imports are laid out by the toolchain."""
    for crate in check.crates:
        for folder in ("specs", "proofs"):
            for file in crate.files(folder, "antt"):
                for number, line in enumerate(file.read_text(encoding="utf-8").splitlines(), 1):
                    if len(line) > WIDTH and not re.match(r"\s*(pub )?use ", line):
                        check.fault(file.relative_to(check.top), number, f"it has {len(line)} columns", f"break it: {WIDTH} are the most")


def check_edits(check):
    """A must-fail edit changes code or the meaning of a definition, and no contract, ghost or proof."""
    for crate in check.crates:
        for file in crate.files("must-fail", "edit"):
            for number, line in enumerate(file.read_text(encoding="utf-8").splitlines(), 1):
                where = file.relative_to(check.top)
                if re.match(r"file: (?!src/|specs/)", line):
                    check.fault(where, number, "it changes neither code nor a definition", "turn the meaning of a function in src/, or of a definition in specs/")
                elif re.match(r"(old|new): .*\b(requires|ensures|ghost)\b", line):
                    check.fault(where, number, "it changes a contract or a ghost", "turn the meaning of a function instead: what is promised stays")


# ---- what documents list of the sources


def check_limits(check):
    """FORMATS.md has each limit of the model in its table, with its number."""
    crate, document = check.by_name.get("dt_model"), check.named("docs/FORMATS.md")
    text = crate.texts.get(crate.folder / LIMITS_FILE) if crate else None
    if text is None or document is None:
        return
    rows = {name: (line, cells) for line, cells in table_under(document, "What") for cell in cells for name in SPAN.findall(cell)}
    line = min((line for line, _ in rows.values()), default=1)
    for name, number in LIMIT.findall(text):
        wanted = f"{int(number):,}"
        if name not in rows:
            check.fault(document.path, line, f"the table of limits hasn't {name}", f"add its row, with {wanted}")
        elif not any(re.search(rf"(?<![\d,]){wanted}(?![\d,])", cell) for cell in rows[name][1]):
            check.fault(document.path, rows[name][0], f"the row of {name} hasn't its number", f"write {wanted}, as in crates/dt_model/{LIMITS_FILE}")


def check_definitions(check):
    """DEFINITIONS.md names each file of definitions, unless its head says that no public clause cites it."""
    document = check.named("docs/DEFINITIONS.md")
    named = {span for block in document.blocks for span in SPAN.findall(block.text)} if document else set()
    for crate in check.crates:
        for file in crate.files("specs", "antt"):
            path = str(file.relative_to(check.top))
            head = " ".join(it.removeprefix("-- ") for it in file.read_text(encoding="utf-8").splitlines()[:4] if it.startswith("-- "))
            if document and file.stem != "Lib" and path not in named and UNCITED not in head.lower():
                check.fault(document.path, 1, f"it doesn't name {path}", f"add its notion, or say in its head '{UNCITED}'")


def check_steps(check):
    """The README of the latch table lists the kinds of steps that its code has."""
    crate, document = check.by_name.get(LATCH_CRATE), check.named(f"crates/{LATCH_CRATE}/README.md")
    if crate is None or document is None:
        return
    has = {it.parts[1] for it in crate.owners if it.kind == "impl" and it.parts[0] in STEP_TRAITS}
    block = next((it for it in document.blocks if KINDS in it.text), None)
    if block is None:
        check.fault(document.path, 1, "it lists no kinds of steps", f"write '{KINDS}: ' and behind it " + ", ".join(f"`{it}`" for it in sorted(has)))
        return
    listed = {name for name in SPAN.findall(block.text[block.text.index(KINDS) :].split(".")[0])}
    for name in sorted(has - listed):
        check.fault(document.path, block.line, f"the kinds of steps lack {name}", "list it: src/plays.rt has it")
    for name in sorted(listed - has):
        check.fault(document.path, block.line, f"there is no kind of step {name}", "drop it: src/plays.rt hasn't it")
