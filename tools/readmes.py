"""The rules of the document check on the README of a crate: it is short, shows a caller, and has what carries it behind each claim."""

import re

from names import CLAIM
from paths import home_of

README_WORDS = 600


def is_crate_readme(check, document):
    return home_of(check, document.path) is not None and document.path.count("/") == 2


def check_readmes(check):
    """A crate's README is short, shows a caller, and has what carries it behind each claim."""
    for document in check.documents:
        if is_crate_readme(check, document):
            check_words(check, document)
            check_claims(check, document)
            check_caller(check, document, home_of(check, document.path))


def check_words(check, document):
    count = sum(len(block.text.split()) for block in document.blocks)
    if count > README_WORDS:
        check.fault(document.path, 1, f"it has {count} words", f"shorten it to {README_WORDS} at most")


def check_claims(check, document):
    lines = document.section_lines("Proved")
    for block in document.blocks:
        if block.line in lines and re.match(r"\s*[-*]\s", block.text) and not CLAIM.search(block.text):
            check.fault(document.path, block.line, "nothing stands behind the claim", "write `[call: clause]` behind it, or move it to another heading")


def check_caller(check, document, crate):
    """A library's README shows a caller that is a part of one of its source files."""
    lines = document.section_lines("Calls")
    blocks = [it for it in document.fences if it.line in lines and it.info[:1] == ["rust"]]
    if not (crate.folder / "src/lib.rt").is_file():
        return
    if not blocks:
        check.fault(document.path, min(lines, default=1), "it shows no caller", "add a ```rust block of some five lines that a test has")
    sources = [f"\n{squeezed(text)}\n" for text in crate.texts.values()]
    for block in blocks:
        if not any(f"\n{squeezed(block.text)}\n" in text for text in sources):
            check.fault(document.path, block.line, f"the caller isn't in crates/{crate.name}/src", "copy it from a test, line for line")


def squeezed(text):
    """The lines of a text that have words, without the blanks around them."""
    return "\n".join(it.strip() for it in text.splitlines() if it.strip())
