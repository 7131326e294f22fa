"""The rule of the document check on paths and links: each leads to a file or folder of the repository that is there."""

import fnmatch
import os
import re

from markdown import LINK

ENDINGS = (".md", ".rt", ".antt", ".py", ".sh", ".txt", ".toml", ".edit")
FORMS_LEFT_OUT = [
    (re.compile(r"<[A-Za-z/!][^>]*>"), "write it in Markdown, or as a code span"),
    (re.compile(r"\n\s*(=+|-+)\s*$", re.M), "begin the heading's line with # instead"),
]
OUTSIDE = "it leads out of the repository", "name a file of the repository, or cite a source by its title"


def home_of(check, path):
    """The crate that a document lies in, if it is a crate's."""
    parts = path.split("/")
    return check.by_name.get(parts[1]) if parts[0] == "crates" else None


def check_markdown(check, document):
    """A document has no block that hides names: nothing stays open, and nothing is HTML."""
    if document.open_fence:
        check.fault(document.path, document.open_fence.line, "the block that begins here has no end", f"close it with {document.open_fence.mark}")
    for block in document.blocks:
        if block.text.count("`") % 2:
            check.fault(document.path, block.line, "a backtick has no partner from here to the next empty line or item", "close the code span")
        for form, remedy in FORMS_LEFT_OUT:
            found = form.search(block.plain()[0])
            if found:
                check.fault(document.path, block.line_at(found.start()), f"'{found[0].strip()}' isn't read here", remedy)


def check_links(check, path, block):
    for found in LINK.finditer(block.plain()[0]):
        target, line = found[1] or found[2] or "", block.line_at(found.start())
        file, _, anchor = target.partition("#")
        whole = os.path.normpath(os.path.join(os.path.dirname(path), file)) if file else path
        if is_outside(whole) or re.match(r"[a-z]+:", target):
            check.fault(path, line, f"the link to {target}: {OUTSIDE[0]}", OUTSIDE[1])
        elif not (check.top / whole).exists():
            check.fault(path, line, f"the link to {target} leads nowhere", "write the file's path from this document's folder")
        elif anchor and check.named(whole) and anchor not in check.named(whole).anchors:
            check.fault(path, line, f"the link to {target} leads to no heading", "name a heading of that document, in lower case with - for blanks")


def is_outside(whole):
    """Whether a path that is joined to the top leads out of the repository."""
    return whole.startswith("/") or whole.split("/")[0] == ".."


def check_paths(check, path, line, text):
    """Looks up each word of a text that is a path: with a `/`, or with an ending that files here have."""
    for word in text.split():
        word = re.sub(r"(:[0-9-]+)?[.,:;]*$", "", word).split("#")[0]
        if not re.search(r"[A-Za-z]", word) or word in ENDINGS or not ("/" in word or word.endswith(ENDINGS)):
            continue
        if "://" in word or word.startswith("~") or all(map(is_outside, whole_paths(check, path, word))):
            check.fault(path, line, f"the path {word}: {OUTSIDE[0]}", OUTSIDE[1])
        elif not path_exists(check, path, word):
            check.fault(path, line, f"the path {word} isn't there", "write it from the top of the repository, and no / between other words")


def whole_paths(check, path, word):
    """What a path may be from the top: it is written from there, from the document's folder, or from the crate's src/."""
    home = home_of(check, path)
    folders = ["", os.path.dirname(path), *([f"crates/{home.name}/src"] if home else [])]
    return [os.path.normpath(os.path.join(folder, word)) for folder in folders]


def path_exists(check, path, word):
    form = "/".join(re.sub(r"^NAME\b", "*", part) for part in word.split("/"))
    for whole in whole_paths(check, path, form):
        # What is built lies in a folder `out`, which is there only after a build.
        whole = re.sub(r"(^|/)out(/.*)?$", "", whole)
        if not is_outside(whole) and ((check.top / whole).exists() or "*" in whole and fits(check, whole)):
            return True
    home, name = home_of(check, path), word.rstrip("/")
    files = [it for it in check.files if not home or it.startswith(f"crates/{home.name}/")]
    return "/" not in name and any(fnmatch.filter(it.split("/"), name) for it in files)


def fits(check, pattern):
    return bool(fnmatch.filter(check.files, pattern) or fnmatch.filter(check.files, f"{pattern}/*"))
