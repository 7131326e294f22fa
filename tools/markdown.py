"""What the document check sees of a Markdown file: its headings, code spans, links, blocks and table rows.

Lines are counted from 1. Nothing inside a fenced block counts as a heading, span, link or row.
"""

import re
from dataclasses import dataclass, field

FENCE = re.compile(r"^\s*(```+|~~~+)\s*(.*?)\s*$")
HEADING = re.compile(r"^(#{1,6})\s+(.*?)\s*$")
SPAN = re.compile(r"`([^`]+)`")
# The target of a link, whatever its words are, or of a link that is defined apart.
LINK = re.compile(r"\]\(\s*<?([^)\s>]*)|^ {0,3}\[[^\]]+\]:\s*<?([^\s>]+)", re.M)
# A paragraph, list item or table row: what is said in one of them is read together.
STARTS_BLOCK = re.compile(r"^\s*([-*+]\s|[0-9]+\.\s|\||#)")


@dataclass
class Fence:
    line: int
    mark: str
    info: list
    text: str = ""

    @property
    def shows_file(self):
        return len(self.info) > 1


@dataclass
class Block:
    line: int
    text: str

    def line_at(self, offset):
        return self.line + self.text.count("\n", 0, offset)

    def plain(self):
        """The text with blanks in the place of its code spans, and then also of its links' targets."""
        without_spans = SPAN.sub(blanks, self.text)
        return without_spans, LINK.sub(blanks, without_spans)


def blanks(found):
    return re.sub(r"[^\n]", " ", found[0])


@dataclass
class Document:
    path: str
    lines: list
    headings: list = field(default_factory=list)
    fences: list = field(default_factory=list)
    blocks: list = field(default_factory=list)
    # What a link may have behind a # to lead to one of the headings.
    anchors: set = field(default_factory=set)
    open_fence: Fence = None

    def sections(self, level):
        return [(line, title) for line, depth, title in self.headings if depth == level]

    def section_lines(self, title):
        """The lines under a heading, to the next one of its level."""
        starts = [line for line, _ in self.sections(2)] + [len(self.lines) + 1]
        return next((range(line + 1, end) for (line, name), end in zip(self.sections(2), starts[1:]) if name == title), range(0))


def read_document(path, text):
    """The document of a text."""
    document = Document(path, text.splitlines())
    fence, starts_anew = None, True
    for number, line in enumerate(document.lines, 1):
        mark = FENCE.match(line)
        if fence is not None:
            fence = step_in_fence(document, fence, mark, line)
        elif mark:
            fence, starts_anew = Fence(number, mark[1], mark[2].split()), True
        else:
            starts_anew = add_line(document, number, line, starts_anew)
    document.open_fence = fence
    return document


def step_in_fence(document, fence, mark, line):
    """Adds a line to an open block, or closes it."""
    if mark and not mark[2] and mark[1].startswith(fence.mark):
        document.fences.append(fence)
        return None
    fence.text += line + "\n"
    return fence


def add_line(document, number, line, starts_anew):
    """Adds a line outside of blocks, and says whether the next one begins a new paragraph."""
    heading = HEADING.match(line)
    if heading:
        document.headings.append((number, len(heading[1]), heading[2]))
        document.anchors.add(re.sub(r"[^\w -]", "", heading[2].lower()).replace(" ", "-"))
    if not line.strip():
        return True
    if starts_anew or STARTS_BLOCK.match(line):
        document.blocks.append(Block(number, line))
    else:
        document.blocks[-1].text += "\n" + line
    return heading is not None


def sentences_of(block):
    """The sentences of a paragraph, list item or table row, where a code span or a link counts as a word; `;` and `:` end one too."""
    text = LINK.sub("]", SPAN.sub("span", block.text))
    return [it for part in re.split(r"(?<!\\)\|", text) for it in re.split(r"(?<=[.?!;:])\s+", part)]


def cells_of(row):
    """The cells of a table row, or none where it is no row."""
    row = row.strip()
    if not (row.startswith("|") and row.endswith("|") and len(row) > 1):
        return []
    return [cell.replace("\\|", "|").strip() for cell in re.split(r"(?<!\\)\|", row[1:-1])]


def bare(cell):
    """A cell's text without the marks of a link or a code span."""
    link = re.fullmatch(r"\[(.*)\]\([^)]*\)", cell)
    return (link[1] if link else cell).strip("`")


def table_under(document, first_cell):
    """The rows (line, cells) of the tables whose header begins with this cell."""
    rows, is_inside = [], False
    for number, line in enumerate(document.lines, 1):
        cells = cells_of(line)
        is_inside = is_inside and bool(cells)
        if is_inside and not re.fullmatch(r"[-: ]*", cells[0]):
            rows.append((number, cells))
        is_inside = is_inside or bool(cells) and bare(cells[0]) == first_cell
    return rows
