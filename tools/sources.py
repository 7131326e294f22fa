"""What the document check sees of a repository: its crates, and the calls, clauses, tests and names of each.

Rattle source is read by its layout, which the gate keeps as `rt fmt` makes it: an item ends at the
line with its closing brace, which stands at the item's own depth.
"""

import re
from dataclasses import dataclass
from functools import cached_property
from pathlib import Path

CRATE_LINE = re.compile(r"^([a-z][a-z0-9_]*)[^:#]*:([^#]*)(?:#\s*(.*?)\s*)?$")
FUNCTION = re.compile(r"^(\s*)((?:pub(?:\([^)]*\))?\s+)?)(?:const\s+)?(?:unsafe\s+)?fn\s+([A-Za-z_][A-Za-z0-9_]*)")
OWNER = re.compile(r"^(?:pub(?:\([^)]*\))?\s+)?(?:unsafe\s+)?(impl|trait|enum|struct)\b(.*)")
PUBLIC = re.compile(r"^pub (?:const |unsafe )*(?:fn|struct|trait|enum|type|const|static) ([A-Za-z_][A-Za-z0-9_]*)", re.M)
GIVEN_OUT = re.compile(r"^pub use ([a-z0-9_:]+)::(?:\{([^}]*)\}|([A-Za-z0-9_]+));", re.M)
ALIAS = re.compile(r"^pub type ([A-Za-z0-9_]+)[^=]*= ([A-Za-z0-9_]+)(.*);", re.M)
CLAUSE = re.compile(r"^\s*(?:ensures|requires)\*?\s+([a-z_][a-z0-9_]*)\s*\{")
DEFINITION = re.compile(r"^(?:abbrev\s+)?pub\s+(?:(?:record|data)\s+)?([^\s:(){}]+)", re.M)
DECLARED = re.compile(r"^ *(?:abbrev )?(?:pub )?(?:(?:record|data) )?([^\s:(){}]+)(?: [({].*)? : ", re.M)
IMPORTED = re.compile(r"^(?:pub )?use Rattle\.[\w.+]+\.\{([^}]*)\}", re.M)
TEST = re.compile(r"#\[test\]\s*(?:(?://[^\n]*|#\[[^\n]*\])\s*)*(?:pub\s+)?fn\s+([A-Za-z_][A-Za-z0-9_]*)")


@dataclass
class Owner:
    """An `impl`, `trait`, `enum` or `struct`, with its lines."""

    kind: str
    header: str
    lines: list

    @cached_property
    def parts(self):
        """The trait, if it is an `impl Trait for Type`, and the type that it is of, both without parameters and bounds."""
        bare, before = self.header, None
        while bare != before:
            before, bare = bare, re.sub(r"<[^<>]*>", "", bare)
        names = [re.match(r"\s*(?:\w+::)*(\w*)", it)[1] for it in re.split(r"\sfor\s", bare)]
        return (names[0], names[1]) if self.kind == "impl" and len(names) > 1 else (None, names[0])

    def is_of(self, name, aliased):
        """Whether it is a type's own, or that of an alias, whose parameters may be given (as ("List", "<u32>"))."""
        own = self.parts[1]
        of_alias = aliased and own == aliased[0] and (self.header.startswith("<") or aliased[1] in self.header)
        return own == name or bool(of_alias)

    def has_variant(self, name):
        return self.kind == "enum" and any(re.match(rf"    {re.escape(name)}\b", line) for line in self.lines[1:])

    def functions(self):
        """Its functions that a caller may use: the public ones of a type, and all of a trait."""
        is_of_trait = self.kind == "trait" or self.parts[0] is not None
        return functions_in(self.lines, "    ", not is_of_trait)


def depth_of(line):
    return len(line) - len(line.lstrip())


def item_lines(lines, start):
    """The lines of the item that begins at a place: to its closing brace, or to its `;` where no brace opened."""
    depth, has_opened = depth_of(lines[start]), False
    for end in range(start, len(lines)):
        line = lines[end].rstrip()
        is_outer = depth_of(line) == depth
        if is_outer and (line.lstrip().startswith("}") or end == start and line.endswith("}")):
            return lines[start : end + 1]
        if not has_opened and line.endswith(";"):
            return lines[start : end + 1]
        has_opened = has_opened or is_outer and line.endswith("{")
    return lines[start:]


def contract_labels(lines):
    """The clause labels of a function's contract, which ends where its body opens."""
    opening = " " * depth_of(lines[0]) + "{"
    head = lines[: lines.index(opening)] if opening in lines else lines
    return {found[1] for found in map(CLAUSE.match, head) if found}


def functions_in(lines, indent, must_be_public=False):
    """The functions that stand at one depth, each with the labels of its contract."""
    heads = [(place, FUNCTION.match(line)) for place, line in enumerate(lines)]
    wanted = [(place, it) for place, it in heads if it and it[1] == indent and (it[2].strip() == "pub" or not must_be_public)]
    return {it[3]: contract_labels(item_lines(lines, place)) for place, it in wanted}


def names_in(file):
    """The names that a file of Rattle has in its code, or that a file of definitions or proofs declares."""
    text = file.read_text(encoding="utf-8")
    if file.suffix == ".rt":
        return set(re.findall(r"[A-Za-z_]\w*", re.sub(r"//[^\n]*", "", text)))
    return set(DECLARED.findall(re.sub(r"--[^\n]*", "", text)))


def imported_names(file):
    return {name.strip() for names in IMPORTED.findall(file.read_text(encoding="utf-8")) for name in names.split(",")}


class Crate:
    def __init__(self, top, name, libraries, sentence, line):
        self.folder, self.name, self.libraries = Path(top) / "crates" / name, name, libraries
        self.sentence, self.line = sentence, line

    def files(self, folder, ending):
        return sorted((self.folder / folder).rglob(f"*.{ending}"))

    @property
    def is_program(self):
        return (self.folder / "src/main.rt").is_file()

    @property
    def root_file(self):
        """The file that the crate is built from: a program's main, else the library's root."""
        return self.folder / ("src/main.rt" if self.is_program else "src/lib.rt")

    @cached_property
    def texts(self):
        return {path: path.read_text(encoding="utf-8") for path in self.files("src", "rt")}

    @cached_property
    def public(self):
        """Each name that the crate's root gives out, with the text that declares it. A program has all its public ones, and main."""
        if self.is_program:
            found = {name: text for text in self.texts.values() for name in PUBLIC.findall(text)}
            return {**found, "main": self.texts[self.root_file]}
        root = self.texts.get(self.root_file, "")
        found = {name: root for name in PUBLIC.findall(root)}
        for module, several, one in GIVEN_OUT.findall(root):
            text = self.texts.get(self.folder / "src" / f"{module.removeprefix('crate::').replace('::', '/')}.rt", "")
            found.update({name.strip(): text for name in (several or one).split(",") if name.strip()})
        return found

    @cached_property
    def owners(self):
        found = []
        for lines in map(str.splitlines, self.texts.values()):
            for place, line in enumerate(lines):
                head = OWNER.match(line)
                if head:
                    found.append(Owner(head[1], head[2], item_lines(lines, place)))
        return found

    @cached_property
    def tests(self):
        return {name for text in self.texts.values() for name in TEST.findall(text)}

    @cached_property
    def edits(self):
        return {path.name for path in self.files("must-fail", "edit")}

    @cached_property
    def definitions(self):
        return {name for it in self.files("specs", "antt") for name in DEFINITION.findall(it.read_text(encoding="utf-8"))}

    @cached_property
    def lemmas(self):
        return {name for it in self.files("proofs", "antt") for name in names_in(it)}

    @cached_property
    def words(self):
        """Every name that the crate has or uses: of its code, its definitions and lemmas, its files and what it stands on."""
        definitions = self.files("specs", "antt") + self.files("proofs", "antt")
        found = {self.name, *self.libraries}
        found.update(*map(names_in, [*self.texts, *definitions]), *map(imported_names, definitions))
        files = [it for it in self.folder.rglob("*") if "out" not in it.relative_to(self.folder).parts]
        return found | {name for it in files for name in (it.name, it.stem)}

    def labels_of(self, path):
        """The labels of the contract of what a path names (`call`, `Type::method`), or None where no such thing is public."""
        name, *rest = path.split("::")
        if name not in self.public or len(rest) > 1:
            return None
        if rest:
            return self.method_labels(name, rest[0])
        return functions_in(self.public[name].splitlines(), "").get(name, set())

    def method_labels(self, type_name, method):
        """The labels of a method by its impl and its trait; none for a variant; None where it isn't there."""
        aliases = {alias: (base, rest) for text in self.texts.values() for alias, base, rest in ALIAS.findall(text)}
        found = None
        for owner in self.owners:
            if not owner.is_of(type_name, aliases.get(type_name)):
                continue
            methods = owner.functions()
            if method in methods:
                found = (found or set()) | methods[method]
                found |= self.method_labels(owner.parts[0], method) or set() if owner.parts[0] else set()
            elif owner.has_variant(method):
                found = found or set()
        return found


def function_sizes(text):
    """Each function of a file with its line and the count of lines of its body."""
    lines = text.splitlines()
    for place, line in enumerate(lines):
        head = FUNCTION.match(line)
        if head:
            item = item_lines(lines, place)
            opening = " " * depth_of(line) + "{"
            body = item[item.index(opening) :] if opening in item else item
            yield head[3], place + 1, max(len(body) - 2, 0)


def read_crates(top):
    """The crates of crates.txt in its order."""
    lines = (Path(top) / "crates.txt").read_text(encoding="utf-8").splitlines()
    found = [(number, CRATE_LINE.match(line)) for number, line in enumerate(lines, 1)]
    return [Crate(top, it[1], it[2].split(), it[3] or "", number) for number, it in found if it]
