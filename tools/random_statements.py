"""Makes random statements for tools/random_workloads.py: such that have an answer, and such that have something broken.

A statement is made as a tree and then written, with blanks and needless parentheses here and there. What is broken is
either the tree, as an access with a wrong name, or the text, as a token that stands twice.
"""

import re

from replay_statements import MOST_ACCESSES, MOST_LITERALS, MOST_PARENTHESES, MOST_VARIABLES, SUMS, accesses_of, covers, distinct

NAMES = [b"i", b"j", b"k", b"l", b"m2", b"_n", b"A", b"query", b"o", b"p"]
BLANKS = [b" ", b"  ", b"\t", b" \t "]
NUMBERS = [0, 1, 2, 3, 7, 10, 2**32, 2**63, 2**64 - 1]
TOKEN = re.compile(rb"\w+|[^\w \t]|[ \t]+")
ODD_TOKENS = [b"(", b")", b",", b"=", b"+", b"-", b"*", b"1", b"2b", b"18446744073709551615", b"18446744073709551616", b"00", b"i", b"A"]
ODD_TOKENS += [b"$", b"n" * 32, b"n" * 33, b";", b"#", b"/", b"\xff", b"\x00", b"\r", b"'", b"==", b"1.5", b"()", b"-1"]


class Maker:
    """Makes statements over some tensors, a dict from names to dimensions."""

    def __init__(self, chance, tensors):
        self.chance, self.tensors = chance, tensors

    def odds(self, share):
        return self.chance.random() < share

    def text(self, broken_share=0.4):
        """A statement as it stands in a line."""
        if not self.tensors:
            return b"a = v(i)"
        statement = self.statement()
        if not self.odds(broken_share):
            return self.spaced(self.written(statement))
        if self.odds(0.6):
            for _ in range(self.chance.choice([1, 1, 2])):
                statement = self.broken(statement)
            return self.spaced(self.written(statement))
        text = self.spaced(self.written(statement))
        for _ in range(self.chance.choice([1, 1, 2])):
            text = self.mangled(text)
        return text

    # ---- statements that have an answer

    def statement(self):
        """A statement, in which each term covers its variables and those on the left."""
        names = self.chance.sample(NAMES, MOST_VARIABLES)
        base = self.chance.choice([*self.tensors])
        dims = sorted({dim for dims in self.tensors.values() for dim in dims})
        self.dims = {name: self.chance.choice(dims) for name in names} | dict(zip(names, self.tensors[base]))
        self.literals = MOST_LITERALS
        own = names[: len(self.tensors[base])]
        left = self.chance.sample(own, min(len(own), self.chance.choice([0, 1, 1, 1, 2, 2, 3, 5])))
        count = self.chance.choice([1, 1, 1, 2, 2, 3, 4])
        right = None
        for number in range(count):
            self.most = MOST_ACCESSES - (len(accesses_of(right)) if right else 0) - (count - 1 - number)
            self.most = min(self.most, self.chance.choice([1, 2, 3, 4, MOST_ACCESSES]))
            self.own = distinct([*left, *(own if self.odds(0.9) else []), *self.chance.sample(names, self.chance.choice([0, 0, 1, 1, 2, 3]))])
            term = self.term(left) or ("access", base, own)
            right = term if right is None else (self.chance.choice("+-"), right, term)
        return self.chance.choice([b"a", b"y", b"_", *self.tensors]), left, right

    def term(self, left):
        """A term that covers its variables and those on the left, or None where none was found."""
        term = self.cover(set(left), 2)
        if term is None or not accesses_of(term):
            return None
        variables = {it for _, found in accesses_of(term) for it in found}
        lacking = {it for it in variables if not covers(term, it)}
        rest = self.product(lacking) if lacking else None
        return rest and ("*", term, rest) if lacking else term

    def cover(self, wanted, depth):
        """An expression that covers some variables."""
        kind = self.chance.choice(["leaf", "leaf", "*", "+", "-", "negation"]) if depth else "leaf"
        if kind == "leaf":
            return self.product(wanted)
        first = self.cover(wanted if kind != "*" else {it for it in wanted if self.odds(0.5)}, depth - 1)
        if first is None or kind == "negation":
            return first and ("-", first)
        second = self.cover(wanted if kind != "*" else {it for it in wanted if not covers(first, it)}, depth - 1)
        return second and (kind, first, second)

    def product(self, wanted):
        """A product of accesses, and of numbers now and then, that covers some variables."""
        found, wanted = None, {*wanted}
        if not wanted and self.literals and self.odds(0.4):
            return self.literal()
        while found is None or wanted:
            access = self.access(wanted)
            if access is None or not self.most:
                return None
            self.most -= 1
            wanted -= {*access[2]}
            found = access if found is None else ("*", found, access)
        if self.literals and self.odds(0.15):
            found = ("*", self.literal(), found) if self.odds(0.5) else ("*", found, self.literal())
        return found

    def literal(self):
        self.literals -= 1
        return "literal", self.chance.choice(NUMBERS)

    def access(self, wanted):
        """An access that has one of some variables, where there are any; each of its variables once."""
        for _ in range(20):
            name = self.chance.choice([*self.tensors])
            found = []
            for dim in self.tensors[name]:
                fits = [it for it in distinct([*self.own, *wanted]) if self.dims[it] == dim and it not in found]
                best = [it for it in fits if it in wanted]
                if not fits:
                    break
                found.append(self.chance.choice(best if best and self.odds(0.8) else fits))
            if len(found) == len(self.tensors[name]) and (not wanted or wanted & {*found}):
                return "access", name, found
        return None

    # ---- trees with something broken

    def broken(self, statement):
        """The statement with something that is refused, as a rule."""
        name, left, right = statement
        kind = self.chance.choice(["name", "count", "count", "other", "other", "twice", "twice", "left", "left", "number", "term", "sides"])
        if kind == "left":
            return name, self.changed(left), right
        if kind == "number":
            return name, left, (self.chance.choice("+-*"), right, ("literal", self.chance.choice([*NUMBERS, 2**64, 10**30])))
        if kind == "term":
            return name, left, (self.chance.choice("+-"), ("literal", 3), right) if self.odds(0.5) else ("-", ("-", right, right), right)
        if kind == "sides":
            return name, left, ("*", right, self.statement()[2])
        place = self.chance.randrange(len(accesses_of(right)))
        return name, left, self.with_access(right, [place], kind)

    def changed(self, variables):
        """Variables with one more, one fewer, another one, or in another order."""
        found, kind = [*variables], self.chance.randrange(4)
        at = self.chance.randrange(len(found) + 1)
        if kind == 0 or not found:
            found.insert(at, self.chance.choice([*NAMES, *found]))
        elif kind == 1 and len(found) > 1:
            found.pop(at - 1)
        elif kind == 2:
            found[at - 1] = self.chance.choice(NAMES)
        else:
            self.chance.shuffle(found)
        return found

    def with_access(self, tree, place, kind):
        """The tree with the access of that number changed; `place` is counted down on the way."""
        if tree[0] == "access":
            place[0] -= 1
            if place[0] != -1:
                return tree
            if kind == "name":
                return "access", self.chance.choice([b"nobody", b"n" * 32, b"i", *self.tensors]), tree[2]
            others = {"count": self.changed(tree[2]), "other": [*tree[2][1:], self.chance.choice(NAMES)]}
            return "access", tree[1], others.get(kind) or [*tree[2][:-1], tree[2][0]]
        if tree[0] == "literal":
            return tree
        return (tree[0], *(self.with_access(side, place, kind) for side in tree[1:]))

    # ---- texts

    def written(self, statement):
        name, left, right = statement
        return name + (b"(%s)" % b",".join(left) if left else b"") + b" = " + self.written_tree(right)

    def written_tree(self, tree, depth=0):
        """The text of a tree, with parentheses also where none are needed."""
        if tree[0] == "literal":
            return self.chance.choice([b"%d", b"%d", b"%d", b"0%d", b"%025d"]) % tree[1]
        if tree[0] == "access":
            return b"%s(%s)" % (tree[1], b",".join(tree[2]))
        if len(tree) == 2:
            return b"-" + self.operand(tree[1], SUMS, depth)
        first, second = (SUMS, SUMS | {"*"}) if tree[0] == "*" else (set(), SUMS)
        return b"%s %s %s" % (self.operand(tree[1], first, depth), tree[0].encode(), self.operand(tree[2], second, depth))

    def operand(self, tree, enclosed, depth):
        is_enclosed = tree[0] in enclosed
        # trees are less than half as deep as parentheses may be
        if depth < MOST_PARENTHESES // 2 and self.odds(0.05):
            return b"(%s)" % self.operand(tree, set(), depth + 1)
        return b"(%s)" % self.written_tree(tree, depth) if is_enclosed else self.written_tree(tree, depth)

    def spaced(self, text):
        """The text with other blanks between its tokens."""
        if self.odds(0.7):
            return text
        share = self.chance.choice([0.0, 0.2, 0.8])
        return b"".join((self.chance.choice(BLANKS) if self.odds(share) else b"") + it for it in TOKEN.findall(text) if it.strip(b" \t"))

    def mangled(self, text):
        """The text with a token dropped, doubled, swapped, replaced or put in, or with a byte dropped, or cut off."""
        tokens = TOKEN.findall(text)
        at = self.chance.randrange(len(tokens)) if tokens else 0
        kind = self.chance.randrange(8)
        if not tokens:
            return self.chance.choice(ODD_TOKENS)
        if kind == 0:
            tokens.pop(at)
        elif kind == 1:
            tokens.insert(at, tokens[at])
        elif kind == 2:
            other = self.chance.randrange(len(tokens))
            tokens[at], tokens[other] = tokens[other], tokens[at]
        elif kind == 3:
            tokens[at] = self.chance.choice(ODD_TOKENS)
        elif kind == 4:
            tokens.insert(at, self.chance.choice(ODD_TOKENS))
        elif kind == 5:
            tokens = tokens[: at + 1]
        elif kind == 6:
            # deep parentheses, right or left alone
            depth = self.chance.choice([1, MOST_PARENTHESES - 1, MOST_PARENTHESES, MOST_PARENTHESES + 1])
            name, sign, right = text.partition(b"=")
            return name + sign + b"(" * depth + right + b")" * (depth - self.chance.choice([0, 0, 0, 1]))
        else:
            place = self.chance.randrange(len(text))
            return text[:place] + text[place + 1 :]
        return b"".join(tokens)

