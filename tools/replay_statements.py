"""What the replayer knows of statements: how the statement of a `query` line is read, refused and written.

A statement is its left name, its left variables and its right side. The right side is a tree of tuples: ("literal", N),
("access", TENSOR, VARIABLES), ("-", E) for a negation, and (SIGN, E, E) for a sum, a difference or a product.
tools/replay_answers.py has what it answers.
"""

import re

MODULUS = 2**64
TOKEN = re.compile(rb"[A-Za-z_][A-Za-z0-9_]*|[0-9]+|[=(),+*-]")
BLANKS = re.compile(rb"[ \t]*")
NAME_LIMIT = 32
MOST_ACCESSES = MOST_LITERALS = 12
MOST_VARIABLES = 8
MOST_PARENTHESES = 16
# Sums, differences and negations.
SUMS = {"+", "-"}


class LineRefused(Exception):
    """A line is refused; the text is what the report has behind the word `refused`."""


class Reader:
    """Reads a statement token by token, and refuses it at the first one that doesn't belong there or is one too many."""

    def __init__(self, line, start, end):
        self.tokens, self.end = tokens_of(line, start), end
        self.place = self.accesses = self.literals = self.parentheses = 0
        self.variables = []

    @property
    def token(self):
        return self.tokens[self.place][1] if self.place < len(self.tokens) else None

    def refuse(self, why):
        raise LineRefused(f"{why} {self.tokens[self.place][0] if self.place < len(self.tokens) else self.end}")

    def take(self, *wanted):
        """Takes one of some signs."""
        if self.token not in wanted:
            self.refuse("form")
        self.place += 1
        return self.tokens[self.place - 1][1]

    def take_name(self):
        if not self.token or not is_name(self.token):
            self.refuse("form")
        self.place += 1
        return self.tokens[self.place - 1][1]

    def take_variables(self):
        """Takes variables, and the `)` behind them; the `(` has been taken."""
        found = []
        while True:
            name = self.token
            if name and is_name(name):
                if len(found) == MOST_VARIABLES or name not in self.variables and len(self.variables) == MOST_VARIABLES:
                    self.refuse("limit")
                self.variables += [name] * (name not in self.variables)
            found.append(self.take_name())
            if self.take(b",", b")") == b")":
                return found

    def statement(self):
        name, left = self.take_name(), []
        if self.take(b"(", b"=") == b"(":
            left = self.take_variables()
            self.take(b"=")
        right = self.expression()
        if self.token is not None:
            self.refuse("form")
        return name, left, right

    def expression(self):
        is_negated = self.token == b"-"
        self.place += is_negated
        found = ("-", self.term()) if is_negated else self.term()
        while self.token in (b"+", b"-"):
            found = (self.take(b"+", b"-").decode(), found, self.term())
        return found

    def term(self):
        found = self.factor()
        while self.token == b"*":
            self.place += 1
            found = ("*", found, self.factor())
        return found

    def factor(self):
        token = self.token or b""
        if token.isdigit():
            self.literals += 1
            if self.literals > MOST_LITERALS or len(token.lstrip(b"0")) > 20 or int(token.lstrip(b"0") or b"0") >= MODULUS:
                self.refuse("limit")
            self.place += 1
            return "literal", int(token.lstrip(b"0") or b"0")
        if token == b"(":
            self.parentheses += 1
            if self.parentheses > MOST_PARENTHESES:
                self.refuse("limit")
            self.place += 1
            found = self.expression()
            self.take(b")")
            self.parentheses -= 1
            return found
        if is_name(token):
            self.accesses += 1
            if self.accesses > MOST_ACCESSES:
                self.refuse("limit")
        name = self.take_name()
        self.take(b"(")
        return "access", name, self.take_variables()


def tokens_of(line, at):
    """The tokens of the rest of a line with their columns; the last is a text of no form where a byte begins no token."""
    found = []
    while (at := BLANKS.match(line, at).end()) < len(line):
        token = TOKEN.match(line, at)
        if not token or is_letter(token[0]) and len(token[0]) > NAME_LIMIT:
            return [*found, (at + 1, b"?")]
        found.append((at + 1, token[0]))
        at = token.end()
    return found


def is_letter(token):
    return bool(re.match(rb"[A-Za-z_]", token))


def is_name(token):
    return is_letter(token)


# ---- refusals


def accesses_of(tree):
    if tree[0] == "access":
        return [tree[1:]]
    return [] if tree[0] == "literal" else [it for side in tree[1:] for it in accesses_of(side)]


def terms_of(tree, sign=1):
    """The top-level terms with their signs: what is reached through sums, differences and negations alone."""
    if tree[0] == "-" and len(tree) == 2:
        return terms_of(tree[1], -sign)
    if tree[0] in "+-":
        return terms_of(tree[1], sign) + terms_of(tree[2], sign if tree[0] == "+" else -sign)
    return [(sign, tree)]


def covers(tree, variable):
    if tree[0] == "access":
        return variable in tree[2]
    if tree[0] == "literal":
        return False
    return (any if tree[0] == "*" else all)(covers(side, variable) for side in tree[1:])


def distinct(names):
    return list(dict.fromkeys(names))


def own_variables(tree, left):
    return [v for v in distinct(v for _, vs in accesses_of(tree) for v in vs) if v not in left]


def fault_of(left, right, tensors):
    """Why a statement that has its form is refused."""
    accesses = accesses_of(right)
    for name, _ in accesses:
        if name not in tensors:
            return f"name {name.decode()}"
    for name, variables in accesses:
        if len(variables) != len(tensors[name]):
            return f"rank {name.decode()} {len(variables)} {len(tensors[name])}"
    seen = {}
    for name, variables in accesses:
        for variable, dim in zip(variables, tensors[name]):
            if seen.setdefault(variable, dim) != dim:
                return f"dimension {variable.decode()} {seen[variable]} {dim}"
    for variables in [left, *(it for _, it in accesses)]:
        for variable in variables:
            if variables.count(variable) > 1:
                return f"repeated {variable.decode()}"
    terms = [tree for _, tree in terms_of(right)]
    for number, tree in enumerate(terms, 1):
        if not accesses_of(tree):
            return f"access {number}"
    for number, tree in enumerate(terms, 1):
        for variable in left + own_variables(tree, left):
            if not covers(tree, variable):
                return f"uncovered {number} {variable.decode()}"
    return None


def read_statement(line, start, end, tensors):
    """The statement of a line, behind its first word."""
    statement = Reader(line, start - 1, end).statement()
    why = fault_of(*statement[1:], tensors)
    if why:
        raise LineRefused(why)
    return "query", statement


# ---- canonical text


def text_of(statement):
    """The canonical text: no parenthesis and no blank that isn't needed."""
    name, left, right = statement
    return name + (b"(%s)" % b",".join(left) if left else b"") + b" = " + text_of_tree(right)


def text_of_tree(tree):
    if tree[0] == "literal":
        return b"%d" % tree[1]
    if tree[0] == "access":
        return b"%s(%s)" % (tree[1], b",".join(tree[2]))
    if len(tree) == 2:
        return b"-" + operand(tree[1], SUMS)
    first, second = (SUMS, SUMS | {"*"}) if tree[0] == "*" else (set(), SUMS)
    return b"%s %s %s" % (operand(tree[1], first), tree[0].encode(), operand(tree[2], second))


def operand(tree, enclosed):
    """The text of an operand, in parentheses if it is of one of these forms."""
    return b"(%s)" % text_of_tree(tree) if tree[0] in enclosed else text_of_tree(tree)
