#!/usr/bin/env python3
"""Compares a program with the replayer on random workloads: python3 tools/random_workloads.py [COUNT [SEED [PROGRAM]]]

Makes COUNT workloads (1,000 if left out) from SEED: manifests, scripts and .tns files that are well formed, that have
something broken in them, or that are random bytes. It runs PROGRAM on each (crates/dyntensor/out/dyntensor if left out)
and compares status and output with what tools/replay.py says. Where several sessions take turns, the order is free: the
report is judged by tools/check_report.py then, and no call may have found no memory. It prints each workload that differs,
with its number, and ends with status 1 if there is one. It is no part of the gate.

A workload is made from SEED and its number alone. These words may stand in front:

- `--statements`: COUNT is that of statements (20,000 if left out), of which each workload has 200, with updates between
  them; three in five have an answer, and in the others something is broken.
- `--only NUMBER`: that workload is run, and its files are kept.
- `--built FORM,..`: these forms of the replayer's NOT_BUILT are taken as built.
- `--verbs VERB,..`: scripts have lines of these alone, as `--verbs get,query`.
"""

import random
import re
import subprocess
import sys
import tempfile
from pathlib import Path

import check_report
import replay
from random_statements import Maker as Statements
from stored_runs import first_difference

TOP = Path(__file__).resolve().parent.parent
SECONDS = 60
STATEMENTS = 200
NAMES = [b"v", b"A", b"B", b"_x", b"as", b"flat", b"n" * 32, b"Ab9_"]
DIMENSIONS = [1, 2, 2, 3, 3, 4, 4, 5, 7]
INDICES = [b"0", b"1", b"2", b"3", b"4", b"007", b"5", b"8", b"4294967295", b"4294967296", b"9" * 30, b"-1", b"+2", b"1.0", b"x", b"2;"]
VALUES = [
    *(b"0 1 -1 7 +7 -0 00012 18446744073709551615 18446744073709551616 -9223372036854775808 -9223372036854775809").split(),
    *(b"9223372036854775807 9223372036854775808 2.5 2. 3.000 2.50e1 1000e-3 0e-999 0.000e5 1e3 1e19 1e20 12e-1 1E+2").split(),
    *(b"1e-1 .5 5.e0 nan 1e 1e1000 1e+ 1e-1000 ++1 -+1 1.2.3 0x1 1_0 - + 1e18 184467440737095516150e-1 0.5e1 25e-2").split(),
]
OTHER_WORDS = [[], [b"run"], [b"run", b"x" * 256], [b"go", b"m"], [b"run", b"m", b"m"], [b"run", b"gone"]]
SAMPLES = [[b"sample", number] for number in (b"0", b"200001", b"+4", b"04", b"0" * 255 + b"4", b"4\xff")]
VERBS = [b"set", b"set", b"add", b"add", b"get", b"get", b"query", b"batch"]


class Maker:
    """Makes one workload: a dict from file names to bytes, and the words."""

    def __init__(self, chance, not_built, verbs=VERBS):
        self.chance, self.not_built, self.verbs = chance, not_built, verbs
        self.tensors, self.files = {}, {}
        self.is_broken = chance.random() < 0.5

    def odds(self, share):
        return self.chance.random() < share

    def breaks(self, share=0.06):
        """Whether to break what comes next: never in a workload that is to be well formed."""
        return self.is_broken and self.odds(share)

    def workload(self):
        lines = [self.tensor_line() for _ in range(self.chance.choice([0, 1, 1, 2, 2, 3, 5]))]
        names = [*self.tensors]
        for place in range(self.chance.choice([0, 0, 1, 1, 2, 3]) if names else 0):
            name, file = self.chance.choice(names), b"t%d.tns" % place
            self.files[file] = self.file(lambda name=name: self.tns_line(name))
            lines.append(b"load %s %s" % (name, file))
        if self.breaks(0.1):
            lines.append(self.chance.choice([b"load v", b"load w t0.tns", b"schema q", b"loads", b"load v \xff", b"print", b"tensor", b"load v gone"]))
        if self.odds(0.9):
            lines += self.session_lines()
        lines += [b"print " + self.chance.choice(names) for _ in range(self.chance.choice([0, 1, 1, 2, 65 if self.breaks(0.05) else 3]) if names else 0)]
        if self.breaks(0.1):
            self.chance.shuffle(lines)
        if self.breaks(0.03):
            lines = [self.tensor_line(b"t%d" % n) for n in range(33)]
        self.files[b"m"] = self.text([self.mangled(line) for line in lines])
        if self.breaks(0.05) and self.files.keys() - {b"m"}:
            self.files.pop(self.chance.choice(sorted(self.files.keys() - {b"m"})))
        return self.files, self.words()

    def session_lines(self):
        """The lines of some sessions, whose scripts are made; one where a second isn't built. Two may have one script."""
        if "session" in self.not_built:
            count = 2 if self.breaks(0.05) else 1
        else:
            count = 17 if self.breaks(0.03) else self.chance.choice([1, 2, 2, 3, 4, 16])
        names = [b"s%d" % self.chance.randint(1, count) for _ in range(count)] if self.odds(0.2) else [b"s%d" % it for it in range(1, count + 1)]
        self.files.update({name: self.file(self.script_line) for name in sorted({*names})})
        return [b"session " + name for name in names]

    def words(self):
        return self.chance.choice(OTHER_WORDS + SAMPLES) if self.breaks(0.04) else [b"run", b"m"]

    # ---- files

    def file(self, line):
        if self.breaks(0.04):
            return bytes(self.chance.choices(range(256), k=self.chance.choice([0, 1, 20, 500])))
        return self.text([line() for _ in range(self.chance.choice([0, 1, 3, 8, 20, 60]))])

    def text(self, lines):
        """Lines with blank lines and comments between them, and any line ends."""
        end = self.chance.choice([b"\n", b"\n", b"\r\n"])
        found = b""
        for line in lines:
            while self.odds(0.08):
                found += self.chance.choice([b"", b" ", b"\t", b"# a note", b"  #x", b"#" * 5000, b"#\xff"]) + end
            found += line + (b"\r\r\n" if self.breaks(0.01) else end)
        return found.removesuffix(end) if self.odds(0.3) else found

    def mangled(self, line):
        """The line, with other blanks and, where it is to be broken, with something wrong."""
        if self.odds(0.15):
            line = b"\t" + line.replace(b" ", self.chance.choice([b"  ", b"\t", b" \t "])) + b" "
        if not self.breaks():
            return line
        words = line.split()
        at = self.chance.randrange(len(words) or 1)
        if not words:
            return b"x"
        which = self.chance.randrange(9)
        if which == 0:
            words.pop(at)
        elif which == 1:
            words.insert(at, self.chance.choice([*INDICES, *VALUES, *NAMES]))
        elif which in (2, 3):
            words[at] = self.chance.choice([*INDICES, *VALUES, *NAMES, b"n" * 33, b"\xff", b"a.b"])
        elif which == 4:
            at = self.chance.randrange(len(line) + 1)
            return line[:at] + bytes([self.chance.choice([0, 9, 13, 32, 35, 40, 59, 127, 255])]) + line[at:]
        elif which == 5:
            at = self.chance.randrange(len(line))
            return line[:at] + line[at + 1 :]
        elif which == 6:
            return line + b" " * self.chance.choice([4096 - len(line), 4097 - len(line)])
        elif which == 7:
            words = words + words
        else:
            self.chance.shuffle(words)
        return b" ".join(words)

    def tensor_line(self, name=None):
        order = self.chance.choice([1, 1, 2, 2, 2, 3, 4, 5])
        fresh = [it for it in NAMES if it not in self.tensors] or [b"last"]
        name = name or (self.chance.choice(NAMES) if self.breaks(0.05) else self.chance.choice(fresh))
        dims = [self.chance.choice(DIMENSIONS) for _ in range(order)]
        if self.odds(0.04):
            dims[self.chance.randrange(order)] = 4294967295
        if self.breaks(0.05):
            dims[self.chance.randrange(order)] = self.chance.choice([0, 4294967296, 10**30])
        latches = self.chance.choice([0, 257, 1000]) if self.breaks(0.05) else self.chance.choice([1, 2, 3, 31, 256])
        schema = b"tree" if self.breaks(0.03) else b"flat"
        self.tensors.setdefault(name, dims)
        return b"tensor %s %s as %s latches %d" % (name, b" ".join(b"%d" % it for it in dims), b" ".join([schema] * order), latches)

    # ---- lines of data and scripts

    def coordinates(self, dims):
        return [self.chance.choice(INDICES) if self.breaks(0.04) else b"%d" % self.chance.choice([1, dim, self.chance.randint(1, max(dim, 1))]) for dim in dims]

    def value(self):
        if self.odds(0.5):
            return b"%d" % self.chance.randint(-20, 20)
        if self.is_broken:
            return self.chance.choice(VALUES)
        return b"%d" % self.chance.choice([2**64 - 1, -(2**63), 2**63, self.chance.randrange(2**64)])

    def tns_line(self, name):
        return self.mangled(b" ".join([*self.coordinates(self.tensors[name]), self.value()]))

    def script_line(self):
        if not self.tensors:
            return self.chance.choice([b"get v 1", b"set v 1 1", b"put", b"query a = v(i)" if "query" not in self.not_built else b"get v"])
        verb = self.chance.choice(self.verbs)
        if verb.decode() in self.not_built and not self.breaks(0.02):
            verb = b"add"
        if verb == b"query":
            return b"query " + Statements(self.chance, self.tensors).text(0.5 if self.is_broken else 0)
        if verb == b"batch":
            return self.mangled(b"batch " + b" ; ".join(self.update() for _ in range(65 if self.breaks(0.02) else self.chance.choice([1, 2, 3, 64]))))
        return self.mangled(self.update(verb))

    def update(self, verb=None):
        verb = verb or self.chance.choice([b"set", b"add"])
        name = b"nobody" if self.breaks(0.04) else self.chance.choice([*self.tensors])
        at = self.coordinates(self.tensors.get(name, [3]))
        return b" ".join([verb, name, *at, *([] if verb == b"get" else [self.value()])])


class StatementMaker(Maker):
    """Makes a workload of many statements over small tensors, with updates between them."""

    def __init__(self, chance):
        super().__init__(chance, set())
        self.is_broken = False

    def workload(self):
        dims = self.chance.choice([[2], [2, 3], [3, 2], [1, 2, 4], [3, 4_294_967_295], [40, 3]])
        for name in self.chance.sample(NAMES, self.chance.choice([2, 4, 6, 8])):
            self.tensors[name] = [self.chance.choice(dims) for _ in range(self.chance.choice([1, 1, 2, 2, 2, 3, 4, 5]))]
        lines = []
        for name, dims in self.tensors.items():
            self.files[name] = b"".join(self.tns_line(name) + b"\n" for _ in range(self.chance.choice([0, 4, 12, 30])))
            flats, latches = b" ".join([b"flat"] * len(dims)), self.chance.choice([1, 2, 5])
            lines.append(b"tensor %s %s as %s latches %d" % (name, b" ".join(b"%d" % it for it in dims), flats, latches))
        lines += [b"load %s %s" % (name, name) for name in self.tensors]
        self.files[b"m"] = b"\n".join([*lines, b"session s", *(b"print " + name for name in self.tensors), b""])
        statements = Statements(self.chance, self.tensors)
        script = []
        for _ in range(STATEMENTS):
            script += [self.update() for _ in range(self.chance.choice([0, 0, 0, 1, 2]))]
            script.append(b"query " + statements.text())
        self.files[b"s"] = b"\n".join(script)
        return self.files, [b"run", b"m"]


def make_files(folder, files):
    for name, text in files.items():
        (folder / name.decode()).write_bytes(text)


def ran(program, words, folder):
    found = subprocess.run([program, *words], cwd=folder, stdin=subprocess.DEVNULL, capture_output=True, timeout=SECONDS)
    return found.returncode, found.stdout


def made(number, seed, not_built, verbs, is_statements):
    """The files and the words of a workload."""
    chance = random.Random(f"{seed} {number}")
    return (StatementMaker(chance) if is_statements else Maker(chance, not_built, verbs)).workload()


def compared(program, number, how, room):
    """What the program and the replayer answer on one workload, and what is wrong with the program's answer; None where nothing is."""
    files, words = made(number, *how)
    make_files(room, files)
    found, wanted = ran(program, words, room), replay.run(words, room, how[1])
    return found, wanted, None if found == wanted else difference(found, wanted, words, room, how[1])


def difference(found, wanted, words, room, not_built):
    """What is wrong with an answer other than the replayer's, which makes one session's calls after the other's."""
    is_free = found[0] == wanted[0] == 0 and words[0] == b"run" and wanted[1].count(b"session ") > 1
    if not is_free:
        return f"line {first_difference(found[1], wanted[1])}"
    try:
        _, left_out = check_report.check(room, words[1], found[1], not_built)
    except check_report.Wrong as why:
        return str(why)
    return f"{left_out} calls found no memory" if left_out else None


def one(program, number, how):
    room = Path(tempfile.mkdtemp(prefix=f"workload-{number}-"))
    found, wanted, why = compared(program, number, how, room)
    print(f"the files are in {room}")
    for who, (status, text) in zip(("the program", "the replayer"), (found, wanted)):
        print(f"{who} ends with status {status}:\n{text.decode(errors='replace')}")
    print(f"it differs: {why}" if why else "they agree")
    return 1 if why else 0


def many(program, count, how):
    ends, rows, differ, others = {}, {}, 0, 0
    for number in range(1, count + 1):
        with tempfile.TemporaryDirectory() as room:
            found, wanted, why = compared(program, number, how, Path(room))
        ends[wanted[0]] = ends.get(wanted[0], 0) + 1
        for word in re.findall(rb"^\d+ (ok|value|result|refused \w+)", wanted[1], re.M):
            rows[word.decode()] = rows.get(word.decode(), 0) + 1
        others += found != wanted and not why
        if why:
            differ += 1
            print(f"workload {number} differs ({why}): --only {number} shows it")
    by_status = ", ".join(f"{times} with status {status}" for status, times in sorted(ends.items()))
    print(f"{count} workloads from seed {how[0]}: {differ} differ; {by_status}; {others} true reports in another order than session by session")
    print("lines: " + ", ".join(f"{times} {row}" for row, times in sorted(rows.items())))
    return 1 if differ else 0


def main(words):
    not_built, only, verbs, is_statements = replay.NOT_BUILT, None, VERBS, False
    while words and words[0].startswith("--"):
        option, *words = words
        if option == "--statements":
            is_statements = True
            continue
        given, *words = words
        only = int(given) if option == "--only" else only
        not_built = not_built - {*given.split(",")} if option == "--built" else not_built
        verbs = given.encode().split(b",") if option == "--verbs" else verbs
    count, seed, program, *_ = [*words, *["20000" if is_statements else "1000", "1", str(TOP / "crates/dyntensor/out/dyntensor")][len(words) :]]
    program, count = str(Path(program).resolve()), int(count)
    how = seed, not_built, verbs, is_statements
    return one(program, only, how) if only else many(program, -(-count // STATEMENTS) if is_statements else count, how)


if __name__ == "__main__":
    sys.exit(main(sys.argv[1:]))
