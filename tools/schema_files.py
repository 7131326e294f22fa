#!/usr/bin/env python3
"""Compares a program with the replayer on schema files: python3 tools/schema_files.py WHICH.. [PROGRAM]

WHICH is one or more of these:

- `tokens`: each sort of token at each place of a small file, put in there and in the place of the token that is there;
- `bytes`: each byte from 0 to 255 at ten places of it;
- `edges`: limits, line ends, comments, and each rule;
- a number: so many random files, well formed and broken, each made of the number of the file alone.

It runs `PROGRAM check` (crates/dyntensor/out/dyntensor if left out) on each file, compares status and output with what
tools/replay.py says, and shows each file that differs. It ends with status 1 if one does. It is no part of the gate.
"""

import random
import subprocess
import sys
import tempfile
from pathlib import Path

import replay

TOP = Path(__file__).resolve().parent.parent
SMALL = b"schema s { node A { run 1..2 pre B post A } node B { run 1..2 woven } root A }\n".split(b" ")
TOKENS = [b"schema", b"node", b"run", b"root", b"pre", b"post", b"woven", b"{", b"}", b"..", b"1", b"999999999", b"1000000000", b"A", b"a" * 32, b"a" * 33]
TOKENS += [b".", b"#", b"# x\n", b"\r", b"-", b"\xff", b"1A", b"A1", b"_"]
PLACES = (0, 6, 7, 9, 12, 20, 24, 27, 45, 79)
NODE = b"node A%d { run 1..2 woven } "
KINDS = [b"woven", b"post A", b"post B", b"pre A post B", b"pre B post A", b"post C", b"pre A post A"]
RUNS = [b"1..1", b"1..2", b"2..4", b"1..16", b"1..17", b"0..3", b"3..2", b"1..4", b"1..5", b"2..5", b"3..5", b"1..8", b"001..009"]


def at_each_token():
    for place in range(len(SMALL) + 1):
        for token in TOKENS:
            yield b" ".join([*SMALL[:place], token, *SMALL[place:]])
            yield b" ".join([*SMALL[:place], token, *SMALL[place + 1 :]])
        yield b" ".join(SMALL[:place])
        yield b" ".join(SMALL[:place]) + b" "
        yield b"\n".join(SMALL[:place])


def at_each_byte():
    small = b" ".join(SMALL)
    for place in PLACES:
        for byte in range(256):
            yield small[:place] + bytes([byte]) + small[place:]
            yield small[:place] + bytes([byte]) + small[place + 1 :]


def schema(name, kinds, root=b"A0"):
    return b"schema " + name + b" { " + b"".join(kinds) + b"root " + root + b" }"


def edges():
    yield from (b"", b" ", b"\n", b"\r", b"\r\n", b"#", b"# x", b"#\n", b"# \r", b"#\r\n\r", b"\xff", b"}", b"schema\r", b"schema\r\r")
    for count in (1, 16, 17):
        kinds = [NODE % n for n in range(count)]
        chain = [b"node A%d { run 1..2 pre A%d post A0 } " % (n, n + 1) for n in range(count - 1)] + [b"node A%d { run 1..2 woven } " % (count - 1)]
        yield schema(b"s", kinds)
        yield schema(b"s", chain)
        yield schema(b"s", [b"node A0 { run 1..2 post A0 } ", *chain[1:]])
        yield b"\n".join(schema(b"s%d" % n, kinds[:1]) for n in range(count))
        yield b"\n".join(schema(b"s", kinds[:1]) for n in range(count)) + b" x"
    yield schema(b"flat", [NODE % 0])
    yield schema(b"s", [NODE % 0]).replace(b" ", b"\r\n\t# a { comment }\n")
    yield schema(b"s", [NODE % 0]) + b"# no line end behind it"
    for size in (replay.FILE_LIMIT, replay.FILE_LIMIT + 1):
        yield b"#" * size
    for run in RUNS:
        for links in KINDS:
            for other in (b"run 1..4 post B", b"run 2..4 woven", b"run 1..3 pre A post B", b"run 1..8 post A"):
                yield b"schema s { node A { run " + run + b" " + links + b" } node B { " + other + b" } root A }"
                yield b"schema s { node A { run " + run + b" " + links + b" } root A }"


def one_random(number):
    """The schema file of this number."""
    chance = random.Random(f"schemas {number}")
    names = [b"A", b"B", b"C", b"D"][: chance.choice([1, 1, 2, 3, 4])]
    tokens = []
    for _ in range(chance.choice([0, 1, 1, 1, 2, 5])):
        kinds = []
        for name in names if chance.random() < 0.9 else [*names, chance.choice(names)]:
            one = chance.choice(names) if chance.random() < 0.95 else b"E"
            links = chance.choice([[b"woven"], [b"post", name], [b"post", one], [b"pre", one, b"post", name], [b"pre", name, b"post", one]])
            high = chance.choice([1, 2, 4, 5, 8, 16, 16, 17, 0])
            low = 1 if chance.random() < 0.7 else chance.choice([0, 2, high // 2, high])
            kinds += [b"node", name, b"{", b"run", b"%d" % low, b"..", b"%d" % high, *links, b"}"]
        tokens += [b"schema", chance.choice([b"s", b"t", b"flat"]), b"{", *kinds, b"root", chance.choice(names), b"}"]
    while tokens and chance.random() < 0.3:
        place = chance.randrange(len(tokens))
        tokens[place : place + chance.choice([0, 1])] = [chance.choice(TOKENS)] * chance.choice([0, 1])
    gaps = [b" ", b" ", b"\n", b"\t", b"\r\n", b" # x\n", b"  "]
    text = b"".join(token + (chance.choice(gaps) if chance.random() < 0.9 else b" ") for token in tokens)
    if chance.random() < 0.1:
        place = chance.randrange(len(text) + 1)
        text = text[:place] + bytes([chance.randrange(256)]) + text[place:]
    return text


def files(which):
    made = {"tokens": at_each_token, "bytes": at_each_byte, "edges": edges}.get(which)
    return made() if made else map(one_random, range(int(which)))


def differs(program, room, text):
    (Path(room) / "q").write_bytes(text)
    found = subprocess.run([program, "check", "q"], cwd=room, stdin=subprocess.DEVNULL, capture_output=True, timeout=60)
    wanted = replay.run([b"check", b"q"], room)
    if (found.returncode, found.stdout) == wanted:
        return False, wanted
    print(f"{text[:200]!r}: status {found.returncode} {found.stdout[:80]!r}, and it has to be {wanted[0]} {wanted[1][:80]!r}")
    return True, wanted


def main(words):
    program = words.pop() if words and words[-1] not in ("tokens", "bytes", "edges") and not words[-1].isdigit() else TOP / "crates/dyntensor/out/dyntensor"
    program, total = str(Path(program).resolve()), 0
    for which in words:
        count, wrong, ends = 0, 0, {}
        with tempfile.TemporaryDirectory() as room:
            for text in files(which):
                is_other, (status, printed) = differs(program, room, text)
                kind = printed.split(b" ")[3].decode().strip() if printed.startswith(b"refused") else f"status {status}"
                count, wrong, ends[kind] = count + 1, wrong + is_other, ends.get(kind, 0) + 1
        total += wrong
        print(f"{which}: {count} files, {wrong} differ; " + ", ".join(f"{times} {kind}" for kind, times in sorted(ends.items())))
    return 1 if total else 0


if __name__ == "__main__":
    sys.exit(main(sys.argv[1:]))
