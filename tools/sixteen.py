#!/usr/bin/env python3
"""Runs many sessions over few latches, and judges each report: python3 tools/sixteen.py [--seed N] [--runs N] [--sessions N] [--calls N] [PROGRAM]

Makes one workload from the seed (1 if left out): 16 sessions of 2,000 lines each over three tensors with 64 latches in all,
among them batches of 64 updates over many fibers, small batches, queries and lines that are refused. It runs PROGRAM on it
(crates/dyntensor/out/dyntensor if left out) as often as --runs says, 5 times if left out. tools/check_report.py judges each
report by its own history, and no call may have found no memory. A line is printed for each run, and at the end the number of
different histories. It ends with status 1 if a report is wrong, if no run changed the session more often than sessions that run
one after the other do, or if several runs all have one history. It is no part of the gate.
"""

import argparse
import hashlib
import random
import subprocess
import sys
import tempfile
import time
from pathlib import Path

import check_report

TOP = Path(__file__).resolve().parent.parent
SECONDS = 600
MANIFEST = """tensor v 64 as flat latches 16
tensor A 64 64 as flat flat latches 32
tensor B 16 4 8 as flat flat flat latches 16
load A A.tns
"""
DIMENSIONS = {"v": [64], "A": [64, 64], "B": [16, 4, 8]}
LOADED = 500
QUERIES = ["a = v(i) * v(i)", "y(i) = A(i,j) * v(j)", "y(j,k) = B(i,j,k)", "t(i) = v(i) - A(i,j)", "s = A(i,j) + 2 * v(k)"]
REFUSED = ["get v 65", "set A 1 2.5", "batch set v 1 1;set v 0 1", "batch set v 1 1;", "query a = v(i,j)", "take v"]


def cell(chance):
    name = chance.choice([*DIMENSIONS])
    return " ".join([name, *(str(chance.randint(1, it)) for it in DIMENSIONS[name])])


def update(chance):
    return f"{chance.choice(('set', 'add'))} {cell(chance)} {chance.randint(-99, 99)}"


def line(chance):
    """One line of a script."""
    kind = chance.random()
    if kind < 0.08:
        return "batch " + ";".join(update(chance) for _ in range(64))
    if kind < 0.15:
        return "batch " + " ; ".join(update(chance) for _ in range(chance.randint(1, 8)))
    if kind < 0.16:
        return "query " + chance.choice(QUERIES)
    if kind < 0.17:
        return chance.choice(REFUSED)
    return f"get {cell(chance)}" if kind < 0.5 else update(chance)


def workload(seed, sessions, calls):
    """The files of the workload of a seed."""
    chance = random.Random(f"sixteen {seed}")
    files = {f"s{session}": "".join(line(chance) + "\n" for _ in range(calls)) for session in range(1, sessions + 1)}
    files["A.tns"] = "".join(f"{chance.randint(1, 64)} {chance.randint(1, 64)} {chance.randint(1, 99)}\n" for _ in range(LOADED))
    files["m"] = MANIFEST + "".join(f"session s{session}\n" for session in range(1, sessions + 1)) + "".join(f"print {it}\n" for it in DIMENSIONS)
    return files


def judged(program, room):
    """Runs the program once. Gives what is wrong with the run, None where nothing is, and its history."""
    started = time.monotonic()
    found = subprocess.run([program, "run", "m"], cwd=room, stdin=subprocess.DEVNULL, capture_output=True, timeout=SECONDS)
    seconds = time.monotonic() - started
    if found.returncode:
        return f"status {found.returncode}: {found.stdout[:80]!r}", (), seconds
    try:
        turns, left_out = check_report.check(room, b"m", found.stdout, set())
    except check_report.Wrong as why:
        return str(why), (), seconds
    return f"{left_out} calls found no memory" if left_out else None, turns, seconds


def main():
    ask = argparse.ArgumentParser(description=__doc__.split("\n", maxsplit=1)[0])
    for name, default in (("seed", 1), ("runs", 5), ("sessions", 16), ("calls", 2000)):
        ask.add_argument(f"--{name}", type=int, default=default)
    ask.add_argument("program", nargs="?", default=str(TOP / "crates/dyntensor/out/dyntensor"))
    how = ask.parse_args()
    histories, wrong, most = set(), 0, 0
    with tempfile.TemporaryDirectory() as room:
        for name, text in workload(how.seed, how.sessions, how.calls).items():
            (Path(room) / name).write_text(text)
        for number in range(1, how.runs + 1):
            why, turns, seconds = judged(Path(how.program).resolve(), Path(room))
            history = hashlib.sha256(repr(turns).encode()).hexdigest()[:12]
            changes = sum(it[0] != other[0] for it, other in zip(turns, turns[1:]))
            print(f"run {number}: {why or 'true'}; {len(turns)} turns, {changes} changes of session, history {history}, {seconds:.2f} s", flush=True)
            wrong += why is not None
            most = max(most, changes)
            if why is None:
                histories.add(history)
    print(f"seed {how.seed}, {how.sessions} sessions of {how.calls} lines, {how.runs} runs: {wrong} wrong, {len(histories)} different histories")
    never_at_once = how.sessions > 1 and most < how.sessions
    always_the_same = how.runs > 1 and how.sessions > 1 and len(histories) < 2
    if never_at_once or always_the_same:
        print("the sessions ran one after the other" if never_at_once else "all runs have one history")
    return 1 if wrong or never_at_once or always_the_same else 0


if __name__ == "__main__":
    sys.exit(main())
