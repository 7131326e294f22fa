#!/usr/bin/env python3
"""Says whether a report is true: python3 tools/check_report.py FOLDER MANIFEST REPORT

FOLDER has the files of a run, MANIFEST is the name of its manifest there, and REPORT is a file with what was printed. The
sessions of a run take turns in any order, so the report says which: this makes the calls of its history on one thread with
tools/replay.py, and compares every line. It prints `true`, or the first thing that is wrong, and ends with status 1 then.

A history is right if each turn is that of an accepted call and stands once, if the turns of each session ascend, and if no
accepted get is left out. A batch or query that is left out has the row `no memory`; how many those are is printed, too, since
there are none where memory is ample.
"""

import sys
from pathlib import Path

import replay


class Wrong(Exception):
    """What is wrong with a report."""


def history_of(text):
    """The turns of a report, in their order."""
    lines = text.decode("latin-1").split("\n")
    for place, line in enumerate(lines):
        words = line.split(" ")
        if words[0] == "history":
            if len(words) != 2 or not words[1].isdigit():
                raise Wrong(f"line {place + 1}: no count of turns")
            turns = [it.split(" ") for it in lines[place + 1 : place + 1 + int(words[1])]]
            if len(turns) < int(words[1]) or not all(len(it) == 2 and it[0].isdigit() and it[1].isdigit() for it in turns):
                raise Wrong(f"line {place + 1}: fewer turns than it says")
            return [(int(session), int(number)) for session, number in turns]
    raise Wrong("no line `history`")


def check_history(turns, verdicts):
    """Whether the turns are an order of accepted calls, with every get. Gives the number of other accepted calls that are left out."""
    last = {}
    for session, number in turns:
        script = verdicts[session - 1] if 1 <= session <= len(verdicts) else []
        if not 1 <= number <= len(script) or isinstance(script[number - 1], str):
            raise Wrong(f"turn {session} {number}: no accepted call")
        if number <= last.get(session, 0):
            raise Wrong(f"turn {session} {number}: behind turn {session} {last[session]}")
        last[session] = number
    made, left_out = set(turns), 0
    for session, script in enumerate(verdicts, 1):
        for number, verdict in enumerate(script, 1):
            if not isinstance(verdict, str) and (session, number) not in made:
                if verdict[0] == "get":
                    raise Wrong(f"turn {session} {number}: a get that isn't in the history")
                left_out += 1
    return left_out


def check(files, manifest, text, not_built=replay.NOT_BUILT):
    """Raises Wrong if the text isn't a true report of this run. Gives the history, and how many calls found no memory."""
    turns = history_of(text)
    scripts = replay.Run(files, not_built)
    for item in list(scripts.read_manifest(manifest)):
        scripts.prepare(manifest, *item)
    left_out = check_history(turns, scripts.verdicts)
    wanted = replay.Run(files, not_built).report(manifest, turns)
    if wanted != text:
        pairs = zip(wanted.split(b"\n"), text.split(b"\n"))
        place, (want, found) = next((it for it in enumerate(pairs, 1) if it[1][0] != it[1][1]), (0, (b"", b"another length")))
        raise Wrong(f"line {place}: {found[:80]!r}, and it has to be {want[:80]!r}")
    return turns, left_out


if __name__ == "__main__":
    if len(sys.argv) != 4:
        sys.exit("usage: check_report.py FOLDER MANIFEST REPORT")
    try:
        _, left_out = check(Path(sys.argv[1]), sys.argv[2].encode(), Path(sys.argv[3]).read_bytes())
    except Wrong as why:
        print(why)
        sys.exit(1)
    print(f"true, with {left_out} calls that found no memory" if left_out else "true")
