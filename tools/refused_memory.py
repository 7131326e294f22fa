#!/usr/bin/env python3
"""Runs the program out of memory at one request after the other: python3 tools/refused_memory.py FIRST LAST [FOLDER]

For each N from FIRST to LAST the program runs in the data/ of a stored run, by default examples/two_tills, and its Nth request for memory
is refused. It has to end with status 5 and `no memory`, or with status 0 and a report that check_report.py finds true. So a
call that found no memory has the row `no memory` and isn't in the history. A sample, as examples/sample, has to print what is stored of it
if it ends with status 0: none of its calls found no memory.

With `tests` for FOLDER the tests of the crate sessions run in its place, and in each of them the Nth request is refused. Those
of its module memory_tests have to pass: what they claim holds whichever request is refused. Other tests fail where they find no
memory, and say nothing here.

`rt try` makes the program anew for each N, which takes a minute or more. This is no part of the gate. It prints a line for each
N, and ends with status 1 if a run ended otherwise.
"""

import subprocess
import sys
from pathlib import Path

import check_report

TOP = Path(__file__).resolve().parent.parent

# The module of tests that hold whichever request for memory is refused.
TESTS = "memory_tests"


def ran(number, folder, words):
    """The status and the text of a run whose request of this number is refused."""
    data = [part for it in sorted((folder / "data").iterdir()) for part in ("--data", f"{it.name}={it}")]
    run = ["rt", "try", "--fail-alloc", str(number), *data, "--", *words]
    it = subprocess.run(run, cwd=TOP / "crates/dyntensor", capture_output=True, check=False)
    return it.returncode, it.stdout


def judged(folder, words, status, text):
    """What the run did, and whether it may."""
    if status == 5:
        return "status 5", text == b"no memory\n"
    if status != 0:
        return f"status {status}", False
    if words[0] == "sample":
        return "status 0", text == (folder / "stdout").read_bytes()
    try:
        _, left_out = check_report.check(folder / "data", words[1].encode(), text)
    except check_report.Wrong as why:
        return f"status 0, and {why}", False
    return f"status 0, and {left_out} calls found no memory", True


def judged_run(number, folder):
    """The same of the run in a folder whose request of this number is refused."""
    words = (folder / "args").read_text().split("\n")[:2]
    return judged(folder, words, *ran(number, folder, words))


def judged_tests(number):
    """What the tests did that hold out of memory, each with its request of this number refused, and whether all passed."""
    run = ["rt", "try", "--test", "--fail-alloc", str(number)]
    it = subprocess.run(run, cwd=TOP / "crates/sessions", capture_output=True, check=False)
    lines = (it.stdout + it.stderr).decode(errors="replace").split("\n")
    told = [line for line in lines if line.startswith(f"test {TESTS}::")]
    passed = [line for line in told if line.endswith(" ok")]
    return f"{len(passed)} of {len(told)} tests passed", told != [] and passed == told


def main(first, last, what):
    are_right = True
    for number in range(first, last + 1):
        said, is_right = judged_tests(number) if what == "tests" else judged_run(number, Path(what).resolve())
        are_right = are_right and is_right
        print(number, said, flush=True)
    sys.exit(0 if are_right else 1)


if __name__ == "__main__":
    if len(sys.argv) not in (3, 4):
        sys.exit("usage: refused_memory.py FIRST LAST [FOLDER]")
    main(int(sys.argv[1]), int(sys.argv[2]), sys.argv[3] if len(sys.argv) == 4 else TOP / "examples/two_tills")
