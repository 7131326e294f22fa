#!/usr/bin/env python3
"""Times work over one structure: python3 bench/structures.py [--program COMMAND] [--count N] [--insertions] [SHAPE..]

Runs `structure_bench SHAPE COUNT WHAT TURNS` from outside, each kind of work in turn, and subtracts what comes before it: of a build the run
that makes the list alone, of a walk and of look-ups the run that builds. The work on a plain list is timed in the same turns, and the ratios
are against it. Each time is the processor's, and the least of the turns. The sums that the runs print are compared with sums that are
computed here. Coordinates aren't looked up in a chain, which is passed from its head each time.

With `--insertions` it runs `structure_bench insert TARGET SEQUENCE COUNT` in place of this: elements are put in one by one. The run that only
goes through the sequence is subtracted, and the ratios are against the ordered map of the standard library.
"""

import os
import re
import subprocess
import sys
import time
from pathlib import Path

HERE = Path(__file__).resolve().parent
PROGRAM = HERE.parent / "crates/structure_bench/out/structure_bench"
SHAPES = ["flat", "list", "bst", "tree"]
INSERTION_SHAPES = [*SHAPES, "mixed"]
SEQUENCES = ["ascending", "descending", "random"]
RUNS = 7
INSERTION_RUNS = 3
# How often each kind of work is done within a run.
WALKS = 40
LOOK_UPS = 100_000
MASK = (1 << 64) - 1


def full_pipe():
    """The ends of a pipe that is full, and how many bytes are in it."""
    reader, writer = os.pipe()
    os.set_blocking(writer, False)
    filled = 0
    try:
        while True:
            filled += os.write(writer, bytes(4096))
    except BlockingIOError:
        os.set_blocking(writer, True)
    return reader, writer, filled


def peak_when_done(pid):
    """The peak memory in KiB of a program that waits to print its answer: its own, which the one that is told at its end isn't."""
    asleep = 0
    while asleep < 2:
        time.sleep(0.001)
        status = Path(f"/proc/{pid}/status").read_text()
        state = re.search(r"^State:\s+(\w)", status, re.M)[1]
        if state == "Z":
            return 0
        asleep = asleep + 1 if state == "S" else 0
    return int(re.search(r"^VmHWM:\s+(\d+)", status, re.M)[1])


def run_once(program, words):
    """The seconds on the processor, the peak memory in KiB and the sum of one run."""
    reader, writer, filled = full_pipe()
    child = subprocess.Popen([program, *words], stdout=writer)
    os.close(writer)
    peak = peak_when_done(child.pid)
    with os.fdopen(reader, "rb") as pipe:
        printed = pipe.read()[filled:]
    _, status, used = os.wait4(child.pid, 0)
    child.returncode = os.waitstatus_to_exitcode(status)
    if child.returncode != 0:
        sys.exit(f"{' '.join(words)} ended with status {child.returncode}")
    return used.ru_utime + used.ru_stime, peak, int(printed)


def walk_sum(count, turns):
    """The sum of all coordinates and numbers, so many times."""
    return turns * sum(3 * n + 1 + 7 * n for n in range(count)) & MASK


def weight(n):
    """What the element at a place adds to a sum: its coordinate and its number."""
    return 3 * n + 1 + 7 * n


def random_coordinates(count):
    """The coordinates without a pattern of one turn."""
    state = 1
    for _ in range(LOOK_UPS):
        state = (state * 6364136223846793005 + 1442695040888963407) & MASK
        yield (state >> 33) % (3 * count + 3)


def look_up_sum(count):
    """The sum of the numbers at coordinates without a pattern."""
    return sum(7 * (at // 3) for at in random_coordinates(count) if at % 3 == 1 and at // 3 < count) & MASK


def jump_sum(count):
    """The sum of the first elements at or behind coordinates without a pattern."""
    return sum(weight((at + 1) // 3) for at in random_coordinates(count) if (at + 1) // 3 < count) & MASK


def seek_sum(count):
    """The sum of what seeks take whose coordinates rise through the whole list."""
    total, place, stride = 0, 0, (3 * count + 3) // LOOK_UPS
    for n in range(LOOK_UPS):
        place = max(place, (n * stride % (3 * count + 3) + 1) // 3)
        if place < count:
            total += weight(place)
            place += 1
    return total & MASK


def works_for(shape, count):
    """The kinds of work on a shape: the word, the turns, what is subtracted, the sum that is wanted, and what it is measured against."""
    walks = walk_sum(count, WALKS)
    works = [
        ("list", 1, "nothing", count, None),
        ("build", 1, "list", count, None),
        ("array", WALKS, "list", walks, None),
        ("walk", WALKS, "build", walks, "array"),
        ("fold", WALKS, "build", walks, "array"),
        ("seek", 1, "build", seek_sum(count), "array"),
    ]
    if shape == "list":
        return works
    return works + [
        ("array_look_up", 1, "list", look_up_sum(count), None),
        ("look_up", 1, "build", look_up_sum(count), "array_look_up"),
        ("jump", 1, "build", jump_sum(count), "array_look_up"),
    ]


def least_times(program, shape, count, works):
    """The least seconds and peak memory of each kind of work; a wrong sum ends the bench."""
    times, peaks = {}, {}
    for _ in range(RUNS):
        for what, turns, _, wanted, _ in [("nothing", 1, None, 0, None), *works]:
            seconds, peak, got = run_once(program, [shape, str(count), what, str(turns)])
            if got != wanted:
                sys.exit(f"{shape} {what}: {got} and not {wanted}")
            times[what] = min(seconds, times.get(what, seconds))
            peaks[what] = min(peak, peaks.get(what, peak))
    return times, peaks


def print_shape(program, shape, count):
    """Times one shape, and prints a row for each kind of work."""
    works = works_for(shape, count)
    times, peaks = least_times(program, shape, count, works)
    spent = {what: (times[what] - times[base]) / turns for what, turns, base, _, _ in works}
    print(f"{shape}, {count:,} elements")
    for what, _, _, _, against in works:
        ratio = f"  {spent[what] / spent[against]:6.2f} x {against}" if against and spent[against] > 0 else ""
        print(f"  {what:14} {1000 * spent[what]:9.3f} ms{ratio}")
    print(f"  {'bytes':14} {1024 * (peaks['build'] - peaks['list']) / count:9.1f} an element beside the list")


def random_turns(count):
    """The turn at which each coordinate comes in the random sequence."""
    span = 1
    while span < count:
        span *= 2
    turns, at = [0] * count, 0
    for turn in range(span):
        at = (at * 1664525 + 1013904223) % span
        if at < count:
            turns[at] = turn
    return turns


def insertion_sum(sequence, count):
    """The turns of all coordinates, added up in the order of the coordinates."""
    turns = {
        "ascending": lambda: range(count),
        "descending": lambda: range(count - 1, -1, -1),
        "random": lambda: random_turns(count),
    }[sequence]()
    total = 0
    for turn in turns:
        total = (31 * total + turn) & MASK
    return total


def print_insertions(program, sequence, count, shapes):
    """Times insertions in one order, and prints a row for each target."""
    wanted = insertion_sum(sequence, count)
    times, peaks = {}, {}
    for _ in range(INSERTION_RUNS):
        for target in ["nothing", "map", *shapes]:
            seconds, peak, got = run_once(program, ["insert", target, sequence, str(count)])
            if got != (count if target == "nothing" else wanted):
                sys.exit(f"insert {target} {sequence}: {got} and not {wanted}")
            times[target] = min(seconds, times.get(target, seconds))
            peaks[target] = min(peak, peaks.get(target, peak))
    print(f"{count:,} insertions, {sequence}")
    map_time = times["map"] - times["nothing"]
    for target in ["map", *shapes]:
        spent = times[target] - times["nothing"]
        room = 1024 * (peaks[target] - peaks["nothing"]) / count
        print(f"  {target:14} {1000 * spent:9.1f} ms  {spent / map_time:7.2f} x map  {room:7.1f} bytes an element")


def main(words):
    """Reads the options, and times the shapes that are named, or all."""
    program, count, shapes, is_insertions = PROGRAM, None, [], False
    while words:
        word = words.pop(0)
        if word == "--program":
            program = words.pop(0)
        elif word == "--count":
            count = int(words.pop(0))
        elif word == "--insertions":
            is_insertions = True
        else:
            shapes.append(word)
    if is_insertions:
        for sequence in SEQUENCES:
            print_insertions(program, sequence, count or 100_000, shapes or INSERTION_SHAPES)
    else:
        for shape in shapes or SHAPES:
            print_shape(program, shape, count or 700_000)


main(sys.argv[1:])
