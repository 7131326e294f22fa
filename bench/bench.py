#!/usr/bin/env python3
"""Times the built program: python3 bench/bench.py [--against COMMAND] [--program COMMAND] [FAMILY..]

Makes the workloads of bench/workloads.py, of all families or of those that are named, and runs the program on each. With
--against it runs that command on the same files in turn, and prints the ratios. Each workload is run TURNS times, the
turns of all workloads of a family interleaved, so that a ratio is of one stretch of time. A run that is short is made
several times in a row. A run whose output isn't right to the byte stops the bench. Of several sessions the first run of each
program is checked by its own history, and the later ones for their status and their count of lines.
"""

import filecmp
import math
import os
import shutil
import subprocess
import sys
import tempfile
import time
from pathlib import Path

from workloads import FAMILIES

HERE = Path(__file__).resolve().parent
PROGRAM = HERE.parent / "crates/dyntensor/out/dyntensor"
CHECK_REPORT = HERE.parent / "tools/check_report.py"
TURNS = 5
ROW_SECONDS = 0.3
MOST_IN_A_ROW = 20
# Of a shorter time no ratio is printed.
LEAST_SECONDS = 0.001
KIB_IN_MIB = 1024


class NotBuilt(Exception):
    """The program refuses a form that isn't built yet."""


def run_once(command, folder):
    """The status, the seconds and the peak memory in KiB of one run in a folder, whose output goes to a file there.

    The system counts no child's peak as less than what its parent holds when it starts it.
    """
    with open(folder / "printed", "wb") as printed:
        started = time.perf_counter()
        child = subprocess.Popen(command, cwd=folder, stdin=subprocess.DEVNULL, stdout=printed)
        _, status, used = os.wait4(child.pid, 0)
        seconds = time.perf_counter() - started
    child.returncode = os.waitstatus_to_exitcode(status)
    return child.returncode, seconds, used.ru_maxrss


def words_for(folder):
    """The words of a run: those of the workload's file of words, if it has one."""
    words = folder / "words"
    return words.read_text().splitlines() if words.exists() else ["run", "m"]


def timed_run(program, folder):
    """The seconds and the peak memory of one run, which has to print the report."""
    status, seconds, peak = run_once([program, *words_for(folder)], folder)
    if status == 2 and (folder / "printed").read_bytes().endswith(b" not built\n"):
        raise NotBuilt
    if status != 0 or not is_right(folder):
        sys.exit(f"{folder.name}: {program} ended with status {status}, or printed something else than it has to")
    return seconds, peak


def is_right(folder):
    """Whether a run printed the report. Where there is none to compare with, see whether it printed as many lines."""
    if (folder / "report").exists():
        filecmp.clear_cache()
        return filecmp.cmp(folder / "printed", folder / "report", shallow=False)
    return not (folder / "lines").exists() or lines_in(folder) == int((folder / "lines").read_text())


def lines_in(folder):
    """The lines of the report before the first tensor's, whose nonzeros depend on the order of the calls."""
    count = 0
    with open(folder / "printed", "rb") as printed:
        for line in printed:
            if line.startswith(b"tensor "):
                break
            count += 1
    return count


def check_history(program, folder):
    """Checks what a run of several sessions printed by its own history, in a process of its own."""
    if (folder / "report").exists():
        return
    said = subprocess.run([sys.executable, "-B", CHECK_REPORT, folder, "m", folder / "printed"], stdout=subprocess.PIPE, text=True)
    if said.returncode != 0:
        sys.exit(f"{folder.name}: {program} printed a report that isn't true: {said.stdout.strip()}")
    (folder / "lines").write_text(str(lines_in(folder)))


def peak_of(command, folder):
    """The peak memory in KiB of a run that a small parent starts, or None where there is no such parent."""
    small = shutil.which("time")
    if not small:
        return None
    subprocess.run([small, "-f", "%M", "-o", folder / "peak", *command], cwd=folder, stdin=subprocess.DEVNULL, stdout=subprocess.DEVNULL)
    return int((folder / "peak").read_text().split()[-1])


def timed_turn(program, folder, count):
    """The seconds of a run, over so many in a row."""
    return sum(timed_run(program, folder)[0] for _ in range(count)) / count


def measured(programs, folders):
    """The median seconds and the peak memory in KiB of each program, by its place, on each workload."""
    counts, peaks = {}, {}
    for which, program in enumerate(programs):
        for folder in folders:
            seconds, peak = timed_run(program, folder)
            check_history(program, folder)
            counts[which, folder] = max(1, min(MOST_IN_A_ROW, round(ROW_SECONDS / seconds)))
            peaks[which, folder] = peak_of([program, *words_for(folder)], folder) or peak
    turns = {it: [] for it in counts}
    for _ in range(TURNS):
        for folder in folders:
            for which, program in enumerate(programs):
                turns[which, folder].append(timed_turn(program, folder, counts[which, folder]))
    return {it: (sorted(seconds)[TURNS // 2], peaks[it]) for it, seconds in turns.items()}


def make(family, kind, size, room):
    folder = Path(room) / f"{family} {kind} {size}"
    folder.mkdir()
    subprocess.run([sys.executable, "-B", HERE / "workloads.py", family, kind, str(size), folder], check=True)
    return folder


def bench_family(family, programs, room):
    kinds, sizes = FAMILIES[family]
    folders = {(kind, size): make(family, kind, size, room) for kind in kinds for size in sizes}
    try:
        found = measured(programs, folders.values())
    except NotBuilt:
        print(f"{family}: not built yet\n")
        return
    print(f"| {family} | lines | s | MiB | grew as n to the |" + " times the other's wall | times its memory |" * (len(programs) > 1))
    print("|---|---|---|---|---|" + "---|---|" * (len(programs) > 1))
    for kind in kinds:
        for size in sizes:
            print(row(kind, size, sizes[0], {(which, n): found[which, folders[kind, n]] for which in range(len(programs)) for n in sizes}))
    if "loaded" in kinds:
        for size in sizes:
            print(row("query without loading", size, sizes[0], {(which, n): without_loading(found, folders, which, n) for which in range(len(programs)) for n in sizes}))
    print()


def without_loading(found, folders, which, size):
    """The seconds that a query takes beside loading. It has no peak memory, since the two peaks needn't be at one time."""
    return found[which, folders["query", size]][0] - found[which, folders["loaded", size]][0], None


def row(kind, size, least, found):
    seconds, peak = found[0, size]
    shorter = found[0, least][0]
    grew = f"{math.log(seconds / shorter) / math.log(size / least):.2f}" if size != least and min(seconds, shorter) > LEAST_SECONDS else ""
    cells = [kind, f"{size:,}", f"{seconds:.4f}", f"{peak / KIB_IN_MIB:.1f}" if peak else "", grew]
    if (1, size) in found:
        other, others_peak = found[1, size]
        cells += [f"{seconds / other:.2f}" if min(seconds, other) > LEAST_SECONDS else "", f"{peak / others_peak:.2f}" if peak else ""]
    return "| " + " | ".join(cells) + " |"


def main(words):
    options = {"--against": None, "--program": str(PROGRAM)}
    while words and words[0] in options:
        option, given, *words = words
        options[option] = str(Path(given).resolve())
    programs = [it for it in (options["--program"], options["--against"]) if it]
    for program in programs:
        if not os.access(program, os.X_OK):
            sys.exit(f"{program} isn't there: tools/run.sh --prove builds the program")
    load = os.getloadavg()[0]
    for family in words or FAMILIES:
        with tempfile.TemporaryDirectory() as room:
            bench_family(family, programs, room)
    with tempfile.TemporaryDirectory() as room:
        floor = peak_of(["true"], Path(room)) or run_once(["true"], Path(room))[2]
    print(f"A program that does nothing counts as {floor / KIB_IN_MIB:.1f} MiB.")
    print(f"Load when it began: {load:.1f} on {os.cpu_count()} processors{', a busy machine: the ratios are noisy' if load > 1 else ''}.")


if __name__ == "__main__":
    main(sys.argv[1:])
