"""The rules of the document check on runs: what documents show of files, and the examples, which are replayed.

An example with a file any_order has several sessions, which take turns in any order. Its stored report and that of the program
are each judged by tools/check_report.py then.
"""

import re
import shutil
import subprocess
import tempfile

import check_report

PROGRAM = "dyntensor"
REPLAY_SECONDS = 60


def check_shown_files(check):
    """Each block that names a file shows it, and README.md shows the program's stored run."""
    for document in check.documents:
        for fence in document.fences:
            if fence.shows_file:
                check_shown(check, document.path, fence)
    check_stored_run(check, check.named("README.md"))


def check_shown(check, path, fence):
    file = check.top / fence.info[1]
    if not file.is_file():
        check.fault(path, fence.line, f"the shown file {fence.info[1]} isn't there", "name the file by its path from the top")
    elif file.read_bytes() != fence.text.encode():
        check.fault(path, fence.line, f"this isn't what {fence.info[1]} has", "copy the file's bytes into the block")


def check_stored_run(check, document):
    if document is None or PROGRAM not in check.by_name:
        return
    folder = check.by_name[PROGRAM].folder
    run = [it for it in check.files if it.startswith(f"crates/{PROGRAM}/data/")] + [f"crates/{PROGRAM}/stdout"]
    shown = [fence.info[1] for fence in document.fences if fence.shows_file]
    for path in run:
        if path not in shown:
            check.fault("README.md", 1, f"it doesn't show {path} of the stored run", f"add a block that opens with ```text {path}")
    words = (folder / "args").read_text(encoding="utf-8").splitlines() if (folder / "args").is_file() else []
    command = " ".join(["$", PROGRAM, *words])
    if not any(command in fence.text.splitlines() for fence in document.fences):
        check.fault("README.md", 1, f"it doesn't show the stored run's words", f"have the line '{command}' in a block")


def check_examples(check):
    """Replays each example on the built program."""
    folders = sorted({"/".join(it.split("/")[:2]) for it in check.files if re.match(r"examples/[^/]+/", it)})
    if not folders:
        check.fault("examples", 1, "there is no example", "add a folder with args, data/ and stdout")
    program = check.top / f"crates/{PROGRAM}/out/{PROGRAM}"
    for folder in folders:
        lacks = [it for it in ("args", "data", "stdout") if not (check.top / folder / it).exists()]
        if lacks:
            check.fault(folder, 1, f"it has no {' and no '.join(lacks)}", "store the example as the program's own run is stored")
            continue
        if is_any_order(check.top / folder):
            judge(check, folder, (check.top / folder / "stdout").read_bytes(), "the stored report is wrong")
        if program.is_file():
            replay(check, folder, program)
        else:
            check.notes.append(f"{folder}: not replayed, since crates/{PROGRAM}/out/{PROGRAM} isn't built: rt run in crates/{PROGRAM} builds it")


def replay(check, folder, program):
    at = check.top / folder
    words = (at / "args").read_text(encoding="utf-8").splitlines()
    wanted = int((at / "status").read_text()) if (at / "status").is_file() else 0
    with tempfile.TemporaryDirectory() as room:
        shutil.copytree(at / "data", f"{room}/data")
        try:
            ran = subprocess.run([program.resolve(), *words], cwd=f"{room}/data", stdin=subprocess.DEVNULL, capture_output=True, timeout=REPLAY_SECONDS)
        except (OSError, subprocess.TimeoutExpired) as why:
            check.fault(folder, 1, f"the program didn't run to its end on it ({why})", "mend the program, or build it again")
            return
    if ran.returncode != wanted:
        check.fault(f"{folder}/args", 1, f"the program ended with status {ran.returncode}, and not {wanted}", "mend whichever is wrong")
    if is_any_order(at):
        if judge(check, folder, ran.stdout, "the program's report is wrong"):
            check.notes.append(f"{folder}: run, and its {len(ran.stdout.splitlines())} lines are a true report")
    elif ran.stdout != (at / "stdout").read_bytes():
        line = first_difference(ran.stdout, (at / "stdout").read_bytes())
        check.fault(f"{folder}/stdout", line, "the program prints something else from here on", "mend whichever is wrong, by tools/replay.py and not by the program")
    else:
        check.notes.append(f"{folder}: replayed, {len(ran.stdout.splitlines())} lines as stored")


def is_any_order(folder):
    return (folder / "any_order").is_file()


def judge(check, folder, report, what):
    """Whether a report of an example is true by its own history, with no call that found no memory."""
    at = check.top / folder
    try:
        _, left_out = check_report.check(at / "data", (at / "args").read_bytes().split(b"\n")[1], report)
        why = f"{left_out} calls found no memory" if left_out else None
    except check_report.Wrong as wrong:
        why = str(wrong)
    if why:
        check.fault(f"{folder}/stdout", 1, f"{what}: {why}", "mend whichever is wrong, by tools/replay.py and not by the program")
    return not why


def first_difference(given, wanted):
    lines = zip(given.split(b"\n"), wanted.split(b"\n"))
    return next((n for n, (a, b) in enumerate(lines, 1) if a != b), 1 + min(given.count(b"\n"), wanted.count(b"\n")))
