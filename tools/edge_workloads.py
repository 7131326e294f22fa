#!/usr/bin/env python3
"""Compares a program with the replayer at each limit, and on lines with two faults: python3 tools/edge_workloads.py [PROGRAM]

Makes a workload at each limit of docs/FORMATS.md and one past it, one for each cause of a refusal beside a later cause on
the same line, one for each statement of tools/edge_statements.py, and some odd files. It runs PROGRAM on each
(crates/dyntensor/out/dyntensor if left out), compares status and output with what tools/replay.py says, and prints a line for
each workload. A report of several sessions in another order is judged by tools/check_report.py. It ends with status 1 if one
differs. It is no part of the gate.

These words may stand in front: `--built FORM,..` takes these forms of the replayer's NOT_BUILT as built, and `--only WORD`
leaves out the workloads whose names don't begin with WORD.
"""

import subprocess
import sys
import tempfile
from pathlib import Path

import replay
from edge_statements import ANSWERED, ANSWERED_LARGE, LARGE, REFUSED, SESSIONS, TENSORS, files_of, refused
from random_workloads import difference

TOP = Path(__file__).resolve().parent.parent
SECONDS = 120
V = b"tensor v 5 as flat latches 1\n"
SHOWN = 60
# Lines of data, value numerals, and lines of scripts.
LINES = [b"1 1 3", b"1 1", b"1 1 1 1", b"x 4 y", b"3 x y", b"1 4 y", b"1 3 y", b"1 3 2.5", b"1 3 1e20", b"1 3 -1e19", b"01 003 +0"]
LINES += [b"1 1 5\n1 1 -5\n2 3 1"]
WORDS = b"3. 3.000 2.50e1 1000e-3 -0 0e-999 2.5 1e-1 18446744073709551616 18446744073709551615 .5 nan 1e 1e1000 1e999".split()
WORDS += [b"-9223372036854775809", b"1" + b"0" * 3000 + b"e-999"]
CALLS = [b"get", b"get v", b"get 1", b"get v -1", b"get v 1 x", b"get v 9 x", b"set", b"set v", b"set v 1", b"set v x 1", b"set v 9 2.5"]
CALLS += [b"set v 1 2 3", b"set w x", b"set w 1 x", b"put v", b"batch;", b"querya", b" \tget  v   6\t", b"get v 4294967296"]
CALLS += [b"batch", b" batch \t", b"batch ;set v 1 1", b"batch set v 1 1;", b"batch set v 1 1; ", b"batch set v 1 1;;x", b"batch set;x", b"batch set v;x"]
CALLS += [b"batch set v 1 1 ;add v 5 -1;\tset A 2 3 1e3 ", b"batch get v 1", b"batch set v 1 1;batch", b"batch set v 1;1", b"batch set v 9 1;set v 1 x"]
CALLS += [b"batch set v 9 2.5;set w 1 1", b"batch set v 1 2.5;set w 1 1", b"batch set v 1 1;set w 1 1", b"batch set v 1 1;add A 2 4 2.5"]
# 64 updates, one more, and what is wrong before or at the 64th semicolon or behind it.
CALLS += [b"batch add v 1 1" + b";add v 1 1" * count + last for count in (62, 63, 64) for last in (b"", b";", b";x", b";set;x", b";;x", b";set v 1 1;x")]
CALLS += [b"get v " + b"0" * 4000 + b"5", b"get A 3 4", b"get A 2 4", b"get A 2", b"get A 2 3 1", b"SET v 1 1", b"get V 1"]


def padded(line, size):
    """The line with blanks behind it, so that it has this many bytes."""
    return line + b" " * (size - len(line))


def tensor(name=b"v", dims=b"5", latches=b"1"):
    flats = b" ".join([b"flat"] * len(dims.split()))
    return b"tensor %s %s as %s latches %s\n" % (name, dims, flats, latches)


def commented(size):
    """A file of this many bytes that has comments alone."""
    return (b"#" * 4000 + b"\n") * (size // 4001) + b"#" * (size % 4001)


def manifests():
    """Manifests: at the limits, and faults in their order."""
    yield "name of 32 bytes", tensor(b"n" * 32)
    yield "name of 33 bytes", tensor(b"n" * 33)
    yield "order 5", tensor(dims=b"1 2 3 4 5")
    yield "order 6", tensor(dims=b"1 2 3 4 5 6")
    yield "order 0", b"tensor v as latches 1\n"
    for dim in (b"0", b"1", b"4294967295", b"4294967296", b"0004", b"9" * 200):
        yield f"dimension {dim[:20].decode()}", tensor(dims=dim)
    for latches in (b"0", b"256", b"257", b"9" * 200):
        yield f"{latches[:20].decode()} latches", tensor(latches=latches)
    for count in (32, 33):
        yield f"{count} tensors", b"".join(tensor(b"t%d" % n) for n in range(count))
    most = b"".join(tensor(b"t%d" % n, latches=b"256") for n in range(3)) + tensor(b"a", latches=b"255")
    for last in (1, 2):
        yield f"{3 * 256 + 255 + last} latches in all", most + tensor(b"b", latches=b"%d" % last)
    for count in (64, 65):
        yield f"{count} prints", V + b"print v\n" * count
    for size in (4096, 4097):
        yield f"line of {size} bytes", padded(V[:-1], size) + b"\n"
        yield f"line of {size} bytes with CR", padded(V[:-1], size) + b"\r\n"
    yield "limit, then form", padded(b"put", 4097) + b"\n"
    yield "form, then order", b"session s\ntensor v 5 as flat\n"
    yield "form, then name", b"load w t 1\n"
    yield "a schema behind a session", V + b"session s\nschema q\n"
    for count in (2, 16, 17):
        yield f"{count} sessions", V + b"session s\n" * count
    yield "order, then name", b"session s\nload w t\n"
    yield "order, then twice", V + b"session s\n" + V
    yield "order, then range", b"session s\n" + tensor(dims=b"0")
    yield "twice, then range", V + tensor(dims=b"0")
    yield "range, then limit", b"".join(tensor(b"t%d" % n, latches=b"256") for n in range(4)) + tensor(latches=b"257")
    yield "name of a print that is declared later", b"print v\n" + V
    yield "name in the second pass, after form in the first", b"tensor v 5 as tree latches 1\nput\n"
    yield "name in the second pass", b"tensor v 5 as tree latches 1\nload v gone\n"
    yield "schema that is no name", b"tensor v 5 as 5 latches 1\n"
    yield "file name that isn't UTF-8", b"session \xff\n"
    yield "file name with NUL", b"session s\x00\n"
    yield "file name of 255 bytes", V + b"session %s\n" % (b"f" * 255)
    yield "file name of 256 bytes", V + b"session %s\n" % (b"f" * 256)
    yield "empty", b""
    yield "blanks and comments alone", b" \t\n#\n\r\n # x"
    yield "CR in a word", b"tensor v\r 5 as flat latches 1\n"
    yield "CR CR LF", V[:-1] + b"\r\r\n"
    yield "without a last line end", V + b"print v"


def data():
    """Lines of a tensor of 2 by 3 modes."""
    for text in LINES:
        yield text.decode().replace("\n", " / "), text
    yield "nothing", b""
    yield "CR LF, tabs, comments, no last line end", b"# two\r\n\r\n\t1\t1 4 \r\n2 2 6"
    for size in (4096, 4097):
        yield f"a line of {size} bytes", padded(b"1 1 1", size)
    yield "a value of 4,092 digits", b"1 1 " + b"0" * 4091 + b"7"
    yield "a comment of 10,000 bytes", b"#" * 10_000 + b"\n1 1 1"
    yield "bytes that are no text", bytes(range(256))


def scripts():
    """Scripts over a tensor of order 1 and one of order 2."""
    for word in WORDS:
        yield f"value {word[:24].decode()}", b"set v 1 %s\nget v 1" % word
    for line in CALLS:
        yield line[:24].decode().strip(), line
    for size in (4096, 4097):
        yield f"a line of {size} bytes", padded(b"get v 1", size)
    yield "a cell that becomes 0", b"add v 3 7\nadd v 3 -7\nquery a(i) = v(i)"
    yield "a statement that is cut off", b"query A(i,j) = B(i,k"
    for count in (65_536, 65_537):
        yield f"{count} lines", b"# lines\n" + b"get v 1\n" * count


def statements():
    """The statements with an answer, the refused ones and those between updates; each alone, and all in one script."""
    for text, _ in ANSWERED:
        yield text, files_of(TENSORS, f"query {text}")
    for text, _ in ANSWERED_LARGE:
        yield text, files_of(LARGE, f"query {text}")
    lines = [refused(*row)[0] for row in REFUSED]
    for line in lines:
        yield line, files_of(TENSORS, line)
    for script, _ in SESSIONS:
        yield script, files_of(TENSORS, script)
    yield "all in one script", files_of(TENSORS, " / ".join([*(f"query {text}" for text, _ in ANSWERED), *lines]))
    for size in (4096, 4097):
        yield f"a line of {size} bytes", files_of(TENSORS, padded(b"query a = x(i)", size).decode())
        yield f"a refused line of {size} bytes", files_of(TENSORS, padded(b"query a = x(i) x", size).decode())
        yield f"a statement of {size} bytes", files_of(TENSORS, "query a =" + " " * (size - 13) + "x(i)")
    for count in (65_536, 65_537):
        yield f"{count} statements", files_of(TENSORS, "query a = x(i) * 2\n" * count)
    for odd in (b"\xff", b"\x00", b"\r", b"\x0b", b"\xc2\xa0"):
        script = b"query a = x(i)" + odd + b" + x(i)\nquery a = x(i)" + odd + b"\n" + odd + b"query a = x(i)"
        yield f"the bytes {odd.hex()}", {**files_of(TENSORS, ""), "s": script}


def workloads():
    """A name and the files of each."""
    for name, files in statements():
        yield f"statement: {name}", files
    for name, text in manifests():
        yield f"manifest: {name}", {"m": text, "s": b"", "f" * 255: b""}
    for name, text in data():
        yield f"data: {name}", {"m": tensor(b"A", b"2 3") + b"load A t\nprint A\n", "t": text}
    for name, text in scripts():
        yield f"script: {name}", {"m": V + tensor(b"A", b"2 3") + b"session s\nprint v\n", "s": text}
    yield "a file that is named twice", {"m": tensor(b"A", b"2 3") + b"load A t\nload A t\nprint A\n", "t": b"1 1 1\n2 3 18446744073709551615"}
    yield "a print that stands twice", {"m": V + b"print v\nsession s\nprint v\n", "s": b"set v 1 1"}
    yield "no script", {"m": V + b"session gone\n"}
    yield "no data, then a fault of the script", {"m": V + b"load v gone\nsession s\n", "s": b"put\n" * 70_000}
    yield "dimension 4294967295", {"m": tensor(dims=b"4294967295 4294967295") + b"session s\nprint v\n", "s": b"set v 4294967295 1 7\nget v 4294967295 4294967295\nget v 1 4294967296"}
    for size in (replay.FILE_LIMIT, replay.FILE_LIMIT + 1):
        yield f"a manifest of {size} bytes", {"m": commented(size)}
        yield f"data of {size} bytes", {"m": V + b"load v t\n", "t": commented(size)}
        yield f"a script of {size} bytes", {"m": V + b"session s\n", "s": commented(size)}
    for count in (700_000, 700_001):
        lines = b"".join(b"%d %d\n" % (n % 5 + 1, n) for n in range(count))
        half = lines.index(b"\n", len(lines) // 2) + 1
        yield f"{count} lines of data", {"m": V + b"load v t\nprint v\n", "t": lines}
        yield f"{count} lines in two files", {"m": V + b"load v t\nload v u\nprint v\n", "t": lines[:half], "u": lines[half:]}
    for updates in (2, 3):
        lines = b"1 1\n" * 699_998
        script = b"get v 1\nset v 9 1\nquery a = v(i)\nquery a = v(j)\nquery a\n" + b"add v 1 1\n" * updates
        yield f"699998 lines, {updates} updates and queries", {"m": V + b"load v t\nsession s\nprint v\n", "t": lines, "s": script}
        batch = b"batch set v 1 1;set v 9 1\nbatch set v 1 1; set v 2 2" + b";add v 1 1" * (updates - 2)
        yield f"699998 lines, a batch of {updates} updates", {"m": V + b"load v t\nsession s\nprint v\n", "t": lines, "s": batch}
        files = {"t": lines, "s": b"add v 1 1\nget v 9", "u": b"add v 1 1\n" * (updates - 1)}
        yield f"699998 lines, {updates} updates of two sessions", {"m": V + b"load v t\nsession s\nsession u\nprint v\n", **files}


def ran(program, folder):
    found = subprocess.run([program, "run", "m"], cwd=folder, stdin=subprocess.DEVNULL, capture_output=True, timeout=SECONDS)
    return found.returncode, found.stdout


def main(words):
    not_built, first = replay.NOT_BUILT, ""
    while words and words[0].startswith("--"):
        option, given, *words = words
        not_built = not_built - {*given.split(",")} if option == "--built" else not_built
        first = given if option == "--only" else first
    program = str(Path(words[0] if words else TOP / "crates/dyntensor/out/dyntensor").resolve())
    differ = count = 0
    for name, files in workloads():
        if not name.startswith(first):
            continue
        with tempfile.TemporaryDirectory() as room:
            for file, text in files.items():
                (Path(room) / file).write_bytes(text)
            found, wanted = ran(program, room), replay.run([b"run", b"m"], room, not_built)
            why = None if found == wanted else difference(found, wanted, [b"run", b"m"], Path(room), not_built)
        count += 1
        shown = " / ".join(wanted[1][:SHOWN].decode(errors="replace").splitlines())
        print(f"{'DIFFERS' if why else 'same' if found == wanted else 'true'}: {name[:SHOWN]}: status {wanted[0]}, {shown}")
        if why:
            differ += 1
            print(f"    {why}")
            print(f"    the program: status {found[0]}, {' / '.join(found[1][:SHOWN].decode(errors='replace').splitlines())}")
    print(f"{count} workloads, {differ} differ")
    return 1 if differ else 0


if __name__ == "__main__":
    sys.exit(main(sys.argv[1:]))
