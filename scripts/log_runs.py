#!/usr/bin/env python3
"""Runs the programs `record_log` and `compare_logs` many times, each time in a folder of its own, and compares all that they print.

    scripts/log_runs.py [FOLDER]     where the programs are; default: target/bin, where `scripts/build record_log compare_logs` puts them

`record_log` gets the policies and inputs of bench_sessions.py. Its log has to have a record for each line of a round that the bench
program has to print there, and standard error the line of a refused policy or request; a refused round gives nothing. `compare_logs` gets
these logs, damaged ones, and files of every kind; what it has to print is logs.py's. Exit statuses are not compared.
"""
import collections
import itertools
import os
import pathlib
import random
import sys
import tempfile

import bench_sessions
from logs import ASK, DENY, GRANT, Entry, compared, log
from processes import copied, ended_by_itself, ended_with_errors, give, next_output, placed, started
from stored import ROOT

PIPE = -1
ANSWERS = {"grant": GRANT, "deny": DENY, "ask": ASK}
MOST_BYTES = 1_048_576
# files: name to bytes, or to a function that makes the file, given its path.
Pair = collections.namedtuple("Pair", "name words files printed")


def logged(run):
    """The log of a run, and what it has on standard error."""
    lines = run.printed.splitlines(keepends=True)
    if lines and lines[0].startswith("refused"):
        return b"", "".join(lines).encode()
    rounds = [line.split() for line in lines if line.startswith("round")]
    entries = (Entry(int(p, 16), ANSWERS[answer], int(*asked or "0", 16), int(count)) for _, count, _, p, answer, *asked in rounds)
    return log(entries), b""


# ---- record_log


def recording(program, folder, **how):
    return started(program, folder, stderr=PIPE, **how)


def at_once(program, folder, run):
    """The input is a file."""
    (folder / "input").write_bytes(run.input)
    with open(folder / "input", "rb") as source:
        return ended_with_errors(recording(program, folder, stdin=source))


def byte_by_byte(program, folder, run):
    process = recording(program, folder)
    for byte in run.input:
        give(process, bytes([byte]))
    return ended_with_errors(process)


def record_by_record(program, folder, run):
    """A round is given only when the record of the one before is there."""
    process, wanted = recording(program, folder), logged(run)[0]
    give(process, run.input[:2])
    written = b""
    for at in range(2, len(run.input), 2):
        give(process, run.input[at : at + 2])
        if len(written) < len(wanted):
            written += next_output(process, lambda some: len(some) == 8)
            if written != wanted[: len(written)]:
                return written, b"in time"
    rest = ended_with_errors(process)
    return rest and (written + rest[0], rest[1])


def left_open(program, folder, run):
    """The program has to end by itself: there is no end of input."""
    process = recording(program, folder)
    give(process, run.input)
    return ended_by_itself(process)


def unwritten(program, folder, run):
    """Nothing can be written, and the program has only to end."""
    with open("/dev/full", "wb") as output:
        process = recording(program, folder, stdout=output)
        give(process, run.input)
        return ended_with_errors(process) and logged(run)


def unread(program, folder, run):
    """The log's reader has gone."""
    process = recording(program, folder)
    process.stdout.close()
    process.stdout = None
    give(process, run.input)
    return ended_with_errors(process) and logged(run)


def recorded_runs():
    runs = {run.name: run for run in bench_sessions.runs()}
    chosen = [name for name in runs if name.startswith(("(", "odd byte ff", "one byte ff", "17 rounds", "ties", "twenty", "weights"))]
    ways = {
        "": (at_once, runs),
        ", a byte at a time": (byte_by_byte, chosen),
        ", record by record": (record_by_record, [name for name in chosen if not name.startswith("o")]),
        ", input left open": (left_open, ("17 if not 17", "2305 bytes", "request 15 alone", "request 272, three records after it")),
        ", output full": (unwritten, ("(a) the three rounds", "17 if not 17", "request 15 alone", "twenty records after deny")),
        ", output not read": (unread, ("(a) the three rounds", "17 if not 17", "request 15 alone", "twenty records after deny")),
    }
    for word, (way, names) in ways.items():
        for name in names:
            yield f"record_log: {name}{word}", runs[name], way


# ---- compare_logs


def damages(source, good):
    """A log cut, longer, with a byte changed, or with two records the other way round."""
    place = source.randrange(len(good))
    yield "cut in a record", good[: place - place % 8 + source.randrange(1, 8)]
    yield "cut", good[: place - place % 8]
    yield "a byte more", good + b"\0"
    yield "a record more", good + log([Entry(0, GRANT, 0, 1)])
    yield "zeros more", good + bytes(8)
    for bit in range(8):
        changed = bytearray(good)
        changed[place - place % 8 + bit] ^= 1 << source.randrange(8)
        yield f"byte {bit} of a record changed", bytes(changed)
    at = source.randrange(0, len(good), 8)
    yield "turned at a record", good[at:] + good[:at]


def pair(name, first, second):
    return Pair(name, ("first", "second"), {"first": first, "second": second}, f"{compared(first, second)}\n")


def logs_of_runs():
    """Each log against itself, the next one, and damaged ones."""
    source, made = random.Random(3), {}
    for run in bench_sessions.runs():
        made.setdefault(logged(run)[0], run.name)
    for (one, name), (other, next_name) in itertools.pairwise(made.items()):
        yield pair(f"{name}, against itself", one, one)
        yield pair(f"{name}, against {next_name}", one, other)
        for word, damaged in damages(source, one) if one else ():
            yield pair(f"{name}, against it with {word}", one, damaged)
            yield pair(f"{name}, with {word}", damaged, one)


def linked_to(target):
    return lambda path: path.symlink_to(target)


def unreadable(path):
    path.write_bytes(log([Entry(0, GRANT, 0, 1)]))
    path.chmod(0)


def files():
    """What cannot be read, what is too long, and odd names."""
    one = log([Entry(0, GRANT, 0, 1)])
    made = {"good": one, "folder": pathlib.Path.mkdir, "hidden": unreadable, "loop": linked_to("loop"), "mem": linked_to("/proc/self/mem")}
    long = {"long": one * (MOST_BYTES // 8) + b"\0", "longer": bytes(3 * MOST_BYTES), "endless": linked_to("/dev/zero")}
    one_long = {"long": long["long"]}
    for bad in ("missing", "folder", "hidden", "loop", "mem", "", "good/good", "a\nb", "x" * 255, "y" * 3000, "/nowhere/at/all"):
        yield Pair(f"{bad or 'no name'} first", (bad, "good"), made, f"cannot read {bad}\n")
        yield Pair(f"{bad or 'no name'} second", ("good", bad), made, f"cannot read {bad}\n")
        yield Pair(f"{bad or 'no name'}, then a long one", (bad, "long"), {**made, **one_long}, f"cannot read {bad}\n")
        yield Pair(f"{bad or 'no name'} after a long one", ("long", bad), {**made, **one_long}, "too long long\n")
    for bad in long:
        yield Pair(f"{bad} first", (bad, "good"), {**made, bad: long[bad]}, f"too long {bad}\n")
        yield Pair(f"{bad} second", ("good", bad), {**made, bad: long[bad]}, f"too long {bad}\n")
    yield Pair("two that are missing", ("this", "that"), made, "cannot read this\n")
    yield Pair("two that are long", ("longer", "long"), long, "too long longer\n")
    for name in ("-", "--help", "a b", "good.log", "./good", "\u00e9\u20ac", ".hid"):
        yield Pair(f"the name {name}", (name, name), {**made, name: one}, "agree\n")
    yield Pair("no bytes", ("/dev/null", "good"), made, "part 0\n")
    yield Pair("one file twice", ("good", "good"), made, "agree\n")


def large():
    """As much as there is room for."""
    full = log([Entry(7, ASK, 0x8001, 1)]) * (MOST_BYTES // 8)
    other = log([Entry(0, ASK, 0x8001, 9)]) * (MOST_BYTES // 8)
    last = full[:-8] + log([Entry(7, ASK, 0x8000, 1)])
    yield pair("131072 records", full, other)
    yield pair("131072 records, the last parts", full, last)
    yield pair("131072 records, the last at fault", other, full[:-1] + b"\1")
    yield pair("131072 records and 131071", full, other[:-8])
    yield pair("131072 records and 1048575 bytes", other, full[:-1])
    yield pair("131072 records and none", b"", full)


def usages():
    good = {name: log([Entry(0, GRANT, 0, 1)]) for name in "abcd"}
    for words in ((), ("a",), ("a", "b", "c"), ("a", "b", "c", "d"), ("",), ("a", "b", "")):
        yield Pair(f"{len(words)} names: {' '.join(words)}", words, good, "usage: compare_logs FIRST SECOND\n")


def pairs():
    for some in (logs_of_runs, files, large, usages):
        yield from some()


def comparison(program, folder, one):
    """What a comparison prints."""
    folder.mkdir()
    for name, made in one.files.items():
        if callable(made):
            made(folder / name)
        else:
            (folder / name).write_bytes(made)
    return ended_with_errors(started(program, folder, *one.words, stderr=PIPE))


def passes(name, got, wanted):
    if got == wanted:
        return True
    said = "does not end" if got is None else f"prints {got}, not {wanted}"
    print(f"failed: {name}: {said if len(said) < 400 else said[:400] + '..'}")
    return False


def main():
    counts = {True: 0, False: 0}
    os.umask(0o022)
    programs = pathlib.Path(sys.argv[1]) if len(sys.argv) > 1 else ROOT / "target/bin"
    with tempfile.TemporaryDirectory() as space:
        top = pathlib.Path(space)
        recorder, comparer = (copied(programs / name, top) for name in ("record_log", "compare_logs"))
        for place, (name, run, way) in enumerate(recorded_runs()):
            counts[passes(name, way(recorder, placed(top / f"r{place}", run.policy), run), logged(run))] += 1
        for place, one in enumerate(pairs()):
            printed = comparison(comparer, top / f"c{place}", one)
            counts[passes(f"compare_logs: {one.name}", printed, (one.printed.encode(), b""))] += 1
    print(f"{counts[True]} passed, {counts[False]} failed")
    return 1 if counts[False] else 0


sys.exit(main())
