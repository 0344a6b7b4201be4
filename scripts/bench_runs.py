#!/usr/bin/env python3
"""Runs the bench program many times, each time in a folder of its own, and compares all that it prints.

    scripts/bench_runs.py [PROGRAM]     default: target/bin/bench, which `scripts/build bench` makes

The runs and what they have to print are bench_sessions.py's. Some are given in pieces, split at every place; in some a line has to come
before the next record is given; in some nothing can be printed, and the program has only to end. Exit statuses are not compared.
"""
import sys

import bench_sessions
from processes import ended, ended_by_itself, give, next_output, started
from stored import ROOT
from ways import compared, in_all_ways, in_pieces, split, unprinted, unread


def line_by_line(program, folder, run):
    """A record is given only when the line of the one before is there."""
    process = started(program, folder)
    printed, missing = b"", run.printed.encode().splitlines(keepends=True)
    records = [run.input[at : at + 2] for at in range(0, len(run.input), 2)]
    # The request's line is that of a refusal; else it has none, and each round has one.
    opened = run.printed.startswith("round")
    for place, record in enumerate(records):
        give(process, record)
        if missing and (place > 0 or not opened):
            got = next_output(process, lambda some: some.endswith(b"\n"))
            printed += got
            if got != missing.pop(0):
                return printed + b"in time; then " + (ended(process) or b"")
    rest = ended(process)
    return None if rest is None else printed + rest


def left_open(program, folder, run):
    """The program has to end by itself: there is no end of input."""
    process = started(program, folder)
    give(process, run.input)
    both = ended_by_itself(process)
    return None if both is None else both[0]


def split_runs(runs):
    odd = "odd byte ff after closing", "odd byte ff after a refused request"
    return split(runs, "(a) the three rounds", "17 if not 17", "(j) policy B", "ties", "weights: 2 and 3 weigh 3", *odd)


def trickled_runs(runs):
    """A byte at a time, and in pieces that end at odd places."""
    chosen = [name for name in runs if name.startswith(("(", "odd byte ff", "one byte ff", "weights: p"))]
    refused = "request 272, three records after it", "3 at record 0, 35 bytes", "12 and 13 at record 1"
    for name in (*chosen, "ties", "17 rounds, all declined", *refused):
        run = runs[name]
        yield f"{name}, a byte at a time", run, in_pieces(*(bytes([byte]) for byte in run.input))
        odd = [run.input[:1], *(run.input[at : at + 2] for at in range(1, len(run.input), 2))]
        yield f"{name}, at every odd place", run, in_pieces(*odd)


def answered_runs(runs):
    """Each line before the next record."""
    chosen = [name for name in runs if name.startswith(("(", "twenty", "17 rounds", "random policy 1", "weights"))]
    for name in (*chosen, "ties", "2305 bytes", "request 272, three records after it", "request 15, policy refused too"):
        yield f"{name}, line by line", runs[name], line_by_line


def unprinted_runs(runs):
    return unprinted(runs, "(a) the three rounds", "17 if not 17", "request 15 alone", "twenty records after deny", "3000 records after deny")


def unread_runs(runs):
    """Input that fails, and input that is left once the output has ended."""
    yield from unread(runs, "no input, policy good")
    for name in ("17 if not 17", "2305 bytes", "request 15 alone", "request 272, three records after it"):
        yield f"{name}, input left open", runs[name], left_open


kinds = split_runs, trickled_runs, answered_runs, unprinted_runs, unread_runs
program = sys.argv[1] if len(sys.argv) > 1 else ROOT / "target/bin/bench"
sys.exit(compared(program, in_all_ways(bench_sessions.runs(), *kinds)))
