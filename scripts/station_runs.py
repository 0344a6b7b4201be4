#!/usr/bin/env python3
"""Runs the program `station` many times, each time in a folder of its own, and compares all that it prints.

    scripts/station_runs.py [PROGRAM]     default: target/bin/station, which `scripts/build station` makes

The runs and what they have to print are station_sessions.py's. Some are given in pieces, split at every place; in some a line has to come
before the next record is given; in some nothing can be printed, and the program has only to end. Exit statuses are not compared.
"""
import itertools
import sys

import station_sessions
from processes import ended, give, next_output, started
from station_sessions import OPEN, PREVIEW, ROUND
from stored import ROOT
from ways import compared, in_all_ways, in_pieces, split, unprinted, unread

BYTES = 5


def records(run):
    """The records of a run, an incomplete one at the end."""
    return [run.input[at : at + BYTES] for at in range(0, len(run.input), BYTES)]


def line_by_line(program, folder, run):
    """A record is given only when the line of the one before is there."""
    process = started(program, folder)
    printed, missing = b"", run.printed.encode().splitlines(keepends=True)
    for record in records(run):
        give(process, record)
        if len(record) == BYTES and record[0] in (OPEN, ROUND, PREVIEW):
            got = next_output(process, lambda some: some.endswith(b"\n"))
            printed += got
            if got != missing.pop(0):
                return printed + b"in time; then " + (ended(process) or b"")
    rest = ended(process)
    return None if rest is None else printed + rest


def split_runs(runs):
    previewed = "the three rounds at slot 10, each previewed", "4 bytes 03000000 at the end", "13 at record 1, previewed"
    return split(runs, "the three rounds at slot 9", "a granted slot, taken by 2", "4 bytes 01010110 at the end", "13 at record 1", *previewed)


def trickled_runs(runs):
    """A byte at a time, and in pieces of each length up to 14."""
    chosen = [name for name in runs if name.startswith(("the three", "random list 1", "ones that look", "4 bytes", "owner 7: a fifth"))]
    for name in (*chosen, "17 rounds at three slots in turn", "request 272, slot 64", "2305 bytes", "previews of every phase"):
        run = runs[name]
        yield f"{name}, a byte at a time", run, in_pieces(*(bytes([byte]) for byte in run.input))
    for name, size in itertools.product(("random list 0", "64 sessions", "every other operation between", "random previews 0"), range(2, 15)):
        run = runs[name]
        pieces = (run.input[at : at + size] for at in range(0, len(run.input), size))
        yield f"{name}, {size} bytes at a time", run, in_pieces(*pieces)


def answered_runs(runs):
    """Each line before the next record."""
    chosen = [name for name in runs if name.startswith(("the three", "random list 2", "owner 0: ", "a fresh", "a denied", "policy.bin m", "4 bytes"))]
    previewed = [name for name in runs if name.startswith(("random previews 1", "previews of", "17 if not 17", "a preview", "a grant"))]
    for name in (*chosen, *previewed, "17 rounds at three slots in turn", "64 sessions", "every other operation between", "2305 bytes"):
        yield f"{name}, line by line", runs[name], line_by_line


def unprinted_runs(runs):
    return unprinted(runs, "the three rounds at slot 0", "13 at record 1", "64 sessions", "a slot opened 2000 times", "a slot previewed 2000 times")


def unread_runs(runs):
    return unread(runs, "no input, policy good")


kinds = split_runs, trickled_runs, answered_runs, unprinted_runs, unread_runs
program = sys.argv[1] if len(sys.argv) > 1 else ROOT / "target/bin/station"
sys.exit(compared(program, in_all_ways(station_sessions.runs(), *kinds)))
