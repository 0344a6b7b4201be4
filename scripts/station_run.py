#!/usr/bin/env python3
"""The stored run of the program `station`: several owners' sessions in turn, every refusal of openings and rounds, previews of rounds that
are played, of others and of none, and odd records.

    scripts/station_run.py            write crates/station/data/policy.bin, stdin and stdout
    scripts/station_run.py --check    say whether these three files are what the script makes

The policy is policy A, and a service 20 by 5, by 4, which weighs 2, or by 6 and 7. Each operation stands below with the line that it has
to print, written by hand; the script stops unless tables.py gives the same, and unless the openings and rounds print the same without the
previews.
"""
import sys

from bench_sessions import written
from rounds import POLICY_A, weight, whole
from station_sessions import PREVIEW, SLOTS, at, line_of, opening, previews, rounds
from stored import stored

POLICY = [
    *POLICY_A,
    *((1, 20, some, set()) for some in ({4}, {5}, {6, 7})),
    *((2, atom, set(), set()) for atom in (4, 5, 6, 7)),
    weight(4, 2),
]
# "open", slot, owner and request, or "round", slot and what is shown, or "preview", slot, the owner's byte and what is shown, then what is
# printed after the slot's number; or a record's bytes.
RUN = """
preview 0 1 0010: preview refused 8
round 0 0000: refused 8
preview 64 0 0000: preview refused 14
preview 255 9 ffff: preview refused 14
open 0 1 16: opened
preview 0 0 0000: preview round 1 got 0000 ask 0004
preview 0 255 0000: preview round 1 got 0000 ask 0004
preview 0 2 0004: preview round 1 got 0004 grant
preview 0 1 0005: preview round 1 got 0005 deny
round 0 0000: round 1 got 0000 ask 0004
preview 0 7 0004: preview round 2 got 0004 grant
open 0 1 16: refused 15
open 0 2 16: refused 15
preview 0 0 0000: preview round 2 got 0000 ask 0003
round 0 0000: round 2 got 0000 ask 0003
open 0 1 15: refused 7
open 0 1 63: refused 7
open 64 1 272: refused 7
open 64 1 16: refused 14
open 255 1 16: refused 14
round 64 0000: refused 14
round 255 ffff: refused 14
round 63 0000: refused 8
preview 63 3 0000: preview refused 8
open 63 2 16: opened
open 63 2 16: refused 15
round 63 0000: round 1 got 0000 ask 0004
preview 63 2 0004: preview round 2 got 0004 grant
round 63 0004: round 2 got 0004 grant
preview 63 2 0004: preview refused 9
round 63 0004: refused 9
preview 0 1 0003: preview round 3 got 0003 grant
preview 0 1 0001: preview round 3 got 0001 deny
round 0 0003: round 3 got 0003 grant
round 0 0000: refused 9
preview 0 1 0003: preview refused 9
open 0 2 20: opened
preview 0 0 0000: preview round 1 got 0000 ask 0020
open 0 2 20: refused 15
open 63 3 20: opened
round 63 0000: round 1 got 0000 ask 0020
preview 63 99 0000: preview round 2 got 0000 ask 0010
preview 63 99 0040: preview round 2 got 0040 ask 0080
round 0 0020: round 1 got 0020 grant
round 63 0000: round 2 got 0000 ask 0010
round 63 0000: round 3 got 0000 ask 00c0
open 1 3 16: opened
open 2 3 62: opened
open 3 3 16: opened
preview 2 3 ffff: preview round 1 got ffff deny
preview 3 3 0003: preview round 1 got 0003 grant
open 4 3 16: refused 16
open 1 3 16: refused 15
open 64 3 16: refused 14
open 4 3 63: refused 7
open 4 4 16: opened
round 2 8000: round 1 got 8000 deny
open 4 3 16: refused 15
open 5 3 16: opened
open 6 3 20: refused 16
open 2 3 20: refused 16
round 2 0000: refused 9
round 2 0000: refused 9
open 2 0 20: opened
open 6 255 20: opened
round 6 0080: round 1 got 0080 ask 0020
round 63 0040: round 4 got 0040 deny
open 63 3 16: opened
open 7 3 16: refused 16
00 01 02 01 02
04 01 3b 09 10
ff ff ff ff ff
81 02 07 00 00
04 03 00 03 00
83 03 03 03 00
preview 3 250 0005: preview round 1 got 0005 deny
round 3 0005: round 1 got 0005 deny
open 7 3 20: opened
open 3 3 20: refused 16
open 3 1 20: opened
preview 3 1 0000: preview round 1 got 0000 ask 0020
round 7 0000: round 1 got 0000 ask 0020
preview 3 1 0000: preview round 1 got 0000 ask 0020
round 3 0000: round 1 got 0000 ask 0020
round 2 0000: round 1 got 0000 ask 0020
preview 2 0 0010: preview round 2 got 0010 grant
round 2 0010: round 2 got 0010 grant
preview 2 0 0010: preview refused 9
round 3 0000: round 2 got 0000 ask 0010
round 7 0020: round 2 got 0020 grant
round 3 0010: round 3 got 0010 grant
round 1 0001: round 1 got 0001 ask 0002
preview 1 3 0002: preview round 2 got 0002 grant
round 1 0000: round 2 got 0000 deny
preview 1 3 0002: preview refused 9
round 5 000c: round 1 got 000c deny
round 63 0003: round 1 got 0003 grant
open 7 3 16: opened
open 3 3 16: opened
open 1 3 16: opened
open 5 3 16: opened
open 63 3 16: refused 16
round 6 0040: round 2 got 0040 grant
round 4 0000: round 1 got 0000 ask 0004
preview 4 4 8008: preview round 2 got 8008 ask 0003
round 4 8008: round 2 got 8008 ask 0003
preview 4 16 0001: preview round 3 got 0001 deny
round 4 0000: round 3 got 0000 deny
round 62 0000: refused 8
preview 62 5 0010: preview refused 8
open 0 5 16: opened
open 63 5 16: opened
open 61 5 16: opened
open 62 5 16: opened
preview 0 5 0004: preview round 1 got 0004 grant
open 60 5 16: refused 16
round 60 0000: refused 8
preview 60 5 0000: preview refused 8
round 0 0004: round 1 got 0004 grant
open 60 5 16: opened
preview 60 60 0006: preview round 1 got 0006 grant
open 0 5 16: refused 16
round 0 0000: refused 9
round 63 0008: round 1 got 0008 ask 0003
open 59 5 16: refused 16
open 10 0 62: opened
open 11 0 16: opened
open 12 0 16: opened
open 13 0 16: opened
open 14 0 16: refused 16
open 14 10 16: opened
round 14 0003: round 1 got 0003 grant
preview 63 5 0003: preview round 2 got 0003 grant
round 63 0003: round 2 got 0003 grant
preview 63 5 0003: preview refused 9
preview 64 5 0003: preview refused 14
preview 61 0 0000: preview round 1 got 0000 ask 0004
"""
# An opening at an empty slot, its last byte missing.
LEFT = bytes.fromhex("01 3b 09 10")


def operations():
    """Each record's bytes, and its line; of a record that is passed over, none."""
    for text in RUN.strip().splitlines():
        words, _, said = text.partition(": ")
        word, *given = words.split()
        if word == "open":
            slot, owner, request = map(int, given)
            yield opening(slot, owner, request), at(slot, said)
        elif word == "round":
            slot, shown = int(given[0]), int(given[1], 16)
            # The owner is not looked at.
            yield rounds(slot, shown, owner=255 - slot), at(slot, said)
        elif word == "preview":
            slot, owner, shown = int(given[0]), int(given[1]), int(given[2], 16)
            yield previews(slot, shown, owner=owner), at(slot, said)
        else:
            yield bytes.fromhex(text), ""


def compare(pairs):
    """Stops where the definitions give another line."""
    slots = [None] * SLOTS
    for record, line in pairs:
        made, slots = line_of(whole(POLICY), slots, record)
        if made != line:
            sys.exit(f"{line.strip()} by hand, {made.strip()} by the definitions")


def main():
    pairs = list(operations())
    compare(pairs)
    compare((record, line) for record, line in pairs if record[0] != PREVIEW)
    records, lines = zip(*pairs)
    policy, given = written(POLICY), b"".join(records) + LEFT
    files = ("data/policy.bin", policy), ("stdin", given), ("stdout", "".join(lines).encode())
    return stored((f"crates/station/{name}", made) for name, made in files)


sys.exit(main())
