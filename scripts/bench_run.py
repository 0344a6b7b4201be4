#!/usr/bin/env python3
"""The stored run of the program `bench`: document 01's three rounds, with policy A at the end of a file of 2,304 bytes, and then more input.

    scripts/bench_run.py            write crates/bench/data/policy.bin, stdin and stdout
    scripts/bench_run.py --check    say whether these three files are what the script makes

The first lines are document 01's own; then each record left prints "refused 9", and an odd byte nothing.
The script stops unless its definitions in rounds.py give those lines too.
"""
import sys

from rounds import EMPTY, POLICY_A, Session, accepted_round, credentials, encoded
from stored import stored

# 122 rules that bear on nothing asked, each accepted, and then policy A.
POLICY = [(1, 17, {k % 16}, {(k + 1) % 16}) for k in range(128 - len(POLICY_A))] + POLICY_A
ROUNDS = bytes.fromhex("10 00 00 00 00 00 03 00")
LEFT = 20
INPUT = ROUNDS + b"".join((2459 * k % 65536).to_bytes(2, "little") for k in range(LEFT)) + b"\x03"
LINES = """\
round 1 got 0000 ask 0004
round 2 got 0000 ask 0003
round 3 got 0003 grant
"""


def lines():
    """What the definitions give for the input."""
    request, *shown = (int.from_bytes(ROUNDS[at : at + 2], "little") for at in range(0, len(ROUNDS), 2))
    session = Session(request, EMPTY, EMPTY, 0, ("fresh", EMPTY))
    for given in shown:
        said, session = accepted_round(POLICY, session, credentials(given))
        yield f"round {session.count} got {given:04x} {said}\n"


def main():
    if "".join(lines()) != LINES:
        sys.exit("the definitions give other lines than document 01")
    policy = b"".join(encoded(*record) for record in POLICY)
    return stored(
        (f"crates/bench/{name}", made)
        for name, made in (("data/policy.bin", policy), ("stdin", INPUT), ("stdout", (LINES + "refused 9\n" * LEFT).encode()))
    )


sys.exit(main())
