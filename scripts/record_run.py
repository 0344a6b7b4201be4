#!/usr/bin/env python3
"""The stored run of the program `record_log`: policy A, three rounds that show more than is asked for, two that are refused, and an odd byte.

    scripts/record_run.py            write crates/record_log/data/policy.bin, stdin and stdout
    scripts/record_run.py --check    say whether these three files are what the script makes

The rounds are those of rounds.py, the records those of logs.py.
"""
import sys

from logs import ASK, DENY, GRANT, Entry, log
from rounds import EMPTY, POLICY_A, Session, accepted_round, credentials, encoded, refusal
from stored import stored

REQUEST = 16
# In round 3 the round's p, 0103, is not the session's shown set, 8103.
SHOWN = [0x8000, 0x0000, 0x0103, 0xFFFF, 0x0000]
ANSWERS = {"grant": GRANT, "deny": DENY, "ask": ASK}


def entries():
    session = Session(REQUEST, EMPTY, EMPTY, 0, ("fresh", EMPTY))
    for given in SHOWN:
        if refusal(session) is None:
            said, session = accepted_round(POLICY_A, session, credentials(given))
            word, *asked = said.split()
            yield Entry(given, ANSWERS[word], int(*asked or "0", 16), session.count)


def main():
    policy = b"".join(encoded(*record) for record in POLICY_A)
    given = b"".join(number.to_bytes(2, "little") for number in [REQUEST, *SHOWN]) + b"\x01"
    made = (("data/policy.bin", policy), ("stdin", given), ("stdout", log(entries())))
    return stored((f"crates/record_log/{name}", content) for name, content in made)


sys.exit(main())
