#!/usr/bin/env python3
"""The conformance pack's cases, held against rounds.py and tables.py, in which the papers are read once more, with none of our code.

    scripts/pack_lines.py

Of the bench program's cases: what the policy's test and the opening say, with the number of each refusal and its record. Their rounds are
the solvers' affair (solver_pack.py). Of the station program's cases: every line. Each case that fails is named, and last how many passed.
"""
import sys

from pack import bytes_of, cases_in
from rounds import Policy, atoms_of, is_service, tested
from station_sessions import printed
from stored import ROOT

MOST_READ = 2305


def policy_of(case):
    """What is read of the file: its length, and what its whole records say."""
    read = bytes_of(case.policy)[:MOST_READ]
    whole = [read[at : at + 18] for at in range(0, len(read) - 17, 18)]
    sides = [(record, int.from_bytes(record[2:10], "little"), int.from_bytes(record[10:], "little")) for record in whole]
    return Policy(len(read), [(record[0], record[1], atoms_of(held), atoms_of(negated)) for record, held, negated in sides])


def refused(case):
    """The line of a refused policy or request; None where neither is."""
    said = tested(policy_of(case))
    if said != "accepted":
        return said
    return None if is_service(int.from_bytes(bytes_of(case.input)[:2], "little")) else "refused 7"


def bench_fault(case):
    """What is wrong with the lines of a case of the bench program, but for rounds."""
    asked = len(bytes_of(case.input)) > 1
    said = refused(case) if asked else None
    if said is not None:
        return None if case.prints == [said] else f"{case.prints}, and not {said}"
    other = [line for line in case.prints if not line.startswith("round ") and line != "refused 9"]
    return f"{other}, and nothing is refused" if other or (case.prints and not asked) else None


def station_fault(case):
    said = printed(policy_of(case), bytes_of(case.input)).splitlines()
    return None if case.prints == said else f"{case.prints}, and not {said}"


def main():
    count, failed = 0, 0
    for program, fault in (("bench", bench_fault), ("station", station_fault)):
        for case in (case for path in sorted(ROOT.glob(f"conformance/{program}/*.txt")) for case in cases_in(path)):
            count += 1
            if wrong := fault(case):
                failed += 1
                print(f"{program}, {case.name}: {wrong}")
    print(f"{count - failed} passed, {failed} failed")
    return 1 if failed or not count else 0


sys.exit(main())
