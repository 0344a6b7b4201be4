#!/usr/bin/env python3
"""The conformance pack's cases for the bench program, held against what two solvers say of their policies and rounds.

    scripts/solver_pack.py [FILE ..]     default: conformance/bench/*.txt

Needs `clingo` and `clasp` (Debian's packages gringo and clasp; tried with 5.4.1 and 3.3.5). The script has no reading of levels, model,
disclosure or preference of its own, runs no program of this repository, and uses nothing of what made the cases.

The solvers say, of each case with a request whose policy can be read as rules:
- Whether there are levels (clingo): "refused 6" has to be printed exactly where there are none.
- How each round ends. Both solvers find the disclosable set of what is shown, as the one stable model of the disclosure rules. Of the sets
  within it, less what is shown and what was declined, they find the one that costs least on four levels: that the request is locked, which
  is so where it is not in the model or 63 is; then weight, size and number (document 02, R-2). A set that is locked even so means deny, the
  empty set grant, another one a question. Both have to prove the same optimum, and that there is no other. What is shown and declined comes
  from the lines printed before. Each different question is asked once, fifty in a call.

Plain Python says the rest. Without a request there is no output; a refused policy or request has its line alone; a round's line has its
count and its record of the input, one for each record up to grant or deny, and "refused 9" stands for each one left; and each round has
its record of the log (R-1). A policy that cannot be read as rules has to be refused by one of 1 to 5, 12 and 13, with the record up to
which it can, and no other policy by these; by which of them pack_lines.py looks at. 6 has the count of records.

To standard error goes how much was looked at. Then each case that fails is named with what is wrong in it first, and last how many passed.
"""
import collections
import pathlib
import re
import sys

from pack import bytes_of, cases_in
from random_policies import ACCESS, BREACH, DISCLOSURE, WEIGHT
from solver import NUMBERS, SIZES, Search, credentials_in, ground, has_levels, levels_of, only_models, weight_of_each
from stored import ROOT

# The case's name, the round's line, and what the round is about: shown and declined are as the round itself updates them.
Round = collections.namedtuple("Round", "case line records request shown declined")
LOCKED = 64  # the atom that says that the request is locked
BATCH = 50  # programs in a call
FORM = 1, 2, 3, 4, 5, 12, 13  # the numbers that refuse what cannot be read as rules
ANSWERS = {"grant": 1, "deny": 2, "ask": 3}


# What a case says.


def log_records(case):
    """The log's records, in digits; the last may be incomplete."""
    digits = bytes_of(case.logs).hex()
    return [digits[at : at + 16] for at in range(0, len(digits), 16)]


def words(case):
    """The input's records: "A last odd byte counts for nothing"."""
    given = bytes_of(case.input)
    return [int.from_bytes(given[at : at + 2], "little") for at in range(0, len(given) - 1, 2)]


def atoms_of(side):
    bits = int.from_bytes(side, "little")
    return tuple(atom for atom in range(64) if bits >> atom & 1)


def records_of(policy):
    """(kind, head, positive, negated) of each whole record."""
    for at in range(0, len(policy) - 17, 18):
        yield policy[at], policy[at + 1], atoms_of(policy[at + 2 : at + 10]), atoms_of(policy[at + 10 : at + 18])


# What plain Python says.


def is_rule(kind, head, positive, negated):
    """Whether a record can be read as a rule, or as a weight."""
    if kind == ACCESS:
        return 16 <= head <= BREACH and BREACH not in positive + negated
    below = {DISCLOSURE: 16, WEIGHT: 4}.get(kind, 0)
    return below > 0 and head < 16 and not negated and all(atom < below for atom in positive)


def unreadable_at(policy):
    """The record up to which a policy can be read as rules; None where all of it can."""
    if len(policy) > 2304:
        return 128
    if len(policy) % 18:
        return len(policy) // 18
    records = list(records_of(policy))
    for place, record in enumerate(records):
        again = record[0] == WEIGHT and record[:2] in [earlier[:2] for earlier in records[:place]]
        if again or not is_rule(*record):
            return place
    return None


def first_line(case):
    return case.prints[0] if case.prints else "nothing"


def refusal(case):
    """The number and the record that a policy is refused with; None where it is not."""
    found = re.fullmatch(r"refused ([1-9]\d*) at (0|[1-9]\d*)", first_line(case))
    return found and (int(found[1]), int(found[2]))


def is_unreadable(case):
    """Whether the policy is refused as one that cannot be read as rules."""
    return refusal(case) is not None and refusal(case)[0] in FORM


def round_lines(printed, shown):
    """The lines of rounds with these records; how a round ends is taken from what is printed."""
    closed = False
    for count, got in enumerate(shown, 1):
        ending = " ".join("".join(printed[count - 1 : count]).split(" ")[4:])
        known = re.fullmatch("grant|deny|ask [0-9a-f]{4}", ending)
        yield "refused 9" if closed else f"round {count} got {got:04x} {ending if known else '..'}"
        closed = closed or ending in ("grant", "deny")


def lines_for(case):
    """The lines that have to be printed, as far as plain Python says."""
    if not words(case):
        return []
    request, *shown = words(case)
    if refusal(case):
        return case.prints[:1]
    return list(round_lines(case.prints, shown)) if 16 <= request <= 62 else ["refused 7"]


def log_record(line):
    """The record of a round, in hexadecimal."""
    _, count, _, got, answer, *asked = line.split(" ")
    shown, question = (int(digits, 16).to_bytes(2, "little") for digits in (got, "".join(asked) or "0"))
    return (shown + bytes([ANSWERS[answer]]) + question + bytes([int(count), 0, 0])).hex()


def first_difference(what, ours, theirs):
    """Where two lists of lines part, in words; None where they do not."""
    for place in range(max(len(ours), len(theirs))):
        due, there = (f'"{lines[place]}"' if place < len(lines) else "none" for lines in (ours, theirs))
        if there != due:
            return f"{what} {place + 1} is {there}, and has to be {due}"
    return None


def plain_fault(case):
    """What plain Python finds wrong, in words; None where it finds nothing."""
    if case.missing and case.policy:
        return "a policy that is missing has no bytes"
    lines = first_difference("line", lines_for(case), case.prints)
    return lines or first_difference("log record", [log_record(line) for line in case.prints if line.startswith("round")], log_records(case))


def form_fault(case):
    """What is wrong with what is printed, by whether the policy can be read as rules; None where nothing is."""
    policy = bytes_of(case.policy)
    at, count = unreadable_at(policy), len(policy) // 18
    if refusal(case) in ([None, (6, count)] if at is None else [(number, at) for number in FORM]):
        return None
    found = f"all {count} records can be read as rules" if at is None else f"the policy can be read as rules only up to record {at}"
    return f"printed {first_line(case)}, and {found}"


# What the solvers say.


def rounds_of(case):
    """The rounds, each after what is printed before it."""
    shown = declined = asked = 0
    records = tuple(records_of(bytes_of(case.policy)))
    for line in case.prints:
        if line.startswith("round"):
            got, ending = (line.split(" ")[place] for place in (3, -1))
            shown |= int(got, 16)
            declined |= asked & ~int(got, 16)
            asked = 0 if ending in ANSWERS else int(ending, 16)
            yield Round(case.name, line, records, words(case)[0], shown, declined)


def disclosure(each):
    """The program whose model is the disclosable set."""
    return tuple(ground(each.records, DISCLOSURE, each.shown)), Search()


def question(each, askable):
    """The program whose model that costs least is how a round ends."""
    locked = (LOCKED, (), (each.request,)), (LOCKED, (BREACH,), ())
    choices = tuple(credentials_in(askable))
    levels = ((LOCKED, 1),), *levels_of(choices, weight_of_each(each.records), SIZES, NUMBERS)
    return (*ground(each.records, ACCESS, each.shown), *locked), Search(choices, levels=levels)


def ending(model, askable):
    """How a round ends by this model."""
    asked = model & askable
    return "deny" if model >> LOCKED & 1 else f"ask {asked:04x}" if asked else "grant"


def asked_once(programs):
    """The solvers' model of each program, different ones asked once, in batches."""
    found, different = {}, list(dict.fromkeys(programs))
    for at in range(0, len(different), BATCH):
        some = different[at : at + BATCH]
        found.update(zip(some, only_models(some)))
    return [found[program] for program in programs], len(different)


def endings(rounds, seen):
    """How the solvers have each round end."""
    disclosable, seen["different disclosable sets asked for"] = asked_once([disclosure(each) for each in rounds])
    askable = [some & ~each.shown & ~each.declined for some, each in zip(disclosable, rounds)]
    models, seen["different rounds asked for"] = asked_once([question(*both) for both in zip(rounds, askable)])
    return [ending(*both) for both in zip(models, askable)]


def access_records(case):
    return tuple(record for record in records_of(bytes_of(case.policy)) if record[0] == ACCESS)


def level_faults(cases, seen):
    """Of cases whose policies can be read as rules, those in which clingo's word on levels is not what is printed."""
    levels = {records: has_levels(records) for records in set(map(access_records, cases))}
    seen["different policies with levels"] = sum(levels.values())
    seen["different policies without levels"] = len(levels) - sum(levels.values())
    for case in cases:
        found = levels[access_records(case)]
        if found == (refusal(case) is not None):
            yield case.name, f"printed {first_line(case)}, and clingo finds {'levels' if found else 'no levels'}"


def round_faults(rounds, seen):
    """Of cases, by their rounds, those in which the solvers have a round end in another way than is printed."""
    said = endings(rounds, seen)
    for what, word in (("rounds", ""), ("grants", "grant"), ("denials", "deny"), ("questions", "ask")):
        seen[what] = sum(each.startswith(word) for each in said)
    for each, found in zip(rounds, said):
        if not each.line.endswith(f" {found}"):
            yield each.case, f"printed {each.line}, and the solvers say {found}"


# All cases.


def sorted_out(cases, check, failed):
    """The cases in which nothing is found wrong; what is wrong in the others is noted."""
    wrong = {case.name: check(case) for case in cases}
    failed.update((name, fault) for name, fault in wrong.items() if fault)
    return [case for case in cases if not wrong[case.name]]


def failures(cases, seen):
    """The cases that fail, and the first that is wrong with each."""
    failed = {}
    right = sorted_out(cases, plain_fault, failed)
    tested = sorted_out([case for case in right if words(case)], form_fault, failed)
    read = [case for case in tested if not is_unreadable(case)]
    seen["cases without a request"] = sum(not words(case) for case in right)
    seen["cases refused by 1 to 5, 12 or 13"] = len(tested) - len(read)
    failed.update(level_faults(read, seen))
    rounds = [each for case in read if case.name not in failed for each in rounds_of(case)]
    for name, fault in round_faults(rounds, seen):
        failed.setdefault(name, fault)
    return failed


def main():
    paths = [pathlib.Path(name) for name in sys.argv[1:]] or sorted(ROOT.glob("conformance/bench/*.txt"))
    cases = [case for path in paths for case in cases_in(path)]
    seen = {}
    if not cases or len({case.name for case in cases}) < len(cases):
        sys.exit("two cases of one name" if cases else "no cases")
    failed = failures(cases, seen)
    for what, count in seen.items():
        print(f"{count:6} {what}", file=sys.stderr)
    for name, fault in failed.items():
        print(f"{name}: {fault}")
    print(f"{len(cases) - len(failed)} passed, {len(failed)} failed")
    return 1 if failed else 0


sys.exit(main())
