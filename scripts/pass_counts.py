#!/usr/bin/env python3
"""Counts of passes (document 02, R-3), of chosen cases and of random policies, by the levels that the gate finds (R-4).

    scripts/pass_counts.py            write crates/pass_counts/stdin and crates/pass_counts/stdout
    scripts/pass_counts.py --check    say whether these two files are what the script makes

The script has its own reading of records, refusals, levels, passes and counts, with sets of atoms, and runs no program of this repository.
A pass goes over the rules in the order of their records, each adding its head at once where its body holds; "not" is read of the set before
the first pass; the count is the number of the first pass that adds nothing. A head depends on the atoms of its rules' bodies, and on what
they depend on; heads that depend on each other stand together. An atom that heads no access rule is on level 0. Heads that stand together are on
level 0 where their bodies have no atom but them, and else on the level after the greatest of the others there. Of each chosen case the counts are
also given by hand, and the script stops if they are not its own. Random policies come from a fixed seed; steered ones, which take more
passes, are loops over each other and ladders of disclosure, their records mixed. The script prints to standard error how many of
these have each greatest count, and stops if one of 2 to 4 is rare.

stdin, for each case: 1 byte, the length of its name; the name; 2 bytes of credentials, little-endian; 1 byte, the number of records;
18 bytes for each record.
stdout: a line for each case, as the program `pass_counts` prints it. `access` has the counts of level 0 up to the highest that has a rule,
and none where there is no access rule; `disclosure` is of the disclosure rules; `together` is as `access`, of 256 sets at once, a pass being
idle where it adds nothing to any: set j is the credentials with j for their low eight bits.
"""
import collections
import sys

from random_policies import ACCESS, DISCLOSURE, Draw, credential_set, encoded, mixed, policy, weighs
from stored import stored

SEED = 3
RANDOM = 200
STEERED = 100  # so many more
LEAST = 5  # a count that fewer cases have is too rare to tell anything

# A case, and what is known of it by hand: the counts of the levels, the count of disclosure, or the refusal's number and record.
Case = collections.namedtuple("Case", "name credentials records access disclosure together refused", defaults=((), 1, None, None))


def rule(head, *positive, unless=()):
    return ACCESS, head, positive, unless


def discloses(head, *shown):
    return DISCLOSURE, head, shown, ()


def loop(*atoms):
    """Each atom if the next one, and the last if the first."""
    return [rule(head, below) for head, below in zip(atoms, [*atoms[1:], atoms[0]])]


# 24 if 0; 25 if 24; and so on to 31: on levels 1 to 8.
CHAIN = [rule(24, 0)] + [rule(atom, atom - 1) for atom in range(25, 32)]
# 31 if 0; 30 if 31; and so on to 24: the same numbered downwards.
FALLING = [rule(31, 0)] + [rule(atom, atom + 1) for atom in range(30, 23, -1)]
# 24 if 27; 25 if 24; 26 if 25; 27 if 26.
RING = [rule(24, 27), rule(25, 24), rule(26, 25), rule(27, 26)]
# The same of 24 to 31: a pass in order goes round from any rule.
WHEEL = [rule(24, 31)] + CHAIN[1:]
# 1 if 0; 2 if 1; and so on to 15.
LADDER = [discloses(credential, credential - 1) for credential in range(1, 16)]
# 16 if not 0; 17 if not 16; and so on to 63: 48 levels over that of 0.
STOREYS = [rule(atom, unless=(atom - 1 if atom > 16 else 0,)) for atom in range(16, 64)]

CHOSEN = [
    Case("no record", 0x0007, []),
    Case("one rule, applies", 0x0001, [rule(16, 0)], (1, 2)),
    Case("one rule, applies in some lanes only", 0x0000, [rule(16, 0)], (1, 1), together=(1, 2)),
    Case("one rule, applies in no lane", 0x0000, [rule(16, 9)], (1, 1)),
    Case("one rule, applies in all lanes", 0x0200, [rule(16, 9)], (1, 2)),
    Case("one rule with an empty body", 0x0000, [rule(16)], (2,)),
    Case("one rule, twice", 0x0001, [rule(24, 0)] * 2, (1, 2)),
    Case("a head that is there already", 0x0001, [rule(24), rule(24, 0)], (1, 2)),
    Case("a body that its own head is in", 0x0001, [rule(24, 0, 24)], (1, 1)),
    Case("a body that only its own head is in", 0x0001, [rule(24, 24)], (1,)),
    Case("many rules with one head", 0x000A, [rule(24, credential) for credential in range(5)], (1, 2)),
    Case("many rules with one head, none applies", 0x0000, [rule(24, credential) for credential in range(5)], (1, 1), together=(1, 2)),
    Case("a body of all credentials", 0xFFFF, [rule(24, *range(16))], (1, 2)),
    Case("a body of all credentials, the low ones in a lane only", 0xFF00, [rule(24, *range(16))], (1, 1), together=(1, 2)),
    Case("a body of all credentials, the high ones lacking", 0x00FF, [rule(24, *range(16))], (1, 1)),
    Case("a chain of two, in order", 0x0001, CHAIN[:2], (1, 2, 2)),
    Case("a chain of two, backwards", 0x0001, CHAIN[1::-1], (1, 2, 2)),
    Case("a chain of eight, in order", 0x0001, CHAIN, (1, 2, 2, 2, 2, 2, 2, 2, 2)),
    Case("a chain of eight, backwards", 0x0001, CHAIN[::-1], (1, 2, 2, 2, 2, 2, 2, 2, 2)),
    Case("a chain of eight, mixed", 0x0001, [CHAIN[place] for place in (3, 0, 5, 2, 7, 1, 4, 6)], (1, 2, 2, 2, 2, 2, 2, 2, 2)),
    Case("a chain of eight, numbered downwards", 0x0001, FALLING, (1, 2, 2, 2, 2, 2, 2, 2, 2)),
    Case("a chain of eight, numbered downwards, backwards", 0x0001, FALLING[::-1], (1, 2, 2, 2, 2, 2, 2, 2, 2)),
    Case("a chain of eight, broken in the middle", 0x0001, CHAIN[:3:-1] + CHAIN[2::-1], (1, 2, 2, 2, 1)),
    Case("a chain that no rule begins", 0x0001, CHAIN[1:], (1, 1, 1, 1, 1, 1, 1, 1)),
    Case("a chain that an empty body begins", 0x0000, [rule(24)] + CHAIN[1:], (2, 2, 2, 2, 2, 2, 2, 2)),
    Case("a chain that begins in some lanes only", 0x0000, CHAIN[2::-1], (1, 1, 1, 1), together=(1, 2, 2, 2)),
    Case("a chain with a short cut in some lanes", 0x0080, CHAIN[3::-1] + [rule(26, 7)], (1, 1, 1, 2, 2), together=(1, 2, 2, 2, 2)),
    Case("a loop that nothing enters", 0xFFFF, RING, (1,)),
    Case("a loop that nothing enters, of two", 0xFFFF, loop(62, 16), (1,)),
    Case("a loop entered first", 0x0001, [rule(24, 0)] + RING, (1, 2)),
    Case("a loop entered always", 0x0000, [rule(24)] + RING, (2,)),
    Case("a loop entered at its last rule", 0x0001, RING + [rule(27, 0)], (1, 3)),
    Case("a loop backwards, entered at its last rule", 0x0001, loop(24, 25, 26, 27) + [rule(27, 0)], (1, 5)),
    Case("a loop entered in some lanes only", 0x0000, loop(24, 25, 26, 27) + [rule(27, 0)], (1, 1), together=(1, 5)),
    Case("a loop entered in some lanes at one atom, in some at another", 0x0001, loop(24, 25, 26, 27) + [rule(27, 0), rule(25, 1)], (1, 5)),
    Case("a wheel of eight, in order", 0x0001, WHEEL + [rule(24, 0)], (1, 3)),
    Case("a wheel of eight, entered first", 0x0001, [rule(24, 0)] + WHEEL, (1, 2)),
    Case("a wheel of eight, entered at its middle, last", 0x0001, WHEEL + [rule(28, 0)], (1, 4)),
    Case("a wheel of eight, backwards", 0x0001, WHEEL[::-1] + [rule(24, 0)], (1, 9)),
    Case("a wheel of eight, backwards twice", 0x0001, WHEEL[::-1] * 2 + [rule(24, 0)], (1, 6)),
    Case("a chain of eight, backwards twelve times", 0x0001, [rule(24, 0)] + WHEEL[:0:-1] * 12, (1, 2, 2, 2, 2, 2, 2, 2, 2)),
    Case("a wheel of eight, mixed", 0x0001, [WHEEL[place] for place in (3, 0, 5, 2, 7, 1, 4, 6)] + [rule(24, 0)], (1, 7)),
    Case("a loop of all derived atoms", 0x0001, loop(*range(16, 63)) + [rule(62, 0)], (1, 48)),
    Case("a loop of all derived atoms, entered at its first rule", 0x0001, loop(*range(16, 63)) + [rule(16, 0)], (1, 48)),
    Case("a loop of all derived atoms, the other way round", 0x0001, loop(*range(62, 15, -1))[::-1] + [rule(16, 0)], (1, 3)),
    Case("a struck rule", 0x0003, [rule(24, 0, unless=(1,))], (1, 1), together=(1, 2)),
    Case("a rule that is not struck", 0x0001, [rule(24, 0, unless=(1,))], (1, 2)),
    Case("an atom on both sides", 0x0001, [rule(24, 0, unless=(0,))], (1, 1)),
    Case("an atom on both sides in a loop", 0x0001, [rule(24, 25, 0, unless=(0,)), rule(25, 24), rule(25, 0)], (1, 2)),
    Case("a derived atom on both sides", 0x0001, [rule(24, 40, unless=(40,)), rule(40, 0)], (1, 2, 1)),
    Case("a rule struck by the level below", 0x0001, [rule(24, unless=(16,)), rule(16, 0)], (1, 2, 1), together=(1, 2, 2)),
    Case("a rule struck by a larger number", 0x0001, [rule(16, unless=(24,)), rule(24, 0)], (1, 2, 1), together=(1, 2, 2)),
    Case("a rule struck by an atom without rules", 0x0001, [rule(17, unless=(24,))], (1, 2)),
    Case(
        "a chain with a struck rule",
        0x0003,
        CHAIN[7:3:-1] + [rule(27, 26, unless=(1,))] + CHAIN[2::-1],
        (1, 2, 2, 2, 1, 1, 1, 1, 1),
        together=(1, *[2] * 8),
    ),
    Case("two levels, in order", 0x0001, [rule(16, 0), rule(24, 16)], (1, 2, 2)),
    Case("two levels, the upper one first", 0x0001, [rule(24, 16), rule(16, 0)], (1, 2, 2)),
    Case("two atoms of one level", 0x0003, [rule(16, 0), rule(62, 1)], (1, 2)),
    Case("two loops of one level", 0x0003, loop(16, 62) + [rule(62, 0)] + loop(40, 20, 30) + [rule(30, 1)], (1, 4)),
    Case(
        "two loops of one level, slow in different lanes",
        0x0001,
        loop(16, 62) + [rule(62, 0)] + loop(40, 20, 30) + [rule(30, unless=(0,))],
        (1, 3),
        together=(1, 4),
    ),
    Case("a loop over a loop", 0x0001, loop(16, 17, 18) + [rule(18, 40)] + loop(40, 62) + [rule(62, 0)], (1, 3, 4)),
    Case("a loop over a loop, the lower one first", 0x0001, loop(40, 62) + [rule(62, 0)] + loop(16, 17, 18) + [rule(18, 40)], (1, 3, 4)),
    Case("a loop over a loop that nothing enters", 0x0001, loop(16, 17, 18) + [rule(18, 40)] + loop(40, 62), (1, 1)),
    Case(
        "a loop over a loop by not",
        0x0001,
        loop(16, 17, 18) + [rule(18, unless=(40,))] + loop(40, 62) + [rule(62, 0)],
        (1, 3, 1),
        together=(1, 3, 4),
    ),
    Case(
        "three loops, each over the one before",
        0x0001,
        loop(61, 60) + [rule(60, 21)] + loop(20, 21, 22) + [rule(22, 16)] + loop(16, 40) + [rule(40, 0)],
        (1, 3, 4, 3),
    ),
    Case("a chain over a loop", 0x0001, [rule(16, 17), rule(17, 18), rule(18, 41)] + loop(40, 41, 42) + [rule(42, 0)], (1, 4, 2, 2, 2)),
    Case("a chain over a loop, the loop last in number", 0x0001, [rule(62, 61), rule(61, 30)] + loop(30, 31) + [rule(31, 0)], (1, 3, 2, 2)),
    Case("a loop over a chain", 0x0001, loop(16, 17, 18) + [rule(18, 42), rule(42, 41), rule(41, 40), rule(40, 0)], (1, 2, 2, 2, 4)),
    Case(
        "a loop over a chain and over a credential",
        0x0002,
        loop(16, 17) + [rule(17, 42), rule(16, 1), rule(42, 41), rule(41, 0)],
        (1, 1, 1, 3),
        together=(1, 2, 2, 3),
    ),
    Case("three levels, the records mixed", 0x0000, [rule(41, 40), rule(25, 24), rule(40, 25), rule(33), rule(24, unless=(1,))], (2, 2, 2, 2, 2)),
    Case("48 levels upwards", 0x0000, STOREYS, (1, *[2, 1] * 24), together=(1, *[2] * 48)),
    Case("48 levels upwards, backwards", 0x0001, STOREYS[::-1], (1, *[1, 2] * 24), together=(1, *[2] * 48)),
    Case("atom 62", 0x0001, [rule(62, 61), rule(61, 0)], (1, 2, 2)),
    Case("atom 63", 0x0001, [rule(63, 0)], (1, 2)),
    Case("atom 63, always", 0x0001, [rule(63)], (2,)),
    Case("atoms 62 and 63, backwards", 0x0001, [rule(63, 62), rule(62, 0)], (1, 2, 2)),
    Case("atom 63 struck by 62", 0x0001, [rule(63, unless=(62,)), rule(62, 0)], (1, 2, 1), together=(1, 2, 2)),
    Case("disclosure, always", 0x0000, [discloses(5)], disclosure=2),
    Case("disclosure of what is shown", 0x0003, [discloses(0, 1)]),
    Case("disclosure that does not apply", 0x0000, [discloses(0, 1)]),
    Case("a ladder of disclosure, in order", 0x0001, LADDER, disclosure=2),
    Case("a ladder of disclosure, backwards", 0x0001, LADDER[::-1], disclosure=16),
    Case("a ladder of disclosure from nothing, backwards", 0x0000, LADDER[::-1] + [discloses(0)], disclosure=17),
    Case("a disclosure loop that nothing enters", 0x0000, [discloses(0, 1), discloses(1, 2), discloses(2, 0)]),
    Case("a disclosure loop, entered", 0x0004, [discloses(0, 1), discloses(1, 2), discloses(2, 0)], disclosure=3),
    Case("both kinds, each backwards", 0x0001, [each for pair in zip(CHAIN[::-1], LADDER[7::-1]) for each in pair], (1, *[2] * 8), 9),
    Case("both kinds, what is disclosed is not shown", 0x0000, [rule(16, 0), discloses(0)], (1, 1), 2, (1, 2)),
    Case("a disclosure loop below a rule", 0x0004, [discloses(0, 1), discloses(1, 2), discloses(2, 0), rule(16, 0, 2)], (1, 1), 3, (1, 2)),
    Case("weights among the records", 0x0001, [weighs(0, 15), CHAIN[1], weighs(1, 0), CHAIN[0], discloses(3, 0)], (1, 2, 2), 2),
    Case("a kind that is none", 0x0001, [rule(16, 0), (4, 16, (), ())], refused=(3, 1)),
    Case("a head that is a credential", 0x0001, [rule(15, 0)], refused=(4, 0)),
    Case("a body with atom 63", 0x0001, [discloses(0), rule(16, 63)], refused=(5, 1)),
    Case("no levels, by one atom", 0x0001, CHAIN + [rule(24, unless=(24,))], refused=(6, 9)),
    Case("no levels, by two atoms", 0x0001, CHAIN + [rule(24, unless=(31,)), discloses(0)], refused=(6, 10)),
    Case("no levels, a not within a loop", 0x0001, RING + [rule(26, 0, unless=(24,))], refused=(6, 5)),
    Case("no levels, and a kind that is none", 0x0001, [rule(17, unless=(17,)), (4, 16, (), ())], refused=(3, 1)),
    Case("no levels, and a second weight", 0x0001, [rule(17, unless=(17,)), weighs(0, 1), weighs(0, 1)], refused=(13, 2)),
    Case("a second weight", 0x0001, [weighs(0, 1), rule(16, 0), weighs(0, 1)], refused=(13, 2)),
    Case("129 records", 0x0001, [rule(16, 0)] * 129, refused=(1, 128)),
]


# What the bytes say.


def read_set(part):
    return frozenset(8 * place + bit for place, byte in enumerate(part) for bit in range(8) if byte & 1 << bit)


def read(data):
    """Kind, head, and the two sides of the body, of each record."""
    parts = [data[place : place + 18] for place in range(0, len(data), 18)]
    return [(part[0], part[1], read_set(part[2:10]), read_set(part[10:18])) for part in parts]


def amiss(record, weighed):
    """The number of the refusal of one record, after weights of some credentials; 0 if it is accepted."""
    kind, head, positive, negated = record
    if kind not in (1, 2, 3):
        return 3
    if head not in (range(16, 64) if kind == 1 else range(16)):
        return 4
    if kind == 3:
        return 12 if negated or not positive <= set(range(4)) else 13 if head in weighed else 0
    if 63 in positive | negated or kind == 2 and (negated or not positive <= set(range(16))):
        return 5
    return 0


def refusal(records):
    """The refusal's number and its record, or nothing."""
    if len(records) > 128:
        return 1, 128
    weighed = set()
    for place, record in enumerate(records):
        if amiss(record, weighed):
            return amiss(record, weighed), place
        if record[0] == 3:
            weighed.add(record[1])
    below = depends([record for record in records if record[0] == 1])
    looped = any(head in below[atom] | {atom} for kind, head, _, negated in records if kind == 1 for atom in negated)
    return (6, len(records)) if looped else None


# Levels.


def depends(rules):
    """For each atom those that it depends on, in one step or more: a step into an atom leads on to all that are below it."""
    below = [set().union(*(positive | negated for _, head, positive, negated in rules if head == atom)) for atom in range(64)]
    for middle in range(64):
        for each in below:
            if middle in each:
                each |= below[middle]
    return below


def levels_of(rules):
    """The level of each atom: lower ones are settled before, and heads that stand together at once."""
    below, heads, level = depends(rules), {head for _, head, _, _ in rules}, {}

    def settled(atom):
        if atom not in level:
            others = [other for other in below[atom] if other != atom and atom not in below[other]]
            level[atom] = 1 + max(map(settled, others)) if others and atom in heads else 0
        return level[atom]

    return [settled(atom) for atom in range(64)]


# Passes.


def closed(rules, sets):
    """What the rules make of each set, and the number of the first pass that adds nothing to any of them."""
    sets = [(set(each), frozenset(each)) for each in sets]
    passes, idle = 0, False
    while not idle:
        passes, idle = passes + 1, True
        for _, head, positive, negated in rules:
            for reached, before in sets:
                if head not in reached and positive <= reached and not negated & before:
                    reached.add(head)
                    idle = False
    return [reached for reached, _ in sets], passes


def by_level(records, sets):
    """The same, level by level up to the highest that has a rule, with the count of each level."""
    rules = [record for record in records if record[0] == 1]
    level, counts = levels_of(rules), []
    for this in range(max((level[head] + 1 for _, head, _, _ in rules), default=0)):
        sets, passes = closed([record for record in rules if level[record[1]] == this], sets)
        counts.append(passes)
    return sets, counts


Counts = collections.namedtuple("Counts", "access model disclosure disclosable together")


def counted(records, credentials):
    """All that a line says of an accepted policy."""
    shown = read_set(credentials.to_bytes(2, "little"))
    (model,), access = by_level(records, [shown])
    (disclosable,), disclosure = closed([record for record in records if record[0] == 2], [shown])
    _, together = by_level(records, [{atom for atom in shown if atom > 7} | read_set(bytes([low])) for low in range(256)])
    return Counts(access, model, disclosure, disclosable, together)


# The two files.


def given(case):
    name = case.name.encode("ascii")
    return bytes([len(name)]) + name + case.credentials.to_bytes(2, "little") + bytes([len(case.records)]) + encoded(case.records)


def as_hex(atoms, digits):
    return f"{sum(1 << atom for atom in atoms):0{digits}x}"


def row(counts):
    """Each count after a blank."""
    return "".join(f" {count}" for count in counts)


def line(case, refused, counts):
    start = f"{case.name}: credentials {case.credentials:04x}"
    if refused:
        return f"{start} refused {refused[0]} at {refused[1]}\n"
    first = f"{start} access{row(counts.access)} model {as_hex(counts.model, 16)}"
    return f"{first} disclosure {counts.disclosure} set {as_hex(counts.disclosable, 4)} together{row(counts.together)}\n"


def by_hand(case, refused, counts):
    """Stops if a chosen case's counts are not those that are given with it."""
    same = refused == case.refused
    if same and not refused:
        rows = [list(case.access), list(case.access if case.together is None else case.together)]
        same = [counts.access, counts.together] == rows and counts.disclosure == case.disclosure
    if not same:
        sys.exit(f"not as given by hand: {line(case, refused, counts)}")


# The random cases.


def steered(draw):
    """Up to three loops, each over the one before, and a ladder of disclosure, with ways in, and the records mixed."""
    atoms = draw.several(range(16, 63), draw.between(4, 16))
    rungs = draw.several(range(16), draw.between(2, 9))
    cuts = sorted(draw.several(range(1, len(atoms)), draw.between(0, 2)))
    records, entered = [], [rule(atoms[-1], draw.below(16), unless=(draw.below(16),))]
    for first, last in zip([0, *cuts], [*cuts, len(atoms)]):
        records += loop(*atoms[first:last]) + ([rule(draw.one(atoms[first:last]), atoms[last])] if last < len(atoms) else entered)
    records += [discloses(high, below) for below, high in zip(rungs, rungs[1:])] + [discloses(rungs[0])] * draw.below(2)
    return mixed(draw, records)


def drawn():
    draw = Draw(SEED)
    for place in range(RANDOM + STEERED):
        records = policy(draw) if place < RANDOM else steered(draw)
        name = f"random {place}" if place < RANDOM else f"steered {place - RANDOM}"
        yield Case(name, credential_set(draw, records), records)


def told(all_counts):
    """Says how many cases have each greatest count, of one set, of disclosure and of 256 sets; stops if one of 2 to 4 is rare."""
    greatest = {
        "access": [max(counts.access, default=1) for counts in all_counts],
        "disclosure": [counts.disclosure for counts in all_counts],
        "together": [max(counts.together, default=1) for counts in all_counts],
    }
    for what, counts in greatest.items():
        have = [sum(min(each, 5) == count for each in counts) for count in range(1, 6)]
        print(f"{what}: " + ", ".join(f"{of} have {count}" for count, of in enumerate(have, 1)) + " and more", file=sys.stderr)
        if min(have[1:4]) < LEAST:
            sys.exit(f"too few of them: {what}")


def main():
    made_in, made_out, all_counts = b"", "", []
    for chosen, case in [(True, case) for case in CHOSEN] + [(False, case) for case in drawn()]:
        records = read(encoded(case.records))
        refused = refusal(records)
        counts = None if refused else counted(records, case.credentials)
        if chosen:
            by_hand(case, refused, counts)
        elif refused:
            sys.exit(f"a random policy is refused: {line(case, refused, counts)}")
        else:
            all_counts.append(counts)
        made_in += given(case)
        made_out += line(case, refused, counts)
    told(all_counts)
    return stored((f"crates/pass_counts/{name}", made) for name, made in (("stdin", made_in), ("stdout", made_out.encode())))


sys.exit(main())
