#!/usr/bin/env python3
"""The cases of the program `cases` and the answers to them, from documents 01 and 02 (R-2, weights; R-4, levels) and not from our code.

    scripts/expected_cases.py            write crates/cases/stdin and crates/cases/stdout
    scripts/expected_cases.py --check    say whether these two files are what the script makes

Rounds and the policy's test are worked out by rounds.py.

stdin, for each case, with numbers of two bytes, little-endian:
    what is asked: 1 the policy's test, 2 an opening, 3 a round, 4 an opening and a list of rounds
    how long the start of the line is, and how long the start and the policy are together
    the start of the line: the name of the case, a colon and a blank
    the policy
    of an opening: the request
    of a round: request, shown, declined, count, phase (0 fresh, 1 waiting, 2 granted, 3 denied) and question of the session, and
        what is shown in the round
    of a list: the request, how many rounds there are, four at most, and four numbers, what is shown in each round
stdout: the line of each case, with the answer.

The cases were chosen by wrong readings of the papers: every comparison of fault, tested, is_service, is_sound and refusal off by one
either way, every clause dropped or turned round, every test before another, every edge of a range, a weight or a length moved, one
value let in or shut out, weights read, added or compared otherwise; levels by number, loops of some length or kind refused or let in, rules
or atoms left out of the test of levels or taken into it, 6 before another number or at another record. Each changes at least two lines,
save those that say the same in other words.
"""
import collections
import itertools
import re
import struct
import sys

from rounds import POLICY_A, Policy, Session, accepted_round, atoms_of, credentials, encoded, is_service, number, refusal, tested, weight, whole
from stored import stored

Case = collections.namedtuple("Case", "asked name policy session shown said")
TEST, OPENING, ROUND, LIST = range(1, 5)
MOST_ROUNDS = 4
PHASES = "fresh", "waiting", "closed granted", "closed denied"
ALWAYS_16 = (1, 16, set(), set())
# "17 if not 17": where 6 is said to be at a record, this is it.
OWN_17 = (1, 17, set(), {17})
# Each line that begins with "kind" is a policy of one record.
ONE_RECORD = """
"3: kind neither 1 nor 2."
kind 0 head 16
kind 1 head 17
kind 2 head 0
kind 3 head 16
kind 255 head 16
kind 0 head 0
kind 3 head 0
kind 255 head 0
kind 255 head 63 if 62
kind 4 head 0
kind 4 head 16
kind 4 head 0 weight 1
kind 4 head 15 weight 16
kind 4 head 255 if 63 not 63
kind 128 head 0
kind 130 head 0
kind 131 head 0
kind 131 head 15 weight 1
"Kind 3 passes 3, has heads 0 to 15 by 4"
kind 3 head 15
kind 3 head 15 weight 15
kind 3 head 16 weight 1
kind 3 head 17
kind 3 head 31 weight 15
kind 3 head 32
kind 3 head 62 weight 1
kind 3 head 63
kind 3 head 64
kind 3 head 128
kind 3 head 255 weight 1
kind 3 head 7
kind 3 head 8 weight 8
"An access head is 16 to 63."
kind 1 head 15
kind 1 head 16
kind 1 head 63
kind 1 head 64
kind 1 head 255
kind 1 head 0
kind 1 head 0 if 0
kind 1 head 15 if 0
kind 1 head 62
kind 1 head 64 if 0
kind 1 head 80
kind 1 head 255 if 0
"A disclosure head is 0 to 15"
kind 2 head 15
kind 2 head 16
kind 2 head 63
kind 2 head 64
kind 2 head 255
kind 2 head 7
kind 2 head 15 if 0
kind 2 head 16 if 0
kind 2 head 62
kind 2 head 62 if 0
kind 2 head 63 if 0
kind 2 head 64 if 0
kind 2 head 255 if 0
"Atom 63 stands in no body."
kind 1 head 63 if 62
kind 1 head 63 if 63
kind 1 head 63 not 62
kind 1 head 63 not 63
kind 1 head 16 not 63
kind 1 head 16 if 63 not 63
kind 1 head 16 if 0 not 63
kind 1 head 16 if 0 if 63
kind 1 head 17 not 63
kind 1 head 24 not 63
kind 1 head 40 not 63
kind 1 head 62 if 63
kind 1 head 62 not 63
kind 1 head 62 if 63 not 63
kind 1 head 62 if 0 not 63
kind 1 head 62 if 0 if 63
kind 1 head 63 if 63 not 63
kind 1 head 63 if 0 not 63
kind 1 head 63 if 0 if 63
kind 1 head 24 if 3 not 3
kind 1 head 63 if 62 not 62
kind 1 head 63 if 0 not 62
"its body has only credentials, none negated"
kind 2 head 0 if 15
kind 2 head 0 if 16
kind 2 head 0 if 63
kind 2 head 0 not 0
kind 2 head 0 not 63
kind 2 head 0 if 0
kind 2 head 15 if 15
kind 2 head 0 if 1 if 16
kind 2 head 0 if 62
kind 2 head 15 if 16
kind 2 head 15 if 62
kind 2 head 15 if 63
kind 2 head 15 if 15 if 63
kind 2 head 1 if 0 if 8
kind 2 head 15 not 0
kind 2 head 0 not 15
kind 2 head 15 not 15
kind 2 head 0 not 16
kind 2 head 15 not 16
kind 2 head 0 not 62
kind 2 head 15 not 62
kind 2 head 15 not 63
kind 2 head 0 if 1 not 0
kind 2 head 15 if 0 not 16
kind 2 head 15 if 0 not 62
kind 2 head 0 if 1 not 63
"Level by atom number makes owners renumber whole policies."
kind 1 head 16 if 15
kind 1 head 16 if 23
kind 1 head 16 if 24
kind 1 head 31 if 32
kind 1 head 32 if 31
kind 1 head 47 if 48
kind 1 head 16 not 15
kind 1 head 17 not 24
kind 1 head 24 not 23
kind 1 head 32 not 31
kind 1 head 39 not 40
kind 1 head 40 not 39
kind 1 head 47 not 48
kind 1 head 48 not 47
kind 1 head 55 if 56
kind 1 head 56 if 62
kind 1 head 56 not 55
kind 1 head 62 not 55
kind 1 head 62 not 56
kind 1 head 63 if 56
kind 1 head 63 not 56
kind 1 head 16 if 24 not 24
kind 1 head 24 if 16 not 16
"a rule "17 if not 17" is refused"
kind 1 head 17 not 17
kind 1 head 17 if 17 not 17
kind 1 head 17 if 0 not 17
kind 1 head 17 if 17 not 16
kind 1 head 17 not 16 not 17
kind 1 head 62 if 62
kind 1 head 62 if 62 not 61
"12, weight above 15 or negated set not empty"
kind 3 head 0 weight 1 not 0
kind 3 head 0 weight 1 not 1
kind 3 head 15 weight 15 not 15
kind 3 head 15 weight 15 not 63
kind 3 head 0 weight 16 not 0
kind 3 head 0 weight 16 not 63
kind 3 head 15 weight 9223372036854775808 not 63
"is tested by 12 and 13 instead of 5 and 6"
kind 3 head 0 if 0
kind 3 head 0 if 3
kind 3 head 0 if 4
kind 3 head 15 if 0 if 1 if 2 if 3
kind 3 head 0 if 15
kind 3 head 0 if 16
kind 3 head 0 if 62
kind 3 head 0 if 63
kind 3 head 15 if 63
kind 3 head 0 if 0 if 63
kind 3 head 0 if 8
kind 3 head 7 if 8
kind 3 head 0 if 63 not 63
kind 3 head 15 if 16 not 16
kind 3 head 0 if 24 not 24
"Only the first that applies is given, in number order"
kind 0 head 255 if 63 not 63
kind 1 head 15 if 63
kind 1 head 16 if 63
kind 2 head 16 if 63
kind 0 head 15
kind 3 head 16 not 63
kind 3 head 255
kind 255 head 16 not 16
kind 1 head 15 not 63
kind 1 head 15 if 24
kind 1 head 64 not 63
kind 2 head 16 not 63
kind 2 head 16 not 0
kind 2 head 63 not 63
kind 1 head 62 if 63 not 62
kind 1 head 16 if 24 not 63
kind 3 head 16 weight 16
kind 3 head 16 weight 16 not 63
kind 3 head 63 not 0
kind 3 head 64 weight 9223372036854775808
kind 3 head 255 weight 16
"""


def fields(session):
    word, question = session.phase
    waits = f" {number(question):04x}" if word == "waiting" else ""
    sets = f"shown {number(session.shown):04x} declined {number(session.declined):04x}"
    return f"request {session.request} {sets} count {session.count} {word}{waits}"


def opened(request):
    """What opening says."""
    return fields(fresh(request)) if is_service(request) else "refused 7"


def outcome(policy, session, shown):
    """What a round says, and the next session."""
    said, after = tested(policy), session
    if said == "accepted":
        turned_back = refusal(session)
        said = f"refused {turned_back}"
        if not turned_back:
            said, after = accepted_round(policy.records, session, credentials(shown))
    return f"{said}; {fields(after)}", after


def replayed(policy, request, shown):
    """Opening, and then a round for each shown set: what the last of these says."""
    said, session = opened(request), fresh(request)
    for some in shown if is_service(request) else ():
        said, session = outcome(policy, session, some)
    return said


def made(request, shown, declined, count, word, question=0):
    phase = (word, credentials(question))
    return Session(request, credentials(shown), credentials(declined), count, phase)


def fresh(request, shown=0, declined=0, count=0):
    return made(request, shown, declined, count, "fresh")


def waiting(question, shown, declined, count):
    return made(16, shown, declined, count, "waiting", question)


def granted(shown, declined, count):
    return made(16, shown, declined, count, "closed granted")


def denied(request, shown, declined, count):
    return made(request, shown, declined, count, "closed denied")


def test(name, length, records):
    policy = Policy(length, records)
    return Case(TEST, name, policy, fresh(0), (), tested(policy))


def opening(request):
    return Case(OPENING, f"opening {request}", whole([]), fresh(request), (), opened(request))


def round_in(name, policy, session, shown):
    return Case(ROUND, name, policy, session, (shown,), outcome(policy, session, shown)[0])


def in_turn(records, request, *rounds):
    """Rounds from a fresh session on, each a name and a shown set; each gets the session that the one before gave back."""
    policy, session = whole(records), fresh(request)
    for name, shown in rounds:
        said, after = outcome(policy, session, shown)
        yield Case(ROUND, name, policy, session, (shown,), said)
        session = after


def replay(name, records, request, shown):
    policy = whole(records)
    return Case(LIST, name, policy, fresh(request), shown, replayed(policy, request, shown))


def by_eights():
    """The first and last atom of each eight as heads, over those of the same eight and of those beside it: no number decides."""
    edges = [(8 * k, min(8 * k + 7, 62)) for k in range(8)] + [(63,)]
    for k in range(2, 9):
        beside = [atom for some in edges[k - 1 : k + 2] for atom in some]
        for head, word, atom in itertools.product(edges[k], ("if", "not"), beside):
            yield f"kind 1 head {head} {word} {atom}"


def own_head():
    """Every derived atom, if and if not itself; 63 stands in no body, so that no loop goes through it."""
    for head in range(16, 63):
        yield f"kind 1 head {head} not {head}"
        yield f"kind 1 head {head} if {head}"


def weight_edges():
    """Each weight alone, and each negated atom alone, at the edges of what is read of a number and on both sides of 15."""
    low = 0, 1, 7, 8, 13, 14, 15, 16, 17, 30, 31, 32, 63, 64, 127, 128, 255
    high = [(1 << bit) + more for bit, more in itertools.product((8, 15, 16, 31, 32, 48, 56, 62, 63), (-1, 0, 1, 15))]
    for head, weighs in itertools.product((0, 15), (*low, *high, (1 << 64) - 1)):
        yield f"kind 3 head {head} weight {weighs}"
    for head, atom in itertools.product((0, 15), (0, 1, 3, 7, 8, 14, 15, 16, 17, 31, 32, 55, 56, 62, 63)):
        yield f"kind 3 head {head} not {atom}"


def one_record():
    for name in dict.fromkeys([*re.findall("^kind.*", ONE_RECORD, re.M), *by_eights(), *own_head(), *weight_edges()]):
        kind, head = map(int, re.match(r"kind (\d+) head (\d+)", name).groups())
        positive, weighs, negated = (set(map(int, re.findall(rf"{word} (\d+)", name))) for word in ("if", "weight", "not"))
        yield test(name, 18, [(kind, head, positive.union(*map(atoms_of, weighs)), negated)])


def policies():
    for length in (0, 17, 18, 19, 2303, 2304, 2305, 2322, 1, 6, 9, 27, 30, 35, 36, 2286, 2306, 2323, 2340, 3006):
        yield test(f"{length} bytes", length, [ALWAYS_16] * 167)
    yield from one_record()
    yield test("16 if 0, 1", 18, [(1, 16, {0, 1}, set())])
    yield test("16 if 0, 24", 18, [(1, 16, {0, 24}, set())])
    yield test("24 if not 0, not 1", 18, [(1, 24, set(), {0, 1})])
    yield test("24 if not 0, not 24", 18, [(1, 24, set(), {0, 24})])
    yield test("62 if 55, 62, not 54, 55", 18, [(1, 62, {55, 62}, {54, 55})])
    yield test("55 if 16, 56", 18, [(1, 55, {16, 56}, set())])
    yield test("55 if 56, not 16", 18, [(1, 55, {56}, {16})])
    yield test("24 if 31, 32, not 23", 18, [(1, 24, {31, 32}, {23})])
    yield test("62 if 16, not 15, not 56", 18, [(1, 62, {16}, {15, 56})])


def weighed(head, *numbers):
    """Records that give one credential these weights."""
    return [weight(head, each) for each in numbers]


def second_weights():
    """"13, a second weight for one credential, even by an equal record come twice"."""
    for one, other in ((5, 5), (5, 6), (6, 5), (1, 1), (0, 0), (0, 1), (1, 0), (0, 15), (15, 15), (15, 0)):
        yield test(f"0 weighs {one}, then {other}", 36, weighed(0, one, other))
    for head in range(16):
        yield test(f"{head} weighs 1 twice", 36, weighed(head, 1, 1))
        others = [head ^ 1, head ^ 2, head ^ 4, head ^ 8]
        yield test(f"{head} weighs 3, and so do {others}", 90, [weight(each, 3) for each in (head, *others)])
    between = [ALWAYS_16, always(0), weight(1, 5), access(63, 0, 1), weight(15, 5)]
    for many in range(1, 6):
        yield test(f"0 weighs 5, {many} other records, 5", 18 * many + 36, [weight(0, 5), *between[:many], weight(0, 5)])
        yield test(f"0 weighs 5, {many} other records, 4", 18 * many + 36, [weight(0, 5), *between[:many], weight(0, 4)])
    yield test("0 weighs 5 in three records", 54, weighed(0, 5, 5, 5))
    yield test("weights of 0, 1, 1, 0", 72, [weight(head, 2) for head in (0, 1, 1, 0)])
    yield test("weights of 0, 1, 0, 1", 72, [weight(head, 2) for head in (0, 1, 0, 1)])
    yield test("weights of 1, 0, 2, 0, 1", 90, [weight(head, head) for head in (1, 0, 2, 0, 1)])
    yield test("two weights, disclosure between", 54, [weight(3, 1), always(3), weight(2, 1)])
    yield test("disclosure twice, one weight", 54, [always(3), weight(3, 1), always(3)])
    yield test("disclosure twice before a weight", 54, [always(3), always(3), weight(3, 1)])
    yield test("an access rule of 16, weights of 0 and 1", 54, [ALWAYS_16, weight(0, 0), weight(1, 0)])


def sixteen_weights():
    every = [weight(head, 15 - head) for head in range(16)]
    yield test("sixteen weights", 288, every)
    yield test("sixteen weights, the last first", 288, every[::-1])
    yield test("sixteen weights of 15", 288, [weight(head, 15) for head in range(16)])
    for head in range(16):
        yield test(f"sixteen weights, and {head} again", 306, [*every, weight(head, 15 - head)])
        yield test(f"sixteen weights, {head} changed, and another kind", 324, [*every, weight(head, head), (4, 0, set(), set())])
    for first, second in ((0, 127), (0, 126), (63, 64), (126, 127), (1, 100), (15, 31), (0, 64)):
        records = [weight(9, 4) if place in (first, second) else ALWAYS_16 for place in range(128)]
        yield test(f"9 weighs 4 at records {first} and {second}", 2304, records)
        yield test(f"9 weighs 4 at record {first}, 5 at record {second}", 2304, [*records[:second], weight(9, 5), *records[second + 1 :]])
        yield test(f"9 weighs 4 at records {first} and {second}, cut short", 18 * second, records)
        yield test(f"9 weighs 4 at records {first} and {second}, a byte less", 18 * second + 17, records)


def weights_in_turn():
    """12 and 13 beside each other and beside the other refusals."""
    one = weight(0, 5)
    for name, other in (("16", weight(0, 16)), ("5 and negates 0", weight(0, 5, [0])), ("5 and negates 63", weight(0, 5, [63]))):
        yield test(f"0 weighs 5, then {name}", 36, [one, other])
        yield test(f"0 weighs {name}, then 5", 36, [other, one])
        yield test(f"0 weighs 5, then {name}, then 5", 54, [one, other, one])
        yield test(f"0 weighs 5, then 5, then {name}", 54, [one, one, other])
        yield test(f"0 weighs {name} twice", 36, [other, other])
    yield test("16 weighs 5 twice", 36, weighed(16, 5, 5))
    yield test("0 and 16 weigh 5", 36, [one, weight(16, 5)])
    yield test("16 and 0 weigh 5", 36, [weight(16, 5), one])
    yield test("0 weighs 5, 16 weighs 16", 36, [one, weight(16, 16)])
    others = {3: (4, 0, set(), set()), 4: weight(16, 5), 5: access(16, 63), 6: OWN_17, 12: weight(1, 16)}
    for broken, record in others.items():
        yield test(f"{broken} at record 1, 13 at record 2", 54, [one, record, one])
        yield test(f"13 at record 1, {broken} at record 2", 54, [one, one, record])
        yield test(f"13 at record 2, {broken} at record 3", 72, [one, ALWAYS_16, one, record])
        yield test(f"{broken} at record 0, 13 at record 2", 54, [record, one, one])
    for length in (35, 37, 53):
        yield test(f"13 at record 1, {length} bytes", length, [one, one, one])
    yield test("13 at record 127, 2304 bytes", 2304, [ALWAYS_16] * 126 + [one, one])
    yield test("13 at record 127, 2303 bytes", 2303, [ALWAYS_16] * 126 + [one, one])
    for length in (2305, 2322):
        yield test(f"13 at record 1, {length} bytes", length, [one, one] + [ALWAYS_16] * 127)
        yield test(f"12 at record 1, {length} bytes", length, [one, weight(1, 16)] + [ALWAYS_16] * 127)
    yield test("13 at record 128, 2322 bytes", 2322, [ALWAYS_16] * 127 + [one, one])


def records_in_turn():
    three, six = (4, 16, set(), set()), OWN_17
    last = [ALWAYS_16] * 125 + [three, ALWAYS_16]
    yield test("3 at record 127", 2304, [ALWAYS_16, ALWAYS_16, *last])
    yield test("3 at records 1 and 127", 2304, [ALWAYS_16, three, *last])
    yield test("6 at record 0, 3 at record 1", 2304, [six, three, *last])
    yield test("the same, cut short", 2303, [six, three, *last])
    yield test("the same, too long", 2305, [six, three, *last])
    faults = {3: three, 4: (2, 16, set(), set()), 5: (2, 0, set(), {16}), 6: six, 12: weight(0, 16)}
    for (first, one), (second, other) in itertools.combinations(faults.items(), 2):
        yield test(f"{second} at record 0, {first} at record 1, 36 bytes", 36, [other, one])
        yield test(f"{first} at record 0, {second} at record 1, 36 bytes", 36, [one, other])
    for broken, record in faults.items():
        yield test(f"{broken} at record 0, 35 bytes", 35, [record, record])
        yield test(f"{broken} at record 1, 54 bytes", 54, [ALWAYS_16, record, ALWAYS_16])
        yield test(f"{broken} at record 127, 2304 bytes", 2304, [ALWAYS_16] * 127 + [record])
        yield test(f"{broken} at record 128, 2322 bytes", 2322, [ALWAYS_16] * 128 + [record])


# Levels: "Number 6 now says that no choice of a whole number as each atom's level" does.

DERIVED = list(range(16, 63))
LOOPS = (
    *((17,), (16,), (62,), (16, 17), (17, 24), (24, 17), (16, 62), (62, 16), (23, 24)),
    *((16, 17, 18), (16, 24, 40), (40, 24, 16), (24, 40, 16), (60, 61, 62), (62, 16, 39)),
    *((16, 62, 17, 61), (20, 19, 18, 17, 16), tuple(range(16, 62, 5)), tuple(range(61, 15, -3))),
    *(tuple(DERIVED), tuple(DERIVED[::-1]), tuple(16 + 20 * k % 47 for k in range(47))),
)


def loop(atoms, negated=()):
    """Each atom if the next one, and the last if the first; those at some places if not."""
    pairs = enumerate(zip(atoms, [*atoms[1:], atoms[0]]))
    return [access(head, unless=[body]) if place in negated else access(head, body) for place, (head, body) in pairs]


def named_loop(atoms):
    return " ".join(map(str, atoms)) if len(atoms) < 6 else f"{len(atoms)} atoms from {atoms[0]} and {atoms[1]} on"


def loops():
    """Loops of every kind of numbering: positive ones are accepted, and so is one that lacks a rule; one "not" in a loop is too much."""
    for atoms in LOOPS:
        name, many = named_loop(atoms), len(atoms)
        every = range(many)
        yield test(f"loop {name}", 18 * many, loop(atoms))
        yield test(f"loop {name}, the last rule first", 18 * many, loop(atoms)[::-1])
        for place in sorted({0, many // 2, many - 1}):
            yield test(f"loop {name}, not at {place}", 18 * many, loop(atoms, [place]))
            yield test(f"loop {name}, not at {place}, the last rule first", 18 * many, loop(atoms, [place])[::-1])
        yield test(f"loop {name}, all not", 18 * many, loop(atoms, every))
        yield test(f"loop {name}, every second not", 18 * many, loop(atoms, every[::2]))
        for place in sorted({0, many // 2, many - 1}):
            less = [record for k, record in enumerate(loop(atoms, every)) if k != place]
            yield test(f"loop {name}, all not, less rule {place}", 18 * len(less), less)
            yield test(f"loop {name}, all not, 0 in the place of rule {place}", 18 * many, [*less, access(atoms[place], 0)])


def tested_policy(name, *records):
    return test(name, 18 * len(records), list(records))


def not_in_loops():
    """A "not" within a positive loop, into one, out of one, and between two."""
    for atoms in ((16, 17, 18), (18, 17, 16), (16, 40, 24), (62, 16, 39), tuple(DERIVED), tuple(DERIVED[::-1])):
        name, ring = named_loop(atoms), loop(atoms)
        outside = [atom for atom in (16, 17, 30, 61, 62) if atom not in atoms[:3]][:1]
        for head, body in itertools.product(atoms[:3], repeat=2):
            yield tested_policy(f"loop {name}, {head} if not {body}", *ring, access(head, unless=[body]))
            yield tested_policy(f"{head} if 0 and not {body}, loop {name}", access(head, 0, unless=[body]), *ring)
        yield tested_policy(f"loop {name}, 63 if not {atoms[0]}", *ring, access(63, unless=[atoms[0]]))
        yield tested_policy(f"loop {name}, {atoms[0]} if not 0", *ring, access(atoms[0], unless=[0]))
        for other in outside if len(atoms) < 4 else ():
            into, out = access(atoms[1], unless=[other]), access(other, unless=[atoms[2]])
            yield tested_policy(f"loop {name}, {atoms[1]} if not {other}", *ring, into)
            yield tested_policy(f"loop {name}, {other} if not {atoms[2]}", *ring, out)
            yield tested_policy(f"loop {name}, both", *ring, into, out)
            yield tested_policy(f"both, loop {name}", out, into, *ring)
            yield tested_policy(f"loop {name}, {other} and back by one not", *ring, access(other, atoms[2]), into)
    low, high = loop((40, 24)), loop((17, 61))
    up, down = access(17, unless=[24]), access(40, unless=[61])
    yield tested_policy("two loops, one over the other by not", *low, *high, up)
    yield tested_policy("two loops, the other way round", *low, *high, down)
    yield tested_policy("two loops, both by not", *low, up, *high, down)
    yield tested_policy("two loops, one by not, back by a rule", *high, up, *low, access(40, 61))
    yield tested_policy("two loops, both by a rule", *high, access(17, 24), *low, access(40, 61))


def two_sided_loops():
    """"An atom may stand on both sides of a body": such a rule never applies, and its levels are tested as any rule's are."""
    for one, other in ((16, 17), (17, 16), (24, 16), (16, 62), (62, 16), (30, 31)):
        both = access(one, other, unless=[other])
        yield tested_policy(f"{one} if {other} and not {other}", both)
        yield tested_policy(f"{one} if {other} and not {other}, {other} if {one}", both, access(other, one))
        yield tested_policy(f"{one} if {other} and not {other}, {other} if not {one}", both, access(other, unless=[one]))
        yield tested_policy(f"{one} if {other} and not {other}, {other} if {one} and not {one}", both, access(other, one, unless=[one]))
        yield tested_policy(f"{other} if {one}, {one} if 0, {other} and not 0", access(other, one), access(one, 0, other, unless=[0]))
        never = access(one, 0, unless=[0, other])
        yield tested_policy(f"{one} if 0 and not 0, {other}", never)
        yield tested_policy(f"{one} if 0 and not 0, {other}; {other} if {one}", never, access(other, one))
        yield tested_policy(f"{one} if {one}, {other} and not {one}", access(one, one, other, unless=[one]))
        yield tested_policy(f"{one} if 0, {other} and not {one}, {other}", access(one, 0, other, unless=[one, other]))


def storeys(atoms, start=0):
    """Each atom if not the one before, the first if not a credential; 63 if not the last."""
    below = [start, *atoms]
    return [access(head, unless=[body]) for body, head in zip(below, [*atoms, 63])]


def levels_at_most():
    """48 levels of "not", over all derived atoms; the highest is of 63, which stands in no body."""
    for name, atoms in (("upwards", DERIVED), ("downwards", DERIVED[::-1]), ("mixed", [16 + 20 * k % 47 for k in range(47)])):
        rules = storeys(atoms)
        yield tested_policy(f"48 levels {name}", *rules)
        yield tested_policy(f"48 levels {name}, the last rule first", *rules[::-1])
        for head, body in ((0, 46), (0, 1), (23, 24), (45, 46), (22, 22)):
            more = access(atoms[head], atoms[body])
            yield tested_policy(f"48 levels {name}, {atoms[head]} if {atoms[body]}", *rules, more)
            yield tested_policy(f"48 levels {name}, {atoms[head]} if {atoms[body]}, first", more, *rules)
        yield tested_policy(f"48 levels {name}, 63 if all", *rules, access(63, *DERIVED))
        wide = [access(head, unless=[0, *atoms[:place]]) for place, head in enumerate(atoms)]
        yield tested_policy(f"each if none of those before, {name}", *wide)
        yield tested_policy(f"each if none of those before, {name}, the first if the last", *wide, access(atoms[0], atoms[-1]))
        yield tested_policy(f"each if all those before, {name}", *(access(head, *atoms[:place]) for place, head in enumerate(atoms)))


def six_last():
    """"is given exactly then, after all records passed the rest, with the count of records as its number"."""
    seven, pair = access(16, 7), loop((24, 17), [0])
    for count in (1, 2, 3, 9, 10, 64, 127, 128):
        for place in sorted({0, count // 2, count - 1}):
            records = [OWN_17 if k == place else seven for k in range(count)]
            yield tested_policy(f"17 if not 17 at record {place} of {count}", *records)
        if count > 1:
            yield tested_policy(f"a loop of two, of {count} records", pair[0], *[seven] * (count - 2), pair[1])
            yield tested_policy(f"half of it, of {count} records", pair[0], *[seven] * (count - 1))
    others = always(3), weight(3, 2), (2, 4, {3}, set()), weight(15, 15)
    for place in range(5):
        yield tested_policy(f"17 if not 17 at record {place}, and four of other kinds", *others[:place], OWN_17, *others[place:])
    faults = {3: (4, 16, set(), set()), 4: access(15), 5: access(16, 63), 12: weight(0, 16)}
    second = weight(0, 5)
    for broken, record in faults.items():
        yield tested_policy(f"a loop of two around a {broken}", pair[0], record, pair[1])
        yield tested_policy(f"a loop of two, then a {broken}", *pair, record)
        yield tested_policy(f"a {broken}, then a loop of two", record, *pair)
        yield tested_policy(f"128 records, 6 at 0, {broken} at 127", OWN_17, *[seven] * 126, record)
        yield tested_policy(f"128 records, {broken} at 0, 6 at 127", record, *[seven] * 126, OWN_17)
        yield tested_policy(f"17 if not 17, a {broken}, 17 if not 17", OWN_17, record, OWN_17)
    yield tested_policy("a loop of two around a 13", second, pair[0], second, pair[1])
    yield tested_policy("a loop of two, then a 13", *pair, second, second)
    yield tested_policy("a 13, then a loop of two", second, second, *pair)
    yield tested_policy("two weights around a loop of two", second, *pair, second)
    for length in (19, 35, 37, 53):
        yield test(f"a loop of two, {length} bytes", length, [*pair, ALWAYS_16])
    for length in (2303, 2305, 2322):
        yield test(f"17 if not 17 at record 0, {length} bytes", length, [OWN_17] + [seven] * 128)
    yield test("a loop of two, cut by the length", 18, pair)
    yield tested_policy("a body with what a rule may not have, and a loop", access(17, unless=[17, 63]), OWN_17)
    yield tested_policy("63 if not 63, and 17 if not 17", access(63, unless=[63]), OWN_17)


def levels():
    for some in (loops, not_in_loops, two_sided_loops, levels_at_most, six_last):
        yield from some()


def under_a(name, session, shown):
    return round_in(name, whole(POLICY_A), session, shown)


def soundness():
    yield under_a("fresh", fresh(16), 0)
    yield under_a("fresh, shown", fresh(16, shown=1), 0)
    yield under_a("fresh, declined", fresh(16, declined=0x8000), 0)
    yield under_a("fresh, count 1", fresh(16, count=1), 0)
    yield under_a("waiting", waiting(4, 0, 0, 1), 0)
    yield under_a("waiting, Q empty", waiting(0, 0, 0, 1), 0)
    yield under_a("waiting, Q partly shown", waiting(3, 2, 0, 1), 3)
    yield under_a("waiting, Q partly declined", waiting(3, 0, 1, 1), 3)
    yield under_a("waiting, Q never asked", waiting(0x8000, 0, 0, 1), 0)
    for count in (0, 1, 2, 3):
        name = f"waiting, count {count}" + (" of 2" if count else "")
        yield under_a(name, waiting(3, 0, 4, count), 3)
    for count in (2, 3):
        yield under_a(f"in both, count {count} of 2", waiting(4, 32, 32, count), 0)
    for count in (16, 17, 255):
        yield under_a(f"count {count} of 16", waiting(4, 0xFF00, 0xFB, count), 4)


def fresh_sessions():
    for some in (1, 0x80, 0x100, 0x8000):
        yield under_a(f"fresh, {some:04x} shown", fresh(16, shown=some), 3)
        yield under_a(f"fresh, {some:04x} declined", fresh(16, declined=some), 3)
    for count, shown in itertools.product((1, 2, 255), (0, 3)):
        yield under_a(f"fresh, count {count}, {shown:04x} shown now", fresh(16, count=count), shown)
    yield under_a("fresh, in both, count 0", fresh(16, 6, 6), 3)
    yield under_a("fresh, in both, count 2", fresh(16, 6, 6, 2), 3)


def questions():
    """Q empty; in P or N, with a part or as a whole, in either byte; beside them."""
    for shown, declined in ((0x20, 0), (0, 0x8000), (0x8001, 0x42)):
        yield under_a(f"Q empty, {shown:04x} shown, {declined:04x} declined", waiting(0, shown, declined, 1), 4)
    for question, met in ((3, 1), (4, 4), (0x8001, 0x8000), (0x300, 0x300), (0x180, 0x100), (0x8000, 0x8000), (7, 6)):
        yield under_a(f"Q {question:04x}, {met:04x} shown", waiting(question, met, 0, 1), 4)
        yield under_a(f"Q {question:04x}, {met:04x} declined", waiting(question, 0, met, 1), 4)
        yield under_a(f"Q {question:04x}, {met:04x} in both", waiting(question, met, met, 1), 4)
    for question in (1, 0x80, 0x8000, 0x7F00, 0x1004):
        yield under_a(f"Q {question:04x}, the rest shown or declined", waiting(question, 0xFF & ~question, 0xFF00 & ~question, 8), 0)


def counts():
    """The least and the greatest count, those beside them, and 255, where P and N are empty, one is, they meet, or are all."""
    for shown, declined in ((0, 0), (0x20, 0), (0xE0, 0), (0, 0x8100), (0x60, 0x60), (0x4021, 0x8060), (0xFF00, 0xFB), (0xFFFB, 0xFF03)):
        most = 1 + len(credentials(shown | declined))
        for word, count in itertools.product(PHASES[1:], sorted({0, 1, most, most + 1, 255})):
            session = made(16, shown, declined, count, word, 4 if word == "waiting" else 0)
            yield under_a(f"{word}, {shown:04x} shown, {declined:04x} declined, count {count} of {most}", session, 0)


def closed_sessions():
    yield under_a("granted", granted(3, 4, 3), 1)
    yield under_a("denied", denied(16, 0, 0, 1), 3)
    yield under_a("granted, count 0", granted(3, 4, 0), 0)
    yield under_a("granted, count 4 of 4", granted(3, 4, 4), 0)
    yield under_a("granted, count 5 of 4", granted(3, 4, 5), 0)
    yield under_a("denied, count 0", denied(16, 0, 0, 0), 0)
    yield under_a("denied, count 2 of 1", denied(16, 0, 0, 2), 0)
    yield under_a("in both, count 4 of 3", denied(16, 3, 2, 4), 0)
    yield under_a("count 17 of 17", denied(16, 0xFFFF, 3, 17), 0)
    yield under_a("count 18 of 17", denied(16, 0xFFFF, 3, 18), 0)
    for count in (16, 17, 18):
        yield under_a(f"granted, count {count} of 17", granted(0xFFFF, 3, count), 0)
        yield under_a(f"granted, all declined, count {count} of 17", granted(0, 0xFFFF, count), 0)
        yield under_a(f"denied, all declined, count {count} of 17", denied(16, 0, 0xFFFF, count), 0)


def order():
    one_byte, empty = Policy(1, [ALWAYS_16]), whole([])
    yield round_in("1 byte, request 15", one_byte, fresh(15, 1, 2, 3), 4)
    yield round_in("1 byte, Q empty", one_byte, waiting(0, 1, 2, 3), 4)
    yield round_in("1 byte, granted", one_byte, granted(1, 2, 3), 4)
    yield round_in("1 byte, waiting", one_byte, waiting(8, 1, 2, 3), 4)
    yield round_in("request 63, not sound", empty, fresh(63, 1, 2, 3), 4)
    yield round_in("request 63, denied", empty, denied(63, 1, 2, 3), 4)
    yield round_in("granted, not sound", empty, granted(1, 2, 4), 4)
    yield round_in("granted, sound", empty, granted(1, 2, 3), 4)
    refused = (
        ("1 byte", one_byte),
        ("kind 4", whole([(4, 16, set(), set())])),
        ("17 if not 17", whole([OWN_17])),
        ("0 weighs 16", whole([weight(0, 16)])),
        ("0 weighs 1 twice", whole(weighed(0, 1, 1))),
    )
    for (name, policy), request in itertools.product(refused, (15, 63, 272)):
        yield round_in(f"{name}, fresh, request {request}", policy, fresh(request), 3)
        yield round_in(f"{name}, denied, request {request}", policy, denied(request, 0, 0, 1), 3)
    for name, policy in refused[1:]:
        yield round_in(f"{name}, Q empty", policy, waiting(0, 1, 2, 3), 4)
        yield round_in(f"{name}, granted", policy, granted(1, 2, 3), 4)
        yield round_in(f"{name}, granted, not sound", policy, granted(1, 2, 4), 4)
    for request in (15, 63, 272):
        yield round_in(f"empty, Q empty, request {request}", empty, made(request, 1, 2, 3, "waiting"), 4)
        yield round_in(f"empty, denied, request {request}", empty, denied(request, 0, 0, 1), 4)


def sessions():
    for request in (0, 15, 16, 62, 63, 255, 272, 65535, 17, 40, 61, 64, 80):
        yield opening(request)
    for request in (15, 16, 62, 63, 272, 0, 17, 40, 61, 64, 80, 65535):
        yield under_a(f"request {request}", fresh(request), 5 if request == 63 else 3)
    yield from soundness()
    yield from fresh_sessions()
    yield from questions()
    yield from counts()
    yield from closed_sessions()
    yield from order()
    yield under_a("16 and no breach", fresh(16), 4)
    yield under_a("16 and a breach", fresh(16), 5)
    yield under_a("16 twice over and a breach", waiting(2, 5, 0, 2), 2)


def access(head, *body, unless=()):
    return 1, head, set(body), set(unless)


def always(credential):
    return 2, credential, set(), set()


def two(name, records, request, shown):
    """Two rounds: nothing is shown, and then a set."""
    return in_turn(records, request, (name, 0), (name, shown))


def services():
    yield from two("40 if 3", [access(40, 3), always(3)], 40, 8)
    yield from two("40 if 3, request 41", [access(40, 3), always(3)], 41, 8)
    yield from two("62 if 9", [access(62, 9), always(9)], 62, 0x200)
    yield from two("62 if 9, not disclosed", [access(62, 9)], 62, 0x200)


def sizes_and_ties():
    disclosed = [always(atom) for atom in range(16)]
    tied = disclosed + [access(17, 4), access(16, 0, 1), access(16, 2, 3)]
    yield from in_turn(tied, 16, ("16 if 0, 1; if 2, 3", 0))
    declining = ("5 declined", 0), ("0 and 1 declined, 4 shown", 0x10), ("2 and 3 declined", 0)
    yield from in_turn(tied + [access(16, 5)], 16, ("the same; if 5", 0), *declining)
    yield from in_turn(disclosed + [access(16, 0, 3), access(16, 1, 2)], 16, ("16 if 0, 3; if 1, 2", 0))
    every = disclosed + [access(16, *range(16))]
    yield from in_turn(every, 16, ("16 if 0 to 15, 0 to 3 shown", 0xF), ("4 to 15 shown", 0xFFF0))
    yield from two("16 if 0 to 15", every, 16, 0xFFFF)


def declined_each(name, records, request, rounds):
    """Rounds in which nothing is shown."""
    return in_turn(records, request, *((f"{name}, round {k + 1}", 0) for k in range(rounds)))


THREE_WAYS = [access(16, 0, 1), access(16, 2), access(16, 3), *map(always, range(4))]


def weights_decide():
    """"The preferred set has the least total weight"; the same wherever the weights stand."""
    for two_weighs, three_weighs in itertools.product((0, 1, 2, 3), repeat=2):
        name = f"16 if 0, 1; if 2; if 3; 2 weighs {two_weighs}, 3 weighs {three_weighs}"
        yield from declined_each(name, [*THREE_WAYS, weight(2, two_weighs), weight(3, three_weighs)], 16, 4)
    yield from declined_each("the same, no weights", THREE_WAYS, 16, 4)
    first, second = weight(2, 3), weight(3, 4)
    for name, records in (
        ("before", [first, second, *THREE_WAYS]),
        ("after", [*THREE_WAYS, first, second]),
        ("between", [*THREE_WAYS[:1], first, *THREE_WAYS[1:5], second, *THREE_WAYS[5:]]),
        ("before and after", [second, *THREE_WAYS, first]),
        ("at records 126 and 127", [*THREE_WAYS, *[access(17, 0)] * 119, second, first]),
        ("at records 127 and 126", [*THREE_WAYS, *[access(17, 0)] * 119, first, second]),
    ):
        yield from declined_each(f"2 weighs 3, 3 weighs 4, {name}", records, 16, 4)
    seven = [access(16, *range(7)), access(16, 7), *map(always, range(8))]
    for weighs in range(16):
        yield from two(f"16 if 0 to 6; if 7; 7 weighs {weighs}", [*seven, weight(7, weighs)], 16, 0)


def weight_ties():
    """"then the fewest credentials, then the smallest number"; each a name, bodies for 16, and what credentials weigh."""
    ties = (
        ("2 weighs as 0 and 1", ((0, 1), (2,)), {2: 2}),
        ("0 and 1 weigh 3, so does 2", ((0, 1), (2,)), {0: 0, 1: 3, 2: 3}),
        ("three against two", ((0, 1, 2), (3, 4)), {3: 0, 4: 3}),
        ("three against two, all weigh 0", ((0, 1, 2), (3, 4)), dict.fromkeys(range(5), 0)),
        ("two against three, the higher number", ((13, 14), (0, 1, 2)), {13: 1, 14: 2}),
        ("one of 15 against three of 5", ((3, 4, 5), (9,)), {3: 5, 4: 5, 5: 5, 9: 15}),
        ("two and two", ((0, 3), (1, 2)), dict.fromkeys(range(4), 2)),
        ("two and two, other weights", ((0, 3), (1, 2)), {0: 1, 3: 3, 1: 2, 2: 2}),
        ("two and two, in both bytes", ((0, 15), (8, 9)), {0: 0, 15: 2}),
        ("two and two, the smaller number weighs more", ((0, 1), (2, 3)), {0: 2}),
        ("15 and 14 weigh 15", ((15,), (14,)), {15: 15, 14: 15}),
        ("8 and 7 weigh 0", ((8,), (7,)), {8: 0, 7: 0}),
        ("12 weighs 1 as 11 does", ((12,), (11,)), {12: 1}),
        ("16 and 15", ((0, 1), (2,)), {0: 15, 2: 15}),
        ("16 and 15 by two", ((0, 1), (2, 3)), {0: 8, 1: 8, 2: 15, 3: 0}),
        ("15 and 14", ((0, 1), (2,)), {0: 14, 2: 14}),
        ("17 and 16", ((0, 1), (2, 3)), {0: 15, 1: 2, 2: 15, 3: 1}),
        ("32 and 31", ((4, 5, 6), (7, 8, 9)), {4: 15, 5: 15, 6: 2, 7: 15, 8: 15, 9: 1}),
        ("75 and 74", (range(5), range(5, 10)), {**dict.fromkeys(range(9), 15), 9: 14}),
        ("75 and 74 by one more", (range(5), range(5, 11)), {**dict.fromkeys(range(9), 15), 9: 14, 10: 0}),
        ("135 and 134", (range(9), range(7, 16)), {**dict.fromkeys(range(15), 15), 15: 14}),
    )
    for name, ways, weighs in ties:
        askable = [always(atom) for atom in sorted({atom for way in ways for atom in way})]
        records = [access(16, *way) for way in ways] + askable + [weight(*each) for each in weighs.items()]
        yield from declined_each(name, records, 16, 3)


def weight_zero():
    """Weight 0 asks for no more than is needed, and costs nothing."""
    four = list(map(always, range(4)))
    free = [weight(atom, 0) for atom in (1, 2, 3)]
    yield from two("16 if 0; 1 weighs 0", [access(16, 0), *four, weight(1, 0)], 16, 1)
    yield from two("16 if 0; 1, 2 and 3 weigh 0", [access(16, 0), *four, *free], 16, 1)
    yield from declined_each("16 if 0; if 1, 2, 3, which weigh 0", [access(16, 0), access(16, 1, 2, 3), *four, *free], 16, 3)
    yield from two("16 if 0; if 1, 2, 3, which weigh 0 and are shown", [access(16, 0), access(16, 1, 2, 3), *four, *free], 16, 14)
    yield from declined_each("16 if 1; if 0, 2; all weigh 0", [access(16, 0, 2), access(16, 1), *four, weight(0, 0), *free], 16, 3)
    yield from two("16 always, all weigh 0", [ALWAYS_16, *four, weight(0, 0), *free], 16, 0)
    breach = [access(16, 0), (1, 63, set(), {24}), access(24, 1), *four]
    yield from two("16 if 0, breach if not 1, which weighs 0", [*breach, weight(1, 0)], 16, 3)
    yield from two("16 if 0, breach if not 1, which weighs 15", [*breach, weight(1, 15)], 16, 3)
    behind = [always(1), (2, 2, {1}, set()), always(0), access(16, 0), access(16, 2)]
    yield from two("2 is behind 1, and weighs 0", [*behind, weight(2, 0)], 16, 4)
    yield from two("2 is behind 1, which weighs 0", [*behind, weight(1, 0)], 16, 4)
    yield from two("2 is behind 1, which weighs 15", [*behind, weight(1, 15), weight(0, 2)], 16, 4)


def heavy():
    """"showing a club officer's certificate where a plain one would do": asked for last."""
    sixteen = [always(atom) for atom in range(16)]
    four = [access(16, 4), *sixteen[:5], weight(4, 15)]
    yield from declined_each("16 if 4, which weighs 15; if 0 to 3", [access(16, *range(4)), *four], 16, 3)
    yield from two("16 if 4, which weighs 15", four, 16, 16)
    many = [access(16, 15), weight(15, 15), sixteen[15]]
    yield from two("16 if 15, which weighs 15; if 0 to 13", [*many, access(16, *range(14)), *sixteen[:14]], 16, 0)
    yield from two("16 if 15, which weighs 15; if 0 to 14", [*many, access(16, *range(15)), *sixteen[:15]], 16, 0)
    every = [*sixteen, *(weight(atom, 15) for atom in range(16))]
    yield from two("16 if 0 to 15, which weigh 15", [access(16, *range(16)), *every], 16, 0xFFFF)
    single = [access(16, atom) for atom in range(16)]
    yield from declined_each("16 if any one, all weigh 15", [*single, *every], 16, 2)
    for factor, first in ((7, 3), (11, 0), (15, 15)):
        weighs = [weight(atom, (factor * atom + first) % 16) for atom in range(16)]
        name = f"16 if any one, which weighs {factor} times its number and {first}"
        yield from declined_each(name, [*single, *sixteen, *weighs], 16, 17)


def weighed_rounds():
    """Questions of several rounds, shown in part."""
    weighs = {0: 0, 1: 4, 2: 2, 3: 2, 4: 5}
    ways = [access(16, *way) for way in ((0, 1), (2, 3), (4,), (5, 6, 7))]
    records = [*ways, *map(always, range(8)), *(weight(*each) for each in weighs.items())]
    names = "four ways", "5 shown", "0 shown", "2 shown", "4 shown"
    yield from in_turn(records, 16, *zip(names, (0, 0x20, 1, 4, 16)))
    yield from in_turn(records, 16, ("four ways, 1 and 3 shown", 0xA), ("2 shown, not 0", 4))
    yield from in_turn(records, 16, ("four ways, 6 shown", 0x40), ("1 shown, neither 5 nor 7", 2), ("all but 0 shown", 0xFE))
    yield round_in("four ways, 4 asked first", whole(records), waiting(0x10, 0, 0, 1), 0)
    yield round_in("four ways, 4 asked first, 7 shown", whole(records), waiting(0x10, 0, 0, 1), 0x80)
    roles = [access(24, 16, 17), access(16, 0), access(16, 1), (1, 17, {2}, {3}), (1, 17, {4}, set()), *map(always, range(5))]
    for name, weighs in (("no weights", {}), ("0 and 2 weigh 9", {0: 9, 2: 9}), ("2 weighs 0, 4 weighs 0", {2: 0, 4: 0, 1: 0})):
        given = [weight(*each) for each in weighs.items()]
        yield from in_turn([*given, *roles], 24, *((f"24 if 16, 17; {name}, {some:04x} shown", some) for some in (0, 8, 1, 0x12)))


def weights_alone():
    """A weight discloses nothing, and is no rule."""
    for weighs in (0, 1, 2, 15):
        yield from two(f"16 if 3, not disclosed, 3 weighs {weighs}", [access(16, 3), weight(3, weighs)], 16, 8)
        yield from in_turn([access(16, 3), weight(3, weighs)], 16, (f"16 if 3, 3 weighs {weighs}, 0 to 2 shown", 7))
        yield from two(f"16 if 3; if 4; 3 weighs {weighs}", [access(16, 3), access(16, 4), always(4), weight(3, weighs)], 16, 16)
    yield from two("only weights", [weight(0, 0), weight(15, 1)], 16, 0xFFFF)
    shown = 0, 0, 3
    for name, weighs in (
        ("no credential of its own weighs", {3: 0, 5: 7, 15: 15}),
        ("1 weighs 0", {1: 0}),
        ("0 and 1 weigh 0", {0: 0, 1: 0}),
        ("2 weighs 2", {2: 2}),
        ("2 weighs 3", {2: 3}),
        ("2 weighs 15", {2: 15, 0: 7, 1: 7}),
        ("all weigh 1", {0: 1, 1: 1, 2: 1, 3: 1}),
    ):
        records = POLICY_A + [weight(*each) for each in weighs.items()]
        yield from in_turn(records, 16, *((f"policy A, {name}, round {k + 1}", some) for k, some in enumerate(shown)))


def weighted():
    for some in (weights_decide, weight_ties, weight_zero, heavy, weighed_rounds, weights_alone):
        yield from some()


def chains_of_rules():
    """Chains and "not" whose numbers rise, fall and jump; each a name, the atoms, the last of which is asked for."""
    numbered = ("rising", (16, 24, 40, 62)), ("falling", (62, 40, 24, 16)), ("jumping", (40, 16, 62, 24)), ("of one eight", (20, 17, 23, 16))
    for name, (first, second, third, last) in numbered:
        both = always(0), always(1)
        chain = [access(last, third), access(third, second), access(second, first), access(first, 0), *both]
        yield from two(f"a chain, {name}", chain, last, 1)
        yield from two(f"a chain, {name}, the first rule first", chain[3::-1] + chain[4:], last, 1)
        nots = [access(last, unless=[third]), access(third, unless=[second]), access(second, unless=[first]), access(first, 0), *both]
        for request in (first, second, third, last):
            yield from two(f"a chain of not, {name}, request {request}", nots, request, 1)
            yield from two(f"a chain of not, {name}, the first rule first, request {request}", nots[3::-1] + nots[4:], request, 3)
        mixed = [access(last, 1, third), access(third, unless=[second]), access(second, first), access(first, unless=[0]), *both]
        yield from declined_each(f"a chain with not, {name}", mixed, last, 3)
        breach = [access(63, unless=[third]), access(third, second), access(second, first), access(first, 0), access(last), *both]
        yield from two(f"a breach unless a chain, {name}", breach, last, 1)


def loops_in_rounds():
    """A positive loop holds nothing by itself; entered anywhere, it holds all of it."""
    for atoms in ((17,), (17, 24), (24, 17), (16, 62, 39), (62, 39, 16), (40, 41, 42, 16)):
        name, ring = named_loop(atoms), loop(atoms)
        yield from two(f"loop {name}, nothing enters", [*ring, always(0)], atoms[0], 1)
        for enters, request in sorted({(atoms[0], atoms[-1]), (atoms[-1], atoms[0]), (atoms[0], atoms[0])}):
            yield from two(f"loop {name}, {enters} if 0, request {request}", [*ring, access(enters, 0), always(0)], request, 1)
        above = [*ring, access(20, unless=[atoms[0]]), access(atoms[-1], 0), always(0)]
        yield from two(f"loop {name}, 20 if not {atoms[0]}", above, 20, 1)
        over = [*loop((61, 19)), access(19, 1, atoms[0]), *ring, access(atoms[-1], 0, unless=[2]), *map(always, range(3))]
        yield from two(f"loop 61 19 over loop {name}", over, 61, 3)
        yield from in_turn(over, 61, (f"loop 61 19 over loop {name}, 2 shown", 4))


def deep_rounds():
    """48 levels, and chains over all derived atoms."""
    for name, atoms in (("upwards", DERIVED), ("downwards", DERIVED[::-1]), ("mixed", [16 + 20 * k % 47 for k in range(47)])):
        rules = [*storeys(atoms)[:-1], always(0)]
        for place in (0, 1, 22, 23, 45, 46):
            yield from two(f"48 levels {name}, request {atoms[place]}", rules, atoms[place], 1)
            yield from two(f"48 levels {name}, the last rule first, request {atoms[place]}", rules[::-1], atoms[place], 1)
        breach = [*storeys(atoms), always(0), access(atoms[46], 1)]
        yield from two(f"48 levels {name}, a breach", breach, atoms[46], 1)
        chain = [access(head, body) for body, head in zip([0, *atoms], atoms)] + [always(0)]
        yield from two(f"a chain of 47 {name}", chain, atoms[46], 1)
        yield from two(f"a chain of 47 {name}, the last rule first", chain[::-1], atoms[46], 1)
        yield from two(f"loop {named_loop(atoms)}", [*loop(atoms), access(atoms[20], 0), always(0)], atoms[21], 1)


def two_sided_rounds():
    """A rule that never applies, in loops and out of them."""
    two_sided = [access(16, 24, unless=[24]), access(24, 0), always(0)]
    yield from two("16 if 24 and not 24", two_sided, 16, 1)
    yield from two("16 if 24 and not 24; if 1", [*two_sided, access(16, 1), always(1)], 16, 2)
    never = [access(16, 17, 0, unless=[0]), access(17, 16), access(17, 1), always(0), always(1)]
    yield from two("16 if 17, 0 and not 0; 17 if 16", never, 16, 3)
    yield from two("16 if 17, 0 and not 0; 17 if 16; request 17", never, 17, 2)


def renumbered():
    """Document 01's case (f), and policy A with other atoms for 16 and 63's body."""
    yield from two("(f) 17 if not 24", [access(17, unless=[24])], 17, 0)
    yield from two("(f) 17 if not 24, request 24", [access(17, unless=[24])], 24, 0)
    late = [access(17, unless=[24]), access(24, 0), always(0)]
    yield from two("17 if not 24, 24 if 0", late, 17, 0)
    yield from in_turn(late, 17, ("17 if not 24, 24 if 0, 0 shown", 1))
    yield from two("17 if not 24, 24 if 0, request 24", late, 24, 1)
    for service, role in ((16, 62), (62, 16), (30, 31), (31, 30)):
        records = [access(service, role), access(role, 0, 1), access(service, 2, unless=[role]), access(63, 0, 2), *POLICY_A[3:]]
        shown = enumerate((0, 0, 3))
        yield from in_turn(records, service, *((f"policy A by way of {role}, request {service}, round {k + 1}", some) for k, some in shown))


def numbered_freely():
    for some in (renumbered, chains_of_rules, loops_in_rounds, deep_rounds, two_sided_rounds):
        yield from some()


def from_fresh():
    fifteen = access(16, 15)
    yield from two("16 if 15", [fifteen, always(15)], 16, 0x8000)
    records = [access(16, 7, 12), access(16, 14), always(7), always(12), always(14)]
    yield from in_turn(records, 16, ("16 if 7, 12; if 14", 0), ("14 declined", 0), ("7 and 12 shown", 0x1080))
    yield from services()
    yield from two("61 records", [fifteen] * 60 + [always(15)], 16, 0x8000)
    yield from two("128 records", [fifteen] * 127 + [always(15)], 16, 0x8000)
    yield from sizes_and_ties()


def replays():
    shown = 0, 0, 3, 0
    for n in range(5):
        yield replay(f"list of {n or 'none'}", POLICY_A, 16, shown[:n])
    yield replay("list of none, request 15", POLICY_A, 15, ())
    yield replay("list of 3, request 15", POLICY_A, 15, shown[:3])
    yield replay("list of 3, request 272", POLICY_A, 272, shown[:3])
    for request in (0, 16, 17, 40, 61, 62, 63, 64, 80, 272, 65535):
        yield replay(f"list of none, request {request}", [], request, ())
        yield replay(f"list of 1, request {request}", [ALWAYS_16], request, (0,))
    for n in range(3):
        yield replay(f"17 if not 17, list of {n or 'none'}", [OWN_17], 16, shown[:n])
        yield replay(f"17 if not 24, list of {n or 'none'}", [access(17, unless=[24])], 17, shown[:n])
    yield replay("17 if not 17, request 15", [OWN_17], 15, shown[:2])
    heavier = [*THREE_WAYS, weight(2, 3), weight(3, 3)]
    for n in range(5):
        yield replay(f"2 and 3 weigh 3, list of {n or 'none'}", heavier, 16, (0,) * n)
    for name, records in (("2 weighs 16", [*THREE_WAYS, weight(2, 16)]), ("2 weighs 3 twice", [*THREE_WAYS, *weighed(2, 3, 3)])):
        for n in range(3):
            yield replay(f"{name}, list of {n or 'none'}", records, 16, shown[:n])
        yield replay(f"{name}, request 15", records, 15, shown[:2])


def cases():
    yield from policies()
    yield from records_in_turn()
    for some in (second_weights, sixteen_weights, weights_in_turn, levels):
        yield from some()
    yield from sessions()
    yield from from_fresh()
    yield from weighted()
    yield from numbered_freely()
    yield from replays()


def numbers(case):
    """The numbers that the question takes."""
    request, shown, declined, count, (word, question) = case.session
    if case.asked == TEST:
        return ()
    if case.asked == OPENING:
        return (request,)
    if case.asked == ROUND:
        return request, number(shown), number(declined), count, PHASES.index(word), number(question), *case.shown
    assert len(case.shown) <= MOST_ROUNDS
    return request, len(case.shown), *case.shown, *[0] * (MOST_ROUNDS - len(case.shown))


def packed(*some):
    return struct.pack(f"<{len(some)}H", *some)


def written(case):
    """A case as the program reads it."""
    start = f"{case.name}: ".encode()
    policy = b"".join(encoded(*record) for record in case.policy.records)[: case.policy.length]
    return packed(case.asked, len(start), len(start + policy)) + start + policy + packed(*numbers(case))


def main():
    every = list(cases())
    inputs = b"".join(map(written, every))
    lines = "".join(f"{case.name}: {case.said}\n" for case in every)
    return stored([("crates/cases/stdin", inputs), ("crates/cases/stdout", lines.encode())])


sys.exit(main())
