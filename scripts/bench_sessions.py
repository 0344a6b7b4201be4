"""Runs of the bench program: a policy file, the input, and what has to be printed, from documents 01 and 02 and not from our code.

Refusals, the marked cases and the first sessions with weights are written by hand; the other lines are worked out by rounds.py.
"""
import collections
import contextlib
import os
import random
import struct
import threading
import time

from rounds import EMPTY, POLICY_A, Session, accepted_round, credentials, encoded, weight, without_levels

# policy: its bytes, or None where there is no file, or a function that makes it, given its path.
Run = collections.namedtuple("Run", "name policy input printed")
SHOWN_A = 0, 0, 3
ROUNDS_A = "round 1 got 0000 ask 0004", "round 2 got 0000 ask 0003", "round 3 got 0003 grant"


def access(head, positive=(), negated=()):
    return 1, head, set(positive), set(negated)


def disclosure(head, *positive):
    return 2, head, set(positive), set()


ALWAYS_16 = access(16)
NOT_24 = access(17, negated=[24])
# Refused 6, by itself and among other records.
OWN_17 = access(17, negated=[17])
POLICY_B = [access(16, [0, 1]), access(16, [2, 3]), access(63, [0, 2]), *map(disclosure, range(4))]


def written(records):
    return b"".join(encoded(*record) for record in records)


def words(*numbers):
    return struct.pack(f"<{len(numbers)}H", *numbers)


def by_hand(name, policy, numbers, *lines, odd=b""):
    """A run whose lines are given; the policy as records, or as the file."""
    file = written(policy) if isinstance(policy, list) else policy
    return Run(name, file, words(*numbers) + odd, "".join(f"{line}\n" for line in lines))


def played(records, request, shown):
    """The lines of a session under an accepted policy, by definition."""
    session = Session(request, EMPTY, EMPTY, 0, ("fresh", EMPTY))
    for given in shown:
        if session.phase[0].startswith("closed"):
            yield "refused 9"
        else:
            said, session = accepted_round(records, session, credentials(given))
            yield f"round {session.count} got {given:04x} {said}"


def by_definition(name, records, request, *shown):
    return by_hand(name, records, (request, *shown), *played(records, request, shown))


def marked():
    """Document 01's marked cases, as far as sessions show them."""
    yield by_hand("(a) the three rounds", POLICY_A, (16, *SHOWN_A), *ROUNDS_A)
    yield by_hand("(b) empty policy", [], (16, 0), "round 1 got 0000 deny")
    yield by_hand("(c) 16 with empty body", [ALWAYS_16], (16, 0), "round 1 got 0000 grant")
    yield by_hand("(d) policy A, 0 and 2", POLICY_A, (16, 5), "round 1 got 0005 deny")
    yield by_hand("(e) policy A, 2 and 3", POLICY_A, (16, 12), "round 1 got 000c deny")
    yield by_hand("(f) 17 if not 24", [NOT_24], (17, 0), "round 1 got 0000 grant")
    yield by_hand("17 if not 17", [OWN_17], (17, 0), "refused 6 at 1")
    yield by_hand("(g) 24 if not 23", [access(24, negated=[23])], (24, 0), "round 1 got 0000 grant")
    twenty_three = access(16, [23]), access(23, [0]), disclosure(0)
    yield by_hand("(h) 16 if 23", [twenty_three[0]], (16, 0), "round 1 got 0000 deny")
    asked_0, granted_0 = "round 1 got 0000 ask 0001", "round 2 got 0001 grant"
    yield by_hand("(h) 16 if 23, 23 if 0", [*twenty_three], (16, 0, 1), asked_0, granted_0)
    breach = ALWAYS_16, access(63, negated=[62]), access(62, [0]), disclosure(0)
    yield by_hand("(i) 63 if not 62", [*breach[:2]], (16, 0), "round 1 got 0000 deny")
    yield by_hand("(i) 63 if not 62, 62 if 0", [*breach], (16, 0, 1), asked_0, granted_0)
    yield by_hand("(j) policy B", POLICY_B, (16, 0, 1), "round 1 got 0000 ask 0003", "round 2 got 0001 deny")
    yield by_hand("(j) policy B, 2 and 3 at once", POLICY_B, (16, 12), "round 1 got 000c grant")


# Each a record, and the refusal's number.
BROKEN = [
    *((3, (kind, 16, set(), set())) for kind in (0, 4, 255)),
    *((4, access(head)) for head in (0, 15, 64, 255)),
    *((4, disclosure(head)) for head in (16, 62, 63, 255)),
    *((5, access(head, [63])) for head in (16, 62, 63)),
    *((5, access(head, negated=[63])) for head in (16, 62, 63)),
    *((5, disclosure(0, atom)) for atom in (16, 62, 63)),
    *((5, (2, 15, set(), {atom})) for atom in (0, 15, 16, 62, 63)),
    *((6, access(head, negated=[head])) for head in (16, 17, 24, 55, 62)),
    *((6, access(head, [head], [head])) for head in (16, 62)),
    *((4, weight(head, 1)) for head in (16, 63, 255)),
    *((12, weight(0, weighs)) for weighs in (16, 256, 1 << 32, 1 << 63, (1 << 64) - 1)),
    *((12, weight(15, 15, [atom])) for atom in (0, 15, 16, 63)),
]


def second_weights():
    """Refusal 13 with its record number, and 12 before it."""
    for first, second in ((0, 1), (0, 9), (9, 10), (1, 99), (99, 100), (0, 127), (126, 127)):
        for weighs in (3, 4):
            records = [ALWAYS_16] * 128
            records[first], records[second] = weight(7, 3), weight(7, weighs)
            name = f"7 weighs 3 at record {first}, {weighs} at record {second}"
            yield by_hand(name, records, (16, 0, 1), f"refused 13 at {second}")
    every = [weight(atom, 15 - atom) for atom in range(16)]
    yield by_hand("sixteen weights", [ALWAYS_16, *every], (16, 0), "round 1 got 0000 grant")
    yield by_hand("sixteen weights and one more", [*every, weight(0, 0)], (16, 0), "refused 13 at 16")
    one, three = weight(0, 5), (4, 0, set(), set())
    yield by_hand("13 at record 1, 3 at record 2", [one, one, three], (16, 0), "refused 13 at 1")
    yield by_hand("3 at record 1, 13 at record 2", [one, three, one], (16, 0), "refused 3 at 1")
    yield by_hand("12 and 13 at record 1", [one, weight(0, 16)], (16, 0), "refused 12 at 1")
    yield by_hand("13 at record 1, request 15", [one, one], (15, 0), "refused 13 at 1")
    yield by_hand("12 at record 0, request 15", [weight(0, 16)], (15, 0), "refused 12 at 0")
    yield by_hand("13 at record 1, 35 bytes", written([one, one])[:35], (16, 0), "refused 2 at 1")
    yield by_hand("a weight and a disclosure of one credential", [one, disclosure(0)], (16, 0), "round 1 got 0000 deny")


def policies_refused():
    """Refusals 1 to 6 and 12, each with its number of a record; further records print nothing."""
    for length in (1, 2, 17, 19, 35, 37, 180, 181, 1799, 1801, 2303):
        file = written([ALWAYS_16] * 128)[:length]
        lines = [f"refused 2 at {length // 18}"] if length % 18 else ["round 1 got 0000 grant"]
        yield by_hand(f"{length} bytes", file, (16, 0), *lines)
    for place, (number, record) in enumerate(BROKEN):
        at = (0, 1, 9, 10, 99, 100, 127)[place % 7]
        records = [ALWAYS_16] * at + [record] + [ALWAYS_16] * (127 - at)
        kind, head, positive, negated = record
        name = f"kind {kind} head {head} if {sorted(positive)} not {sorted(negated)}"
        # 6 has the count of records.
        yield by_hand(f"{name} at record {at}", records, (16, 0, 1, 0xFFFF), f"refused {number} at {128 if number == 6 else at}")
        yield by_hand(f"{name} alone", [record], (16,), f"refused {number} at {int(number == 6)}")
    three = BROKEN[0][1]
    yield by_hand("6 at record 0, 3 at record 1", [OWN_17, three], (16, 0), "refused 3 at 1")
    yield by_hand("3 at record 0, 6 at record 1", [three, OWN_17], (16, 0), "refused 3 at 0")
    yield by_hand("3 at record 0, 35 bytes", written([three, three])[:35], (16, 0), "refused 2 at 1")


def looped(atoms, *negated):
    """Each atom if the next one, the last if the first; those at some places if not."""
    pairs = enumerate(zip(atoms, [*atoms[1:], atoms[0]]))
    return [access(head, negated=[body]) if place in negated else access(head, [body]) for place, (head, body) in pairs]


def levels():
    """6 after all other numbers, with the count of records; policies with positive loops, and numbered against the order."""
    for atoms in ((16, 17), (62, 16), (24, 40, 16), (16, 62, 17, 61), range(16, 63), range(62, 15, -1)):
        name, count = f"a loop of {len(atoms)} from {atoms[0]} on", len(atoms)
        entered = [*looped(atoms), access(atoms[1], [0]), disclosure(0)]
        asked = "round 1 got 0000 ask 0001", "round 2 got 0001 grant"
        yield by_hand(name, looped(atoms), (atoms[0], 0), "round 1 got 0000 deny")
        yield by_hand(f"{name}, entered", entered, (atoms[0], 0, 1), *asked)
        for place in sorted({0, count // 2, count - 1}):
            yield by_hand(f"{name}, not at {place}", looped(atoms, place), (16, 0), f"refused 6 at {count}")
        inside = [*entered, access(atoms[0], negated=[atoms[-1]])]
        yield by_hand(f"{name}, a not inside it", inside, (16, 0), f"refused 6 at {count + 3}")
    one, twice = weight(0, 5), [weight(0, 5), weight(0, 5)]
    others = (3, BROKEN[0][1]), (4, access(15)), (5, access(16, [63])), (12, weight(0, 16))
    for number, record in others:
        yield by_hand(f"6 at record 0, {number} at record 2", [OWN_17, one, record], (16, 0), f"refused {number} at 2")
        yield by_hand(f"{number} at record 1, 6 at record 2", [ALWAYS_16, record, OWN_17], (16, 0), f"refused {number} at 1")
    yield by_hand("6 at record 0, 13 at record 2", [OWN_17, *twice], (16, 0), "refused 13 at 2")
    yield by_hand("6 at record 0, 35 bytes", written([OWN_17, OWN_17])[:35], (16, 0), "refused 2 at 1")
    yield by_hand("6 at record 0, 2305 bytes", written([OWN_17] * 129)[:2305], (16, 0), "refused 1 at 128")
    yield by_hand("6 at record 1, other kinds beside it", [one, OWN_17, disclosure(0)], (16, 0), "refused 6 at 3")


def directory(path):
    path.mkdir()


def link_to(target):
    def made(path):
        path.symlink_to(target)

    return made


def piped(*pieces):
    """A named pipe, from which a read gets one piece."""

    def feed(path):
        with contextlib.suppress(BrokenPipeError), open(path, "wb", buffering=0) as pipe:
            for piece in pieces:
                pipe.write(piece)
                time.sleep(0.05)

    def made(path):
        os.mkfifo(path)
        threading.Thread(target=feed, args=(path,), daemon=True).start()

    return made


def unreadable(path):
    path.write_bytes(written([ALWAYS_16]))
    path.chmod(0)


def counting_as_empty():
    """What policy.bin may be where it counts as the empty policy."""
    return {
        "0 bytes": b"",
        "missing": None,
        "a directory": directory,
        "a link to nothing": link_to("nothing"),
        "a link to itself": link_to("policy.bin"),
        "a link to a directory": link_to("."),
        "unreadable": unreadable,
        "a file whose reading fails": link_to("/proc/self/mem"),
    }


def files():
    """How long policy.bin may be, and what counts as empty."""
    full = [ALWAYS_16] * 127 + [access(40, [3]), disclosure(3), OWN_17]
    asked = "round 1 got 0000 ask 0008", "round 2 got 0008 grant"
    deciding = [full[0]] * 126 + full[127:129]
    yield by_hand("2304 bytes, the last two records decide", deciding, (40, 0, 8), *asked)
    yield by_hand("2304 bytes, the first one does", full[:128], (16, 0), "round 1 got 0000 grant")
    yield by_hand("2304 bytes, the last one is refused", full[:127] + [OWN_17], (16, 0), "refused 6 at 128")
    for length in (2305, 2306, 2322, 3000, 4096, 100_000):
        long = written([ALWAYS_16] * (length // 18 + 1))[:length]
        yield by_hand(f"{length} bytes", long, (16, 0), "refused 1 at 128")
        yield by_hand(f"{length} bytes, record 0 bad", bytes([9]) + long[1:], (16, 0), "refused 1 at 128")
        yield by_hand(f"{length} bytes, request 15", long, (15, 0), "refused 1 at 128")
    for name, policy in counting_as_empty().items():
        yield by_hand(f"policy.bin {name}", policy, (16, 0, 0xFFFF), "round 1 got 0000 deny", "refused 9")
        yield by_hand(f"policy.bin {name}, request 63", policy, (63, 0), "refused 7")
    in_pieces = piped(written(POLICY_A)[:20], written(POLICY_A)[20:])
    yield by_hand("policy.bin in two pieces", in_pieces, (16, *SHOWN_A), *ROUNDS_A)
    yield by_hand("policy.bin without end", link_to("/dev/zero"), (16, 0), "refused 1 at 128")


def without_request():
    for name, policy in (("good", POLICY_A), ("refused", [OWN_17]), ("missing", None), ("too long", bytes(2305))):
        yield by_hand(f"no input, policy {name}", policy, ())
        for odd in (b"\0", b"\x10", b"\xff"):
            yield by_hand(f"one byte {odd.hex()}, policy {name}", policy, (), odd=odd)


def requests():
    for request in (0, 1, 15, 63, 64, 80, 255, 256, 272, 4096, 32768, 65535):
        yield by_hand(f"request {request} alone", POLICY_A, (request,), "refused 7")
        yield by_hand(f"request {request}, three records after it", POLICY_A, (request, *SHOWN_A), "refused 7")
        yield by_hand(f"request {request}, policy refused too", [OWN_17], (request, *SHOWN_A), "refused 6 at 1")
    for request in (16, 17, 40, 61, 62):
        yield by_hand(f"request {request} alone", POLICY_A, (request,))
        yield by_hand(f"request {request} alone, policy refused", [OWN_17], (request,), "refused 6 at 1")
        yield by_hand(f"request {request}, always", [access(request)], (request, 0), "round 1 got 0000 grant")
        unheard = [access(other) for other in (16, 17, 40, 61, 62) if other != request]
        yield by_hand(f"request {request}, others always", unheard, (request, 0), "round 1 got 0000 deny")


def odd_bytes():
    """A last odd byte in every state."""
    for odd in (b"\0", b"\x03", b"\xff"):
        for count in range(4):
            name = f"odd byte {odd.hex()} after request and {count} rounds"
            yield by_hand(name, POLICY_A, (16, *SHOWN_A[:count]), *ROUNDS_A[:count], odd=odd)
        closed = *ROUNDS_A, "refused 9", "refused 9"
        yield by_hand(f"odd byte {odd.hex()} after closing", POLICY_A, (16, *SHOWN_A, 0, 3), *closed, odd=odd)
        yield by_hand(f"odd byte {odd.hex()} after a refused policy", [OWN_17], (16,), "refused 6 at 1", odd=odd)
        yield by_hand(f"odd byte {odd.hex()} after a refused request", POLICY_A, (15,), "refused 7", odd=odd)


def after_closing():
    refused = ["refused 9"] * 20
    some = range(0, 20 * 3000, 3000)
    yield by_hand("twenty records after grant", POLICY_A, (16, *SHOWN_A, *some), *ROUNDS_A, *refused)
    yield by_hand("twenty records after deny", [], (16, 0xBEEF, *some), "round 1 got beef deny", *refused)
    yield by_hand("twenty like the one granted", [ALWAYS_16], (16, *[3] * 21), "round 1 got 0003 grant", *refused)
    many = 40_000
    yield by_hand(f"{many} records after deny", [], (16, *[0] * (many + 1)), "round 1 got 0000 deny", *["refused 9"] * many)
    yield by_hand("3000 records after deny", [], (16, *[0] * 3001), "round 1 got 0000 deny", *["refused 9"] * 3000)


def several_rounds():
    every = list(map(disclosure, range(16)))
    ways = every + [access(16, [atom]) for atom in range(16)]
    lines = [f"round {k + 1} got 0000 ask {1 << k:04x}" for k in range(16)] + ["round 17 got 0000 deny", "refused 9"]
    yield by_hand("17 rounds, all declined", ways, (16, *[0] * 18), *lines)
    late = [*lines[:15], "round 16 got 8000 grant"]
    yield by_hand("16 rounds, the last shown early", ways, (16, *[0] * 15, 0x8000), *late)
    whole = every + [access(16, range(16))]
    yield by_hand("all sixteen", whole, (16, 0, 0xFFFF), "round 1 got 0000 ask ffff", "round 2 got ffff grant")
    yield by_hand("six of sixteen", whole, (16, 0x543F), "round 1 got 543f ask abc0")
    tied = every + [access(16, [0, 3]), access(16, [1, 2]), access(16, [4, 5, 6])]
    yield by_definition("ties", tied, 16, 0, 0, 0, 0)
    yield by_definition("ties, shown late", tied, 16, 0, 1, 2, 0x70, 0)
    chain = [disclosure(0), *(disclosure(k + 1, k) for k in range(15)), access(20, [15]), access(20, [3, 7])]
    yield by_definition("a chain", chain, 20, 0, 0x88, 0)
    yield by_definition("a chain, declined", chain, 20, 0, 0, 0, 0)
    yield by_definition("a chain, a part declined", chain, 20, 0, 8, 0x8000)
    behind = [disclosure(0), disclosure(1, 0), access(16, [0]), access(16, [1])]
    yield by_definition("0 declined, 1 behind it", behind, 16, 0, 0, 2)
    yield by_definition("declined and later shown", behind + [disclosure(2)], 16, 0, 4, 1)
    for first in range(0, 16, 3):
        yield by_definition(f"policy A, {first:04x} shown first", POLICY_A, 16, first, 0, 3)
        yield by_definition(f"policy B, {first:04x} shown first", POLICY_B, 16, first, 0, 3)


def weights():
    """Sessions that weights decide."""
    ways = [access(16, [0, 1]), access(16, [2]), access(16, [3]), *map(disclosure, range(4))]
    fewest = "round 1 got 0000 ask 0004", "round 2 got 0000 ask 0008", "round 3 got 0000 ask 0003", "round 4 got 0000 deny"
    lightest = "round 1 got 0000 ask 0003", "round 2 got 0000 ask 0004", "round 3 got 0000 ask 0008", "round 4 got 0000 deny"
    yield by_hand("weights: none", ways, (16, 0, 0, 0, 0), *fewest)
    yield by_hand("weights: 2 and 3 weigh 2", [*ways, weight(2, 2), weight(3, 2)], (16, 0, 0, 0, 0), *fewest)
    yield by_hand("weights: 2 and 3 weigh 3", [*ways, weight(2, 3), weight(3, 3)], (16, 0, 0, 0, 0), *lightest)
    yield by_hand("weights: the same, first", [weight(2, 3), weight(3, 3), *ways], (16, 0, 0, 0, 0, 1), *lightest, "refused 9")
    nothing = [weight(3, 0), weight(5, 7), weight(15, 15)]
    yield by_hand("weights: policy A, none of its own", POLICY_A + nothing, (16, *SHOWN_A), *ROUNDS_A)
    turned = "round 1 got 0000 ask 0003", "round 2 got 0000 ask 0004", "round 3 got 0004 grant"
    yield by_hand("weights: policy A, 2 weighs 3", [*POLICY_A, weight(2, 3)], (16, 0, 0, 4), *turned)
    yield by_hand("weights: not disclosed", [access(16, [3]), weight(3, 0)], (16, 0, 8), "round 1 got 0000 deny", "refused 9")
    single = [access(16, [atom]) for atom in range(16)] + list(map(disclosure, range(16)))
    falling = [weight(atom, 15 - atom) for atom in range(16)]
    lines = [f"round {k + 1} got 0000 ask {0x8000 >> k:04x}" for k in range(16)] + ["round 17 got 0000 deny"]
    yield by_hand("weights: sixteen, all declined", single + falling, (16, *[0] * 17), *lines)


def some_rules(source):
    """Three to eight rules over six credentials and four roles, numbered freely; they need not have levels."""
    for _ in range(source.randint(3, 8)):
        head = source.choice((16, 16, 17, 24, 24, 25, 63))
        below = [*range(6), *range(6), *(atom for atom in (16, 17, 24, 25) if atom != head)]
        positive, negated = source.sample(below, source.randint(1, 3)), source.sample(below, source.choice((0, 0, 1)))
        yield access(head, positive, negated)


def some_policy(source):
    """Six credentials, each askable, and rules that have levels."""
    records = [disclosure(atom, *source.sample(range(6), source.choice((0, 0, 1)))) for atom in range(6)]
    rules = list(some_rules(source))
    while without_levels(rules):
        rules = list(some_rules(source))
    return records + rules


def some_rounds(source):
    return [source.choice((0, 0, source.getrandbits(6), source.getrandbits(6), source.getrandbits(16))) for _ in range(6)]


def at_random():
    """Forty sessions from a fixed seed in which something is asked."""
    source, asked = random.Random(1), 0
    while asked < 40:
        records, request = some_policy(source), source.choice((16, 24))
        run = by_definition(f"random policy {asked}", records, request, *some_rounds(source))
        if "ask" in run.printed:
            asked += 1
            yield run


def weighed_at_random():
    """Forty more, in which weights change what is printed."""
    source, changed = random.Random(2), 0
    while changed < 40:
        records, request, shown = some_policy(source), source.choice((16, 24)), some_rounds(source)
        given = [weight(atom, source.choice((0, 1, 2, 3, 15))) for atom in source.sample(range(6), source.choice((1, 2, 4, 6)))]
        mixed = source.sample(records + given, len(records + given))
        run = by_definition(f"weights: random policy {changed}", mixed, request, *shown)
        if run.printed != by_definition("without", records, request, *shown).printed:
            changed += 1
            yield run


def runs():
    first = marked, policies_refused, second_weights, files, without_request, requests, odd_bytes, after_closing
    for some in (*first, levels, several_rounds, weights, at_random, weighed_at_random):
        yield from some()
