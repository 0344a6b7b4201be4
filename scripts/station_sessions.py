"""Runs of the program `station`: a policy file, the input, and what has to be printed, from documents 01 and 02 and not from our code.

The input is records of five bytes: 1 for an opening, 2 for a round or 3 for a preview of one, the slot, the owner, and two bytes for the
request or the shown set, lower byte first. A record that begins otherwise is passed over, and a last incomplete one counts for nothing.
Each operation prints the slot's number and "opened", "refused" with its number, or the bench program's line of a round; a preview has the
word "preview" after the slot's number, and then what the round would print. Most lines are written by hand; the others are worked out by
tables.py.
"""
import random

from bench_sessions import (
    ALWAYS_16, BROKEN, OWN_17, POLICY_B, ROUNDS_A, SHOWN_A, Run, access, counting_as_empty, disclosure, link_to, looped, piped,
    some_policy, some_rounds, written,
)
from rounds import POLICY_A, weight, whole
from tables import open_at, preview_at, round_at

OPEN, ROUND, PREVIEW = 1, 2, 3
SLOTS = 64


def record(operation, slot, owner, word):
    return bytes([operation, slot, owner]) + word.to_bytes(2, "little")


def opening(slot, owner=1, request=16):
    return record(OPEN, slot, owner, request)


def rounds(slot, *shown, owner=0):
    """A round for each shown set."""
    return b"".join(record(ROUND, slot, owner, given) for given in shown)


def previews(slot, *shown, owner=0):
    """A preview for each shown set."""
    return b"".join(record(PREVIEW, slot, owner, given) for given in shown)


def at(slot, *lines):
    return "".join(f"{slot} {line}\n" for line in lines)


def told(said, shown, session):
    """What is printed of a round, after the slot's number; the session, where it is not refused, as the round leaves it."""
    return said if said.startswith("refused") else f"round {session.count} got {shown:04x} {said}"


def played_at(policy, slots, slot, shown):
    """What is printed of a round, after the slot's number, and the table."""
    said, slots = round_at(policy, slots, slot, shown)
    session = None if said.startswith("refused") else slots[slot].session
    return told(said, shown, session), slots


def line_of(policy, slots, given):
    """The line of a record, and the table after it."""
    operation, slot, owner, word = *given[:3], int.from_bytes(given[3:], "little")
    if operation == OPEN:
        said, slots = open_at(slots, slot, owner, word)
        return at(slot, said), slots
    if operation == ROUND:
        said, slots = played_at(policy, slots, slot, word)
        return at(slot, said), slots
    if operation == PREVIEW:
        said, session = preview_at(policy, slots, slot, word)
        return at(slot, f"preview {told(said, word, session)}"), slots
    return "", slots


def printed(policy, given):
    """What has to be printed, by definition."""
    slots, lines = [None] * SLOTS, ""
    for place in range(0, len(given) - 4, 5):
        line, slots = line_of(policy, slots, given[place : place + 5])
        lines += line
    return lines


def by_hand(name, policy, *pairs, left=b""):
    """A run whose records and lines are given, each in pairs; the policy as records, or as the file."""
    file = written(policy) if isinstance(policy, list) else policy
    return Run(name, file, b"".join(given for given, _ in pairs) + left, "".join(lines for _, lines in pairs))


def by_definition(name, records, given):
    return Run(name, written(records), given, printed(whole(records), given))


def opened(slot, owner=1, request=16):
    return opening(slot, owner, request), at(slot, "opened")


def refused(slot, numbered, owner=1, request=16):
    return opening(slot, owner, request), at(slot, f"refused {numbered}")


def played(slot, shown, *lines):
    return rounds(slot, *shown), at(slot, *lines)


def previewed(slot, shown, *lines, owner=0):
    """Previews, by what the rounds would print."""
    return previews(slot, *shown, owner=owner), at(slot, *(f"preview {line}" for line in lines))


def shown_first(slot, shown, lines):
    """Rounds, each previewed before it is played."""
    return [pair for given, line in zip(shown, lines) for pair in (previewed(slot, (given,), line), played(slot, (given,), line))]


def marked():
    """Document 01's three rounds at a slot, and others between."""
    for slot in (0, 1, 9, 10, 62, 63):
        yield by_hand(f"the three rounds at slot {slot}", POLICY_A, opened(slot), played(slot, SHOWN_A, *ROUNDS_A))
    both = [(given, line) for given, line in zip(SHOWN_A, ROUNDS_A) for _ in range(2)]
    turns = [played(3 + 4 * (place % 2), (given,), line) for place, (given, line) in enumerate(both)]
    yield by_hand("the three rounds at two slots in turn", POLICY_A, opened(3, 1), opened(7, 2), *turns)
    yield by_hand("the three rounds at two slots of one owner", POLICY_A, opened(3, 1), opened(7, 1), *turns)
    again = opened(5), played(5, SHOWN_A, *ROUNDS_A), played(5, (0,), "refused 9")
    yield by_hand("the three rounds twice at one slot", POLICY_A, *again, *again)
    yield by_hand("(j) policy B", POLICY_B, opened(0), played(0, (0, 1), "round 1 got 0000 ask 0003", "round 2 got 0001 deny"))
    yield by_hand("owner of a round unread", POLICY_A, opened(0, 9), (rounds(0, 0, owner=77), at(0, ROUNDS_A[0])))


# What previews say of a fresh session and of a waiting one under policy A, for several sets.
OF_FRESH = {
    0: ROUNDS_A[0],
    1: "round 1 got 0001 ask 0002",
    3: "round 1 got 0003 grant",
    4: "round 1 got 0004 grant",
    5: "round 1 got 0005 deny",
    8: "round 1 got 0008 ask 0003",
    0x8000: "round 1 got 8000 ask 0004",
    0xFFFF: "round 1 got ffff deny",
}
OF_WAITING = {
    0: ROUNDS_A[1],
    1: "round 2 got 0001 ask 0002",
    3: "round 2 got 0003 grant",
    4: "round 2 got 0004 grant",
    5: "round 2 got 0005 deny",
    0xFFFF: "round 2 got ffff deny",
}


def previewed_rounds():
    """Each round previewed, once or often; previews that are not played; other slots, and who owns them, untouched."""
    for slot in (0, 9, 10, 63):
        yield by_hand(f"the three rounds at slot {slot}, each previewed", POLICY_A, opened(slot), *shown_first(slot, SHOWN_A, ROUNDS_A))
    fresh, waiting = previewed(7, OF_FRESH, *OF_FRESH.values()), previewed(7, OF_WAITING, *OF_WAITING.values())
    first, second, third = (played(7, (given,), line) for given, line in zip(SHOWN_A, ROUNDS_A))
    closed = previewed(7, (0, 3, 0xFFFF), *["refused 9"] * 3)
    last = previewed(7, [3] * 3, *[ROUNDS_A[2]] * 3)
    yield by_hand("previews of every phase", POLICY_A, opened(7), fresh, first, waiting, second, last, third, closed)
    yield by_hand("previews alone, of a fresh session", POLICY_A, opened(7), *[fresh] * 4)
    grant, denied = previewed(7, (4,), OF_FRESH[4]), played(7, (5,), OF_FRESH[5])
    yield by_hand("a grant previewed and another set shown", POLICY_A, opened(7), grant, denied, closed)
    yield by_hand("previews of a slot taken anew", POLICY_A, opened(7), denied, closed, opened(7, 2), fresh, first, waiting)
    empty = previewed(7, (16, 0), "refused 8", "refused 8", owner=1)
    yield by_hand("a preview opens nothing", POLICY_A, empty, opened(7), fresh, refused(7, 15), first)
    four = [opened(slot) for slot in (0, 21, 42, 63)]
    grants = [previewed(slot, (3,), OF_FRESH[3]) for slot in (0, 21, 42, 63)]
    closing = played(21, (3,), OF_FRESH[3]), opened(1), refused(2, 16)
    yield by_hand("a grant that is only previewed ends nothing", POLICY_A, *four, *grants, refused(1, 16), refused(0, 15), *closing)
    for owner in (0, 1, 16, 255):
        pairs = previewed(8, (0, 4), ROUNDS_A[0], OF_FRESH[4], owner=owner), previewed(9, (0,), "refused 8", owner=owner)
        yield by_hand(f"owner {owner} of a preview unread", POLICY_A, opened(8, 1), *pairs, played(8, (0,), ROUNDS_A[0]))


def previews_refused():
    """14 past the end, 8 at an empty slot, 9 at a closed one; and a policy's refusal before them."""
    yield by_hand("every slot past the end, previewed", POLICY_A, *(previewed(slot, (0, 3), *["refused 14"] * 2) for slot in range(64, 256)))
    yield by_hand("every slot, empty, previewed", POLICY_A, *(previewed(slot, (0, 3), *["refused 8"] * 2) for slot in range(64)))
    for name, shown, line in (("granted", 4, OF_FRESH[4]), ("denied", 5, OF_FRESH[5])):
        yield by_hand(f"a {name} slot, previewed", POLICY_A, opened(8), played(8, (shown,), line), previewed(8, OF_FRESH, *["refused 9"] * 8))
    for name, policy, said in (("17 if not 17", [OWN_17], "refused 6 at 1"), ("a loop with not", looped((17, 18), 0), "refused 6 at 2")):
        pairs = played(0, (0,), said), previewed(0, (0, 4), said, said), *(previewed(slot, (0xFFFF,), said) for slot in (63, 64, 255))
        yield by_hand(f"{name}, played and previewed", policy, *pairs, opened(0), *pairs, refused(0, 15), opened(63), *pairs)


def openings_refused():
    for request in (0, 1, 15, 63, 64, 80, 255, 256, 272, 4096, 65535):
        yield by_hand(f"request {request}", POLICY_A, refused(0, 7, request=request), played(0, (0,), "refused 8"), opened(0))
        yield by_hand(f"request {request}, slot 64", POLICY_A, refused(64, 7, request=request))
    for request in (16, 17, 40, 61, 62):
        yield by_hand(f"request {request}", [access(request)], opened(0, 1, request), played(0, (0,), "round 1 got 0000 grant"))
    past = [refused(slot, 14) for slot in range(64, 256)]
    yield by_hand("every slot past the end, opened", POLICY_A, *past, opened(0))
    yield by_hand("every slot past the end, played", POLICY_A, *(played(slot, (0,), "refused 14") for slot in range(64, 256)))
    yield by_hand("every slot, empty", POLICY_A, *(played(slot, (0, 3), "refused 8", "refused 8") for slot in range(64)))
    waiting = opened(8, 1), played(8, (0,), ROUNDS_A[0])
    for owner in (0, 1, 2, 255):
        yield by_hand(f"a fresh slot, again by {owner}", POLICY_A, opened(8, 1), refused(8, 15, owner), played(8, (0,), ROUNDS_A[0]))
        yield by_hand(f"a waiting slot, again by {owner}", POLICY_A, *waiting, refused(8, 15, owner), played(8, (0,), ROUNDS_A[1]))
        taken = opened(8, owner), played(8, SHOWN_A, *ROUNDS_A)
        yield by_hand(f"a granted slot, taken by {owner}", POLICY_A, opened(8, 1), played(8, SHOWN_A, *ROUNDS_A), *taken)
        yield by_hand(f"a denied slot, taken by {owner}", POLICY_A, opened(8, 1), played(8, (5,), "round 1 got 0005 deny"), *taken)


def fours():
    """16, and what counts."""
    for owner, other in ((0, 1), (1, 0), (7, 8), (255, 0)):
        four = [opened(slot, owner) for slot in (0, 21, 42, 63)]
        name = f"owner {owner}"
        yield by_hand(f"{name}: a fifth", POLICY_A, *four, refused(1, 16, owner), opened(1, other), played(1, (0,), ROUNDS_A[0]))
        yield by_hand(f"{name}: a fifth, 15 and 14 and 7", POLICY_A, *four, refused(0, 15, owner), refused(64, 14, owner), refused(1, 7, owner, 63))
        for slot in (0, 21, 42, 63):
            closing = played(slot, SHOWN_A, *ROUNDS_A)
            waits = played(slot, (0,), ROUNDS_A[0]), refused(1, 16, owner)
            yield by_hand(f"{name}: a fifth once {slot} is closed", POLICY_A, *four, closing, opened(1, owner), refused(2, 16, owner))
            yield by_hand(f"{name}: {slot} itself once closed", POLICY_A, *four, closing, opened(slot, owner), refused(2, 16, owner))
            yield by_hand(f"{name}: {slot} taken by {other}", POLICY_A, *four, closing, opened(slot, other), opened(2, owner), refused(3, 16, owner))
            yield by_hand(f"{name}: {slot} waits", POLICY_A, *four, *waits)
    full = [opened(slot, slot // 4) for slot in range(64)]
    more = [refused(slot, 15, slot // 4) for slot in range(64)]
    ends = [played(slot, (3,), "round 1 got 0003 grant") for slot in range(64)]
    yield by_hand("64 sessions", POLICY_A, *full, *more, *ends, *full[::-1])
    closed = [pair for slot in range(6) for pair in (opened(slot), played(slot, (3,), "round 1 got 0003 grant"))]
    yield by_hand("six closed ones and four", POLICY_A, *closed, *(opened(slot) for slot in range(4)), refused(4, 16))


def passed_over():
    """Other operations, and a last incomplete record."""
    others = b"".join(record(byte, 0, 1, 16) for byte in range(256) if byte not in (OPEN, ROUND, PREVIEW))
    first, second = opened(0), played(0, (0,), ROUNDS_A[0])
    shown = previewed(0, (3,), OF_FRESH[3])
    yield by_hand("every other operation alone", POLICY_A, (others, ""))
    yield by_hand("every other operation between", POLICY_A, (others, ""), first, (others, ""), second, (others, ""))
    yield by_hand("every other operation around a preview", POLICY_A, first, (others, ""), shown, (others, ""), second)
    yield by_hand("ones that look like operations", POLICY_A, (bytes([0, 1, 2, 1, 2]) * 7, ""), first, (bytes([255, 2, 0, 0, 2]), ""), second)
    like = bytes([4, 3, 0, 3, 3]) + bytes([0, 3, 3, 3, 3]) + bytes([131, 0, 3, 0, 0]) + bytes([255, 3, 0, 0, 3])
    yield by_hand("ones that look like previews", POLICY_A, (like, ""), first, (like, ""), shown, (like, ""), second)
    for count in range(1, 5):
        for piece in (opening(1)[:count], rounds(0, 0)[:count], previews(0, 0)[:count], b"\xff" * count, bytes(count)):
            yield by_hand(f"{count} bytes {piece.hex()} alone", POLICY_A, left=piece)
            yield by_hand(f"{count} bytes {piece.hex()} at the end", POLICY_A, first, second, left=piece)
            yield by_hand(f"{count} bytes {piece.hex()} at the end, policy refused", [OWN_17], first, left=piece)
    for name, policy in (("good", POLICY_A), ("refused", [OWN_17]), ("missing", None), ("too long", bytes(2305))):
        yield by_hand(f"no input, policy {name}", policy)


def policies_refused():
    """The policy's refusal at every round, before 14 and 8; openings do not look at it."""
    for place, (number, broken) in enumerate(BROKEN):
        before = (0, 1, 9, 100, 127)[place % 5]
        records = [ALWAYS_16] * before + [broken] + [ALWAYS_16] * (127 - before)
        kind, head, positive, negated = broken
        said = f"refused {number} at {128 if number == 6 else before}"
        pairs = opened(0), played(0, (0, 0), said, said), played(1, (0,), said), played(64, (0,), said), refused(0, 15), opened(1)
        shown = [previewed(slot, (0, 4), said, said) for slot in (0, 1, 2, 64, 255)]
        name = f"kind {kind} head {head} if {sorted(positive)} not {sorted(negated)} at record {before}"
        yield by_hand(name, records, *pairs)
        yield by_hand(f"{name}, previewed", records, *shown, *pairs, *shown)
    one = weight(0, 5)
    shown = [previewed(slot, (3,), "refused 13 at 1") for slot in (0, 64)]
    yield by_hand("13 at record 1, previewed", [one, one], *shown, opened(0), *shown)
    yield by_hand("13 at record 1", [one, one], opened(0), played(0, (0,), "refused 13 at 1"), refused(64, 14), played(64, (0,), "refused 13 at 1"))
    for length in (1, 17, 19, 2303, 2305, 2322, 4096):
        said = "refused 1 at 128" if length > 2304 else f"refused 2 at {length // 18}"
        file = written([ALWAYS_16] * (length // 18 + 1))[:length]
        yield by_hand(f"{length} bytes", file, played(0, (0,), said), opened(0), played(0, (0,), said), refused(0, 15))
        shown = [previewed(slot, (0,), said) for slot in (0, 63, 64)]
        yield by_hand(f"{length} bytes, previewed", file, *shown, opened(0), *shown, played(0, (0,), said), refused(0, 15))


def files():
    """What policy.bin may be."""
    for name, policy in counting_as_empty().items():
        pairs = opened(2), played(2, (0, 0), "round 1 got 0000 deny", "refused 9"), played(3, (0,), "refused 8"), opened(2, 2)
        yield by_hand(f"policy.bin {name}", policy, *pairs)
        denied = previewed(2, (0, 0xFFFF), "round 1 got 0000 deny", "round 1 got ffff deny")
        closed = previewed(2, (0,), "refused 9"), previewed(3, (0,), "refused 8")
        yield by_hand(f"policy.bin {name}, previewed", policy, opened(2), denied, pairs[1], *closed, opened(2), denied)
    in_pieces = piped(written(POLICY_A)[:20], written(POLICY_A)[20:])
    yield by_hand("policy.bin in two pieces", in_pieces, opened(0), played(0, SHOWN_A, *ROUNDS_A))
    yield by_hand("policy.bin without end", link_to("/dev/zero"), opened(0), played(0, (0,), "refused 1 at 128"))
    full = [ALWAYS_16] * 126 + [access(40, [3]), disclosure(3)]
    asked = "round 1 got 0000 ask 0008", "round 2 got 0008 grant"
    yield by_hand("2304 bytes", full, opened(0, 1, 40), played(0, (0, 8), *asked))
    yield by_hand("2304 bytes, previewed", full, opened(0, 1, 40), *shown_first(0, (0, 8), asked))


def long():
    """17 rounds at several slots in turn, and many records."""
    ways = list(map(disclosure, range(16))) + [access(16, [atom]) for atom in range(16)]
    lines = [f"round {k + 1} got 0000 ask {1 << k:04x}" for k in range(16)] + ["round 17 got 0000 deny", "refused 9"]
    slots = 0, 31, 63
    turns = [played(slot, (0,), line) for line in lines for slot in slots]
    yield by_hand("17 rounds at three slots in turn", ways, *map(opened, slots), *turns)
    yield by_hand("17 rounds, each previewed", ways, opened(31), *shown_first(31, [0] * 18, lines))
    many = 20_000
    yield by_hand(f"{many} refused", POLICY_A, opened(0), *[refused(0, 15), refused(64, 14)] * (many // 2))
    whole_turn = opened(63, 255), played(63, (3, 3), "round 1 got 0003 grant", "refused 9")
    yield by_hand("a slot opened 2000 times", POLICY_A, *whole_turn * 2000)
    shown = previewed(63, (0, 3), OF_FRESH[0], OF_FRESH[3])
    yield by_hand("a slot previewed 2000 times", POLICY_A, opened(63), *[shown] * 1000, played(63, SHOWN_A, *ROUNDS_A))


def some_records(source):
    """Forty records, few slots and owners."""
    slots, owners = source.sample([*range(64)], 7), source.sample(range(256), source.choice((1, 1, 2)))
    for _ in range(40):
        slot = source.choice([*slots, *slots, source.randrange(256)])
        if source.random() < 0.45:
            yield opening(slot, source.choice(owners), source.choice((16, 16, 24, 24, 24, source.randrange(65536))))
        elif source.random() < 0.95:
            yield rounds(slot, source.choice(some_rounds(source)), owner=source.choice(owners))
        else:
            yield source.randbytes(5)


def at_random():
    """120 lists from a fixed seed."""
    source = random.Random(5)
    for place in range(120):
        given = b"".join(some_records(source)) + source.randbytes(source.randrange(5))
        yield by_definition(f"random list {place}", some_policy(source), given)


def with_previews(source, records):
    """The same records, previews before some of them: of that round, or of any slot there and any set."""
    slots = [given[1] for given in records]
    for given in records:
        if given[0] == ROUND and source.random() < 0.5:
            yield bytes([PREVIEW, given[1], source.randrange(256), *given[3:]])
        for _ in range(source.choice((0, 0, 1, 2))):
            yield previews(source.choice(slots), source.choice(some_rounds(source)), owner=source.randrange(256))
        yield given


def without_previews(lines):
    return [line for line in lines.splitlines() if " preview " not in line]


def previewed_at_random():
    """60 lists more, previews among the records; the other lines have to be those of the list without."""
    source = random.Random(6)
    for place in range(60):
        records, policy = list(some_records(source)), some_policy(source)
        run = by_definition(f"random previews {place}", policy, b"".join(with_previews(source, records)))
        assert without_previews(run.printed) == without_previews(printed(whole(policy), b"".join(records)))
        yield run


def runs():
    kinds = marked, previewed_rounds, previews_refused, openings_refused, fours, passed_over, policies_refused, files, long
    for some in (*kinds, at_random, previewed_at_random):
        yield from some()
