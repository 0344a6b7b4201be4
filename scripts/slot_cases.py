#!/usr/bin/env python3
"""The cases of the program `slot_cases` and the answers to them, from document 02 (R-5, tables of slots, and R-6, previews) and not from our
code.

    scripts/slot_cases.py            write crates/slot_cases/stdin and crates/slot_cases/stdout
    scripts/slot_cases.py --check    say whether these two files are what the script makes

stdin, for each case, with numbers of several bytes little-endian:
    how long the start of the line, the policy and the table are, of two bytes each
    the operation (1 an opening, 2 a round, 3 a preview of a round; one byte), the slot (four), the owner (one; only an opening looks at it),
    and the request or the shown set (two)
    the start of the line (the name of the case, a colon and a blank), the policy, the table
stdout: the line of each case: the start, the answer, a blank, and the bytes of the table afterwards as hexadecimal digits; of a preview then
a blank and its twelve bytes in the same way, the slot as the round would leave it, or zeros where no session is given.

Answers and what previews give are written by hand, but for those of the random cases; the script stops unless tables.py gives the same, and
unless only the slot that is named changes, and that only where nothing is refused and never by a preview. A round at the same table has to
say what the preview says and to leave what it gives.
"""
import collections
import itertools
import random
import struct
import sys

from bench_sessions import ALWAYS_16, OWN_17, written
from rounds import EMPTY, POLICY_A, Policy, Session, credentials, weight, whole
from stored import stored
from tables import PHASES, Held, fresh, open_at, preview_at, preview_bytes, read_slot, read_table, round_at, slot_bytes, table_bytes

# table: bytes; slot, owner and word: what the operation names, the word being the request or the shown set; preview: what one gives, as bytes.
Case = collections.namedtuple("Case", "name policy table operation slot owner word said preview", defaults=[b""])
OPEN, ROUND, PREVIEW = 1, 2, 3
OWNER, OTHER = 7, 9
A = whole(POLICY_A)
NO_SLOT = b"\2" * 12


def session(request, shown, declined, count, word, question=0):
    return Session(request, credentials(shown), credentials(declined), count, (word, credentials(question)))


FRESH = fresh(16)
WAITING = session(16, 0, 0, 1, "waiting", 4)
GRANTED = session(16, 4, 0, 1, "closed granted")
DENIED = session(16, 5, 0, 1, "closed denied")
THIRD = session(16, 0, 4, 2, "waiting", 3)
UNSOUND = {
    "fresh with count 1": session(16, 0, 0, 1, "fresh"),
    "fresh with 0 shown": session(16, 1, 0, 0, "fresh"),
    "fresh with 0 declined": session(16, 0, 1, 0, "fresh"),
    "waiting for nothing": session(16, 0, 0, 1, "waiting"),
    "waiting with count 0": session(16, 0, 0, 0, "waiting", 4),
    "waiting with count 2": session(16, 0, 0, 2, "waiting", 4),
    "waiting for what is shown": session(16, 4, 0, 1, "waiting", 4),
    "waiting for what is declined": session(16, 0, 4, 1, "waiting", 4),
}
NO_SERVICE = {
    "fresh for 15": fresh(15),
    "fresh for 63": fresh(63),
    "fresh for 272": fresh(272),
    "fresh for 0": fresh(0),
    "waiting for 65535": session(65535, 0, 0, 1, "waiting", 4),
}
CLOSED = {
    "granted": GRANTED,
    "denied": DENIED,
    "granted in round 17": session(62, 0xFFFF, 0, 17, "closed granted"),
    "denied, count 0": session(16, 0, 0, 0, "closed denied"),
    "granted, count 18": session(16, 0xFFFF, 0, 18, "closed granted"),
    "denied for 15": session(15, 0, 0, 1, "closed denied"),
}


def bytes_with(slot, place, byte):
    return slot[:place] + bytes([byte]) + slot[place + 1 :]


def no_slots(owner):
    """Bytes that stand for no slot, the owner's where they have one."""
    some = slot_bytes(Held(owner, FRESH))
    for place in (0, *range(2, 12)):
        yield f"empty, but byte {place} is 1", bytes_with(bytes(12), place, 1)
    yield "empty, but for the owner", bytes([owner or 1]) + bytes(11)
    for held in (0, 2, 3, 128, 255):
        yield f"fresh, held {held}", bytes_with(some, 1, held)
    yield "waiting, held 2", bytes_with(slot_bytes(Held(owner, WAITING)), 1, 2)
    yield "granted, held 0", bytes_with(slot_bytes(Held(owner, GRANTED)), 1, 0)
    yield "granted, held 2", bytes_with(slot_bytes(Held(owner, GRANTED)), 1, 2)
    for phase in (4, 5, 128, 129, 255):
        yield f"phase {phase}", bytes_with(some, 9, phase)
    for word, one in (("fresh", FRESH), ("granted", GRANTED), ("denied", DENIED)):
        for place in (10, 11):
            yield f"{word}, byte {place} is 1", bytes_with(slot_bytes(Held(owner, one)), place, 1)


def table(slots, filled=(), left=b""):
    """So many slots, some of them filled, and bytes left over."""
    return table_bytes([dict(filled).get(place) for place in range(slots)]) + left


def opens(name, said, some, slot, owner=OWNER, request=16):
    return Case(f"open: {name}", A, some, OPEN, slot, owner, request, said)


def plays(name, said, some, slot, shown=0, policy=A):
    return Case(f"round: {name}", policy, some, ROUND, slot, 0, shown, said)


def shows(name, said, preview, some, slot, shown=0, policy=A):
    """A preview, which gives a slot; None where no session is given. The owner is not looked at."""
    return Case(f"preview: {name}", policy, some, PREVIEW, slot, 0xEE, shown, said, slot_bytes(preview))


def held_at(places, owner=OWNER, one=FRESH):
    return {place: Held(owner, one) for place in places}


# ---- openings


def requests():
    for request in (0, 1, 15, 16, 17, 61, 62, 63, 64, 255, 256, 272, 318, 0x1000, 0x3E00, 0xFFFF):
        said = "opened" if 16 <= request <= 62 else "refused 7"
        yield opens(f"request {request}", said, table(2), 1, request=request)
    for owner in (0, 1, 127, 128, 255):
        yield opens(f"owner {owner}", "opened", table(2), 0, owner)


LENGTHS = 0, 1, 5, 63, 64, 65, 70
PLACES = 0, 4, 5, 62, 63, 64, 69, 70, 255, 256, 65536, 0x0100003F, 0xFFFFFFFF


def outside(slots, place):
    return place >= min(slots, 64)


def places_opened():
    for slots, place in itertools.product(LENGTHS, PLACES):
        yield opens(f"slot {place} of {slots}", "refused 14" if outside(slots, place) else "opened", table(slots), place)
    for place in (64, 65, 69):
        for word, one in (("fresh", FRESH), ("waiting", WAITING), ("granted", GRANTED)):
            some = table(70, held_at([place], OTHER, one))
            yield opens(f"slot {place} of 70, {word}", "refused 14", some, place)
        yield opens(f"slot {place} of 70, no slot", "refused 14", table(70, {place: NO_SLOT}), place)


def left_over():
    """Bytes at the end that are no whole slot."""
    start = slot_bytes(Held(OWNER, FRESH))
    for count in (1, 2, 5, 10, 11):
        for word, left in (("zeros", bytes(count)), ("any", b"\xa5" * count), ("a session's", start[:count])):
            yield opens(f"{count} bytes left over, {word}, past the end", "refused 14", table(1, left=left), 1)
            yield opens(f"{count} bytes left over, {word}", "opened", table(1, left=left), 0)
            yield plays(f"{count} bytes left over, {word}, past the end", "refused 14", table(1, left=left), 1)
        three = held_at((0, 1, 2))
        yield opens(f"three sessions and {count} bytes of a fourth", "opened", table(4, three, start[:count]), 3)
    for count in (1, 11):
        yield opens(f"63 slots and {count} bytes", "refused 14", table(63, left=bytes(count)), 63)
        yield opens(f"64 slots and {count} bytes", "opened", table(64, left=bytes(count)), 63)
        yield plays(f"{count} bytes", "refused 14", bytes(count), 0)
        yield opens(f"{count} bytes", "refused 14", bytes(count), 0)


def occupied():
    """15, and what may be taken over."""
    for (word, one), owner in itertools.product((("fresh", FRESH), ("waiting", WAITING)), (0, OWNER, OTHER, 255)):
        yield opens(f"{word}, by {owner}", "refused 15", table(5, held_at([2], OWNER, one)), 2, owner)
    for word, one in (*UNSOUND.items(), *NO_SERVICE.items()):
        yield opens(f"unsound, {word}", "refused 15", table(3, held_at([1], OTHER, one)), 1)
    for (word, one), owner in itertools.product(CLOSED.items(), (0, OWNER, 255)):
        yield opens(f"{word}, taken by {owner}", "opened", table(3, held_at([1], OWNER, one)), 1, owner)
    yield opens("twelve zeros but for held", "refused 15", table(3, held_at([1], 0, fresh(0))), 1)


FOURS = (
    ((0, 1, 2), "opened"),
    ((0, 1, 2, 3), "refused 16"),
    ((0, 1, 2, 4), "refused 16"),
    ((1, 2, 3, 4, 6), "refused 16"),
    ((61, 62, 63), "opened"),
    ((60, 61, 62, 63), "refused 16"),
    ((0, 21, 42, 63), "refused 16"),
    ((1, 21, 42, 63), "refused 16"),
    ((0, 21, 42, 62), "refused 16"),
    ((0, 21, 42, 64), "opened"),
    ((0, 21, 63, 64), "opened"),
    ((0, 21, 63, 69), "opened"),
    ((0, 21, 42, 63, 64), "refused 16"),
    ((0, 63, 64, 65, 66, 67), "opened"),
    ((64, 65, 66, 67), "opened"),
    ((64, 65, 66, 67, 68, 69), "opened"),
    ((0, 1, 2, 3, 4, 6, 7, 8), "refused 16"),
)


def counted():
    """16: how many, and where."""
    for (places, said), (word, one) in itertools.product(FOURS, (("fresh", FRESH), ("waiting", WAITING))):
        name = f"{word} at {' '.join(map(str, places))}"
        yield opens(name, said, table(70, held_at(places, OWNER, one)), 5)
        yield opens(f"{name}, of another owner", "opened", table(70, held_at(places, OTHER, one)), 5)
    for owner in (0, 1, 255):
        yield opens(f"four of owner {owner}", "refused 16", table(5, held_at(range(4), owner)), 4, owner)
        yield opens(f"three of owner {owner}", "opened", table(5, held_at(range(3), owner)), 4, owner)
        yield opens(f"four of owner {owner}, opened by another", "opened", table(5, held_at(range(4), owner)), 4, owner ^ 128)
        yield opens(f"owner {owner}, a table of empty ones", "opened", table(64), 63, owner)
    mixed = {**held_at((0, 2)), **held_at((1, 3), OWNER, WAITING)}
    yield opens("two fresh and two waiting", "refused 16", table(5, mixed), 4)
    yield opens("three and three of another owner", "opened", table(7, {**held_at(range(3)), **held_at((3, 4, 5), OTHER)}), 6)
    for place in range(4):
        yield opens(f"four, each other but {place}", "opened", table(5, {**held_at(range(4)), **held_at([place], OTHER)}), 4)


def counted_kinds():
    """16: what counts besides three fresh ones."""
    three = held_at((0, 1, 2))
    for word, one in (*UNSOUND.items(), *NO_SERVICE.items()):
        yield opens(f"three and one {word}", "refused 16", table(5, {**three, 3: Held(OWNER, one)}), 4)
        yield opens(f"four {word}", "refused 16", table(5, held_at(range(4), OWNER, one)), 4)
    for word, one in CLOSED.items():
        yield opens(f"three and one {word}", "opened", table(5, {**three, 3: Held(OWNER, one)}), 4)
        yield opens(f"three and one {word}, taken over", "opened", table(5, {**three, 3: Held(OWNER, one)}), 3)
        yield opens(f"three and five {word}", "opened", table(9, {**three, **held_at(range(3, 8), OWNER, one)}), 8)
        yield opens(f"five {word}", "opened", table(6, held_at(range(5), OWNER, one)), 5)
        yield opens(f"four and one {word}, taken over", "refused 16", table(5, {**held_at(range(4)), 4: Held(OWNER, one)}), 4)
        yield opens(f"four and one of another {word}, taken over", "refused 16", table(5, {**held_at(range(4)), 4: Held(OTHER, one)}), 4)
    for word, some in no_slots(OWNER):
        yield opens(f"three and one no slot, {word}", "opened", table(5, {**three, 3: some}), 4)
        yield opens(f"four and one no slot, {word}", "refused 16", table(6, {**held_at(range(4)), 4: some}), 5)
    for word, some in no_slots(0):
        yield opens(f"owner 0, three and one no slot, {word}", "opened", table(5, {**held_at((0, 1, 2), 0), 3: some}), 4, 0)
    yield opens("owner 0, three and twelve zeros but for held", "refused 16", table(5, {**held_at((0, 1, 2), 0), 3: Held(0, fresh(0))}), 4, 0)


def unreadable():
    """Openings at bytes that are no slot."""
    for word, some in no_slots(OWNER):
        yield opens(f"no slot, {word}", "refused 8", table(3, {1: some}), 1)
        yield opens(f"no slot, {word}, and 16", "refused 8", table(5, {**held_at(range(4)), 4: some}), 4)
        yield plays(f"no slot, {word}", "refused 8", table(3, {1: some}), 1)


def pairs_opened():
    """"Opening tests 7, 14, 15, 16"; 8 after 14 and before 15."""
    four, five = held_at(range(4)), held_at(range(5))
    for request in (15, 63):
        yield opens(f"7 and 14, request {request}", "refused 7", table(5), 5, request=request)
        yield opens(f"7 and 14, request {request}, slot 64 of 70", "refused 7", table(70), 64, request=request)
        yield opens(f"7 and 14, request {request}, no slots", "refused 7", b"", 0, request=request)
        yield opens(f"7 and 8, request {request}", "refused 7", table(5, {2: NO_SLOT}), 2, request=request)
        yield opens(f"7 and 15, request {request}", "refused 7", table(5, four), 0, OTHER, request)
        yield opens(f"7 and 16, request {request}", "refused 7", table(5, four), 4, request=request)
        yield opens(f"7, 14 and 16, request {request}", "refused 7", table(5, five), 5, request=request)
        yield opens(f"7, 15 and 16, request {request}", "refused 7", table(5, four), 0, request=request)
    yield opens("14 and 16", "refused 14", table(5, five), 5)
    yield opens("14 and 16, slot 64 of 70", "refused 14", table(70, five), 64)
    yield opens("14, 15 and 16, slot 64 of 70", "refused 14", table(70, held_at((0, 1, 2, 3, 64))), 64)
    yield opens("14, 8 and 16, slot 64 of 70", "refused 14", table(70, {**five, 64: NO_SLOT}), 64)
    yield opens("8 and 16", "refused 8", table(5, {**four, 4: NO_SLOT}), 4)
    yield opens("15 and 16", "refused 15", table(5, four), 0)
    yield opens("15 and 16, of another owner", "refused 15", table(6, {**four, **held_at([4], OTHER)}), 4)
    yield opens("15 and 16, five", "refused 15", table(5, five), 4)
    yield opens("16 alone, the slot granted", "refused 16", table(5, {**four, **held_at([4], OWNER, GRANTED)}), 4)
    for word, policy in (("17 if not 17", whole([OWN_17])), ("17 bytes", Policy(17, [ALWAYS_16])), ("2,305 bytes", Policy(2305, [ALWAYS_16] * 129))):
        yield opens(f"the policy is not tested, {word}", "opened", table(2), 0)._replace(policy=policy)
        yield opens(f"the policy is not tested, {word}, 15", "refused 15", table(5, four), 0)._replace(policy=policy)


# ---- rounds

REFUSED = {
    "refused 1 at 128": Policy(2305, [ALWAYS_16] * 129),
    "refused 2 at 0": Policy(17, [ALWAYS_16]),
    "refused 3 at 1": whole([ALWAYS_16, (4, 0, set(), set())]),
    "refused 4 at 0": whole([(1, 15, set(), set())]),
    "refused 5 at 0": whole([(1, 16, {63}, set())]),
    "refused 6 at 2": whole([OWN_17, ALWAYS_16]),
    "refused 12 at 0": whole([weight(0, 16)]),
    "refused 13 at 1": whole([weight(0, 1), weight(0, 1)]),
}


def policies_played():
    """"a round tests the policy, 14, then an empty seat as 8, then the session as before"."""
    for said, policy in REFUSED.items():
        filled = {0: Held(1, FRESH), 2: Held(1, GRANTED), 3: NO_SLOT, 4: Held(1, fresh(15))}
        slots = ("fresh", 0), ("empty", 1), ("closed", 2), ("no slot", 3), ("request 15", 4), ("14", 5), ("14", 64)
        for word, slot in slots:
            yield plays(f"{said}, slot {slot}, {word}", said, table(5, filled), slot, policy=policy)
        yield plays(f"{said}, no slots", said, b"", 0, policy=policy)


def places_played():
    for slots, place in itertools.product(LENGTHS, PLACES):
        yield plays(f"slot {place} of {slots}", "refused 14" if outside(slots, place) else "refused 8", table(slots), place)
    for place in (0, 1, 62, 63, 64, 65, 69):
        said = "refused 14" if place > 63 else "ask"
        yield plays(f"slot {place} of 70, fresh", said, table(70, held_at([place])), place)
        yield plays(f"slot {place} of 70, granted", "refused 14" if place > 63 else "refused 9", table(70, held_at([place], OWNER, GRANTED)), place)
        yield plays(f"slot {place} of 70, no slot", "refused 14" if place > 63 else "refused 8", table(70, {place: NO_SLOT}), place)


def turned_back():
    """The session's 7, 8 and 9, and an empty slot before them."""
    for word, one in NO_SERVICE.items():
        yield plays(word, "refused 7", table(3, held_at([1], OWNER, one)), 1)
    for word, one in UNSOUND.items():
        yield plays(word, "refused 8", table(3, held_at([1], OWNER, one)), 1)
    said = {"denied, count 0": "refused 8", "granted, count 18": "refused 8", "denied for 15": "refused 7"}
    for word, one in CLOSED.items():
        yield plays(word, said.get(word, "refused 9"), table(3, held_at([1], OWNER, one)), 1)
    yield plays("empty, and not request 0", "refused 8", table(3, held_at((0, 2))), 1)
    yield plays("twelve zeros but for held", "refused 7", table(3, held_at([1], 0, fresh(0))), 1)


# What a round finds, what is shown, what it says, and what it leaves.
ENDINGS = (
    ("fresh, asked", FRESH, 0, "ask", WAITING),
    ("fresh, 15 shown", FRESH, 0x8000, "ask", session(16, 0x8000, 0, 1, "waiting", 4)),
    ("fresh, 0 shown", FRESH, 1, "ask", session(16, 1, 0, 1, "waiting", 2)),
    ("fresh, granted", FRESH, 4, "grant", GRANTED),
    ("fresh, denied", FRESH, 5, "deny", DENIED),
    ("fresh, all shown", FRESH, 0xFFFF, "deny", session(16, 0xFFFF, 0, 1, "closed denied")),
    ("waiting, asked", WAITING, 0, "ask", THIRD),
    ("waiting, granted", WAITING, 4, "grant", session(16, 4, 0, 2, "closed granted")),
    ("waiting, 3 shown", WAITING, 8, "ask", session(16, 8, 4, 2, "waiting", 3)),
    ("waiting, 2 and 3 shown", WAITING, 12, "deny", session(16, 12, 0, 2, "closed denied")),
    ("the third round", THIRD, 3, "grant", session(16, 3, 4, 3, "closed granted")),
    ("the third round, denied", THIRD, 1, "deny", session(16, 1, 6, 3, "closed denied")),
    ("request 17", fresh(17), 0xFFFF, "deny", session(17, 0xFFFF, 0, 1, "closed denied")),
    ("the 17th round", session(16, 0xFFF0, 13, 16, "waiting", 2), 2, "deny", session(16, 0xFFF2, 13, 17, "closed denied")),
)
OTHERS = [Held(1, FRESH), Held(2, WAITING), None, Held(OWNER, GRANTED), NO_SLOT, Held(0, DENIED), Held(OWNER, WAITING), b"\0\2" + bytes(10)]


def among(slot, place):
    """A table with this slot, other slots of every kind around it, and bytes left over."""
    return table_bytes(OTHERS[:place] + [slot] + OTHERS[place:]) + b"\xee\xee"


def endings():
    """Each ending, at the first slot, between and at the last, other slots of every kind around it."""
    for (word, one, shown, said, _), place in itertools.product(ENDINGS, (0, 4, 8)):
        yield plays(f"{word}, slot {place}", said, among(Held(OWNER, one), place), place, shown)
    for owner in (0, 1, 128, 255):
        for (word, one, shown, said, _) in ENDINGS[:4]:
            yield plays(f"{word}, of owner {owner}", said, table(2, held_at([1], owner, one)), 1, shown)
    full = table(64, held_at(range(64)))
    for place in (0, 31, 63):
        yield plays(f"64 of one owner, slot {place}", "ask", full, place)
    yield plays("one slot", "grant", table(1, held_at([0])), 0, 3)
    always = whole([ALWAYS_16])
    yield plays("16 always", "grant", table(2, held_at([1])), 1, 0, always)
    yield plays("no policy", "deny", table(2, held_at([1])), 1, 0xFFFF, whole([]))
    heavy = whole([*POLICY_A, weight(2, 3)])
    yield plays("2 weighs 3", "ask", table(2, held_at([1])), 1, 0, heavy)


# ---- previews


def places_previewed():
    """At each place: of empty tables, of one slot that holds a session, and of tables that hold one at every slot."""
    for slots, place in itertools.product(LENGTHS, PLACES):
        yield shows(f"slot {place} of {slots}", "refused 14" if outside(slots, place) else "refused 8", None, table(slots), place)
    kinds = ("fresh", FRESH, "ask", WAITING), ("waiting", WAITING, "ask", THIRD), ("granted", GRANTED, "refused 9", GRANTED)
    for place, (word, one, said, left) in itertools.product((0, 1, 62, 63, 64, 65, 69), kinds):
        named, some = place < 64, table(70, held_at([place], OTHER, one))
        yield shows(f"slot {place} of 70, {word}", said if named else "refused 14", Held(OTHER, left) if named else None, some, place)
    for place in (0, 1, 62, 63, 64, 65, 69):
        yield shows(f"slot {place} of 70, no slot", "refused 14" if place > 63 else "refused 8", None, table(70, {place: NO_SLOT}), place)
    for slots, place in itertools.product((1, 5, 64, 70), (0, 1, 4, 5, 63, 64, 69, 70, 128, 255, 256, 65536, 65599, 0x0100003F, 1 << 31, 0xFFFFFFFF)):
        named, some = not outside(slots, place), table(slots, {each: Held(each + 1, FRESH) for each in range(slots)})
        name = f"slot {place} of {slots}, all held"
        yield shows(name, "ask" if named else "refused 14", Held(place + 1, WAITING) if named else None, some, place)


def left_over_previewed():
    """Bytes at the end that are no whole slot."""
    start = slot_bytes(Held(OWNER, FRESH))
    for count in (1, 2, 5, 10, 11):
        for word, left in (("zeros", bytes(count)), ("any", b"\xa5" * count), ("a session's", start[:count])):
            name = f"{count} bytes left over, {word}"
            yield shows(name, "grant", Held(OWNER, GRANTED), table(1, held_at([0]), left), 0, 4)
            yield shows(f"{name}, past the end", "refused 14", None, table(1, held_at([0]), left), 1)
    for count in (1, 11):
        yield shows(f"63 slots and {count} bytes", "refused 14", None, table(63, held_at([62]), start[:count]), 63)
        yield shows(f"64 slots and {count} bytes", "ask", Held(OWNER, WAITING), table(64, held_at([63]), start[:count]), 63)
        yield shows(f"64 slots and {count} bytes, past the end", "refused 14", None, table(64, held_at([63]), start[:count]), 64)
        yield shows(f"{count} bytes", "refused 14", None, start[:count], 0)


def turned_back_previewed():
    """7, 8 and 9, each with the slot's own session; of an empty slot, and of bytes that are no slot, none."""
    said = {"denied, count 0": "refused 8", "granted, count 18": "refused 8", "denied for 15": "refused 7"}
    said |= dict.fromkeys(NO_SERVICE, "refused 7") | dict.fromkeys(UNSOUND, "refused 8")
    sessions = [*NO_SERVICE.items(), *UNSOUND.items(), *CLOSED.items()]
    for (word, one), owner, shown in itertools.product(sessions, (0, OWNER), (0, 0xFFFF)):
        some = table(3, held_at([1], owner, one))
        yield shows(f"{word}, of {owner}, {shown:04x} shown", said.get(word, "refused 9"), Held(owner, one), some, 1, shown)
    for shown in (0, 4, 0xFFFF):
        yield shows(f"empty, {shown:04x} shown", "refused 8", None, table(3, held_at((0, 2))), 1, shown)
        yield shows(f"twelve zeros but for held, {shown:04x} shown", "refused 7", Held(0, fresh(0)), table(3, held_at([1], 0, fresh(0))), 1, shown)
    for owner in (0, OWNER):
        for word, some in no_slots(owner):
            yield shows(f"no slot, of {owner}, {word}", "refused 8", None, table(3, {**held_at((0, 2)), 1: some}), 1, 4)


# Every kind of slot.
KINDS = {
    "fresh": Held(1, FRESH),
    "waiting": Held(2, WAITING),
    "granted": Held(0, GRANTED),
    "denied": Held(255, DENIED),
    "unsound": Held(3, UNSOUND["waiting for nothing"]),
    "request 15": Held(4, fresh(15)),
    "twelve zeros but for held": Held(0, fresh(0)),
    "empty": None,
    "no slot": NO_SLOT,
    "granted, held 2": bytes_with(slot_bytes(Held(5, GRANTED)), 1, 2),
    "phase 4": bytes_with(slot_bytes(Held(6, FRESH)), 9, 4),
}


def own(slot):
    """What a refused preview gives: the slot's own session, or none."""
    return slot if isinstance(slot, Held) else None


def policies_previewed():
    """A refused policy first of all: with the slot's own session, or with none where it is empty, no slot or past the end."""
    some = table_bytes(KINDS.values())
    for said, policy in REFUSED.items():
        for place, (word, slot) in enumerate(KINDS.items()):
            yield shows(f"{said}, {word}", said, own(slot), some, place, 4, policy)
        for place in (len(KINDS), 64, 0xFFFFFFFF):
            yield shows(f"{said}, slot {place}", said, None, some, place, policy=policy)
        yield shows(f"{said}, no slots", said, None, b"", 0, policy=policy)
        for place in (63, 64, 69):
            held = table(70, held_at((63, 64, 69), OTHER, WAITING))
            yield shows(f"{said}, slot {place} of 70", said, Held(OTHER, WAITING) if place == 63 else None, held, place, policy=policy)
    six, said = whole([OWN_17]), "refused 6 at 1"
    for word, one in (*UNSOUND.items(), *NO_SERVICE.items(), *CLOSED.items()):
        yield shows(f"{said}, {word}", said, Held(OWNER, one), table(2, held_at([1], OWNER, one)), 1, 0xFFFF, six)
    for word, slot in no_slots(OWNER):
        yield shows(f"{said}, no slot, {word}", said, None, table(2, {1: slot}), 1, 0xFFFF, six)
    yield shows(f"{said}, empty", said, None, table(2), 1, 0xFFFF, six)
    yield shows(f"{said}, past the end", said, None, table(2), 2, 0xFFFF, six)


def endings_previewed():
    """Each ending, where endings() has it."""
    for (word, one, shown, said, left), place in itertools.product(ENDINGS, (0, 4, 8)):
        yield shows(f"{word}, slot {place}", said, Held(OWNER, left), among(Held(OWNER, one), place), place, shown)
    for owner, (word, one, shown, said, left) in itertools.product((0, 1, 128, 255), ENDINGS):
        yield shows(f"{word}, of owner {owner}", said, Held(owner, left), table(2, held_at([1], owner, one)), 1, shown)
    full = table(64, held_at(range(64)))
    for place in (0, 31, 63):
        yield shows(f"64 of one owner, slot {place}", "ask", Held(OWNER, WAITING), full, place)
    one = Held(OWNER, session(16, 3, 0, 1, "closed granted"))
    yield shows("one slot", "grant", one, table(1, held_at([0])), 0, 3)
    always = Held(OWNER, session(16, 0, 0, 1, "closed granted"))
    yield shows("16 always", "grant", always, table(2, held_at([1])), 1, 0, whole([ALWAYS_16]))
    denied = Held(OWNER, session(16, 0xFFFF, 0, 1, "closed denied"))
    yield shows("no policy", "deny", denied, table(2, held_at([1])), 1, 0xFFFF, whole([]))
    heavy = Held(OWNER, session(16, 0, 0, 1, "waiting", 3))
    yield shows("2 weighs 3", "ask", heavy, table(2, held_at([1])), 1, 0, whole([*POLICY_A, weight(2, 3)]))


# What a first round says of each set of 0 to 3, and asks for.
FIRST = [
    ("ask", 4), ("ask", 2), ("ask", 1), ("grant", 0), ("grant", 0), ("deny", 0), ("grant", 0), ("deny", 0),
    ("ask", 3), ("ask", 2), ("ask", 1), ("grant", 0), ("deny", 0), ("deny", 0), ("deny", 0), ("deny", 0),
]
# The same of a second one, in which 2 is asked for; of a third one in which 0 and 1 are, and of each set of 0 to 2.
SECOND = [("ask", 3), *FIRST[1:]]
LAST = [("deny", 0), ("deny", 0), ("deny", 0), ("grant", 0), ("grant", 0), ("deny", 0), ("grant", 0), ("deny", 0)]
PHASE_OF = {"ask": "waiting", "grant": "closed granted", "deny": "closed denied"}


def shown_sets():
    """Each set that is shown, alone and with credentials that no rule has."""
    for more in (0, 0xFFF0):
        for shown, (said, question) in enumerate(FIRST):
            left = session(16, shown | more, 0, 1, PHASE_OF[said], question)
            yield shows(f"fresh, {shown | more:04x} shown", said, Held(OWNER, left), table(1, held_at([0])), 0, shown | more)
        for shown, (said, question) in enumerate(SECOND):
            left = session(16, shown | more, 4 & ~shown, 2, PHASE_OF[said], question)
            yield shows(f"waiting, {shown | more:04x} shown", said, Held(OWNER, left), table(1, held_at([0], OWNER, WAITING)), 0, shown | more)
        for shown, (said, question) in enumerate(LAST):
            left = session(16, shown | more, 4 | 3 & ~shown, 3, PHASE_OF[said], question)
            yield shows(f"the third, {shown | more:04x} shown", said, Held(OWNER, left), table(1, held_at([0], OWNER, THIRD)), 0, shown | more)


# ---- at random


def some_session(source):
    sets = [source.choice((0, 0, source.getrandbits(4), source.getrandbits(16))) for _ in range(2)]
    word = source.choice(PHASES)
    question = source.choice((0, 3, 4, 4)) if word == "waiting" else 0
    count = source.choice((0, 1, 1, 1, 2))
    return session(source.choice((16, 16, 16, 17, 15, 63)), *sets, count, word, question)


def some_slot(source, owners):
    if source.random() < 0.3:
        return None
    if source.random() < 0.1:
        return source.choice([some for _, some in no_slots(source.choice(owners))])
    good = source.choice((FRESH, FRESH, WAITING, WAITING, GRANTED, DENIED))
    return Held(source.choice(owners), good if source.random() < 0.8 else some_session(source))


def some_place(source):
    """A table, the number of a slot, mostly of one there, and an owner."""
    owners = source.sample((0, 1, OWNER, 255), source.choice((1, 2)))
    slots = source.choice((1, 5, 6, 8, 9, 12))
    some = table_bytes([some_slot(source, owners) for _ in range(slots)]) + source.randbytes(source.choice((0, 0, 5)))
    return some, source.choice((*range(slots), *range(slots), slots, 64)), source.choice(owners)


def some_play(source):
    """What a round shows, and the policy."""
    policy = A if source.random() < 0.8 else source.choice([*REFUSED.values()])
    return source.choice((0, 3, 4, 5, source.getrandbits(4))), policy


def by_definition(case):
    """A case as the definitions answer it."""
    said, _, preview = answered(case)
    return case._replace(said=said, preview=preview)


def often(words, wanted):
    """Stops where one that is wanted comes less than five times."""
    came = collections.Counter(words)
    if any(came[word] < 5 for word in wanted):
        sys.exit(f"the random cases come to {dict(came)}")


def short(said):
    """An answer without the record's number."""
    return " ".join(said.split()[:2])


def at_random():
    """500 openings and rounds from a fixed seed, each answer at least five times."""
    source, made = random.Random(16), []
    for place in range(500):
        some, slot, owner = some_place(source)
        if source.random() < 0.5:
            case = opens(f"random case {place}", None, some, slot, owner, source.choice((16, 17, 62, 62, 62, 63)))
        else:
            case = plays(f"random case {place}", None, some, slot, *some_play(source))
        made.append(by_definition(case))
    often((short(case.said) for case in made), ["opened", "grant", "deny", "ask", *(f"refused {number}" for number in (7, 8, 9, 14, 15, 16))])
    return made


def previews_at_random():
    """300 previews from a fixed seed, each answer at least five times, and a refused policy with a session and without."""
    source, made = random.Random(6), []
    for place in range(300):
        some, slot, owner = some_place(source)
        case = shows(f"random case {place}", None, None, some, slot, *some_play(source))
        made.append(by_definition(case._replace(owner=owner)))
    often((short(case.said) for case in made), ["grant", "deny", "ask", *(f"refused {number}" for number in (7, 8, 9, 14))])
    often((any(case.preview) for case in made if " at " in case.said), [True, False])
    return made


# ---- all


def answered(case):
    """What an operation says, the table's bytes after it, and the twelve bytes of a preview."""
    slots, preview = read_table(case.table), b""
    if case.operation == OPEN:
        said, slots = open_at(slots, case.slot, case.owner, case.word)
    elif case.operation == ROUND:
        said, slots = round_at(case.policy, slots, case.slot, case.word)
    else:
        said, one = preview_at(case.policy, slots, case.slot, case.word)
        preview = preview_bytes(slots, case.slot, one)
    after = table_bytes(slots)
    return said.split()[0] if said.startswith("ask") else said, after + case.table[len(after) :], preview


def chosen():
    openings = requests, places_opened, left_over, occupied, counted, counted_kinds, unreadable, pairs_opened
    for some in (*openings, policies_played, places_played, turned_back, endings):
        yield from some()


def previews():
    for some in (places_previewed, left_over_previewed, turned_back_previewed, policies_previewed, endings_previewed, shown_sets):
        yield from some()


def cases():
    for some in (chosen, at_random, previews, previews_at_random):
        yield from some()


def followed(case):
    """What a round says at a preview's table, and the slot that it leaves; zeros where this is none that holds a session."""
    said, after, _ = answered(case._replace(operation=ROUND))
    slot = after[12 * case.slot : 12 * case.slot + 12]
    named = case.slot < 64 and len(slot) == 12
    return said, slot if named and isinstance(read_slot(slot), Held) else bytes(12)


def is_left_right(case, said, after):
    """Whether only the slot that is named changes, and that exactly where nothing is refused; and nothing by a preview."""
    first = 12 * case.slot
    before, behind = case.table[:first] == after[:first], case.table[first + 12 :] == after[first + 12 :]
    changes = case.operation != PREVIEW and not said.startswith("refused")
    return before and behind and changes == (after != case.table)


def line(case):
    """The line of a case; stops where the definitions say otherwise, where something else changes, or where the round of a preview differs."""
    said, after, preview = answered(case)
    if (said, preview) != (case.said, case.preview):
        sys.exit(f"{case.name}: {case.said} {case.preview.hex()} by hand, {said} {preview.hex()} by the definitions")
    if not is_left_right(case, said, after):
        sys.exit(f"{case.name}: the table is not as it should be")
    if case.operation != PREVIEW:
        return f"{case.name}: {said} {after.hex()}\n"
    if (said, preview) != followed(case):
        sys.exit(f"{case.name}: the round says or leaves something else")
    return f"{case.name}: {said} {after.hex()} {preview.hex()}\n"


def given(case):
    """The bytes of a case."""
    start = f"{case.name}: ".encode()
    policy = written(case.policy.records)[: case.policy.length]
    lengths = struct.pack("<3H", len(start), len(policy), len(case.table))
    return lengths + struct.pack("<BIBH", case.operation, case.slot, case.owner, case.word) + start + policy + case.table


def main():
    made = list(cases())
    for name, count in collections.Counter(case.name for case in made).items():
        if count > 1:
            sys.exit(f"{name}: comes twice")
    lines = "".join(map(line, made))
    files = ("stdin", b"".join(map(given, made))), ("stdout", lines.encode())
    return stored((f"crates/slot_cases/{name}", text) for name, text in files)


sys.exit(main())
