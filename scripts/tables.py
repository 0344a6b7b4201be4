"""Document 02's tables of slots (R-5, R-6), from its definitions and not from our code. What the paper calls a seat is a slot here.

A slot is None where it is empty, or else its owner and session, or else the twelve bytes themselves where they stand for no slot; a table
is a list of slots. As bytes, an empty slot is twelve zeros, and another has the owner, a byte 1 and the ten bytes of the session.
"""
import collections

from rounds import EMPTY, Session, accepted_round, credentials, is_service, number, refusal, tested

Held = collections.namedtuple("Held", "owner session")
PHASES = "fresh", "waiting", "closed granted", "closed denied"
MOST_SLOTS = 64
MOST_UNFINISHED = 4


def fresh(request):
    return Session(request, EMPTY, EMPTY, 0, ("fresh", EMPTY))


def two_bytes(some):
    return some.to_bytes(2, "little")


def session_bytes(session):
    """The ten bytes of a session."""
    word, question = session.phase
    sets = b"".join(two_bytes(number(some)) for some in (session.shown, session.declined))
    return two_bytes(session.request) + sets + bytes([session.count, PHASES.index(word)]) + two_bytes(number(question))


def read_session(some):
    """The session that ten bytes stand for, or None."""
    request, shown, declined, question = (int.from_bytes(some[at : at + 2], "little") for at in (0, 2, 4, 8))
    if some[7] >= len(PHASES) or (question and PHASES[some[7]] != "waiting"):
        return None
    return Session(request, credentials(shown), credentials(declined), some[6], (PHASES[some[7]], credentials(question)))


def slot_bytes(slot):
    if slot is None:
        return bytes(12)
    return bytes([slot.owner, 1]) + session_bytes(slot.session) if isinstance(slot, Held) else slot


def read_slot(some):
    if not any(some):
        return None
    session = read_session(some[2:])
    return some if some[1] != 1 or session is None else Held(some[0], session)


def table_bytes(slots):
    return b"".join(map(slot_bytes, slots))


def read_table(some):
    """The whole slots of a table."""
    return [read_slot(some[at : at + 12]) for at in range(0, len(some) - 11, 12)]


def is_unfinished(slot):
    """Whether a slot holds "an unfinished session (fresh or waiting)"."""
    return isinstance(slot, Held) and slot.session.phase[0] in ("fresh", "waiting")


def unfinished_of(slots, owner):
    """How many such an owner has: "Seats past the 64th are never read"."""
    return sum(is_unfinished(slot) and slot.owner == owner for slot in slots[:MOST_SLOTS])


def is_outside(slots, place):
    """"14, the seat's number, from 0, is past the list's end or above 63"."""
    return place >= len(slots) or place > 63


def with_slot(slots, place, slot):
    return [*slots[:place], slot, *slots[place + 1 :]]


def open_at(slots, place, owner, request):
    """What an opening says, and the table: "Opening tests 7, 14, 15, 16"; of bytes that are no slot, 8 before 15."""
    if not is_service(request):
        return "refused 7", slots
    if is_outside(slots, place):
        return "refused 14", slots
    if isinstance(slots[place], bytes):
        return "refused 8", slots
    if is_unfinished(slots[place]):
        return "refused 15", slots
    if unfinished_of(slots, owner) >= MOST_UNFINISHED:
        return "refused 16", slots
    return "opened", with_slot(slots, place, Held(owner, fresh(request)))


def round_at(policy, slots, place, shown):
    """What a round says, and the table: "a round tests the policy, 14, then an empty seat as 8, then the session as before."."""
    said = tested(policy)
    if said != "accepted":
        return said, slots
    if is_outside(slots, place):
        return "refused 14", slots
    if not isinstance(slots[place], Held):
        return "refused 8", slots
    owner, session = slots[place]
    turned_back = refusal(session)
    if turned_back:
        return f"refused {turned_back}", slots
    said, session = accepted_round(policy.records, session, credentials(shown))
    return said, with_slot(slots, place, Held(owner, session))


def preview_at(policy, slots, place, shown):
    """What a preview says, and the session that it gives or None: "those of the same round on a copy of the list, refusals included"."""
    said, copy = round_at(policy, list(slots), place, shown)
    # "where the seat is empty or one that 14 refuses, no session is given"; nor is there one in bytes that are no slot.
    if is_outside(slots, place) or not isinstance(slots[place], Held):
        return said, None
    return said, copy[place].session


def preview_bytes(slots, place, session):
    """The twelve bytes of a preview: the slot as the round would leave it, or zeros where no session is given."""
    return slot_bytes(None if session is None else Held(slots[place].owner, session))
