"""Document 02's logs (R-1), from its definitions and not from our code.

A record is shown set, answer, asked set, count and the two last bytes; a log is bytes.
"""
import collections

GRANT, DENY, ASK = 1, 2, 3
Entry = collections.namedtuple("Entry", "shown answer asked count pad", defaults=(b"\0\0",))


def written(entry):
    """A record's 8 bytes."""
    shown, asked = (number.to_bytes(2, "little") for number in (entry.shown, entry.asked))
    return shown + bytes([entry.answer]) + asked + bytes([entry.count]) + entry.pad


def log(entries):
    return b"".join(map(written, entries))


def records(bytes_of_log):
    """The whole records of a log."""
    for at in range(0, len(bytes_of_log) - 7, 8):
        record = bytes_of_log[at : at + 8]
        shown, asked = (int.from_bytes(record[place : place + 2], "little") for place in (0, 3))
        yield Entry(shown, record[2], asked, record[5], record[6:])


def is_broken(entry):
    """"answer outside 1 to 3, pad not zero, or an asked set empty with 3 or not empty without it"."""
    if entry.answer not in (GRANT, DENY, ASK) or entry.pad != b"\0\0":
        return True
    return (entry.answer == ASK) == (entry.asked == 0)


def refusal(bytes_of_log):
    """10, 11 or None: "10 before 11"."""
    if len(bytes_of_log) % 8:
        return 10
    return 11 if any(map(is_broken, records(bytes_of_log))) else None


def divergence(first, second):
    """"the first record, from 0, where they part (the shorter log's end counts)", or None."""
    ours, theirs = ([(entry.answer, entry.asked) for entry in records(one)] for one in (first, second))
    for place in range(max(len(ours), len(theirs))):
        if ours[place : place + 1] != theirs[place : place + 1]:
            return place
    return None


def compared(first, second):
    """What is printed of two logs: "The first log is tested first"."""
    for one in (first, second):
        number = refusal(one)
        if number:
            return f"refused {number}"
    place = divergence(first, second)
    return "agree" if place is None else f"part {place}"
