#!/usr/bin/env python3
"""The pairs of logs of the program `log_cases` and the answers to them, from document 02 and not from our code; and the stored run of
`compare_logs`.

    scripts/log_cases.py            write crates/log_cases/stdin and stdout, and crates/compare_logs/args, data and stdout
    scripts/log_cases.py --check    say whether these files are what the script makes

stdin, for each pair, with numbers of two bytes, little-endian:
    how long the start of the line is, how long the start and the first log are together, and how long all three are
    the start of the line (the name of the case, a colon and a blank), the first log, the second
stdout: the line of each pair, with the answer.

Answers are written by hand, but for those of the random pairs; the script stops unless logs.py gives the same.
"""
import collections
import itertools
import random
import struct
import sys

from logs import ASK, DENY, GRANT, Entry, compared, log
from stored import stored

Case = collections.namedtuple("Case", "name first second said")
GRANTS, DENIES, ASKS = Entry(0, GRANT, 0, 1), Entry(0, DENY, 0, 1), Entry(0, ASK, 1, 1)
# One of each answer, the last two again.
FIVE = [
    Entry(0x0000, ASK, 0x0004, 1),
    Entry(0x8001, ASK, 0x0300, 2),
    Entry(0x0300, GRANT, 0, 3),
    Entry(0x00FF, DENY, 0, 1),
    Entry(0xFFFF, ASK, 0xFFFF, 255),
]
PLACES = ("first", 0), ("middle", 2), ("last", 4)
# What 11 tests, each fault alone.
FAULTS = {
    "answer 0": GRANTS._replace(answer=0),
    "answer 4": GRANTS._replace(answer=4),
    "pad": DENIES._replace(pad=b"\1\0"),
    "last byte": DENIES._replace(pad=b"\0\1"),
    "ask nothing": ASKS._replace(asked=0),
    "grant a set": GRANTS._replace(asked=0x0100),
    "deny a set": DENIES._replace(asked=0x0001),
}


def at(place, entry, entries=FIVE):
    """The log with this record in its place."""
    return log([*entries[:place], entry, *entries[place + 1 :]])


def both_ways(name, one, other, said, turned=None):
    yield Case(f"{name}, first", one, other, said)
    yield Case(f"{name}, second", other, one, turned or said)


def lengths():
    sixteen = log(FIVE[:2])
    for length in (0, 1, 7, 8, 9, 15, 16, 17):
        made = log(FIVE)[:length]
        refused = "refused 10" if length % 8 else None
        yield Case(f"{length} bytes, both", made, made, refused or "agree")
        against = "agree" if length == 16 else f"part {length // 8}"
        yield from both_ways(f"{length} bytes against 16", made, sixteen, refused or against)


def answers():
    for answer, asked in itertools.product((0, 1, 2, 3, 4, 255), (0x0000, 0x0001, 0x0100, 0xFFFF)):
        sound = answer == 3 and asked or answer in (1, 2) and not asked
        made = log([Entry(0, answer, asked, 1)])
        name = f"answer {answer} asked {asked:04x}"
        yield Case(f"{name}, both", made, made, "agree" if sound else "refused 11")
        for word, other, same in (("grant", GRANTS, (1, 0)), ("ask", ASKS, (3, 1))):
            said = "agree" if (answer, asked) == same else "part 0"
            yield from both_ways(f"{name} against {word}", made, log([other]), said if sound else "refused 11")


def pads():
    for (word, entry), place, byte in itertools.product((("grant", GRANTS), ("deny", DENIES), ("ask", ASKS)), (6, 7), (0, 1, 128, 255)):
        pad = bytes([byte, 0]) if place == 6 else bytes([0, byte])
        said = "refused 11" if byte else "agree"
        yield from both_ways(f"{word}, byte {place} is {byte}", log([entry._replace(pad=pad)]), log([entry]), said)


def asked_bits():
    """Each credential alone, asked with each answer; and each as the only one in which two questions differ."""
    for bit in range(16):
        for word, answer in (("ask", ASK), ("grant", GRANT), ("deny", DENY)):
            made = log([Entry(0, answer, 1 << bit, 1)])
            yield Case(f"{word} {1 << bit:04x}", made, made, "agree" if answer == ASK else "refused 11")
        one, other = (log([ASKS._replace(asked=asked)]) for asked in (0xFFFF, 0xFFFF ^ 1 << bit))
        yield from both_ways(f"ask all but {1 << bit:04x}", one, other, "part 0")


def two_faults():
    """"The first log is tested first, 10 before 11"."""
    fine = log(FIVE)
    for name, broken in FAULTS.items():
        eleven = at(2, broken)
        logs = {"fine": fine, "10": fine[:-1], "11": eleven, "10 and 11": eleven + b"\1"}
        said = {"fine": None, "10": "refused 10", "11": "refused 11", "10 and 11": "refused 10"}
        for one, other in itertools.product(logs, logs):
            yield Case(f"{name}: {one} against {other}", logs[one], logs[other], said[one] or said[other] or "agree")
    for name, broken in itertools.combinations(FAULTS, 2):
        yield Case(f"{name} against {broken}", at(1, FAULTS[name]), at(3, FAULTS[broken]), "refused 11")
    yield from both_ways("10 by a record at fault", fine, fine + log([FAULTS["answer 0"]])[:3], "refused 10")
    yield from both_ways("11 behind the part", at(0, DENIES), at(4, FAULTS["pad"]), "refused 11")
    yield from both_ways("11 before the part", at(4, DENIES), at(0, FAULTS["pad"]), "refused 11")
    yield from both_ways("11 past the other's end", log(FIVE[:1]), at(4, FAULTS["pad"]), "refused 11")
    yield from both_ways("11 against an empty log", b"", at(4, FAULTS["pad"]), "refused 11")
    yield from both_ways("10 against an empty log", b"", fine[:39], "refused 10")
    yield from both_ways("10 behind the part", at(0, DENIES), fine[:39], "refused 10")
    yield from both_ways("10 past the other's end", log(FIVE[:1]), fine[:39], "refused 10")


def fault_places():
    for (name, broken), (word, place) in itertools.product(FAULTS.items(), PLACES):
        yield from both_ways(f"{name} in the {word} record", at(place, broken), log(FIVE), "refused 11")


def ends():
    """"the shorter log's end counts"."""
    yield Case("empty, both", b"", b"", "agree")
    for word, entry in (("grant", GRANTS), ("deny", DENIES), ("ask", ASKS)):
        yield from both_ways(f"empty against {word}", b"", log([entry]), "part 0")
        yield from both_ways(f"{word} against it twice", log([entry]), log([entry] * 2), "part 1")
    for count in range(5):
        yield from both_ways(f"{count} of five records", log(FIVE[:count]), log(FIVE), f"part {count}")


def partings():
    places = [(f"{word} record", place) for word, place in PLACES]
    for word, place in places:
        for name, one, other in (
            ("answer", GRANTS, DENIES),
            ("low byte", ASKS, ASKS._replace(asked=2)),
            ("high byte", ASKS._replace(asked=0x0101), ASKS._replace(asked=0x8001)),
            ("bytes swapped", ASKS._replace(asked=0x0201), ASKS._replace(asked=0x0102)),
            ("ask and grant", ASKS, GRANTS),
            ("ask and deny", ASKS, DENIES),
        ):
            yield from both_ways(f"{name} in the {word}", at(place, one), at(place, other), f"part {place}")
    for one, other in itertools.combinations(range(5), 2):
        twice = log([DENIES if place in (one, other) else entry for place, entry in enumerate([ASKS] * 5)])
        yield from both_ways(f"part in {one} and {other}", twice, log([ASKS] * 5), f"part {one}")
    yield from both_ways("part in 1, then the end", at(1, DENIES)[:24], log(FIVE), "part 1")
    yield from both_ways("two records swapped", log([FIVE[0], FIVE[2], FIVE[1]]), log(FIVE[:3]), "part 1")


def unseen():
    """Shown set and count are not looked at."""
    for word, place in PLACES:
        for name, changed in (("shown", {"shown": 1}), ("shown", {"shown": 0x8000}), ("count", {"count": 77}), ("both", {"shown": 0xABCD, "count": 0})):
            other = at(place, FIVE[place]._replace(**changed))
            value = " ".join(f"{value:04x}" for value in changed.values())
            yield from both_ways(f"{name} {value} in the {word} record", log(FIVE), other, "agree")
    every = log(Entry(byte + 256 * (255 - byte), GRANT, 0, byte) for byte in range(256))
    yield from both_ways("every shown byte and count", every, log([GRANTS] * 256), "agree")
    turned = log(Entry(256 * byte, DENY, 0, 255 - byte) for byte in range(256))
    yield from both_ways("every high byte and count", turned, log([DENIES] * 256), "agree")
    asked = log(Entry(0, ASK, byte + 256 * (255 - byte), 0) for byte in range(256))
    yield Case("every asked byte", asked, asked, "agree")


def long_logs():
    some = [FIVE[place * place % 5]._replace(shown=place, count=place % 256) for place in range(300)]
    other = [entry._replace(shown=0, count=255 - entry.count) for entry in some]
    yield Case("300 records, both the same", log(some), log(some), "agree")
    yield from both_ways("300 records", log(some), log(other), "agree")
    for word, place in (("last", 299), ("256th", 255), ("257th", 256)):
        made = at(place, DENIES if some[place].answer != DENY else GRANTS, other)
        yield Case(f"300 records, the {word} parts", log(some), made, f"part {place}")
        yield Case(f"300 records, the {word} at fault", log(some), at(place, FAULTS["last byte"], other), "refused 11")
    yield from both_ways("300 records, 299 of them", log(some), log(other[:299]), "part 299")


def some_entry(source):
    answer = source.choice((GRANT, DENY, ASK, ASK))
    asked = source.choice((1 << source.randrange(16), source.randrange(1, 1 << 16))) if answer == ASK else 0
    return Entry(source.randrange(1 << 16), answer, asked, source.randrange(256))


def changed(source, entries):
    """A log that agrees, parts or is refused."""
    made = [entry._replace(shown=source.randrange(1 << 16), count=source.randrange(256)) for entry in entries]
    place = source.randrange(len(made)) if made else None
    way = source.choice(("same", "same", "another", "shorter", "fault", "fault", "byte", "cut"))
    if way == "another" and made:
        made[place] = some_entry(source)
    elif way == "fault" and made:
        made[place] = source.choice(list(FAULTS.values()))
    elif way == "shorter":
        made = made[:place]
    bytes_of_log = bytearray(log(made))
    if way == "byte" and made:
        bytes_of_log[8 * place + source.randrange(8)] ^= 1 << source.randrange(8)
    elif way == "cut":
        bytes_of_log += bytes(source.randrange(256) for _ in range(source.randrange(1, 8)))
    return bytes(bytes_of_log)


def at_random():
    """400 pairs from a fixed seed, each answer at least 40 times."""
    source, came = random.Random(2), collections.Counter()
    for place in range(400):
        entries = [some_entry(source) for _ in range(source.choice((0, 1, 2, 3, 5, 8, 13)))]
        one = log(entries) if source.random() < 0.6 else changed(source, entries)
        other = changed(source, entries)
        said = compared(one, other)
        came[said if said[0] == "r" else said.split()[0]] += 1
        yield Case(f"pair {place}", one, other, said)
    if len(came) != 4 or min(came.values()) < 40:
        sys.exit(f"the random pairs come to {dict(came)}")


def cases():
    for some in (lengths, answers, pads, asked_bits, two_faults, fault_places, ends, partings, unseen, long_logs, at_random):
        yield from some()


def given(case):
    """The bytes of a case."""
    start = f"{case.name}: ".encode()
    numbers = len(start), len(start) + len(case.first), len(start) + len(case.first) + len(case.second)
    return struct.pack("<3H", *numbers) + start + case.first + case.second


def stored_run():
    """Two boards' logs of a session of 17 rounds. They show and count otherwise in record 3, and part in record 8."""
    one = [Entry(0, ASK, 1 << k, k + 1) for k in range(16)] + [Entry(0, DENY, 0, 17)]
    other = [*one]
    other[3] = other[3]._replace(shown=0x1000, count=5)
    other[8] = other[8]._replace(asked=0x0200)
    other[9:] = [Entry(0x0200, GRANT, 0, 10)]
    made = {"args": b"first.log\nsecond.log\n", "data/first.log": log(one), "data/second.log": log(other), "stdout": b"part 8\n"}
    if f"{compared(log(one), log(other))}\n".encode() != made["stdout"]:
        sys.exit("the stored run is not what it says")
    return [(f"crates/compare_logs/{name}", text) for name, text in made.items()]


def main():
    made = list(cases())
    names = collections.Counter(case.name for case in made)
    for case in made:
        if names[case.name] > 1:
            sys.exit(f"{case.name}: comes twice")
        if compared(case.first, case.second) != case.said:
            sys.exit(f"{case.name}: {case.said} by hand, {compared(case.first, case.second)} by the definitions")
    lines = "".join(f"{case.name}: {case.said}\n" for case in made)
    files = ("stdin", b"".join(map(given, made))), ("stdout", lines.encode())
    return stored([*((f"crates/log_cases/{name}", text) for name, text in files), *stored_run()])


sys.exit(main())
