#!/usr/bin/env python3
"""Small random policies, most with weights, with the question that another solver prefers in the first round.

    scripts/solver_questions.py            write crates/questions/stdin and crates/questions/stdout
    scripts/solver_questions.py --check    say whether these two files are what the script makes

Needs `clingo` and `clasp` (Debian's packages gringo and clasp; made with 5.4.1 and 3.3.5). The policies come from a fixed seed, each with
a request and a set of credentials that are shown. Two solvers get the access rules, with those shown as facts, the request as needed and
63 as forbidden: where they find a model, the answer is grant. Else those that may be asked for, which the solvers find too, are free to
choose, and what has to be least is told as levels (document 02, R-2): the weights of those chosen, then their count, then their number.
The script stops unless both solvers prove the same optimum, and that it is the only one, or that there is no model. It has no reading of
model or preference of its own. It prints to standard error how many vectors have each shape, and stops if one is rare.

stdin, for each vector: the request, the shown set and the length of the policy, 2 bytes each, little-endian; and the policy.
stdout: a line for each vector, as the program `questions` prints it.
"""
import collections
import struct
import sys

from random_policies import (
    ACCESS,
    BREACH,
    DISCLOSURE,
    WEIGHT,
    Atoms,
    Draw,
    access,
    encoded,
    kept_by_number,
    mixed,
    policy,
    weighs,
    weights,
)
from solver import NUMBERS, SIZES, Search, credentials_in, ground, levels_of, models, only_model, optima, weight_of_each
from stored import stored

SEED = 2
VECTORS = 600
MOST_RECORDS = 128
LEAST = 5  # a shape that fewer vectors have is too rare to tell anything
Vector = collections.namedtuple("Vector", "records request shown askable")


# Policies with several ways to a service.


def disclosures(draw, credentials):
    """Most credentials may be asked for, most of them always."""
    for credential in credentials:
        if draw.chance(92):
            yield DISCLOSURE, credential, draw.body(credentials, 1) if draw.chance(25) else (), ()


def ways(draw, atoms, credentials, head, count):
    """So many rules for one head, each by one to four credentials, and what is drawn beside them."""
    for _ in range(count):
        yield access(draw, atoms, head, positive=draw.several(credentials, draw.one((1, 2, 2, 2, 3, 3, 4))))


def asking_policy(draw):
    """A policy with several ways to a service, some through roles below it, and now and then a breach; and the service."""
    credentials = sorted(draw.several(range(16), draw.between(5, 10)))
    request = draw.between(16, 62)
    roles = [atom for atom in draw.several(range(16, 63), draw.between(0, 2)) if atom != request]
    atoms = Atoms(credentials, {role: draw.between(1, 2) for role in roles} | {request: draw.between(2, 3)})
    records = [*disclosures(draw, credentials), *ways(draw, atoms, credentials, request, draw.between(2, 7))]
    for role in roles:
        records += ways(draw, atoms, credentials, role, draw.between(1, 3))
        records.append(access(draw, atoms, request, positive=(role,)))
    if draw.chance(35):
        records += ways(draw, atoms, credentials, BREACH, draw.between(1, 2))
    return records, request


def any_policy(draw):
    """A policy like those of the program `vectors`, and a service."""
    records = policy(draw)
    heads = [head for kind, head, _, _ in records if kind == ACCESS and head != BREACH]
    return records, draw.one(heads) if heads and draw.chance(85) else draw.between(16, 62)


def with_weights(draw, records):
    """With weights of credentials that the policy speaks of, and of some others; in one of six with none."""
    if draw.chance(17):
        return records
    spoken = {atom for _, head, positive, negated in records for atom in (head, *positive, *negated) if atom < 16}
    return records + weights(draw, sorted(spoken.union(draw.several(range(16), 2))))[: MOST_RECORDS - len(records)]


def shares(draw, total, credentials):
    """Weights of these credentials that add up to the total."""
    parts = [draw.one(credentials) for _ in range(total)]
    return [weighs(credential, parts.count(credential)) for credential in credentials]


def tied_policy(draw):
    """Two ways to a service that weigh the same, and a third; and the service."""
    credentials, request, total = draw.several(range(16), 9), draw.between(16, 62), draw.between(0, 15)
    records = [(DISCLOSURE, credential, (), ()) for credential in credentials]
    for at, weight in ((0, total), (3, total), (6, draw.between(0, 15))):
        body = credentials[at : at + draw.between(1, 3)]
        records += [(ACCESS, request, tuple(sorted(body)), ()), *shares(draw, weight, body)]
    return records, request


def some_vector(draw):
    """A policy, its records in any order, a request and what is shown."""
    which = draw.below(100)
    records, request = tied_policy(draw) if which < 15 else asking_policy(draw) if which < 85 else any_policy(draw)
    if which >= 15:
        records = with_weights(draw, records)
    shown = 0 if draw.chance(50) else draw.below(0x10000) & draw.below(0x10000) & draw.below(0x10000)
    askable = only_model(ground(records, DISCLOSURE, shown)) & ~shown
    return Vector(mixed(draw, records), request, shown, askable)


# The solvers' answers.


def unlocks(vector):
    """Whether what is shown unlocks the request."""
    return models(ground(vector.records, ACCESS, vector.shown), Search((), (vector.request,), (BREACH,))) != []


def least(vector, *costs, forbidden=(BREACH,)):
    """The sets to ask for that unlock the request and cost least on a level for each of these costs, as numbers."""
    choices = credentials_in(vector.askable)
    search = Search(choices, (vector.request,), forbidden, levels_of(choices, *costs))
    return [model & vector.askable for model in optima(ground(vector.records, ACCESS, vector.shown), search)]


def preferred(vector):
    """"the least total weight, then the fewest credentials, then the smallest number", as a number; None where there is none."""
    found = least(vector, weight_of_each(vector.records), SIZES, NUMBERS)
    if len(found) > 1:
        sys.exit(f"several optima: {vector}")
    return found[0] if found else None


# The two files.


def given(vector):
    policy_bytes = encoded(vector.records)
    return struct.pack("<3H", vector.request, vector.shown, len(policy_bytes)) + policy_bytes


def line(place, vector, asked):
    said = "grant" if asked == 0 else "deny" if asked is None else f"ask {asked:04x}"
    return f"question {place} request {vector.request} shown {vector.shown:04x} {said}\n"


# The shapes, only to be counted.


def weight_shapes(vector, asked):
    """What the weights do in a question."""
    every = weight_of_each(vector.records)
    free = sum(1 << credential for credential in range(16) if every[credential] == 0)
    total = sum(every[credential] for credential in credentials_in(asked))
    (fewest,) = least(vector, SIZES, NUMBERS)
    yield "another question by size and number", fewest != asked
    yield "more credentials than the fewest", fewest.bit_count() < asked.bit_count()
    yield "a tie in weight that size settles", len(least(vector, every)) > len(least(vector, every, SIZES))
    yield "such a tie, the larger set the smaller number", least(vector, every, NUMBERS) != [asked]
    yield "a tie in weight and size that the number settles", len(least(vector, every, SIZES)) > 1
    yield "a credential of weight 0 in the question", bool(asked & free)
    yield "one of weight 0 left out of it", bool(vector.askable & free & ~asked)
    yield "a question of weight 0", total == 0
    yield "a question of weight 16 and more", total > 15
    yield "one of weight 15 in the question", any(every[credential] == 15 for credential in credentials_in(asked))
    yield "another question but for 63", least(vector, every, SIZES, NUMBERS, forbidden=()) != [asked]


def shapes(vector, asked):
    named = [head for kind, head, _, _ in vector.records if kind == WEIGHT]
    places = [place for place, record in enumerate(vector.records) if record[0] == WEIGHT]
    yield "grant", asked == 0
    yield "deny", asked is None
    yield "deny, with something to ask for", asked is None and vector.askable != 0
    yield "a question", bool(asked)
    yield "a question, no weights", bool(asked) and not named
    yield "a question of several credentials", bool(asked) and asked.bit_count() > 1
    yield "a question, something shown", bool(asked) and vector.shown != 0
    yield "a question, levels by number broken", bool(asked) and not kept_by_number(vector.records)
    yield "sixteen weights", len(named) == 16
    yield "a weight of a credential that is not disclosable", any(not (vector.askable | vector.shown) >> head & 1 for head in named)
    yield "a weight before and after all rules", len(places) > 1 and places[0] == 0 and places[-1] == len(vector.records) - 1
    if asked:
        yield from weight_shapes(vector, asked)


def main():
    draw = Draw(SEED)
    inputs, expected, counts = b"", "", {}
    for place in range(VECTORS):
        vector = some_vector(draw)
        asked = 0 if unlocks(vector) else preferred(vector)
        inputs += given(vector)
        expected += line(place, vector, asked)
        for shape, there in shapes(vector, asked):
            counts[shape] = counts.get(shape, 0) + there
    for shape, count in counts.items():
        print(f"{count:4} of {VECTORS}: {shape}", file=sys.stderr)
        if count < LEAST:
            sys.exit(f"too few of them: {shape}")
    return stored((f"crates/questions/{name}", made) for name, made in (("stdin", inputs), ("stdout", expected.encode())))


sys.exit(main())
