#!/usr/bin/env python3
"""Small random policies, with the stable models that another solver gives them.

    scripts/solver_vectors.py            write crates/vectors/stdin and crates/vectors/stdout
    scripts/solver_vectors.py --check    say whether these two files are what the script makes

Needs `clingo` and `clasp` (Debian's packages gringo and clasp; made with 5.4.1 and 3.3.5). The policies come from a fixed seed. For
each one the access rules, with the credentials as facts, are a ground program, and so are the disclosure rules. Two solvers list
all stable models of it: clingo, whose grounder settles such programs, and clasp, which gets the rules as they stand. The script
stops unless each finds just one and both find the same. The expected sets are the solvers': the script has no reading of the model
of its own. It prints to standard error how many policies have each shape, and stops if one is rare. Policies from 600 on have weights among
their records (document 02, R-2), which the solvers never get: they change no model. Those from 660 on have many levels (R-4), and those
from 720 on have none: there the solvers find no model of some, several of others and one of others still, and the policy is refused
6 with the count of its records. Whether a policy has levels, clingo says too, in a program of its own that chooses them.

stdin, for each vector: 2 bytes of credentials, little-endian; 1 byte, the number of records; 18 bytes for each record.
stdout: a line for each vector, as the program `vectors` prints it.
"""
import sys

from random_policies import (
    ACCESS,
    BREACH,
    DISCLOSURE,
    WEIGHT,
    Draw,
    credential_set,
    encoded,
    kept_by_number,
    mixed,
    policy,
    tower,
    weights,
    without_levels,
)
from solver import ground, has_levels, models, only_model
from stored import stored

SEED = 1
VECTORS = 600
WITH_WEIGHTS = VECTORS + 60
DEEP = WITH_WEIGHTS + 60
ALL = DEEP + 240
LEAST = 5  # a shape that fewer vectors have is too rare to tell anything
MOST_RECORDS = 127  # as many as the program has room for


def some_records(draw, place):
    """A policy: from 600 on with weights, from 660 on with many levels, from 720 on with none."""
    if place >= DEEP:
        return without_levels(draw)
    if place >= WITH_WEIGHTS:
        return tower(draw)
    records = policy(draw)
    if place < VECTORS:
        return records
    return mixed(draw, records + weights(draw, range(16))[: MOST_RECORDS - len(records)])


# The two files.


def vector(records, credentials):
    return credentials.to_bytes(2, "little") + bytes([len(records)]) + encoded(records)


def line(place, credentials, model, disclosable):
    return f"vector {place} credentials {credentials:04x} model {model:016x} disclosable {disclosable:04x}\n"


def refused_line(place, credentials, records):
    return f"vector {place} credentials {credentials:04x} refused 6 at {len(records)}\n"


# The shapes, only to be counted.


def nots(rules):
    """The most nots that stand one over the other."""
    depth = {}
    changed = True
    while changed:
        changed = False
        for _, head, positive, negated in rules:
            most = max([depth.get(atom, 0) for atom in positive] + [depth.get(atom, 0) + 1 for atom in negated], default=0)
            if most > depth.get(head, 0):
                depth[head] = most
                changed = True
    return max(depth.values(), default=0)


def stands_on(rules):
    """The pairs of an atom and one that it stands on by positive atoms, in one step or more."""
    pairs = {(head, atom) for _, head, positive, _ in rules for atom in positive}
    for middle in range(64):
        pairs |= {(a, b) for a in range(64) if (a, middle) in pairs for b in range(64) if (middle, b) in pairs}
    return pairs


def holds(atoms, model):
    return [atom for atom in atoms if model >> atom & 1]


def fires(rule, model):
    _, _, positive, negated = rule
    return holds(positive, model) == list(positive) and not holds(negated, model)


def nearly(rule, model):
    """Whether a single atom keeps a body from holding."""
    _, _, positive, negated = rule
    return len(positive) - len(holds(positive, model)) + len(holds(negated, model)) == 1


def blocked(rule, model):
    """Whether it is by its negated atoms alone that a rule does not bring its head into the model."""
    _, head, positive, negated = rule
    if set(positive) & set(negated) or holds([head], model):
        return False
    return holds(positive, model) == list(positive) and holds(negated, model) != []


def several_passes(rules, credentials, model, together):
    """Whether some atom of the model waits, in each rule for it, for an atom of its level that only later rules bring."""
    ways = {}
    for place, rule in enumerate(rules):
        if fires(rule, model):
            ways.setdefault(rule[1], []).append((place, rule[2]))

    def waits(head, place, positive):
        others = [atom for atom in positive if not credentials >> atom & 1 and together(atom, head)]
        return any(place < ways[atom][0][0] for atom in others)

    return any(all(waits(head, *way) for way in ways[head]) for head in ways if not credentials >> head & 1)


def steps_to(rules, start, target):
    """In how few steps an atom is come to from another, from heads to bodies; 99 where it is not."""
    reached, steps = {start}, 0
    while target not in reached:
        more = reached.union(*((*positive, *negated) for _, head, positive, negated in rules if head in reached))
        if more == reached:
            return 99
        reached, steps = more, steps + 1
    return steps


def refused_shapes(records, found):
    """Of a policy without levels: its shortest loop with a "not", and how many stable models it has."""
    rules = [record for record in records if record[0] == ACCESS]
    pairs = stands_on(rules)
    shortest = min(1 + steps_to(rules, atom, head) for _, head, _, negated in rules for atom in negated)
    yield "refused", True
    for size in (1, 2, 3):
        yield f"refused, a loop of {size}", shortest == size
    yield "refused, a loop of 4 to 9", 4 <= shortest < 10
    yield "refused, a loop of 10 and more", shortest >= 10
    inside = [(atom, head) in pairs for _, head, _, negated in rules for atom in negated]
    yield "refused, a not within a positive loop", any(inside)
    yield "refused, only a two-sided rule has the not", not nearest(rules)
    yield "refused, no stable model", not found
    yield "refused, just one", len(found) == 1
    yield "refused, several", len(found) > 1


def nearest(rules):
    """The rules with a "not" in a loop, two-sided ones left out."""
    plain = [rule for rule in rules if not set(rule[2]) & set(rule[3])]
    return [rule for rule in plain for atom in rule[3] if steps_to(rules, atom, rule[1]) < 99]


def shapes(records, credentials, model, disclosable):
    rules = [record for record in records if record[0] == ACCESS]
    others = [record for record in records if record[0] == DISCLOSURE]
    named = [head for kind, head, _, _ in records if kind == WEIGHT]
    pairs = stands_on(rules)
    loops = [atom for atom in range(64) if (atom, atom) in pairs]
    yield "0 records", not records
    yield "20 to 59 records", 20 <= len(records) < 60
    yield "60 and more records", len(records) >= 60
    yield "access rules", bool(rules)
    yield "disclosure rules", bool(others)
    yield "rules of both kinds", bool(rules and others)
    yield "a repeated record", len(set(records)) < len(records)
    yield "an empty body", any(not positive and not negated for _, _, positive, negated in rules + others)
    yield "a two-sided body", any(set(positive) & set(negated) for _, _, positive, negated in rules)
    yield "5 and more positive atoms in a body", any(len(positive) >= 5 for _, _, positive, _ in rules)
    yield "such a body that holds", any(len(rule[2]) >= 5 and fires(rule, model) for rule in rules)
    yield "such a body that lacks one atom", any(len(rule[2]) >= 5 and nearly(rule, model) for rule in rules)
    yield "4 and more negated atoms in a body", any(len(negated) >= 4 for _, _, _, negated in rules)
    yield "such a body that holds, the positive part too", any(len(rule[3]) >= 4 and fires(rule, model) for rule in rules)
    yield "a negated atom", nots(rules) >= 1
    yield "3 or more nots one over the other", nots(rules) >= 3
    yield "5 or more nots one over the other", nots(rules) >= 5
    yield "a positive loop", bool(loops)
    yield "a positive loop of several atoms", any((a, b) in pairs and (b, a) in pairs for a in loops for b in loops if a < b)
    yield "a positive loop, an atom of it in the model", holds(loops, model) != []
    yield "a positive loop, an atom of it not in the model", holds(loops, model) != loops
    yield "a positive loop of 4 and more atoms", any(sum((a, b) in pairs and (b, a) in pairs for b in loops) > 3 for a in loops)
    yield "20 and more nots one over the other", nots(rules) >= 20
    yield "48 nots one over the other", nots(rules) >= 48
    yield "levels by number kept", bool(rules) and kept_by_number(rules)
    yield "levels by number broken", not kept_by_number(rules)
    yield "a head negates a larger number", any(15 < head < atom for _, head, _, negated in rules for atom in negated)
    yield "atom 62", any(62 in (head, *positive, *negated) for _, head, positive, negated in rules)
    yield "a loop that takes a second pass in record order", several_passes(rules, credentials, model, lambda a, b: {(a, b), (b, a)} <= pairs)
    yield "63 in the model", bool(model >> BREACH)
    yield "a model larger than the credentials", model > credentials
    yield "an atom blocked by a negation", any(blocked(rule, model) for rule in rules)
    yield "weights", bool(named)
    yield "sixteen weights", len(named) == 16
    yield "a weight of a credential that is not disclosable", holds(named, disclosable) != named
    yield "a disclosable set larger than the credentials", disclosable > credentials
    yield "a disclosable set that takes a second pass", several_passes(others, credentials, disclosable, lambda a, b: True)


def answered(place, records, credentials):
    """The line of a vector, and its shapes."""
    rules = ground(records, ACCESS, credentials)
    if has_levels(records) != (place < DEEP):
        sys.exit(f"vector {place} was to have levels, or none")
    if place >= DEEP:
        return refused_line(place, credentials, records), refused_shapes(records, models(rules))
    model, disclosable = only_model(rules), only_model(ground(records, DISCLOSURE, credentials))
    return line(place, credentials, model, disclosable), shapes(records, credentials, model, disclosable)


def main():
    draw = Draw(SEED)
    given, expected, counts = b"", "", {}
    for place in range(ALL):
        records = some_records(draw, place)
        credentials = credential_set(draw, records)
        said, have = answered(place, records, credentials)
        given += vector(records, credentials)
        expected += said
        for shape, there in have:
            counts[shape] = counts.get(shape, 0) + there
    for shape, count in counts.items():
        print(f"{count:4} of {ALL}: {shape}", file=sys.stderr)
        if count < LEAST:
            sys.exit(f"too few of them: {shape}")
    return stored((f"crates/vectors/{name}", made) for name, made in (("stdin", given), ("stdout", expected.encode())))


sys.exit(main())
