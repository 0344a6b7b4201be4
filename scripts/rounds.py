"""Document 01's records, policies and sessions with document 02's weights (R-2) and levels (R-4), from their definitions and not from our code.

A policy is a list of records: kind, head, positive atoms, negated atoms. What is tested is so many bytes of one.
"""
import collections
import itertools

Session = collections.namedtuple("Session", "request shown declined count phase")
# The first so many bytes of these records.
Policy = collections.namedtuple("Policy", "length records")
EMPTY = frozenset()
FEW = 10  # of so many heads all sets are tried
POLICY_A = [
    (1, 16, {0, 1}, set()),
    (1, 16, {2}, {3}),
    (1, 63, {0, 2}, set()),
    (2, 0, set(), set()),
    (2, 1, {0}, set()),
    (2, 2, set(), set()),
]


def number(atoms):
    return sum(1 << atom for atom in atoms)


def encoded(kind, head, positive, negated):
    """A record's 18 bytes."""
    return bytes([kind, head]) + b"".join(number(side).to_bytes(8, "little") for side in (positive, negated))


def atoms_of(bits):
    return frozenset(atom for atom in range(64) if bits >> atom & 1)


def credentials(bits):
    return frozenset(atom for atom in range(16) if bits >> atom & 1)


def weight(credential, weighs, negated=()):
    """A record of kind 3: the weight is "its positive set's number"."""
    return 3, credential, set(atoms_of(weighs)), set(negated)


def subsets(atoms):
    """Fewest atoms first, then the smallest as a number."""
    for size in range(len(atoms) + 1):
        yield from sorted((frozenset(some) for some in itertools.combinations(atoms, size)), key=number)


def least(start, rules):
    """The least set that holds `start` and is closed under rules (head, positive atoms)."""
    reached = start
    while True:
        more = reached | {head for head, positive in rules if positive <= reached}
        if more == reached:
            return reached
        reached = more


def below(rules, atom):
    """An atom and those that it depends on: from a head to the atoms of its rules' bodies, in any number of steps."""
    reached = {atom}
    while True:
        more = reached.union(*(positive | negated for head, positive, negated in rules if head in reached))
        if more == reached:
            return reached
        reached = more


def without_levels(policy):
    """Whether "no choice of a whole number as each atom's level" keeps the access rules: some negated atom depends on the rule's head."""
    rules = [record[1:] for record in policy if record[0] == 1]
    reached = {atom: below(rules, atom) for _, _, negated in rules for atom in negated}
    return any(head in reached[atom] for head, _, negated in rules for atom in negated)


def fault(kind, head, positive, negated, earlier):
    """The number of the first of 3 to 5, 12 and 13 that a record breaks, or None."""
    if kind not in (1, 2, 3):
        return 3
    if kind == 3:
        return 4 if head > 15 else weight_fault(head, positive, negated, earlier)
    if kind == 1:
        if not 16 <= head <= 63:
            return 4
        if 63 in positive | negated:
            return 5
    else:
        if head > 15:
            return 4
        if negated or any(a > 15 for a in positive):
            return 5
    return None


def weight_fault(head, positive, negated, earlier):
    """12 or 13 of a record of kind 3, after the earlier ones, or None."""
    if number(positive) > 15 or negated:
        return 12
    return 13 if any(record[:2] == (3, head) for record in earlier) else None


def tested(policy):
    """What the policy's test says."""
    if policy.length > 2304:
        return "refused 1 at 128"
    count, rest = divmod(policy.length, 18)
    if rest:
        return f"refused 2 at {count}"
    for place, record in enumerate(policy.records[:count]):
        broken = fault(*record, policy.records[:place])
        if broken:
            return f"refused {broken} at {place}"
    return f"refused 6 at {count}" if without_levels(policy.records[:count]) else "accepted"


def whole(records):
    return Policy(18 * len(records), records)


def is_stable(rules, shown, tried):
    return tried == least(shown, [(head, positive) for head, positive, negated in rules if not negated & tried])


def model(policy, shown):
    """The one stable set: what is left of each reduct is the next one tried. Where the heads are few, all sets are tried as well."""
    rules = [record[1:] for record in policy if record[0] == 1]
    found = shown
    while not is_stable(rules, shown, found):
        found = least(shown, [(head, positive) for head, positive, negated in rules if not negated & found])
    heads = {head for head, _, _ in rules}
    if len(heads) <= FEW:
        assert {found} == {shown | some for some in subsets(heads) if is_stable(rules, shown, shown | some)}
    return found


def unlocks(policy, shown, request):
    atoms = model(policy, shown)
    return request in atoms and 63 not in atoms


def disclosable(policy, shown):
    return least(shown, [record[1:3] for record in policy if record[0] == 2])


def weights(policy):
    """What each credential weighs: "unnamed ones weigh 1"."""
    named = {head: number(positive) for kind, head, positive, _ in policy if kind == 3}
    return [named.get(credential, 1) for credential in range(16)]


def by_preference(policy, some):
    """The sets of some credentials: "the least total weight, then the fewest credentials, then the smallest number"."""
    weighs = weights(policy)
    return sorted(subsets(some), key=lambda one: (sum(weighs[atom] for atom in one), len(one), number(one)))


def is_service(request):
    return 16 <= request <= 62


def is_sound(session):
    word, question = session.phase
    in_range = 1 <= session.count <= 1 + len(session.shown | session.declined)
    if not is_service(session.request):
        return False
    if word == "fresh":
        return not session.shown and not session.declined and session.count == 0
    if word == "waiting":
        return bool(question) and not question & session.shown and not question & session.declined and in_range
    return in_range


def refusal(session):
    """7, 8, 9 or None: of a round under an accepted policy."""
    if not is_service(session.request):
        return 7
    if not is_sound(session):
        return 8
    return 9 if session.phase[0].startswith("closed") else None


def accepted_round(policy, session, given):
    """The answer and the next session."""
    question = session.phase[1]
    shown = session.shown | given
    declined = session.declined | (question - given)

    def after(phase):
        return Session(session.request, shown, declined, session.count + 1, phase)

    if unlocks(policy, shown, session.request):
        return "grant", after(("closed granted", EMPTY))
    for asked in by_preference(policy, disclosable(policy, shown) - shown - declined):
        if unlocks(policy, shown | asked, session.request):
            return f"ask {number(asked):04x}", after(("waiting", asked))
    return "deny", after(("closed denied", EMPTY))
