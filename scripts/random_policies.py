"""Small random policies from a fixed seed: such as keep levels that are drawn beside them, and such as have none.

A record is (kind, head, positive, negated), both sides as sorted tuples; a weight is its positive side's number.
"""
import random

ACCESS, DISCLOSURE, WEIGHT, BREACH = 1, 2, 3, 63


class Draw:
    """Draws by random() alone: its sequence for a seed is the same in every version of Python."""

    def __init__(self, seed):
        self.random = random.Random(seed).random

    def below(self, bound):
        return int(self.random() * bound)

    def between(self, low, high):
        return low + self.below(high - low + 1)

    def chance(self, percent):
        return self.below(100) < percent

    def one(self, things):
        return things[self.below(len(things))]

    def several(self, things, count):
        """So many of the things, or all if they are fewer, none twice, in any order."""
        left = list(things)
        return [left.pop(self.below(len(left))) for _ in range(min(count, len(left)))]

    def body(self, atoms, most):
        """One side of a body, as a sorted tuple."""
        return tuple(sorted(self.several(atoms, self.between(0, most))))


class Atoms:
    """The few atoms that a policy speaks of: credentials, on level 0, and derived ones, each on a level of its own choice."""

    def __init__(self, credentials, level):
        self.credentials = sorted(credentials)
        self.derived = list(level)
        top = max(level.values()) + 1
        self.level = {atom: 0 for atom in range(16)} | level | {BREACH: top}
        self.all = sorted(self.credentials + self.derived)

    def heads(self):
        return self.derived + [BREACH]

    def up_to(self, head):
        """Those that a head's body may hold."""
        return [atom for atom in self.all if self.level[atom] <= self.level[head]]

    def below(self, head):
        """Those that it may negate."""
        return [atom for atom in self.all if self.level[atom] < self.level[head]]


def universe(draw):
    """One to five credentials, and derived atoms on up to eight levels."""
    credentials = draw.several(range(16), draw.between(1, 5))
    levels = draw.between(1, 8)
    return Atoms(credentials, {atom: draw.between(1, levels) for atom in draw.several(range(16, BREACH), draw.between(2, 14))})


def access(draw, atoms, head=None, positive=(), negated=()):
    """An access rule that keeps the levels; what is given stands in it."""
    if head is None:
        head = draw.one(atoms.heads())
    # A rule of a chain or a loop gets little more, or it would hardly ever apply.
    more = draw.one((0, 0, 1)) if positive or negated else draw.between(1, 3)
    positive = set(positive).union(draw.body(atoms.up_to(head), more))
    negated = set(negated).union(draw.body(atoms.below(head), more))
    if negated and draw.chance(8):
        positive.add(draw.one(sorted(negated)))
    return ACCESS, head, tuple(sorted(positive)), tuple(sorted(negated))


def disclosure(draw, atoms):
    credentials = atoms.credentials + draw.several(range(16), 2)
    return DISCLOSURE, draw.one(credentials), draw.body(sorted(set(credentials)), 2), ()


def chain(draw, atoms):
    """An atom on each level, if not the one below."""
    levels = sorted({atoms.level[atom] for atom in atoms.all})
    steps = [draw.one([atom for atom in atoms.all if atoms.level[atom] == each]) for each in levels]
    if draw.chance(50):
        steps.append(BREACH)
    return [access(draw, atoms, high, negated=(low,)) for low, high in zip(steps, steps[1:]) if high > 15]


def loop(draw, atoms):
    """Atoms of one level, each if the next; often with a way in."""
    start = draw.one(atoms.derived)
    ring = draw.several([atom for atom in atoms.derived if atoms.level[atom] == atoms.level[start]], 6)
    rules = [access(draw, atoms, high, positive=(low,)) for high, low in zip(ring, ring[1:] + ring[:1])]
    if draw.chance(60):
        rules.append((ACCESS, draw.one(ring), draw.body(atoms.credentials, 1), ()))
    return rules


def wide(draw, atoms):
    """A rule with a long body: 3 to 8 credentials, now and then a derived atom, and up to 5 negated atoms."""
    head = draw.one(atoms.heads())
    positive = draw.several(range(16), draw.between(3, 8))
    if draw.chance(25):
        positive += draw.several([atom for atom in atoms.up_to(head) if atom > 15], 1)
    others = [atom for atom in sorted(set(atoms.below(head)).union(range(16))) if atom not in positive]
    return [(ACCESS, head, tuple(sorted(positive)), tuple(sorted(draw.several(others, draw.between(0, 5)))))]


def ladder(draw, _atoms):
    """Disclosure of some credentials, each if the one before; the first one often always."""
    steps = draw.several(range(16), draw.between(2, 4))
    records = [(DISCLOSURE, high, (low,), ()) for low, high in zip(steps, steps[1:])]
    if draw.chance(60):
        records.append((DISCLOSURE, steps[0], (), ()))
    return records


def mixed(draw, records):
    """The records in any order."""
    return draw.several(records, len(records))


def policy_size(draw):
    which = draw.below(100)
    if which < 6:
        return 0 if which < 4 else draw.between(60, 120)
    return draw.between(20, 30) if which < 12 else draw.between(1, 10)


def policy(draw):
    """A policy that is accepted."""
    atoms = universe(draw)
    size = policy_size(draw)
    records = []
    for part, percent in ((chain, 45), (loop, 45), (wide, 65), (ladder, 45)):
        if size > 3 and draw.chance(percent):
            records += part(draw, atoms)
    while len(records) < size:
        if records and draw.chance(6):
            records.append(draw.one(records))
        elif draw.chance(35):
            records.append(disclosure(draw, atoms))
        else:
            records.append(access(draw, atoms))
    return mixed(draw, records)


def tower(draw):
    """A policy with up to 48 levels of "not", the atoms numbered upwards, downwards or in any order, and some rules within them."""
    steps = draw.several(range(16, BREACH), draw.one((8, 20, 40, 47)))
    steps = draw.one((steps, sorted(steps), sorted(steps, reverse=True))) + [BREACH]
    start = draw.below(16)
    records = [(ACCESS, high, (), (low,)) for low, high in zip([start, *steps], steps)]
    for _ in range(draw.between(0, 12)):
        at = draw.below(len(steps))
        body = draw.several(steps[:at], draw.between(0, 2)) + draw.several(range(16), 1)
        records.append((ACCESS, steps[at], tuple(sorted(body)), ()))
    return mixed(draw, records)


def closing(draw, size):
    """Rules that make a loop of so many atoms, with "not" in one of them at least; now and then an atom on both sides."""
    ring = draw.several(range(16, BREACH), size)
    negated = {draw.below(size)}.union(place for place in range(size) if draw.chance(30))
    rules = []
    for place, (head, atom) in enumerate(zip(ring, ring[1:] + ring[:1])):
        more = tuple(sorted({draw.below(16), atom} if place in negated and draw.chance(15) else draw.body(range(16), 1)))
        rules.append((ACCESS, head, more, (atom,)) if place in negated else (ACCESS, head, tuple(sorted({*more, atom})), ()))
    return rules


def within(draw, size):
    """A positive loop of so many atoms, and a rule for one of them if not another."""
    ring = draw.several(range(16, BREACH), size)
    rules = [(ACCESS, head, (atom,), ()) for head, atom in zip(ring, ring[1:] + ring[:1])]
    head, atom = draw.one(ring), draw.one(ring)
    return rules + [(ACCESS, head, draw.body(range(16), 1), (atom,))]


def without_levels(draw):
    """A policy that no levels keep."""
    size = draw.one((1, 2, 2, 3, 3, 4, 6, 12, 30))
    broken = within(draw, size) if draw.chance(35) else closing(draw, size)
    return mixed(draw, policy(draw)[: draw.one((0, 3, 90))] + broken)


def some_credentials(draw):
    """Half of the credentials or a quarter of them, as a rule; now and then none or all."""
    which = draw.below(100)
    if which < 10:
        return 0 if which < 5 else 0xFFFF
    half = draw.below(0x10000)
    return half if which < 55 else half & draw.below(0x10000)


def credential_set(draw, records):
    """Some credentials; often such that one rule's body has all that it asks for, or all but one."""
    credentials = some_credentials(draw)
    rules = [record for record in records if record[0] == ACCESS]
    if rules and draw.chance(75):
        longest = max(rules, key=lambda rule: len(rule[2]) + len(rule[3]))
        _, _, positive, negated = longest if draw.chance(60) else draw.one(rules)
        held = [atom for atom in positive if atom < 16]
        credentials |= sum(1 << atom for atom in held)
        credentials &= ~sum(1 << atom for atom in negated if atom < 16)
        if draw.chance(50):
            credentials ^= 1 << draw.one(held + [atom for atom in negated if atom < 16] or [0])
    return credentials & 0xFFFF


def weighs(credential, number):
    return WEIGHT, credential, tuple(bit for bit in range(4) if number >> bit & 1), ()


def weights(draw, credentials):
    """Weights of some of these credentials, now and then of all sixteen; often from few numbers, so that sets weigh the same."""
    numbers = draw.one(((0, 1, 2), (1, 2, 3), (2, 3), (2, 4, 6), (0, 15), range(16), range(16)))
    named = range(16) if draw.chance(10) else draw.several(credentials, draw.between(1, len(credentials)))
    return [weighs(credential, draw.one(numbers)) for credential in named]


def kept_by_number(records):
    """Whether the access rules keep the levels that document 01 gives to numbers."""
    level = [atom // 8 for atom in range(BREACH)] + [8]
    rules = [record for record in records if record[0] == ACCESS]
    held = all(level[atom] <= level[head] for _, head, positive, _ in rules for atom in positive)
    return held and all(level[atom] < level[head] for _, head, _, negated in rules for atom in negated)


def word(atoms):
    return sum(1 << atom for atom in atoms).to_bytes(8, "little")


def encoded(records):
    return b"".join(bytes([kind, head]) + word(positive) + word(negated) for kind, head, positive, negated in records)
