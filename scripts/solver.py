"""What two solvers say of ground programs: clingo, whose grounder settles what it can, and clasp, which gets the rules as they stand.

A rule is (head, positive, negated). A search adds to rules the credentials that may be chosen, the atoms that must hold and those that must
not, and what is to be least: for each level, the first one first, pairs of an atom and what it costs. Rules and their search are a program.
"""
import collections
import itertools
import json
import subprocess
import sys

Search = collections.namedtuple("Search", "choices needed forbidden levels", defaults=((), (), (), ()))
SIZES = [1] * 16
NUMBERS = [1 << credential for credential in range(16)]
WIDTH = 65  # a program that is joined to others has atoms below this


def ground(records, kind, credentials):
    """The rules of a kind, and the credentials as facts: (head, positive, negated) each."""
    facts = [(atom, (), ()) for atom in range(16) if credentials >> atom & 1]
    return facts + [(head, positive, negated) for each, head, positive, negated in records if each == kind]


def credentials_in(bits):
    return [credential for credential in range(16) if bits >> credential & 1]


def weight_of_each(records):
    """What each credential weighs: "unnamed ones weigh 1"."""
    named = {head: sum(1 << bit for bit in positive) for kind, head, positive, _ in records if kind == 3}
    return [named.get(credential, 1) for credential in range(16)]


def levels_of(credentials, *costs):
    """A level for each list of what all credentials cost, of these credentials."""
    return tuple(tuple((credential, each[credential]) for credential in credentials) for each in costs)


def as_text(rules, search=Search()):
    """A program as clingo reads it."""
    lines = [f"{{a{atom}}}." for atom in search.choices]
    lines += [f":- not a{atom}." for atom in search.needed] + [f":- a{atom}." for atom in search.forbidden]
    for level, costs in zip(range(len(search.levels), 0, -1), search.levels):
        lines += [f"#minimize {{{cost}@{level},{atom} : a{atom}}}." for atom, cost in costs]
    for head, positive, negated in rules:
        body = [f"a{atom}" for atom in positive] + [f"not a{atom}" for atom in negated]
        lines.append(f"a{head} :- {', '.join(body)}." if body else f"a{head}.")
    return "\n".join(lines) + "\n"


def as_aspif(rules, search=Search()):
    """A program as clasp reads it, by the numbers of its atoms from 1 on."""
    lines = ["asp 1 0 0"] + [f"1 1 1 {atom + 1} 0 0" for atom in search.choices]
    lines += [f"1 0 0 0 1 {-(atom + 1)}" for atom in search.needed] + [f"1 0 0 0 1 {atom + 1}" for atom in search.forbidden]
    for level, costs in zip(range(len(search.levels), 0, -1), search.levels):
        pairs = [f"{atom + 1} {cost}" for atom, cost in costs]
        lines.append(" ".join(["2", str(level), str(len(pairs)), *pairs]))
    for head, positive, negated in rules:
        body = [atom + 1 for atom in positive] + [-(atom + 1) for atom in negated]
        lines.append(" ".join(map(str, [1, 0, 1, head + 1, 0, len(body)] + body)))
    for atom in sorted({head for head, _, _ in rules}.union(search.choices)):
        name = f"a{atom}"
        lines.append(f"4 {len(name)} {name} 1 {atom + 1}")
    return "\n".join(lines + ["0"]) + "\n"


def listed(command, text):
    """What a solver says of a program, and the models that it lists, as numbers."""
    run = subprocess.run([*command, "0", "--outf=2"], input=text, capture_output=True, text=True)
    answer = json.loads(run.stdout)
    models = [each["Value"] for each in answer["Call"][0].get("Witnesses", [])]
    return answer, sorted(sum(1 << int(name[1:]) for name in model) for model in models)


def all_models(command, text):
    """All stable models of a program, as numbers."""
    answer, models = listed(command, text)
    if answer["Models"] != {"Number": len(models), "More": "no"}:
        sys.exit(f"{command[0]} did not list all of the stable models of\n{text}")
    return models


def all_optima(command, text):
    """All stable models of a program that cost least, as numbers; none where it has no model."""
    # By cores: where programs are joined, what each has to cost is then found by itself.
    answer, models = listed([*command, "--opt-mode=optN", "--opt-strategy=usc", "--quiet=1"], text)
    if answer["Result"] == "UNSATISFIABLE":
        return []
    if answer["Result"] == "SATISFIABLE":  # nothing is left in the program that costs
        return all_models(command, text)
    if answer["Result"] != "OPTIMUM FOUND" or answer["Models"]["More"] != "no" or answer["Models"]["Optimal"] != len(models):
        sys.exit(f"{command[0]} did not list all of the optima of\n{text}")
    return models


def from_both(listing, rules, search):
    """What both solvers list."""
    text = as_text(rules, search)
    models = listing(["clingo", "--warn=none"], text)
    if listing(["clasp"], as_aspif(rules, search)) != models:
        sys.exit(f"not the same from both solvers, of\n{text}")
    return models


def models(rules, search=Search()):
    """All stable models, as numbers."""
    return from_both(all_models, rules, search)


def optima(rules, search):
    """All stable models that cost least, as numbers."""
    return from_both(all_optima, rules, search)


def only_model(rules, search=Search()):
    """The one stable model, or the one that costs least, as a number."""
    found = optima(rules, search) if search.levels else models(rules, search)
    if len(found) != 1:
        sys.exit(f"not just one model of\n{as_text(rules, search)}")
    return found[0]


def moved(rules, search, by):
    """A program whose atoms have numbers that are so much higher."""

    def up(atoms):
        return tuple(atom + by for atom in atoms)

    levels = tuple(tuple((atom + by, cost) for atom, cost in costs) for costs in search.levels)
    higher = Search(up(search.choices), up(search.needed), up(search.forbidden), levels)
    return [(head + by, up(positive), up(negated)) for head, positive, negated in rules], higher


def joined(programs):
    """Programs that have as many levels each, as one program, in which they share no atom."""
    apart = [moved(*program, WIDTH * place) for place, program in enumerate(programs)]
    searches = [search for _, search in apart]

    def all_of(lists):
        return tuple(itertools.chain.from_iterable(lists))

    plain = [all_of(search[field] for search in searches) for field in range(3)]
    levels = tuple(map(all_of, zip(*(search.levels for search in searches), strict=True)))
    return all_of(rules for rules, _ in apart), Search(*plain, levels)


def only_models(programs):
    """The one stable model of each program, or the one that costs least, as numbers; the solvers get all programs as one.

    Programs that share no atom: a stable model of all is one of each, and its costs on each level are the sum of theirs. So there is
    just one where each has just one, and what costs least is what costs least in each.
    """
    model = only_model(*joined(programs))
    return [model >> WIDTH * place & (1 << WIDTH) - 1 for place in range(len(programs))]


# An atom's level is how many of the numbers from 1 on are not above it; more than there are atoms are never needed.
LEVELS = """
{ least(A, 1..n) : atom(A) }.
:- least(A, L), L > 1, not least(A, L - 1).
:- holds(H, A), least(A, L), not least(H, L).
:- negates(H, A), least(A, L), L < n, not least(H, L + 1).
:- negates(H, A), least(A, n).
:- negates(H, A), not least(H, 1).
"""


def has_levels(records):
    """Whether clingo finds levels: "each access head at least its positive atoms' level and more than its negated atoms' level"."""
    rules = ground(records, 1, 0)
    atoms = {atom for head, positive, negated in rules for atom in (head, *positive, *negated)}
    facts = [f"atom({atom})." for atom in sorted(atoms)]
    for head, positive, negated in rules:
        facts += [f"holds({head},{atom})." for atom in positive] + [f"negates({head},{atom})." for atom in negated]
    command = ["clingo", "--warn=none", "1", "--outf=2", "-c", f"n={len(atoms) + 1}"]
    run = subprocess.run(command, input="\n".join(facts) + LEVELS, capture_output=True, text=True)
    return json.loads(run.stdout)["Result"] == "SATISFIABLE"
