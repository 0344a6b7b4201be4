"""The conformance pack's text files: cases, and the lines of each by their keywords."""
import collections
import sys

# A case's name, and its other lines by their keywords.
Case = collections.namedtuple("Case", "name missing policy input prints logs")


def cases_in(path):
    cases = []
    for place, line in enumerate(path.read_text().split("\n"), 1):
        word, _, rest = line.partition(" ")
        if word == "case":
            cases.append(Case(f"{path.name}: {rest}", [], [], [], [], []))
        elif cases and word in Case._fields[1:]:
            getattr(cases[-1], word).append(rest)
        elif line and word not in ("tests", "end") and not line.startswith("#"):
            sys.exit(f"{path}, line {place}: not a line of a case: {line}")
    return cases


def bytes_of(lines):
    """The bytes of lines; digits with a number after them stand there so many times."""
    parts = (line.partition(" ") for line in lines)
    return b"".join(bytes.fromhex(digits) * int(times or 1) for digits, _, times in parts)
