"""Ways in which a program that reads policy.bin is run: how it gets its input, where its output goes; and what it prints, compared.

A way gets the program, a folder with the policy, and the run; it gives what is printed, None if the program does not end.
"""
import itertools
import os
import pathlib
import tempfile

from processes import copied, ended, give, placed, started


def at_once(program, folder, run):
    """The input is a file."""
    (folder / "input").write_bytes(run.input)
    with open(folder / "input", "rb") as source:
        return ended(started(program, folder, stdin=source))


def in_pieces(*pieces):
    def way(program, folder, run):
        process = started(program, folder)
        for piece in pieces:
            give(process, piece)
        return ended(process)

    return way


def closed_input(program, folder, run):
    return ended(started(program, folder, stdin=None, preexec_fn=lambda: os.close(0)))


def folder_as_input(program, folder, run):
    source = os.open(folder, os.O_RDONLY)
    try:
        return ended(started(program, folder, stdin=source))
    finally:
        os.close(source)


def full(program, folder, run):
    with open("/dev/full", "wb") as output:
        return only_ends(started(program, folder, stdout=output), run)


def closed(program, folder, run):
    return only_ends(started(program, folder, stdout=None, preexec_fn=lambda: os.close(1)), run)


def not_read(restore_signals):
    def way(program, folder, run):
        process = started(program, folder, restore_signals=restore_signals)
        process.stdout.close()
        process.stdout = None
        return only_ends(process, run)

    return way


def only_ends(process, run):
    """What the run has to print, if the program ends."""
    give(process, run.input)
    return None if ended(process) is None else run.printed.encode()


def split(runs, *names):
    """In two pieces, split at each place."""
    for name in names:
        run = runs[name]
        for at in range(1, len(run.input)):
            yield f"{name}, split at {at}", run, in_pieces(run.input[:at], run.input[at:])


def unprinted(runs, *names):
    """Output that fails."""
    ways = {"full": full, "closed": closed, "not read": not_read(True), "not read, no signal": not_read(False)}
    for name, word in itertools.product(names, ways):
        yield f"{name}, output {word}", runs[name], ways[word]


def unread(runs, name):
    """Input that fails."""
    for word, way in (("closed", closed_input), ("a folder", folder_as_input)):
        yield f"{name}, input {word}", runs[name], way


def in_all_ways(all_runs, *kinds):
    """Each run at once, and then those of each kind."""
    runs = {run.name: run for run in all_runs}
    for name, run in runs.items():
        yield name, run, at_once
    for some in kinds:
        yield from some(runs)


def passes(name, run, got):
    if got == run.printed.encode():
        return True
    said = "does not end" if got is None else f"prints {got.decode(errors='replace')!r}, not {run.printed!r}"
    print(f"failed: {name}: {said if len(said) < 400 else said[:400] + '..'}")
    return False


def compared(program, runs):
    """Runs a program for each name, run and way, each time in a folder of its own, and says how many pass; gives the exit status."""
    counts = {True: 0, False: 0}
    os.umask(0o022)
    with tempfile.TemporaryDirectory() as space:
        top = pathlib.Path(space)
        copy = copied(program, top)
        for place, (name, run, way) in enumerate(runs):
            counts[passes(name, run, way(copy, placed(top / str(place), run.policy), run))] += 1
    print(f"{counts[True]} passed, {counts[False]} failed")
    return 1 if counts[False] else 0
