"""Stored files that a script makes: written anew, or with `--check` compared."""
import pathlib
import sys

ROOT = pathlib.Path(__file__).resolve().parent.parent


def stored(files):
    """Writes each (path from the repository's root, bytes), or says which differ; gives the exit status."""
    status = 0
    for name, made in files:
        path = ROOT / name
        if "--check" not in sys.argv[1:]:
            path.write_bytes(made)
        else:
            same = path.exists() and path.read_bytes() == made
            print(name, "is the same" if same else "differs")
            status = status if same else 1
    return status
