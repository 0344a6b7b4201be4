"""Programs that are run, each time in a folder of its own, with what they are given and what they print."""
import fcntl
import os
import pathlib
import select
import shutil
import struct
import subprocess
import termios
import time

SECONDS = 10
NOBODY = 65534


def placed(folder, policy):
    """The folder, with its policy.bin."""
    folder.mkdir()
    path = folder / "policy.bin"
    if callable(policy):
        policy(path)
    elif policy is not None:
        path.write_bytes(policy)
    return folder


def started(program, folder, *words, **how):
    """The program, with these arguments; not as root, who can read every file."""
    user = {"user": NOBODY, "group": NOBODY, "extra_groups": []} if os.geteuid() == 0 else {}
    pipes = {"stdin": subprocess.PIPE, "stdout": subprocess.PIPE, "stderr": subprocess.STDOUT, "bufsize": 0}
    return subprocess.Popen([program, *words], cwd=folder, **{**pipes, **user, **how})


def unread(pipe):
    """How many bytes in a pipe are still to be read."""
    return struct.unpack("i", fcntl.ioctl(pipe, termios.FIONREAD, bytes(4)))[0]


def give(process, piece):
    """Writes a piece and waits until the program has taken it, or has ended."""
    try:
        process.stdin.write(piece)
    except BrokenPipeError:
        return
    end = time.monotonic() + SECONDS
    while unread(process.stdin) and process.poll() is None and time.monotonic() < end:
        time.sleep(0.0002)


def next_output(process, is_whole):
    """What is printed next, until it is whole, or what came of it in time."""
    got, end = b"", time.monotonic() + SECONDS
    while not is_whole(got) and select.select([process.stdout], [], [], max(0, end - time.monotonic()))[0]:
        byte = process.stdout.read(1)
        if not byte:
            break
        got += byte
    return got


def ended(process):
    """Ends the input, and says what is still printed; None if the program does not end."""
    both = ended_with_errors(process)
    return None if both is None else both[0]


def ended_with_errors(process):
    """The same, and what came on standard error, where this is a pipe of its own."""
    if process.stdin:
        process.stdin.close()
        process.stdin = None
    try:
        printed, errors = process.communicate(timeout=SECONDS)
        return printed or b"", errors or b""
    except subprocess.TimeoutExpired:
        process.kill()
        process.communicate()
        return None


def ended_by_itself(process):
    """What is printed by a program whose input has no end; None if it does not end."""
    try:
        process.wait(timeout=SECONDS)
    except subprocess.TimeoutExpired:
        process.kill()
        process.communicate()
        return None
    return ended_with_errors(process)


def copied(program, top):
    """A copy of the program in a folder that anyone may read."""
    top.chmod(0o755)
    path = pathlib.Path(shutil.copy(program, top))
    path.chmod(0o755)
    return path
