"""A bench says on standard error what it could not read or write, and what it is for to whoever gives it an argument.

    python3 tests/scripts/bench_fails.py CMD

Its exit status says nothing of it: it is 0 whatever could not be read or written.
"""

import os
import pty
import shlex
import subprocess
import sys
import tty

UNREAD = b"bench: standard input could not be read\n"
UNWRITTEN = b"bench: standard output could not be written\n"
# More replies than one write holds.
MANY = b"all\ngroup 2 3\n" + b"send 0 5\n" * 20000


def lost_line(data):
    """A line that gives these bytes and then fails."""
    mine, theirs = pty.openpty()
    tty.setraw(theirs)
    os.write(theirs, data)
    os.close(theirs)
    return mine


def run(command, words=(), **streams):
    done = subprocess.run(shlex.split(command) + list(words), stderr=subprocess.PIPE, check=False, timeout=10,
                          **{"stdout": subprocess.PIPE, **streams})
    return done.stdout or b"", done.stderr


def told(what, expected, got):
    if expected != got:
        print(f"{what}: expected {expected!r}, got {got!r}")
    return expected == got


def unread(command):
    good = told("a folder as input", (b"", UNREAD), run(command, stdin=os.open("/", os.O_RDONLY)))
    # What came before is answered; a line of which a part was lost is not.
    lost = lost_line(b"group 2 3\nsend 0 5\nsend 0 1")
    return good & told("a lost line", (b"ok\nsend 0 0 5\n", UNREAD), run(command, stdin=lost))


def unwritten(command):
    good = True
    for name, data in ("a line", b"group 2 3\n"), ("an unended line", b"group 2 3"), ("many lines", MANY):
        with open("/dev/full", "wb") as full:
            good &= told(f"{name}, no room for replies", (b"", UNWRITTEN), run(command, input=data, stdout=full))
    # What is not shown needs no room.
    with open("/dev/full", "wb") as full:
        return good & told("no reply shown", (b"", b""), run(command, input=b"pass 0\ngroup 9 1\npass 0", stdout=full))


def helped(command):
    out, err = run(command, ["--help"], stdin=subprocess.DEVNULL)
    return told("--help", (b"usage: bench < lines", b""), (out.split(b"\n")[0], err))


def main(arguments):
    good = unread(arguments[0]) & unwritten(arguments[0]) & helped(arguments[0])
    print("what fails is told" if good else "not all that fails is told")
    return good


if __name__ == "__main__":
    sys.exit(0 if main(sys.argv[1:]) else 1)
