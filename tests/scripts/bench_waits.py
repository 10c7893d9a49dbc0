"""A bench answers a line before the next is sent.

    python3 tests/scripts/bench_waits.py [CMD]      target/bin/bench if none is given

Whoever waits for an answer gets it: each line is sent only when the one before was answered, or at once behind one that
gets none. A line may also come in pieces, and the last may lack the byte that ends it.
"""

import select
import shlex
import subprocess
import sys

SECONDS = 5
NONE = None
# By somebody who wants to see refusals, to the end; the last line lacks its byte 10.
CASE = [
    ("all", NONE),
    ("group 2 3", "ok"),
    ("send 0 5", "send 0 0 5"),
    ("pass 0", "ok"),
    ("order 0 0", "ok"),
    ("deliver 1", "ok"),
    ("hand 1", "hand 1 0 0 5"),
    ("attempt 1", "refused 19"),
    ("", "refused 40"),
    ("x" * 200000, "refused 40"),
    ("hand 1", "refused 25"),
    ("group 9 1", "refused 1"),
    ("group 1 1", "ok"),
    ("all", "refused 40"),
    ("pass 0", "refused 14"),
]
# And by somebody who does not: `all` comes where the bench waits for more, and is no first line.
QUIET = [
    ("hand 1", NONE),
    ("group 9 1", NONE),
    ("group 2 3", "ok"),
    ("all", NONE),
    ("attempt 1", NONE),
    ("send 0 5", "send 0 0 5"),
    ("x" * 200000, NONE),
    ("pass 0", "ok"),
    ("all", NONE),
    ("pass 0", NONE),
    ("group 1 1", "ok"),
    ("all", NONE),
    ("pass 0", NONE),
]


def answer(bench):
    """What comes within some seconds, up to a line's end; the pipe is not buffered here."""
    got = b""
    while not got.endswith(b"\n"):
        if not select.select([bench.stdout], [], [], SECONDS)[0]:
            return got + b"(no answer)"
        piece = bench.stdout.read(1)
        if piece == b"":
            return got
        got += piece
    return got


def started(command):
    return subprocess.Popen(shlex.split(command), stdin=subprocess.PIPE, stdout=subprocess.PIPE, bufsize=0)


def send(bench, data):
    while data:
        data = data[bench.stdin.write(data):]


def told(what, expected, got):
    if expected != got:
        print(f"{what[:40]!r}: expected {expected!r}, got {got!r}")
    return expected == got


def expected(reply):
    return b"" if reply is NONE else reply.encode() + b"\n"


def asked(command, case, size):
    """The lines, so many bytes at a time, each with its answer before the next is sent; the last one without its end."""
    with started(command) as bench:
        for number, (line, reply) in enumerate(case):
            for i in range(0, len(line), size):
                send(bench, line[i:i + size].encode())
            if number + 1 < len(case):
                send(bench, b"\n")
                if reply is not NONE and not told(line, expected(reply), answer(bench)):
                    bench.kill()
                    return False
        bench.stdin.close()
        return told("the last line", expected(case[-1][1]), bench.stdout.read())


def main(arguments):
    command = arguments[0] if arguments else "target/bin/bench"
    good = all([asked(command, case, size) for case in (CASE, QUIET) for size in (1000000, 7, 2)])
    print("every line answered as it came" if good else "not every line answered as it came")
    return good


if __name__ == "__main__":
    sys.exit(0 if main(sys.argv[1:]) else 1)
