"""A steady bench script in which every line is accepted, to measure speed with.

    python3 tests/benchmark/steady_script.py LINES

A group of five sends, orders, takes, hands out, tells and reports safe, round after round;
when a view's order has no room for another round the next view is made, attempted,
registered and collected, and when the list is full a fresh group starts.
"""

import sys

MEMBERS = 5
# The first view, then seven more: every set has a majority of the one before.
SETS = [31, 15, 31, 7, 31, 30, 14, 31]
ORDERED = 128
# Of each round: so many sends in a row, then one told count from everyone.
SENDS = 3


def members_of(members_set):
    return [p for p in range(MEMBERS) if members_set >> p & 1]


def everyone_passes(view, members):
    for p in members:
        yield f"pass {p}"
    for p in members:
        yield f"order {p} {view}"
    for p in members:
        for _ in members:
            yield f"deliver {p}"


def view_begun(view, members_set):
    members = members_of(members_set)
    yield f"create {view} {members_set}"
    for p in members:
        yield f"join {p} {view}"
    yield from everyone_passes(view, members)
    for p in members:
        yield f"attempt {p}"
    for p in members:
        yield f"register {p}"
    yield from everyone_passes(view, members)
    for p in members:
        yield f"collect {p}"


def one_round(view, members, number):
    for i in range(SENDS):
        p = members[(number + i) % len(members)]
        yield f"send {p} {(number + i) * 1000003}"
        yield f"pass {p}"
        yield f"order {p} {view}"
        for q in members:
            yield f"deliver {q}"
            yield f"hand {q}"
    for p in members:
        yield f"tell {p}"
    yield from everyone_passes(view, members)
    for p in members:
        for _ in range(SENDS):
            yield f"safe {p}"


def groups():
    number = 0
    while True:
        yield f"group {MEMBERS} {SETS[0]}"
        for view, members_set in enumerate(SETS):
            members = members_of(members_set)
            ordered = 0
            if view > 0:
                yield from view_begun(view, members_set)
                ordered = 2 * len(members)
            while ordered + SENDS + len(members) <= ORDERED:
                yield from one_round(view, members, number)
                ordered += SENDS + len(members)
                number += SENDS


def main(lines):
    out = []
    for line in groups():
        if len(out) == lines:
            break
        out.append(line)
    sys.stdout.write("\n".join(out) + "\n")


if __name__ == "__main__":
    main(int(sys.argv[1]))
