#!/usr/bin/env python3
"""cases.py: figure1.py against its cases: those of cases.txt, and the stored answers of the bench, all of which it must accept.

A case that has to be refused is refused at its last event and not before."""
import pathlib
import sys

HERE = pathlib.Path(__file__).resolve().parent
SCRIPTS = HERE.parent / "scripts"
sys.path.insert(0, str(HERE.parent / "reference"))
import figure1
import reference


def written_cases():
    """(what the case shows, whether it is accepted, its history)"""
    for case in (HERE / "cases.txt").read_text().strip().split("\n\n"):
        title, *history = case.split("\n")
        verdict, name = title.split(": ", 1)
        yield name, {"accepted": True, "refused": False}[verdict], history


def bench_histories(script, replies):
    """The outward events of each group of a script, from the stored replies. Which lines have no reply, the reference says."""
    lines = script.split(b"\n")
    if lines[-1] == b"":
        lines.pop()
    shows_refusals = lines[:1] == [b"all"]
    found, group, replies = [], None, iter(replies.splitlines())
    for line in lines[shows_refusals:]:
        group, expected = reference.answer(group, line)
        if expected[0] == "refused" and not shows_refusals:
            continue
        reply = next(replies)
        if line.startswith(b"group") and reply == "ok":
            found.append([line.decode()])
        elif reply.split()[0] in figure1.EVENTS:
            found[-1].append(reply)
    assert next(replies, None) is None, "a reply is left over"
    return found


def main():
    wrong = []
    for name, accepted, history in written_cases():
        refused = figure1.first_refused(history)
        due = None if accepted else len(history) - 1
        if (refused and refused[0]) != due:
            wrong.append(f"{name}: refused at {refused}, due at {due}")
    count = events = 0
    for path in sorted(SCRIPTS.glob("*.txt")):
        for history in bench_histories(path.read_bytes(), path.with_suffix(".out").read_text()):
            count, events = count + 1, events + len(history) - 1
            refused = figure1.first_refused(history)
            if refused:
                wrong.append(f"{path.name}: '{history[refused[0]]}' is refused: {refused[1]}")
    for words in wrong:
        print(words)
    print(f"figure1: {len(list(written_cases()))} cases; {count} stored histories of the bench with {events} events")
    return 1 if wrong or not events else 0


if __name__ == "__main__":
    sys.exit(main())
