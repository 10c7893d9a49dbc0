"""Benches beside each other: the same script for every command, their answers line by line.

    python3 tests/reference/compare.py random SEED LINES CMD...   a random script
    python3 tests/reference/compare.py forms SEED LINES CMD...    one with lines for the driver and the queries, and none
                                                                  that is hostile: tests/outside/lines.hpp
    python3 tests/reference/compare.py live SEED LINES CMD...     each line sent when the last was answered
    python3 tests/reference/compare.py corpus DIR CMD...          every DIR/NAME.txt, with DIR/NAME.out as answers, and those
                                                                  that begin with `all` without it too
    python3 tests/reference/compare.py write SEED LINES           the random script itself, to standard output
    python3 tests/reference/compare.py histogram SEED LINES       how often each answer comes in it

A command is one argument, taken apart at spaces. The answers of tests/reference/reference.py are
always among those compared. A random script of a bench is put to each twice: with `all` as its first line, and without
it, where a refusal gets no answer. The exit status is 1 where two answers differ.
"""

import collections
import io
import pathlib
import shlex
import subprocess
import sys
import threading

import bench_script
import form_script
import reference

TAIL = 15
# How long a bench that is sent its lines one at a time may take for all of them.
SECONDS = 120
ALL = bench_script.ALL + b"\n"
# Which replies a bench shows, and what asks it to before the script.
WAYS = ((bench_script.everything, ALL), (bench_script.accepted, b""))


def reference_answers(script):
    """The lines that get an answer, and the answers."""
    heard, answered, replies = [b""], [], []

    def lines():
        for line in io.BytesIO(script):
            heard[0] = line.removesuffix(b"\n")
            yield line

    def write(reply):
        answered.append(heard[0])
        replies.append(reply)

    reference.bench(lines(), write)
    return answered, "".join(replies).encode()


def run(command, script):
    """What the command writes; an exit status other than 0 is a line more."""
    done = subprocess.run(shlex.split(command), input=script, stdout=subprocess.PIPE, check=False)
    return done.stdout + (f"exit status {done.returncode}\n".encode() if done.returncode else b"")


def first_difference(expected, answers):
    """The number of the first line that differs, or None."""
    if expected == answers:
        return None
    one, other = expected.split(b"\n"), answers.split(b"\n")
    for number, (a, b) in enumerate(zip(one, other)):
        if a != b:
            return number
    return min(len(one), len(other))


def line_at(answers, number):
    lines = answers.split(b"\n")
    return lines[number].decode(errors="replace") if number < len(lines) else "(nothing)"


def same(lines, expected, name, answers, what):
    """Whether the answers are those expected; `lines` are those that get one."""
    number = first_difference(expected, answers)
    if number is None:
        return True
    print(f"{what}: answer {number + 1} differs")
    for i in range(max(0, min(number, len(lines)) - TAIL), min(number, len(lines))):
        print(f"  {lines[i]!r:40} {line_at(expected, i)}")
    print(f"  {lines[number] if number < len(lines) else b''!r}")
    print(f"    expected  {line_at(expected, number)}")
    print(f"    {name}  {line_at(answers, number)}")
    return False


def random_script(seed, lines, sort=bench_script.Script):
    script = sort(seed)
    script.write(lines)
    return script


def compare_random(seed, script, commands):
    script.put_alls()
    good = True
    for shows, first in WAYS:
        given, (lines, expected) = first + script.bytes(), script.answers(shows)
        good &= all([same(lines, expected, c, run(c, given), f"seed {seed}, {shows.__name__}") for c in commands])
    return good


def compare_forms(seed, script, commands):
    """The driver and the queries: each of their answers that steps lead to must have come, and what else is wanted."""
    for sort in sorted(script.seen ^ form_script.WANTED):
        print(f"seed {seed}: '{sort}' {'was not seen' if sort in form_script.WANTED else 'is no answer'}")
    lines, expected = script.answers(bench_script.everything)
    good = all([same(lines, expected, c, run(c, script.bytes()), f"seed {seed}, forms") for c in commands])
    return good and script.seen == form_script.WANTED


def compare_live(seed, lines, commands):
    """A bench answers a line as it comes: the next is sent only then, or at once behind a line that gets no answer."""
    script = random_script(seed, lines)
    script.put_alls()
    return all([live(seed, script, command, shows, first) for command in commands for shows, first in WAYS])


def live(seed, script, command, shows, first):
    with subprocess.Popen(shlex.split(command), stdin=subprocess.PIPE, stdout=subprocess.PIPE) as bench:
        patience = threading.Timer(SECONDS, bench.kill)
        patience.start()
        wrong = live_difference(bench, script, shows, first)
        patience.cancel()
        if wrong:
            print(f"seed {seed}, {shows.__name__}, {command}: {wrong}")
            bench.kill()
        return not wrong


def live_difference(bench, script, shows, first):
    """What is wrong with the answers, if anything is."""
    bench.stdin.write(first)
    for number, (line, reply) in enumerate(zip(script.lines, script.replies)):
        bench.stdin.write(line + b"\n")
        bench.stdin.flush()
        answer = bench.stdout.readline().decode() if shows(reply) else reply + "\n"
        if answer != reply + "\n":
            return f"line {number + 1} {line!r}: expected {reply}, got {answer!r}"
    bench.stdin.close()
    return "something is written after the last answer" if bench.stdout.read() != b"" else None


def compare_stored(script, expected, commands, what):
    lines, answers = reference_answers(script)
    return all([same(lines, expected, "reference.py", answers, what)]
               + [same(lines, expected, command, run(command, script), what) for command in commands])


def compare_corpus(folder, commands):
    good, without = True, 0
    scripts = sorted(pathlib.Path(folder).glob("*.txt"))
    for path in scripts:
        script, expected = path.read_bytes(), path.with_suffix(".out").read_bytes()
        good &= compare_stored(script, expected, commands, path.name)
        rest = script.removeprefix(ALL)
        if rest != script and not rest.startswith(ALL):
            accepted = [line for line in expected.splitlines(keepends=True) if bench_script.accepted(line.decode())]
            good &= compare_stored(rest, b"".join(accepted), commands, path.name + " without `all`")
            without += 1
    print(f"{len(scripts)} scripts, {without} of them without `all` too")
    return good


def histogram(seed, lines):
    script = random_script(seed, lines)
    sorts = collections.Counter(r if r.startswith("refused") else r.split(" ")[0] for r in script.replies)
    for sort, count in sorted(sorts.items(), key=lambda s: (s[0].startswith("refused"), len(s[0]), s[0])):
        print(f"{count:8} {sort}")
    accepted = sum(count for sort, count in sorts.items() if not sort.startswith("refused"))
    print(f"{100 * accepted / len(script.replies):7.1f}% accepted of {len(script.replies)}")
    return True


def main(arguments):
    mode, *rest = arguments or [""]
    if mode == "random" and len(rest) >= 3:
        return compare_random(rest[0], random_script(int(rest[0]), int(rest[1])), rest[2:])
    if mode == "forms" and len(rest) >= 3:
        return compare_forms(rest[0], random_script(int(rest[0]), int(rest[1]), form_script.FormScript), rest[2:])
    if mode == "live" and len(rest) >= 3:
        return compare_live(int(rest[0]), int(rest[1]), rest[2:])
    if mode == "corpus" and len(rest) >= 1:
        return compare_corpus(rest[0], rest[1:])
    if mode == "histogram" and len(rest) == 2:
        return histogram(int(rest[0]), int(rest[1]))
    if mode == "write" and len(rest) == 2:
        sys.stdout.buffer.write(ALL + random_script(int(rest[0]), int(rest[1])).bytes())
        return True
    print(__doc__)
    return False


if __name__ == "__main__":
    sys.exit(0 if main(sys.argv[1:]) else 1)
