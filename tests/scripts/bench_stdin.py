#!/usr/bin/env python3
"""Puts the stored scripts together for the gate: crates/bench/stdin and crates/bench/stdout.

    python3 tests/scripts/bench_stdin.py          writes both files
    python3 tests/scripts/bench_stdin.py check    says whether they are what it would write

One run of the bench has one first line, which is `all` here as in each script; those about the first line itself (all-*, quiet-*) are left
out. It has no group running only once, so the first script is the one about that; of every other script the lines from its first accepted
`group` on are taken. The last line lacks its byte 10."""
import os
import sys

SCRIPTS = os.path.dirname(os.path.abspath(__file__))
ROOT = os.path.dirname(os.path.dirname(SCRIPTS))
ALL = b'all'
FIRST = 'bench-before-the-group'
LAST = 'whole-case'
ABOUT_THE_FIRST_LINE = ('all-', 'quiet-', 'bench-empty-input')


def lines(path):
    with open(path, 'rb') as f:
        parts = f.read().split(b'\n')
    return parts[:-1] if parts[-1] == b'' else parts


def script(name, fresh):
    asked, answers = lines(os.path.join(SCRIPTS, name + '.txt')), lines(os.path.join(SCRIPTS, name + '.out'))
    if asked[:1] != [ALL]:
        sys.exit('%s does not begin with `all`' % name)
    asked = asked[1:]
    if len(asked) != len(answers):
        sys.exit('%s: %d lines behind `all`, %d answers' % (name, len(asked), len(answers)))
    begin = 0
    while not fresh and begin < len(asked) and not (asked[begin].startswith(b'group ') and answers[begin] == b'ok'):
        begin += 1
    return asked[begin:], answers[begin:]


def whole():
    names = sorted(n[:-4] for n in os.listdir(SCRIPTS) if n.endswith('.txt') and not n.startswith(ABOUT_THE_FIRST_LINE))
    names = [FIRST] + [n for n in names if n not in (FIRST, LAST)] + [LAST]
    asked, answers = [ALL], []
    for name in names:
        a, b = script(name, name == FIRST)
        asked += a
        answers += b
    return b'\n'.join(asked), b'\n'.join(answers) + b'\n'


def main():
    for name, content in zip(('stdin', 'stdout'), whole()):
        path = os.path.join(ROOT, 'crates', 'bench', name)
        if sys.argv[1:] == ['check']:
            with open(path, 'rb') as f:
                if f.read() != content:
                    sys.exit('crates/bench/%s is not what the stored scripts make' % name)
        else:
            with open(path, 'wb') as f:
                f.write(content)


main()
