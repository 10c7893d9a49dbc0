#!/usr/bin/env python3
"""trace_check.py PROGRAM: holds examples/trace to the stored replies of the bench, and its pictures to what an eye would look for.

Every script of tests/scripts that begins with `all` has its replies beside it. The lines that the program reports as refused must be those that the bench
refuses. The views that a set crosses and holds must be those that follow from the replies `attempt` alone. In every picture, and in those of random
scripts of eight members and 32 views, no text may touch another text, a mark or the edge, and no bar another bar. Then come calls that must fail."""
import pathlib
import random
import re
import subprocess
import sys
import tempfile
import xml.etree.ElementTree as tree

ROOT = pathlib.Path(__file__).resolve().parents[2]
PROGRAM = pathlib.Path(sys.argv[1]).resolve()
LETTER = {'title': 9.7}   # the width of a letter by its look; the others have 6.7
PHASES = {'made', 'joined', 'attempted', 'registered', 'settled'}


def call(*words):
    done = subprocess.run([PROGRAM, *map(str, words)], stdout=subprocess.PIPE, stderr=subprocess.PIPE)
    return done.returncode, done.stdout.decode('ascii'), done.stderr.decode('ascii')


def wanted(words, holds):
    if not holds:
        sys.exit('trace_check.py: ' + words)


def meet(one, other):
    return one[0] < other[2] and other[0] < one[2] and one[1] < other[3] and other[1] < one[3]


def boxes(picture):
    """The texts, marks and phases of a picture, each as (left, top, right, bottom)."""
    texts, marks, phases = [], [], []
    for item in picture:
        kind, look = item.tag.split('}')[1], item.get('class', '')
        number = lambda key: float(item.get(key))
        if kind == 'text':
            width = LETTER.get(look, 6.7) * len(item.text)
            texts.append((number('x'), number('y') - 9, number('x') + width, number('y') + 3))
        elif kind == 'circle':
            marks.append((number('cx') - number('r'), number('cy') - number('r'), number('cx') + number('r'), number('cy') + number('r')))
        elif kind == 'line' and look == 'mark':
            marks.append((number('x1') - 1, number('y1'), number('x1') + 1, number('y2')))
        elif kind == 'rect' and look in PHASES:
            phases.append((number('x'), number('y'), number('x') + number('width'), number('y') + number('height')))
    return texts, marks, phases


def look_at(file, name):
    picture = tree.parse(file).getroot()
    page = (0, 0, float(picture.get('width')), float(picture.get('height')))
    texts, marks, phases = boxes(picture)
    for i, text in enumerate(texts):
        wanted('%s: a text leaves the picture: %s' % (name, text), text[0] >= 0 and text[1] >= 0 and text[2] <= page[2] and text[3] <= page[3])
        wanted('%s: two texts touch: %s' % (name, text), not any(meet(text, other) for other in texts[:i]))
        wanted('%s: a mark is on a text: %s' % (name, text), not any(meet(text, mark) for mark in marks))
    for bars, words in ((phases, 'bars'), (marks, 'marks')):
        for i, bar in enumerate(bars):
            wanted('%s: two %s overlap: %s' % (name, words, bar), not any(meet(bar, other) for other in bars[:i]))


def answers(attempted, members, views):
    """The two lists of the program's text, from the views that were attempted: identifier and set."""
    count = lambda bits: bin(bits).count('1')
    shown = lambda test: ', '.join(str(i) for i, bits in sorted(views, reverse=True) if test(bits)) or 'none'
    return shown(lambda bits: bits & attempted), shown(lambda bits: 2 * count(bits & attempted) > count(bits))


def compare(script, replies, picture):
    """The program on a script and its replies, for some sets."""
    lines = script.read_bytes().split(b'\n')[1:]
    refused = [(str(i + 2), reply.split()[1]) for i, reply in enumerate(replies) if reply.startswith('refused')]
    members, views = 0, []
    for line, reply in zip(lines, replies):
        if line.startswith(b'group ') and reply == 'ok':
            members, views = int(line.split()[1]), [(0, int(line.split()[2]))]
        if reply.startswith('attempt'):
            views = sorted({*views, tuple(map(int, reply.split()[2:]))})
    if members == 0:
        status, _, words = call(1, script)
        wanted('%s: no group, and status %d: %s' % (script.name, status, words), status == 1 and words.endswith(' starts no group\n'))
        return
    for bits in sorted({1, 2 ** members - 1, random.randrange(1, 2 ** members), random.randrange(1, 2 ** members)}):
        status, text, words = call(bits, script, picture)
        wanted('%s, %d: status %d: %s' % (script.name, bits, status, words), status == 0 and not words)
        found = re.findall(r'^line (\d+), `.*`: refused (\d+), ', text, re.M)
        wanted('%s: refused are %s, reported %s' % (script.name, refused, found), refused == found)
        lists = tuple(re.findall(r'^attempted views .*: (.*)$', text, re.M))
        wanted('%s, %d: %s instead of %s' % (script.name, bits, lists, answers(bits, members, views)), lists == answers(bits, members, views))
        look_at(picture, '%s, %d' % (script.name, bits))


def random_script(views, highest):
    lines = ['group 8 255']
    for identifier in range(highest - views + 1, highest + 1):
        members = [member for member in range(8) if random.random() < 0.75] or [0]
        lines.append('create %d %d' % (identifier, sum(1 << member for member in members)))
        some = [member for member in members if random.random() < 0.9]
        some = some if random.random() < 0.7 else []
        carry = ['pass %d' % member for member in some] + ['order %d %d' % (member, identifier) for member in some]
        carry += ['deliver %d' % member for member in some for _ in some]
        lines += ['join %d %d' % (member, identifier) for member in some] + carry
        lines += [name + ' %d' % member for name in ('attempt', 'register') for member in some if random.random() < 0.9] + carry
        lines += ['collect %d' % member for member in some]
    return '\n'.join(lines)


def must_fail(work):
    (work / 'none.txt').write_text('all\n')
    (work / 'two.txt').write_text('group 2 3\n')
    for status, words, call_words in (
            (2, 'called as', ()), (2, 'called as', (1,)), (2, 'called as', (1, work / 'two.txt', 'a', 'b')),
            *((2, 'is not a set', (bad, work / 'two.txt')) for bad in ('', '01', '256', '{0', '0,1', '{0,}', '{ 0}', '{00}', '-1')),
            (1, 'cannot be read', (1, work / 'missing.txt')), (1, 'cannot be read', (1, work)),
            (1, 'starts no group', (1, work / 'none.txt')), (1, 'refused 7', (0, work / 'two.txt')),
            *((1, 'refused 7', (bad, work / 'two.txt')) for bad in ('{}', '4', '{2}', '{255}')),
            (1, 'cannot be written', (1, work / 'two.txt', work / 'missing' / 'picture.svg')),
            (1, 'cannot be written', (1, work / 'two.txt', '/dev/full'))):
        given = call(*call_words)
        wanted('%s: %s' % (call_words, given), given[0] == status and words in given[2])
    wanted('{0,1} is another set than 3', call('{1,0,1}', work / 'two.txt') == call(3, work / 'two.txt'))


def main():
    random.seed(1)
    compared = looked = 0
    with tempfile.TemporaryDirectory() as name:
        work = pathlib.Path(name)
        for script in sorted((ROOT / 'tests/scripts').glob('*.txt')):
            replies = script.with_suffix('.out').read_text().splitlines()
            # The bench lends room for 8 views and the program for 32, so they part at the first 9.
            if not script.read_bytes().startswith(b'all\n') or 'refused 9' in replies or len(replies) == 0:
                continue
            compare(script, replies, work / 'picture.svg')
            compared += 1
        for views, highest in ((1, 1), (8, 8), (20, 20), (31, 31), (31, 2 ** 32 - 1)):
            (work / 'a & <b>.txt').write_text(random_script(views, highest))
            for bits in (1, 13, 255):
                status, _, words = call(bits, work / 'a & <b>.txt', work / 'picture.svg')
                wanted('%d views: status %d: %s' % (views, status, words), status == 0)
                look_at(work / 'picture.svg', '%d views, %d' % (views, bits))
                looked += 1
        must_fail(work)
    wanted('no script was compared', compared > 0)
    print('trace: %d scripts of the bench and %d pictures of random ones: as expected' % (compared, looked))


main()
