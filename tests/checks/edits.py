#!/usr/bin/env python3
"""edits.py: whether the prover refuses the wrong answers that are kept beside the crates.

    python3 tests/checks/edits.py [--gate | --listed | --all] [--place DIR] [CRATE | CRATE/NAME ...]
    python3 tests/checks/edits.py --fit     only whether every edit fits its crate, in a second

The gate tries the edits of crates/CRATE/must-fail/ and those of crates/CRATE/more-edits.txt that gate_edits.txt lists. This program tries the others of
more-edits.txt; with --gate the gate's, with --listed those of the list, in its order, with --all every edit. A CRATE leaves out the edits of the others.
An edit that is named, CRATE/NAME, is tried in any case.

An edit has lines 'file: ', 'old: ' and 'new: ': the old text, which must be in that file of src/ or specs/ once, is replaced by the new one; a 'file: '
line holds for the pairs after it. In more-edits.txt an edit begins with a line 'edit: NAME', and a line '# ' is a comment. In must-fail/, which rt reads
too, an edit is a file of its own.

The edits are tried in a copy of the crates under DIR/tree. There a crate is checked once as it is, by 'rt check', which proves the crates that it depends
on first, and then again after each edit, which costs what the edit reaches. That a wrong answer is refused needs no trust in what an earlier check kept.
An edit is refused if the check ends with 1 and says 'logic=not-proved', having checked modules of the crate; one that does not fit, or that the compiler
refuses before the prover sees it, is a failure.

It prints for each edit where it was refused first and for what, and keeps the whole output in DIR/log/CRATE/NAME.log; DIR is target/edits if none is
given. It exits with 1 if an edit was not refused."""
import argparse
import pathlib
import re
import shutil
import subprocess
import sys
import time
import typing

ROOT = pathlib.Path(__file__).resolve().parents[2]
CRATES = ROOT / 'crates'
PLACE = ROOT / 'target' / 'edits'
LIST = ROOT / 'tests' / 'checks' / 'gate_edits.txt'
SHOWN = 200


class BadEdit(Exception):
    """An edit that does not fit its crate."""


class Edit(typing.NamedTuple):
    """A wrong answer: its crate, its name within the crate, its lines, and whether rt tries it too."""
    crate: str
    label: str
    lines: list
    must_fail: bool

    @property
    def name(self):
        return '%s/%s' % (self.crate, self.label)


def more_of(file):
    """The edits of a more-edits.txt. A line that is not of an edit ends the program."""
    edits = []
    for number, line in enumerate(file.read_text().split('\n'), 1):
        if re.fullmatch(r'edit: \w+', line):
            edits.append(Edit(file.parent.name, line[len('edit: '):], [], False))
        elif edits and re.match('file: |old: |new:', line):
            edits[-1].lines.append(line)
        elif line and not line.startswith('# '):
            sys.exit('%s:%d: this is no line of an edit: %s' % (file.relative_to(ROOT), number, line))
    return edits


def every():
    """Every edit by its name, CRATE/NAME, in the order of the names. A name that two edits have ends the program."""
    edits = [Edit(file.parents[1].name, file.stem, file.read_text().split('\n'), True) for file in CRATES.glob('*/must-fail/*.edit')]
    edits += [edit for file in CRATES.glob('*/more-edits.txt') for edit in more_of(file)]
    known = {edit.name: edit for edit in sorted(edits)}
    if len(known) < len(edits):
        sys.exit('\n'.join('%s is the name of two edits' % edit.name for edit in edits if known[edit.name] is not edit))
    return known


def listed(edits):
    """The names of the gate's list, in its order. A name that is there twice, or that has no edit, ends the program."""
    names = [line for line in LIST.read_text().splitlines() if not line.startswith('#')]
    twice = sorted({name for name in names if names.count(name) > 1})
    without = [name for name in names if name not in edits or edits[name].must_fail]
    if twice or without:
        sys.exit('\n'.join(['%s lists %s twice' % (LIST.name, name) for name in twice] +
                           ["%s lists '%s', which is no edit of more-edits.txt" % (LIST.name, name) for name in without]))
    return names


def chosen(which, words=()):
    """The edits to try: with words only those of the crates named, and the edits named. A word that chooses none ends the program."""
    edits = every()
    in_list = listed(edits)
    gate = [name for name in edits if edits[name].must_fail or name in in_list]
    names = {'listed': in_list, 'gate': gate, 'all': list(edits), 'rest': [name for name in edits if name not in gate]}[which]
    without = [word for word in words if word not in edits and word not in {edits[name].crate for name in names}]
    if without:
        sys.exit('no such edits: %s' % ' '.join(without))
    if words:
        names = [name for name in names if edits[name].crate in words] + [word for word in words if word in edits]
    return [edits[name] for name in dict.fromkeys(names)]


def pairs_of(edit):
    """The replacements of an edit: file, old text, new text."""
    kinds = [line[:4] for line in edit.lines if re.match('old: |new:', line)]
    if kinds != ['old:', 'new:'] * (len(kinds) // 2):
        raise BadEdit("its 'old:' and 'new:' lines are not in pairs")
    file = old = ''
    for line in edit.lines:
        if line.startswith('file: '):
            file = line[len('file: '):]
        elif line.startswith('old: '):
            old = line[len('old: '):]
        elif line.startswith('new:'):
            yield file, old, re.sub('^new: ?', '', line)
            old = ''


def changed(crate, edit):
    """The files that an edit changes, each with its new text."""
    texts = {}
    for name, old, new in pairs_of(edit):
        path = crate / name
        if not re.match('(src|specs)/', name) or '..' in path.parts or not path.is_file():
            raise BadEdit("a 'file:' line names no file of src/ or specs/: %s" % name)
        text = texts.get(path) or path.read_text()
        if not old or text.count(old) != 1:
            raise BadEdit("an 'old:' text is %d times in %s, and not once" % (text.count(old) if old else 0, name))
        texts[path] = text.replace(old, new)
    if not texts:
        raise BadEdit("it has no 'old:' and 'new:' pair")
    return texts


class Tree:
    """A copy of the crates, for the edits of one of them. What an earlier check kept stays."""

    def __init__(self, place, crate):
        self.crate, self.root, self.logs = crate, place.resolve() / 'tree', place / 'log' / crate
        self.home = self.root / 'crates' / crate
        self.logs.mkdir(parents=True, exist_ok=True)
        if not self.root.is_dir():
            self.root.mkdir(parents=True)
            subprocess.run(['git', 'init', '-q'], cwd=self.root, check=True)
        shutil.copy(ROOT / 'crates.txt', self.root)
        for other in CRATES.iterdir():
            for part in ('src', 'specs', 'proofs'):
                to = self.root / 'crates' / other.name / part
                shutil.rmtree(to, ignore_errors=True)
                if (other / part).is_dir():
                    shutil.copytree(other / part, to)

    def check(self, label):
        """The exit status and the output of the crate's check."""
        done = subprocess.run(['rt', 'check'], cwd=self.home, stdin=subprocess.DEVNULL, stdout=subprocess.PIPE, stderr=subprocess.STDOUT, text=True)
        (self.logs / (label + '.log')).write_text(done.stdout)
        return done.returncode, done.stdout

    def first_error(self, output):
        """Where a check failed first and for what, cut short. A long message is told from the line that compares what was computed."""
        found = re.search(r'^(\S+): error: (`[^`]*`: )?(.*(?:\n  .*)*)', output, re.M) or re.search(r'^note: (\S+:\d+:\d+): ()(.*)', output, re.M)
        if not found:
            return 'no place given'
        place = found.group(1).replace('%s/' % self.home, '')
        lines = found.group(3).split('\n')
        start = next((i for i, line in enumerate(lines) if 'computed as far as they go' in line), 0)
        return '%s: %s' % (place, ((found.group(2) or '') + ' '.join(' '.join(lines[start:]).split()))[:SHOWN])

    def attempt(self, edit):
        """Tries one edit: whether it is refused, and what to say of it."""
        try:
            texts = changed(self.home, edit)
        except BadEdit as fault:
            return False, 'BAD EDIT: %s' % fault
        before = {path: path.read_text() for path in texts}
        for path, text in texts.items():
            path.write_text(text)
        status, output = self.check(edit.label)
        for path, text in before.items():
            path.write_text(text)
        if status == 0:
            return False, 'NOT REFUSED: the crate is still proved'
        if status == 1 and re.search('^logic=not-proved', output, re.M) and re.search('^crate %s: modules' % self.crate, output, re.M):
            return True, 'refused at ' + self.first_error(output)
        return False, 'BAD EDIT: it did not reach the prover (exit %d): %s' % (status, self.first_error(output))


def try_crate(place, crate, edits):
    """Tries the edits of a crate one after another: how many are refused, and the others."""
    tree = Tree(place, crate)
    reason = 'the crate is not proved as it stands' if tree.check('unedited')[0] else ''
    refused, others = 0, []
    for edit in edits:
        began = time.monotonic()
        fine, words = (False, 'NOT TRIED: ' + reason) if reason else tree.attempt(edit)
        print('%s: %.1f s, %s' % (edit.name, time.monotonic() - began, words), flush=True)
        refused += fine
        others += [] if fine else [edit.name]
    return refused, others


def arguments():
    parser = argparse.ArgumentParser(description='Tries wrong answers, which the prover must refuse.')
    which = parser.add_mutually_exclusive_group()
    for name, edits in (('gate', 'those of must-fail/ and of the list'), ('listed', 'those of the list'), ('all', 'every edit'),
                        ('fit', 'none, but see that each fits its crate')):
        which.add_argument('--' + name, action='store_const', dest='which', const=name, help=edits)
    parser.add_argument('--place', type=pathlib.Path, default=PLACE, metavar='DIR', help='for the copy and the logs')
    parser.add_argument('words', nargs='*', metavar='CRATE[/NAME]', help='only the edits of these crates, and these edits')
    parser.set_defaults(which='rest')
    return parser.parse_args()


def fitting():
    """Says which edits do not fit their crates: whether there are none."""
    edits, faults = chosen('all'), 0
    for edit in edits:
        try:
            changed(CRATES / edit.crate, edit)
        except BadEdit as fault:
            print('%s: BAD EDIT: %s' % (edit.name, fault))
            faults += 1
    print('%d edits fit their crates, %d do not' % (len(edits) - faults, faults))
    return not faults


def main():
    given = arguments()
    if given.which == 'fit':
        sys.exit(0 if fitting() else 1)
    wanted = {}
    for edit in chosen(given.which, given.words):
        wanted.setdefault(edit.crate, []).append(edit)
    results = [try_crate(given.place, crate, edits) for crate, edits in wanted.items()]
    others = [name for _, names in results for name in names]
    for name in others:
        print('not refused: ' + name)
    print('%d refused, %d not refused' % (sum(refused for refused, _ in results), len(others)))
    sys.exit(1 if others else 0)


if __name__ == '__main__':
    main()
