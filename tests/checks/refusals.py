#!/usr/bin/env python3
"""refusals.py: the list of refusals, which is the headings of docs/REFUSALS.md, wherever it stands again.

    python3 tests/checks/refusals.py          says which files are not what the list makes, and exits with 1 where one is not
    python3 tests/checks/refusals.py write    writes them

A heading is '### NUMBER Name: words'. Of each file only the part that the list makes is looked at and written: it lies between
two texts of the file itself, which PARTS names. A crate's files are looked for in every crate, so that a crate can be renamed."""
import pathlib
import re
import sys

ROOT = pathlib.Path(__file__).resolve().parents[2]
LIST = 'docs/REFUSALS.md'
WIDTH = 120
OF_IMPORTS = 114  # their lines are a little shorter


class Refusal:
    def __init__(self, number, name, words, section):
        self.number, self.name, self.words = number, name, words
        self.section = section  # the heading of the section that this refusal is the first of, or None
        self.lower = re.sub(r'(?<=[a-z])(?=[A-Z])', '_', name).lower()
        self.screaming = self.lower.upper()


def listed():
    refusals, section = [], None
    for line in (ROOT / LIST).read_text().splitlines():
        if line.startswith('## '):
            section = line[3:]
        if not line.startswith('### '):
            continue
        heading = re.fullmatch(r'### (\d+) ((?:[A-Z][a-z]+)+): ([^"\\*]+)', line)
        if not heading:
            sys.exit("%s: a heading is '### NUMBER Name: words', and this one is not: %s" % (LIST, line))
        number, name, words = heading.groups()
        if int(number) != len(refusals) + 1:
            sys.exit('%s: %s has the number %s, where %d is next' % (LIST, name, number, len(refusals) + 1))
        if any(name == r.name or words == r.words for r in refusals):
            sys.exit('%s: %s has the name or the words of an earlier one' % (LIST, name))
        refusals.append(Refusal(int(number), name, words, section))
        section = None
    return refusals


REFUSALS = listed()


def each(form):
    return ''.join(form.format(r=r) for r in REFUSALS)


def rows(items):
    """Items in lines of at most WIDTH bytes, a comma behind each but the last."""
    lines = ['']
    for item in items:
        if lines[-1] and len(lines[-1]) + len(item) + 2 > WIDTH:
            lines.append('')
        lines[-1] += (' ' if lines[-1] else '') + item + ','
    return '\n'.join(lines)[:-1] + '\n'


def variants(now):
    """The variants of the enum with their numbers. A comment before one stays; the first of a section has the section's name where it has none."""
    comments, above = {}, ''
    for line in now.splitlines(keepends=True):
        if line.lstrip().startswith('//'):
            above += line
        else:
            comments[line.split('=')[0].strip(' ,\n')], above = above, ''
    text = ''
    for r in REFUSALS:
        heading = '    // %s\n' % (r.section[0].lower() + r.section[1:]) if r.section else ''
        text += (comments.get(r.name) or heading) + '    %s = %d,\n' % (r.name, r.number)
    return text


def imports(now):
    """The imports of the variants, as many to a line as fit."""
    front, lines = now[:now.index('{') + 1], []
    for r in REFUSALS:
        if not lines or len(lines[-1]) + len(r.name) + 3 > OF_IMPORTS:
            lines.append(front + r.name)
        else:
            lines[-1] += ', ' + r.name
    return ''.join(line + '}\n' for line in lines)


def c_header():
    """include/dvs_refusals.h: the constants with their words in a column, and the words as a function."""
    defined = ['#define DVS_REFUSED_%s %du' % (r.screaming, r.number) for r in REFUSALS]
    width = max(map(len, defined))
    return """/*
 * dvs_refusals.h: the refusals by number and in words; dvs.h includes it. It is written from docs/REFUSALS.md, which has a section for each.
 */
#ifndef DVS_REFUSALS_H
#define DVS_REFUSALS_H

#include <stdint.h>

#define DVS_ACCEPTED 0u
%s
#define DVS_REFUSALS %du /* how many there are: the highest number */

/* Returns the words of what a call returned, 0 or a refusal's number, for a log. */
#if defined(__cpp_constexpr) && __cpp_constexpr >= 201304L
constexpr
#endif
static inline const char *dvs_refusal_text(uint32_t refusal) {
  switch (refusal) {
    case DVS_ACCEPTED: return "accepted";
%s  }
  return "no refusal of this library";
}

#endif
""" % (''.join('%s /* %s */\n' % (d.ljust(width), r.words) for d, r in zip(defined, REFUSALS)), len(REFUSALS),
       each('    case DVS_REFUSED_{r.screaming}: return "{r.words}";\n'))


def cpp_header():
    """include/dvs_refusals.hpp: the refusals as an enumeration."""
    return """// dvs_refusals.hpp: the refusals as an enumeration; dvs_types.hpp includes it. It is written from docs/REFUSALS.md, which has a section for each.
#ifndef DVS_REFUSALS_HPP
#define DVS_REFUSALS_HPP

#include "dvs_refusals.h"

#include <cstdint>

namespace dvs {

// Why a call was refused. Later versions may have more: a switch needs a default.
enum class Refusal : std::uint32_t {
  none = DVS_ACCEPTED,
%s};

constexpr std::uint32_t number(Refusal refusal) noexcept { return static_cast<std::uint32_t>(refusal); }

// The refusal in plain words, for a log.
constexpr const char *text(Refusal refusal) noexcept { return dvs_refusal_text(number(refusal)); }

}  // namespace dvs

#endif
""" % each('  {r.lower} = DVS_REFUSED_{r.screaming},\n')


WHOLE = ''  # before, or behind, all of the file
# A file, what stands before and behind the part of it that the list makes, and that part.
PARTS = [
    ('crates/*/src/**/refusal.rt', 'pub enum Refusal {\n', '}\n', variants),
    ('crates/*/specs/**/Refusals.antt', '.Refusal.{Refusal}\n', '\nabbrev pub number_of', imports),
    ('crates/*/specs/**/Refusals.antt', 'number_of : Refusal → ℕ\n', '\n-- what every call answers', each('number_of {r.name} = {r.number}\n')),
    ('crates/*/proofs/**/Numbers.antt', '.Refusal.{Refusal}\n', 'use Rattle.views.specs.Refusals.{number_of}\n', imports),
    ('crates/*/proofs/**/Numbers.antt', 'eqb (number_of r) 0 ≡ false\n', WHOLE, each('never-0 {r.name} = refl\n')),
    ('include/dvs_refusals.h', WHOLE, WHOLE, c_header()),
    ('include/dvs_refusals.hpp', WHOLE, WHOLE, cpp_header()),
    ('tests/outside/refusals.inc', WHOLE, WHOLE, '/* The answers of include/dvs.h in the order of their numbers, from 0. */\n' +
     rows(['DVS_ACCEPTED'] + ['DVS_REFUSED_' + r.screaming for r in REFUSALS])),
    ('tests/reference/refusals.inc', WHOLE, WHOLE, '// The refusals of the plain implementations in C++, for an enum of theirs.\n' +
     rows('k%s = %d' % (r.name, r.number) for r in REFUSALS)),
    ('tests/reference/refusals.py', 'gives one."""\n\n', '\n\nclass Refused', each('{r.screaming} = {r.number}\n')),
]


def place(pattern, before):
    """The one file of the pattern that has the text."""
    found = [path for path in ROOT.glob(pattern) if before in path.read_text()]
    if len(found) != 1:
        sys.exit("%s: %d files with '%s', where this program looks for one" % (pattern, len(found), before.strip()))
    return found[0]


def current(path, text, before, behind, part):
    """The text with the part that the list makes."""
    if text.count(before) != 1 and before != WHOLE:
        sys.exit("%s: %d times '%s', where this program looks for one" % (path, text.count(before), before.strip()))
    start = text.index(before) + len(before)
    end = text.find(behind, start) if behind != WHOLE else len(text)
    if end < 0:
        sys.exit("%s: no '%s' behind '%s'" % (path, behind.strip(), before.strip()))
    return text[:start] + (part(text[start:end]) if callable(part) else part) + text[end:]


writing = sys.argv[1:] == ['write']
stale = []
for pattern, before, behind, part in PARTS:
    path = place(pattern, before)
    text = path.read_text()
    right = current(path.relative_to(ROOT), text, before, behind, part)
    if right != text:
        stale.append(str(path.relative_to(ROOT)))
        if writing:
            path.write_text(right)
for name in dict.fromkeys(stale):
    print('%s: written' % name if writing else '%s is not what %s makes: python3 tests/checks/refusals.py write' % (name, LIST))
if stale and not writing:
    sys.exit(1)
print('%d refusals, the same in %d files' % (len(REFUSALS), len({pattern for pattern, *_ in PARTS})))
