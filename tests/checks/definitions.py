"""definitions.py: the definitions of a file of antt, the names in each, and what a name stands for by the file's use lines.

What a clause, a binder, a let or a record's field binds is no name here, up to the end of the brackets that it stands in."""
import functools
import re

from documents import ROOT

TOKEN = re.compile(r'"(?:[^"\\]|\\.)*"|[(){};,⌜⌝«»]|[^\s(){};,"⌜⌝«»]+')
MODIFIERS = {'abbrev', 'unfoldable', 'opaque', 'pub'}
WORDS = set('λ → : = _ × . , ; ( ) { } ⌜ ⌝ « » let in record data where Type'.split())
COMMENT = re.compile(r'(^|(?<=\s))--.*')
USE = re.compile(r'(?:pub |ghost )*use ([^\s{;]+?)(?:\.\{([^}]*)\}| as ([^\s;]+))?;?$')
MODULE = re.compile(r'Rattle\.(?!std\.)(\w+)\.(specs|proofs)\.(.+)')


# ---- names

def tokens(text):
    """The tokens of a text without comments; a lambda and a binder's dot stand alone, and quoted texts are left out."""
    found = []
    for token in TOKEN.findall(text):
        if token.startswith('λ') and token != 'λ':
            found.append('λ')
            token = token[1:]
        found += [] if token.startswith('"') else [token[:-1], '.'] if len(token) > 1 and token.endswith('.') else [token]
    return found


def is_name(token):
    return token not in WORDS and not token.startswith('.') and not token[0].isdecimal()


def binder(found, i):
    """The names that brackets bind which open at i, as (x y : A) does; none where they bind nothing."""
    j = i + 1
    while j < len(found) and (is_name(found[j]) or found[j] == '_'):
        j += 1
    return set(found[i + 1:j]) if found[j:j + 1] == [':'] else set()


def free(found, scope):
    """The names in tokens that are not bound. The scope gains what is bound up to the tokens' end."""
    names, outer, i = [], [], 0
    while i < len(found):
        token = found[i]
        if token in '({':
            bound = binder(found, i)
            outer.append((scope, bound))
            scope, i = set(scope), i + (found.index(':', i) - i if bound else 0)
        elif token in ')}' and outer:
            scope, bound = outer.pop()
            scope |= bound
        elif token == ';' and outer:
            scope = set(outer[-1][0])
        elif token in ('λ', 'let'):
            while found[i + 1] not in ('.', '=', ':') and not (found[i + 1] == '(' and binder(found, i + 1)):
                i += 1
                scope |= {found[i]}
        elif is_name(token) and token not in scope and token.split('.')[0] not in scope and not (found[i + 1:i + 2] == ['='] and found[i - 1] in ('{', ';')):
            names.append(token)
        i += 1
    return names


# ---- definitions

class Definition:
    """A definition or theorem: where it stands, its type's tokens, those of the modules around it, and all names in it."""

    def __init__(self, file, name, line, around, sort, public=True):
        self.file, self.name, self.line, self.around, self.sort, self.public = file, name, line, around, sort, public
        self.type, self.names, self.scope = [], [], set()
        self.names += free(around, self.scope)

    def __str__(self):
        return '%s (%s:%d)' % (self.name, self.file.path.relative_to(ROOT), self.line)


def chunks(lines):
    """Lines, each with its number, in parts that begin where a line stands as far left as the first and closes no bracket."""
    parts = []
    for number, line in lines:
        if len(line) - len(line.lstrip()) <= len(lines[0][1]) - len(lines[0][1].lstrip()) and line.lstrip()[0] not in ')}':
            parts.append([])
        parts[-1].append((number, line))
    return parts


def split(chunk):
    """The tokens of what stands before a block, up to its 'where', and the block's lines."""
    ends = [i for i, (_, line) in enumerate(chunk) if line.endswith(' where')]
    cut = ends[0] + 1 if ends else len(chunk)
    return tokens('\n'.join(line for _, line in chunk[:cut])), chunk[cut:]


class File:
    """A file of antt, or the use lines of a source file."""

    def __init__(self, path):
        self.path, self.uses, self.aliases, self.definitions, self.owners, self.strange = path, {}, {}, {}, {}, []
        lines = [(i, COMMENT.sub('', line).rstrip()) for i, line in enumerate(path.read_text().splitlines(), 1)]
        if path.suffix == '.antt':
            self.block([(i, line) for i, line in lines if line], [])
        else:
            for _, line in lines:
                self.use(line)

    def use(self, text):
        found = USE.match(text)
        if not found:
            return
        path, names, alias = found.groups()
        if alias:
            self.aliases[alias] = path
        elif names is None:  # of a source file: the item's name is its path's last part
            self.uses[path.split('::')[-1]] = path, path.split('::')[-1]
        for name in (names or '').split(','):
            own, _, other = name.strip().partition(' as ')
            for part in {other or own} | {part for part in (other or own).split('◌') if '◌' in own and part}:
                self.uses[part] = path, own

    def block(self, lines, around):
        """The definitions of a block, and of the modules in it; a clause belongs to the type above it."""
        last = None
        for chunk in chunks(lines) if lines else []:
            found, inner = split(chunk)
            words = [t for t in found if t not in MODIFIERS]
            if words[0] == 'use':
                self.use(' '.join(line.strip() for _, line in chunk))
            elif words[0] == 'module':
                self.block(inner, around + words[2:-1])
            elif words[0] in ('data', 'record'):
                last = self.grouped(words, inner, Definition(self, words[1], chunk[0][0], around, words[0]))
            elif words[1:2] == [':']:
                made = Definition(self, words[0], chunk[0][0], around, 'name', 'pub' in found[:found.index(':')])
                last = self.definitions.setdefault(words[0], made)
                last.type = words[2:]
                last.names += free(last.type, set(last.scope))
                self.owners.update({part: last for part in words[0].split('◌') if part and '◌' in words[0]})
            elif last and (words[0] == last.name or '◌' in last.name):
                self.clause(words, last)
            elif words[0] not in ('mod', 'unfolding'):
                self.strange.append(chunk[0][0])

    def grouped(self, words, inner, made):
        """A data type with its constructors, or a record with its fields: their names are no names of their own."""
        self.definitions[made.name] = made
        made.names += free(words[2:], made.scope)
        for part in chunks(inner) if inner else []:
            member = [t for t in tokens('\n'.join(line for _, line in part)) if t not in MODIFIERS]
            made.names += free(member[2:], set(made.scope))
            if made.sort == 'data':
                self.owners[member[0]] = made
            else:
                made.scope.add(member[0])
        return made

    def clause(self, words, last):
        """The names of one clause: its patterns bind every name that is no constructor."""
        cut = words.index('=') if '=' in words else 0
        left = [t for t in words[:cut] if is_name(t) and t != last.name]
        made = [t for t in left if self.builds(t)]
        last.names += made + free(words[cut:], last.scope | set(left) - set(made))

    def builds(self, name):
        """Whether a name in a pattern is one of a type's, and not a variable."""
        found = self.meaning(name)
        return found is not None and not (isinstance(found, Definition) and found.sort == 'name')

    def meaning(self, name):
        """The definition that a name stands for, the path of a library or of a declared type, or nothing."""
        if name in self.definitions or name in self.owners:
            return self.definitions.get(name) or self.owners[name]
        if name in self.uses:
            return at(*self.uses[name])
        first, dot, rest = name.partition('.')
        if dot and first in self.aliases:
            return at(self.aliases[first], rest)
        return self.meaning(first) if dot and first else None


@functools.lru_cache(None)
def file(path):
    return File(path)


def at(path, name):
    """What a name of a module is: a definition of this tree, or the path and the name as they are."""
    found = MODULE.fullmatch(path)
    target = found and ROOT / 'crates' / found[1] / found[2] / (found[3].replace('.', '/') + '.antt')
    return target and target.is_file() and file(target).meaning(name) or path + '.' + name


@functools.lru_cache(None)
def defined():
    """All names of specs: its files, its definitions and their constructors."""
    files = list((ROOT / 'crates').glob('*/specs/**/*.antt'))
    return {path.name for path in files} | {name for path in files for name in [*file(path).definitions, *file(path).owners]}
