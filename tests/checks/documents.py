"""documents.py: what the checks of the documents share: the files that a table's cell names, and the functions that a host may call."""
import functools
import pathlib
import re

ROOT = pathlib.Path(__file__).resolve().parents[2]
TRUST = ROOT / 'docs' / 'TRUST.md'
DECISIONS = ROOT / 'docs' / 'DECISIONS.md'


def files_of(cell):
    """The files that a table's cell names: a path, then names beside it, or in the folder of another crate."""
    paths, folder = [], None
    for name in re.findall(r'`([^`]+)`', cell):
        path = ROOT / name if name.startswith('crates/') else ROOT / 'crates' / name if '/' in name else folder / name
        folder = path.parent
        paths.append(path)
    return paths


def source(crate, path):
    """The source file of a function of a crate."""
    modules = path.split('::')[:-1]
    return ROOT / 'crates' / crate / 'src' / ('/'.join(modules) + '.rt' if modules else 'lib.rt')


@functools.lru_cache(None)
def function(crate, path):
    """The text of a public function up to its body, or nothing."""
    file = source(crate, path)
    pattern = r'^pub (?:extern "C" )?fn %s\(.*?^\{' % path.split('::')[-1]
    found = re.search(pattern, file.read_text(), re.M | re.S) if file.is_file() else None
    return found and found.group(0)


@functools.lru_cache(None)
def functions():
    """The names of all functions of the sources."""
    return {name for path in (ROOT / 'crates').glob('*/src/**/*.rt') for name in re.findall(r'\bfn (\w+)\(', path.read_text())}


def host_functions():
    """What a host may call, by the table of docs/DECISIONS.md, and every exported function: crate and path."""
    decided = DECISIONS.read_text().split('**What a host may call')[1].split('Every other public function')[0]
    called = [(crate, path) for crates, paths in re.findall(r'^  \| (`.*?) \| (.*) \|$', decided, re.M)
              for crate in re.findall(r'`(\w+)`', crates) for path in re.findall(r'`([\w:]+)`', paths)]
    for file in sorted((ROOT / 'crates' / 'dvs' / 'src').glob('*.rt')):
        called += [('dvs', file.stem + '::' + name) for name in re.findall(r'^pub extern "C" fn (\w+)', file.read_text(), re.M)]
    return called
