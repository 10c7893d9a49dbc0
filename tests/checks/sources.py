"""sources.py: the numbers that the Rattle sources name, for the checks that hold other files to them."""
import functools
import pathlib
import re

ROOT = pathlib.Path(__file__).resolve().parents[2]


@functools.lru_cache(None)
def source(path):
    return (ROOT / 'crates' / path).read_text()


@functools.lru_cache(None)
def constants(path):
    """The numbers that a source names: each a number, or an expression of others, its own or another module's."""
    known = {}

    def number(match):
        module, name = match.groups()
        if not module:
            return str(known[name])
        paths = list((ROOT / 'crates').glob('%s/src/lib.rt' % module)) or list((ROOT / 'crates').glob('*/src/%s.rt' % module))
        return str(constants(paths[0].relative_to(ROOT / 'crates'))[name])

    for name, value in re.findall(r'pub const (\w+): \w+ = ([^;]+);', source(path)):
        known[name] = eval(re.sub(r'\b(?:(?:\w+::)*(\w+)::)?([A-Z]\w*)', number, value.replace(' as usize', '')))
    return known
