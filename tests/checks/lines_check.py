#!/usr/bin/env python3
"""lines_check.py: whether every line of the sources and of the definitions has at most 120 characters, so that they can be read side by side.

It prints each longer one and exits with 1 where there is one."""
import pathlib
import sys

ROOT = pathlib.Path(__file__).resolve().parents[2]
WIDTH = 120
longer = [(path.relative_to(ROOT), number, len(line))
          for pattern in ('*/src/**/*.rt', '*/specs/**/*.antt')
          for path in sorted((ROOT / 'crates').glob(pattern))
          for number, line in enumerate(path.read_text().splitlines(), 1)
          if len(line) > WIDTH]
for path, number, length in longer:
    print('%s:%d has %d characters' % (path, number, length))
sys.exit(1 if longer else 0)
