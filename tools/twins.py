#!/usr/bin/env python3
"""Functions of src/ whose bodies are nearly the same: twins.py [LIKENESS [TOKENS]], 0.75 and 20 unless given.

Comments and clauses are left out. Bodies are compared token by token; those of fewer tokens are passed over."""
import difflib
import glob
import itertools
import re
import sys

HEAD = re.compile(r'^( *)(?:pub )?(?:extern "C" )?fn (\w+)')
TOKEN = re.compile(r'\w+|[^\w\s]')


def bodies(path):
    lines = re.sub(r'//.*', '', open(path, encoding='utf-8').read()).split('\n')
    for n, line in enumerate(lines):
        head = HEAD.match(line)
        if not head:
            continue
        indent = head.group(1)
        start = next(i for i in range(n, len(lines)) if lines[i].rstrip() in (indent + '{', indent + '{}')
                     or (lines[i].endswith(' {') and 'ensures' not in lines[i] and 'requires' not in lines[i]))
        end = start if lines[start].endswith('{}') else lines.index(indent + '}', start)
        yield f"{path.split('/')[1]}::{head.group(2)}", TOKEN.findall('\n'.join(lines[start + 1:end]))


def main():
    likeness = float(sys.argv[1]) if len(sys.argv) > 1 else 0.75
    least = int(sys.argv[2]) if len(sys.argv) > 2 else 20
    found = [b for p in sorted(glob.glob('crates/*/src/*.rt')) for b in bodies(p) if least <= len(b[1])]
    for (a, x), (b, y) in itertools.combinations(found, 2):
        m = difflib.SequenceMatcher(None, x, y, autojunk=False)
        if m.quick_ratio() >= likeness and m.ratio() >= likeness:
            print(f'{m.ratio():.2f} {a} {b}')


main()
