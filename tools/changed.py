#!/usr/bin/env python3
"""What changed between two trees, old above new: reads what the toolchain's contracts.py OLD NEW --json writes."""
import json
import re
import sys


def tidy(text):
    return re.sub(r',? ?\)', ')', re.sub(r'\( ', '(', text))


def clauses(kind, rows):
    return [f"{kind}{' ' + name if name else ''} {{ {text} }}" for name, text in rows]


def show(title, old, new):
    print('@@', title.replace(' src/lib.rt', '').replace(' src/main.rt', ''))
    for sign, lines in (('-', old), ('+', new)):
        for line in lines:
            print(sign, line)


def main():
    d = json.load(sys.stdin)
    print('### Signatures\n\n```diff')
    for place, old, new in d['signatures changed']:
        if tidy(old) != tidy(new):
            show(place, [tidy(old)], [tidy(new)])
    print('```\n\n### Clauses\n\n```diff')
    for place, requires, ensures, new_requires, new_ensures in d['contracts changed']:
        show(place, clauses('requires', requires) + clauses('ensures', ensures),
             clauses('requires', new_requires) + clauses('ensures', new_ensures))
    print('```\n\n### Definitions\n\n```diff')
    for crate, name, old, new in d['definitions']['changed']:
        show(f'{crate} {name}', old, new)
    print('```')


main()
