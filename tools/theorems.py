#!/usr/bin/env python3
"""Theorems that the documents of an old tree name and whose statement changed, old above new: theorems.py OLDTREE NEWTREE.

Read are the laws of proofs/, by text alone; a law under a `module _ (..) where` is printed with the arguments of the modules around it."""
import glob
import re
import sys

NAMED = ['README.md', 'docs/READING.md', 'docs/DECISIONS.md']


def plain(name):
    return name.replace('-', '_')


def laws(tree):
    found = {}
    for path in glob.glob(f'{tree}/crates/*/proofs/**/*.antt', recursive=True):
        crate = path[len(tree):].split('/')[2]
        around = []
        lines = open(path, encoding='utf-8').read().split('\n')
        for n, line in enumerate(lines):
            indent = len(line) - len(line.lstrip())
            if not line.strip() or line.strip().startswith('--'):
                continue
            around = [(i, text) for i, text in around if i < indent]
            if line.strip().startswith('module '):
                text = line.strip()
                k = n
                while not text.endswith('where'):
                    k += 1
                    text += ' ' + lines[k].strip()
                around.append((indent, text[len('module _'):-len('where')].strip()))
                continue
            if re.match(r' *(pub )?(record|data) ', line):
                around.append((indent, None))
                continue
            law = re.match(r' *pub ([^\s:]+) : (.*)', line)
            if not law or None in [text for _, text in around]:
                continue
            text = law.group(2)
            k = n + 1
            while k < len(lines) and len(lines[k]) - len(lines[k].lstrip()) > indent and lines[k].strip():
                text += ' ' + lines[k].strip()
                k += 1
            found.setdefault((crate, plain(law.group(1))), []).append(' '.join([t for _, t in around] + [text]))
    return found


def main():
    old_tree, new_tree = sys.argv[1:]
    named = set()
    for path in NAMED:
        words = re.findall(r'`([^`\s]+)`', open(f'{old_tree}/{path}', encoding='utf-8').read())
        named |= {plain(word) for word in words}
    old, new = laws(old_tree), laws(new_tree)
    for crate, name in sorted(old):
        before, after = old[crate, name], new.get((crate, name), [])
        if name in named and after and sorted(before) != sorted(after):
            print('@@', crate, name)
            for text in before:
                print('-', text)
            for text in after:
                print('+', text)


main()
