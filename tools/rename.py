#!/usr/bin/env python3
"""Spells the repository's own definitions and lemmas as today's Rattle does: words in snake case, and a dash only between two names.

usage: python3 tools/rename.py        at the top of the repository, once, right after the kit's port.py; --check writes nothing and lists the new names

What turns: specs/, proofs/ (but for the names of goals in proofs/F/Proof.antt, which the language makes), the clauses and 'ghost use' lines of src/,
and code spans of README.md and docs/. What stays: functions, fields and types of src/, exported names, strings, inputs and outputs.
A name in camel case becomes words joined by '_'. A dash stays where both of its sides are names (definitions, fields, functions or words of the
library), as in 'length-open_head', and else becomes '_'. A record's field has no dash.
"""
import os
import re
import sys

# a word of antt: everything but blanks, brackets, dots, commas, semicolons
WORD = re.compile(r"[^\s(){}.;,@\"«»`\[\]]+")
DECLARED = re.compile(r"^(\s*)(?:(?:abbrev|unfoldable|opaque|pub|private)\s+)*([^\s(){}:,.;λ?]+)\s+:\s")
HOLDER = re.compile(r"^(\s*)(?:pub\s+)?(record|data)\s+[^\s(){}:]+.*\bwhere\s*$")
CLAUSE = re.compile(r"(?:requires|ensures)\s*(?:\w+\s*)?\{|ghost\s+use\s")
# words of the library and of the language that lemmas are named after
LIBRARY = set(
    """length take drop map append set sets get_or replicate min max all any keep same sum reverse cons snoc nil suc zero add sub mul div mod
    cond and or not true false eqb leb ltb""".split()
)
# where a lemma would get the name of a definition it gets '_lem' behind it; these had that name already, in these files alone
BY_FILE = {
    "crates/ledger/proofs/Rep.antt": {"place_at": "place_at_lem"},
    "crates/layout/proofs/Reading.antt": {"from_start": "from_start_lem", "block_in": "block_in_lem"},
    "crates/layout/proofs/Standing.antt": {"block_in": "block_in_lem"},
    "crates/sums/proofs/Rows.antt": {"gap_at": "gap_at_lem"},
    "crates/sums/proofs/lanes_of/Proof.antt": {"gap_at": "gap_at_lem"},
    "crates/chains/proofs/Parts.antt": {"passed_to": "passed_to_lem"},
    "crates/query/proofs/Seeking.antt": {"passed_to": "passed_to_lem"},
}


def snake(word):
    word = word.replace("getD", "get_or")
    word = re.sub(r"([a-z0-9])([A-Z])", r"\1_\2", word)
    return word.lower() if re.search(r"[a-z0-9]_[A-Z]", word) else word


def antt_files(root):
    for folder, dirs, files in os.walk(os.path.join(root, "crates")):
        dirs[:] = sorted(d for d in dirs if d not in ("out", "must-fail"))
        for f in sorted(files):
            if f.endswith(".antt"):
                yield os.path.join(folder, f)


def declared(path):
    """The names that a file declares, each with whether it is a field of a record."""
    with open(path, encoding="utf-8") as f:
        lines = f.read().split("\n")
    holder = None
    for line in lines:
        if line.strip() and holder is not None:
            if len(line) - len(line.lstrip()) <= holder[0]:
                holder = None
        m = HOLDER.match(line)
        if m:
            holder = (len(m.group(1)), m.group(2))
            continue
        m = DECLARED.match(line)
        if m:
            yield m.group(2), holder is not None and holder[1] == "record" and len(m.group(1)) > holder[0]


def table(root):
    fields, names, words = set(), set(), set(LIBRARY)
    for path in antt_files(root):
        if os.path.basename(path) == "Proof.antt":
            continue
        for name, is_field in declared(path):
            names.add(name)
            if is_field:
                fields.add(name)
            if "/specs/" in path and "-" not in name:
                words.add(snake(name))
    for folder, _, files in os.walk(os.path.join(root, "crates")):
        for f in files:
            if f.endswith(".rt"):
                with open(os.path.join(folder, f), encoding="utf-8") as it:
                    words.update(re.findall(r"\bfn (\w+)", it.read()))
    rows = {}
    for name in sorted(names):
        if not name[0].islower() or not re.search(r"[A-Z-]", name):
            continue
        parts = [snake(p) for p in name.split("-")]
        new = parts[0]
        for i, p in enumerate(parts[1:], 1):
            rest = parts[i:]
            right = any("_".join(rest[:k]) in words for k in range(1, len(rest) + 1))
            left = new in words or any(new.endswith("-" + w) for w in words)
            dash = name not in fields and left and right and not p.isdigit()
            new += ("-" if dash else "_") + p
        if new != name:
            rows[name] = new
    definitions = {new for old, new in rows.items() if "-" not in old} | {n for n in names if n not in rows}
    for old, new in rows.items():
        if "-" in old and new in definitions:
            rows[old] = new + "_lem"
    return rows, names


def turn_words(text, rows):
    return WORD.sub(lambda m: rows.get(m.group(0), m.group(0)), text)


def clauses(text, rows):
    """The clauses and the 'ghost use' lines of a source file, and its comments' code spans."""
    out, at = [], 0
    while True:
        m = CLAUSE.search(text, at)
        if not m:
            out.append(text[at:])
            return "".join(out)
        out.append(text[at : m.start()])
        if m.group(0).startswith("ghost"):
            end = text.index(";", m.end()) + 1
        else:
            depth, end = 1, m.end()
            while depth:
                depth += {"{": 1, "}": -1}.get(text[end], 0)
                end += 1
        out.append(turn_words(text[m.start() : end], rows))
        at = end


def main(argv):
    if argv not in ([], ["--check"]):
        print(__doc__)
        raise SystemExit(2)
    root = os.getcwd()
    rows, names = table(root)
    made = {}
    for old, new in rows.items():
        made.setdefault(new, []).append(old)
    for new, olds in sorted(made.items()):
        if len(olds) > 1 or new in names:
            print(f"falls together: {' '.join(olds)}{' and ' + new + ' itself' if new in names else ''} -> {new}")
    if "--check" in argv:
        for old, new in sorted(rows.items()):
            print(f"{old}\t{new}")
        return
    for path in antt_files(root):
        own = rows | BY_FILE.get(os.path.relpath(path, root), {})
        write(path, lambda t: turn_words(t, own))
    for folder, dirs, files in os.walk(os.path.join(root, "crates")):
        dirs[:] = [d for d in dirs if d != "out"]
        for f in files:
            if f.endswith(".rt"):
                write(os.path.join(folder, f), lambda t: clauses(t, rows))
    pages = [os.path.join(root, "README.md")]
    pages += [os.path.join(root, "docs", f) for f in sorted(os.listdir(os.path.join(root, "docs"))) if f.endswith(".md") and not f.startswith("PORT")]
    for path in pages:
        write(path, lambda t: re.sub(r"`([^`\n]+)`", lambda m: "`" + turn_words(m.group(1), rows) + "`", t))


def write(path, turn):
    with open(path, encoding="utf-8") as f:
        text = f.read()
    new = turn(text)
    if new != text:
        with open(path, "w", encoding="utf-8") as f:
            f.write(new)


if __name__ == "__main__":
    main(sys.argv[1:])
