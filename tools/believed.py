#!/usr/bin/env python3
"""What has to be believed: the definitions that the outer contracts and the pinned claims rest on.

    tools/believed.py            writes docs/BELIEVED.md
    tools/believed.py --check    fails where that page, or the total in README.md, is not what the definitions give

It begins at the contracts of the outer calls (crates/index), of the functions without code, whose contracts are the claims, and of the
desk program's turn, and follows every name that a contract or a definition mentions.
"""

import re
import sys
from collections import namedtuple
from pathlib import Path

TOP = Path(__file__).resolve().parent.parent
PAGE = TOP / "docs/BELIEVED.md"

# Functions without code whose contract is no claim, but a lemma that is kept in sight.
LEMMAS = {("layout", "chains_read_back")}
# Functions with code whose contract is a claim.
CLAIMS = {("desk", "take_turn")}

Definition = namedtuple("Definition", "crate module name lines")
Source = namedtuple("Source", "names aliases")

DECLARED = re.compile(r"^(?:(?:unfoldable|abbrev|pub|record|data) )*(\S+)")
WORD = re.compile(r"[^\s(){}\[\];,.:λ→≡×⊎]+")
USE = re.compile(r"^(?:ghost )?use (?:Rattle\.)?(\S+?)\.specs\.([\w.]+?)(?:\.\{([^}]*)\}| as (\S+?))?;?$", re.M)
FUNCTION = re.compile(r"^ *(?:pub )?(?:extern \"C\" )?fn (\w+)", re.M)


def crates():
    """The crates, lowest first."""
    lines = (TOP / "crates.txt").read_text().splitlines()
    return [re.split(r"[ :]", line)[0] for line in lines if line and not line.startswith("#")]


def modules(crate):
    """The modules of a crate's definitions, in the order of its Lib.antt."""
    lib = TOP / "crates" / crate / "specs/Lib.antt"
    return re.findall(r"^pub mod (\w+)", lib.read_text(), re.M) if lib.is_file() else []


def uses(text, crate):
    """The names that `use` lines bring in, each with the crate and the module that it stands in."""
    names, aliases = {}, {}
    text = re.sub(r"\{\s+([^}]*?),?\s*\}", lambda m: "{" + " ".join(m[1].split()) + "}", text)
    for origin, module, group, alias in USE.findall(text):
        origin = crate if origin == "crate" else origin
        if group:
            for entry in group.split(","):
                name, _, other = entry.strip().partition(" as ")
                names[other or name] = (origin, module, name)
        else:
            aliases[alias or module] = (origin, module)
    return Source(names, aliases)


def definitions(crate, module):
    """The definitions of a module, each with its lines, and the `use` lines' names."""
    text = (TOP / "crates" / crate / "specs" / (module + ".antt")).read_text()
    found, name = [], None
    for line in text.splitlines():
        if line.startswith(("--", "use ", "infix", "unfolding ")) or not line.strip() or line.strip().startswith("--"):
            continue
        if not line[0].isspace() and not line.startswith(("}", ")")):
            first = DECLARED.match(line)[1]
            if first != name:
                name = first
                found.append(Definition(crate, module, name, []))
        if name:
            found[-1].lines.append(line)
    return found, uses(text, crate)


def owned(definition):
    """The constructors of a data type and the fields of a record."""
    if re.match(r"(?:pub )?(?:record|data) ", definition.lines[0]):
        return re.findall(r"^ +(?:pub )?(\S+) *:", "\n".join(definition.lines[1:]), re.M)
    return []


def contracts(crate):
    """The functions of a crate, each with its contract and whether it has no code."""
    for path in sorted((TOP / "crates" / crate / "src").glob("*.rt")):
        text = re.sub(r"^ *//.*\n", "", path.read_text(), flags=re.M)
        starts = [m.start() for m in FUNCTION.finditer(text)] + [len(text)]
        for start, end in zip(starts, starts[1:]):
            part = text[start:end]
            body = re.search(r"^ *\{(\}?)(?= *$)", part, re.M)
            yield FUNCTION.match(part)[1], part[: body.start()] if body else part, bool(body and body[1]), uses(text, crate)


class Believed:
    def __init__(self):
        self.known, self.sources, self.owner = {}, {}, {}
        for crate in crates():
            for module in modules(crate):
                found, source = definitions(crate, module)
                self.sources[crate, module] = source
                for d in found:
                    self.known[crate, module, d.name] = d
                    for name in owned(d):
                        self.owner.setdefault((crate, module, name), (crate, module, d.name))

    def named(self, text, crate, module, source):
        """The definitions that a text mentions."""
        words = {w for line in text.splitlines() for w in WORD.findall(line.split(" -- ")[0])}
        for word in words | {f"◌{w}◌" for w in words}:
            keys = [(crate, module, word), source.names.get(word)]
            keys += [(*place, word) for place in source.aliases.values()]
            for key in keys:
                key = self.owner.get(key, key)
                if key in self.known:
                    yield key

    def roots(self):
        """Each function whose contract is believed, with the definitions that the contract names."""
        for crate in crates():
            for name, contract, bare, source in contracts(crate):
                outer = crate == "index" and name.startswith("report_index_")
                if outer or (crate, name) in CLAIMS or (bare and "ensures" in contract and (crate, name) not in LEMMAS):
                    yield crate, name, set(self.named(contract, crate, "", source))

    def reached(self):
        todo, seen = [k for _, _, keys in self.roots() for k in keys], set()
        while todo:
            key = todo.pop()
            if key not in seen:
                seen.add(key)
                d = self.known[key]
                todo += self.named("\n".join(d.lines), d.crate, d.module, self.sources[d.crate, d.module])
        return seen


def total(keys, known):
    lines = sum(len(known[k].lines) for k in keys)
    return f"{len(keys)} definitions in {lines:,} lines"


def page(b):
    seen = b.reached()
    out = ["# What has to be believed", ""]
    out += ["Written by `tools/believed.py`; the gate fails where it is stale. These are the definitions that the outer contracts and the claims rest on, found by"]
    out += ["following names, in the order in which they are read: the crates lowest first, in each the files and the definitions as they stand. Everything else in"]
    out += ["`specs/` only serves a proof or a contract inside.", ""]
    out += [f"**{total(seen, b.known)}**, of {total(b.known, b.known)}.", "", "They are reached from these contracts:", ""]
    out += [f"- {crate}: `{name}`" for crate, name, _ in b.roots()]
    for crate in crates():
        for module in modules(crate):
            here = [k for k in b.known if k[:2] == (crate, module) and k in seen]
            if here:
                count = sum(len(b.known[k].lines) for k in here)
                out += ["", f"## crates/{crate}/specs/{module}.antt: {len(here)}, {count} lines", ""]
                out += [", ".join(f"`{k[2]}`" for k in here)]
    return "\n".join(out) + "\n", total(seen, b.known)


def main():
    text, sentence = page(Believed())
    if sys.argv[1:] == ["--check"]:
        stale = [str(p.relative_to(TOP)) for p, part in [(PAGE, text), (TOP / "README.md", sentence)] if not p.is_file() or part not in p.read_text()]
        for name in stale:
            print(f"believed: {name} is stale: run tools/believed.py (in README.md the total is '{sentence}')")
        sys.exit(1 if stale else 0)
    PAGE.write_text(text)
    print(sentence)


main()
