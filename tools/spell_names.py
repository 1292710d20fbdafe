#!/usr/bin/env python3
"""Spells the names that this repository's specs/ and proofs/ declare as Rattle's library does.

usage: python3 tools/spell_names.py      once, at the top, after /opt/rattle/port/port.py

A definition, lemma, constructor or field is in snake case (isText, pack-unpacked: is_text, pack_unpacked), a type or
a law in camel case (Pack-unpack: PackUnpack). Names of goals, which Rattle makes, and all names of src/ stay. Where a
lemma would get the name of a definition, it gets _lem behind it; where other names would fall together, the script
stops and writes nothing. In pages only names between backticks are turned.
"""
import collections
import os
import re
import sys

WORD = re.compile(r"[A-Za-z_][\w'\-≢≡]*")
HEAD = re.compile(
    r"^(?:  |    )?(?:(?:unfoldable|abbrev|pub|data|record|axiom|ruleset)\s+)*([^\s:(){}]+)(?=\s+:(?:\s|$)|\s+[({].*\s:\s+Type)"
)
SEVERAL = re.compile(r"^  (?:pub )?([A-Za-z][\w'-]*(?: [A-Za-z][\w'-]*)+)(?= : )")


def files(ending, tops=("crates",)):
    for top in tops:
        for folder, dirs, names in os.walk(top):
            dirs[:] = sorted(d for d in dirs if d not in ("out", "target", ".git"))
            for name in sorted(names):
                if name.endswith(ending):
                    yield os.path.join(folder, name)


def read(path):
    with open(path, encoding="utf-8") as f:
        return f.read()


def declared():
    """Each name that is declared in specs/ or proofs/, but for answers and invariants."""
    found = collections.defaultdict(set)
    for path in files(".antt"):
        if os.path.basename(path) == "Invariants.antt":
            continue
        for line in read(path).splitlines():
            if re.search(r":\s*goal\.", line):
                continue
            it = SEVERAL.match(line) or HEAD.match(line)
            if it and not line.lstrip().startswith(("use ", "mod ", "pub mod ", "module ", "--", "infix", "let ", "λ", "in ")):
                for name in it.group(1).split():
                    found[name].add(path)
    return found


def spelled(name):
    if name[0].isupper():
        return "".join(part[:1].upper() + part[1:] for part in name.split("-"))
    name = re.sub(r"([a-z0-9])([A-Z])", lambda m: m.group(1) + "_" + m.group(2).lower(), name)
    return name.replace("′", "'").replace("-", "_")


def main():
    names = declared()
    back = collections.defaultdict(set)
    for n in names:
        back[spelled(n)].add(n)
    to = {n: new for new, olds in back.items() for n in olds if n != new}
    for new, olds in back.items():
        if len(olds) > 1:
            words = [n for n in olds if any("/specs/" in path for path in names[n])]
            lemmas = [n for n in olds if n not in words]
            if len(words) != 1 or len(lemmas) != 1:
                print(f"names that fall together: {sorted(olds)}")
                return 1
            to[lemmas[0]] = new + "_lem"
    turn = lambda m: to.get(m.group(0), m.group(0))
    changed = 0
    for path in [*files((".antt", ".rt"))]:
        old = read(path)
        new = WORD.sub(turn, old)
        if new != old:
            changed += 1
            with open(path, "w", encoding="utf-8") as f:
                f.write(new)
    for path in ["README.md", *files(".md", ("docs",))]:
        old = read(path)
        new = re.sub(r"`[^`\n]*`", lambda m: WORD.sub(turn, m.group(0)), old)
        if new != old:
            changed += 1
            with open(path, "w", encoding="utf-8") as f:
                f.write(new)
    print(f"{len(to)} names, {changed} files")
    return 0


if __name__ == "__main__":
    sys.exit(main())
