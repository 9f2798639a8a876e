#!/usr/bin/env python3
"""Respells the repository's own names of definitions and lemmas as the toolchain spells them: snake case.

usage: python3 tools/respell.py            in the repository, once, right after the toolchain's own port.py
       python3 tools/respell.py --list     prints each old name and its new one, changes nothing

A name is turned where it is declared in a file of specs/ or proofs/: a hump becomes an underscore and a small letter (linesOk, lines_ok), a dash between plain
words an underscore (digit-le, digit_le), a prime an apostrophe. Types, records, modules and facts keep their capital and their spelling, as do fields of the
source, functions, strings and everything that the toolchain makes (a function's folder below proofs/ names what it makes there). A lemma whose new name is
that of a definition ends in _lem. Names that would still fall together end the run before anything is written.
"""

import collections
import os
import re
import sys

WORD = r"[^\s(){}\[\].,;:λ\"«»|=→×◌+*^<>≡≤≢∷∙/]+"
SIGNATURE = re.compile(r"^( *)((?:pub |abbrev |unfoldable |open )*)(" + WORD + r")((?: " + WORD + r")*) (?=:(?: |$))")
BINDS = re.compile(r"^( *)(?:pub )?(?:data|record|abbrev pub record|unfoldable pub record) ")
HUMP = re.compile(r"^[a-z][a-z0-9]*(?:[A-Z][A-Za-z0-9]*)+'*$")
STRING = re.compile(r'"(?:[^"\\]|\\.)*"')


def snake(part):
    """A run of letters with humps in snake case; C1 and the like stay one word."""
    if not HUMP.match(part):
        return part
    return re.sub(r"([A-Z][A-Za-z0-9]*?)(?=[A-Z]|$|')", lambda m: "_" + m.group(1).lower(), part)


def respelled(name):
    parts = [snake(p) for p in name.replace("′", "'").split("-")]
    if any(p[:1].isupper() and len(p) > 2 for p in parts) or "" in parts:
        return "-".join(parts)
    return "_".join([parts[0]] + [p.lower() if p[:1].isupper() else p for p in parts[1:]])


def crates(root):
    return sorted(d for d in os.listdir(os.path.join(root, "crates")) if os.path.isdir(os.path.join(root, "crates", d)))


def files(root, *kinds):
    for folder, dirs, names in os.walk(os.path.join(root, "crates")):
        dirs[:] = sorted(d for d in dirs if d != "out")
        for n in sorted(names):
            if n.endswith(kinds):
                yield os.path.join(folder, n)


def read(path):
    with open(path, encoding="utf-8") as f:
        return f.read()


def declared(text, of_a_function):
    """The names that a file declares: at the margin and in its blocks, with what it binds there; of a function's proof only what is not the toolchain's."""
    for line in text.split("\n"):
        m = SIGNATURE.match(line)
        if not m or line.lstrip().startswith(("--", "use ", "pub use ", "mod ", "pub mod ", "infix")):
            continue
        if of_a_function and re.search(r": (tie|goal|statement|\{M : Type 1\})", line):
            continue
        if m.group(4) and not m.group(1):
            continue
        for name in (m.group(3) + m.group(4)).split():
            yield name


def is_of_a_function(path):
    return os.path.basename(path) == "Proof.antt"


def mapping(root):
    """Old and new names of the whole repository; and of single files, those names there that only their private _lem keeps apart from a new name."""
    names = {path: set(declared(read(path), is_of_a_function(path))) for path in files(root, ".antt")}
    every = set().union(*names.values())
    for path in names:
        every |= {m.group() for m in tokens(STRING.sub('""', read(path))) if HUMP.match(m.group())}
    humps = {respelled(n) for n in every if "-" not in n and respelled(n) != n}
    new = {}
    for name in every:
        to = respelled(name)
        if to != name:
            new[name] = to + "_lem" if "-" in name and (to in humps or to in every) else to
    own = {}
    for path in names:
        mine = {n: n + "_lem" for n in names[path] if n in humps and not is_of_a_function(path)}
        if mine:
            own[path] = mine
    return new, own


def tokens(text):
    return re.compile(r"(?<![A-Za-z0-9_'′\-·])[A-Za-z_][A-Za-z0-9_'′\-]*").finditer(text)


def turned(text, new):
    """text with each name of new respelled, outside strings and paths of the toolchain's own modules."""
    kept = [(m.start(), m.end()) for m in STRING.finditer(text)]
    out, at, k = [], 0, 0
    for m in tokens(text):
        while k < len(kept) and kept[k][1] <= m.start():
            k += 1
        if k < len(kept) and kept[k][0] <= m.start():
            continue
        to = new.get(m.group())
        if to is None or text[:m.start()].endswith(("tie.", "goal.", "tie.Need-")):
            continue
        out.append(text[at:m.start()] + to)
        at = m.end()
    return "".join(out) + text[at:]


def fallen_together(root, new, own):
    by = collections.defaultdict(set)
    for old, to in new.items():
        by[to].add(old)
    bad = [f"{sorted(olds)} would all be {to}" for to, olds in sorted(by.items()) if len(olds) > 1]
    for path in files(root, ".antt"):
        if is_of_a_function(path):
            continue
        seen = {m.group() for m in tokens(STRING.sub('""', re.sub(r"--.*", "", read(path))))} - set(own.get(path, ()))
        bad += [f"{path}: {old} would be {to}, which stands there" for old, to in sorted(new.items()) if old in seen and to in seen]
    return bad


def main():
    root = os.getcwd()
    new, own = mapping(root)
    if "--list" in sys.argv[1:]:
        for old in sorted(new):
            print(old, new[old])
        for path in sorted(own):
            print(path[len(root) + 1:], *(f"{old} {to}" for old, to in sorted(own[path].items())))
    bad = fallen_together(root, new, own)
    if bad:
        print("\n".join(bad), file=sys.stderr)
        raise SystemExit(f"respell: {len(bad)} names fall together; nothing was changed")
    if "--list" in sys.argv[1:]:
        return
    changed = 0
    for path in files(root, ".antt", ".rt", ".edit"):
        text = read(path)
        to = turned(text, new | own.get(path, {}))
        if to != text:
            with open(path, "w", encoding="utf-8") as f:
                f.write(to)
            changed += 1
    print(f"respell: {len(new)} names, {changed} files")


main()
