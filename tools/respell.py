#!/usr/bin/env python3
"""Turns the names that this repository's own specs and proofs declare to the spelling of today's Rattle.

usage: python3 tools/respell.py [--list]      at the top of the repository, once, after the kit's port.py

A name with hyphens gets underscores in their place (`wrong-field` is `wrong_field`); one that begins with a capital letter, a fact or a type,
loses the hyphens and has each word begin with a capital (`Told-apart` is `ToldApart`). Only names that a file of specs/ or proofs/ declares are
turned: definitions, lemmas, constructors, fields, and lemmas under a `where`. Names that the library or the check makes keep theirs, and so do
functions of src/, text in quotes, comments and everything outside crates/. Where two names would fall together, nothing is written.
"""

import collections
import os
import re
import sys

WORD = r"[A-Za-z_][\w'-]*"
DECLARES = re.compile(r"^\s*(?:(?:abbrev|unfoldable|pub|data|record)\s+)*((?:" + WORD + r"\s+)*?" + WORD + r")\s*:(?![:=])")
TOKEN = re.compile(r"(?<![\w'-])" + WORD)
IMPORT = re.compile(r"^\s*(?:pub\s+)?(?:ghost\s+)?use\s+Rattle\.(?P<crate>\w+)\.(?P<path>[^{;]*)\.\{(?P<names>[^}]*)\}")
# Fields of different records, which may share a name: seen by hand.
TOGETHER = {"at-most"}
# `ground` is a tactic of antt's now. The store's ghost member of that name, which is the ghost name of the lent memory, is `lent`, with the
# clauses about it; the field of `Grounded`, the ground by which a step is taken, is `given_by`.
WORDS = [
    (r"MarkStore\.ground\b", "MarkStore.lent"),
    (r"\bs\.ground (?=l\.)", "s.lent "),
    (r"\bghost ground\b", "ghost lent"),
    (r"\bensures ground \{", "ensures lent {"),
    (r"\bground([_-])kept\b", r"lent\1kept"),
    (r"\{ ground self\.new ≡ ground self\.old \}", "{ lent self.new ≡ lent self.old }"),
    (r"\bw\.ground\b", "w.lent"),
    (r"record \{ ground = inv", "record { lent = inv"),
    (r"record \{ ground = ([^;]*); takes", r"record { given_by = \1; takes"),
    (r"\bs\.ground\b", "s.given_by"),
    (r"^(  pub )ground : G$", r"\1given_by : G"),
    (r"^(  pub takes : by )ground fs f$", r"\1given_by fs f"),
]
QUOTED = re.compile(r'"(?:[^"\\]|\\.)*"')


def files(top, *ends):
    for folder, dirs, names in os.walk(os.path.join(top, "crates")):
        dirs[:] = sorted(d for d in dirs if d != "out")
        for name in sorted(names):
            if name.endswith(ends):
                yield os.path.join(folder, name)


def read(path):
    with open(path, encoding="utf-8") as f:
        return f.read()


def turned(name):
    if name[0].isupper():
        return "".join(w[:1].upper() + w[1:] for w in name.split("-"))
    return name.replace("-", "_")


def declared(top):
    """Each name that a file of specs/ or proofs/ declares, with the files."""
    found = collections.defaultdict(set)
    for path in files(top, ".antt"):
        for line in read(path).split("\n"):
            if re.search(r":\s*goal\.", line):
                continue
            m = DECLARES.match(line)
            if m:
                for name in m.group(1).split():
                    if name not in ("abbrev", "unfoldable", "pub", "data", "record"):
                        found[name].add(path)
    return found


def borrowed(top):
    """Names that files import from outside the repository, or from what the check makes."""
    own = set(os.listdir(os.path.join(top, "crates")))
    found = set()
    for path in files(top, ".antt", ".rt"):
        for line in read(path).split("\n"):
            m = IMPORT.match(line)
            if m and (m.group("crate") not in own or m.group("path").endswith("Goals")):
                found.update(n.strip() for n in m.group("names").split(","))
    return found


def respell(text, names, marker):
    """The text with each name turned, but for quotes and comments."""

    def plain(part):
        return TOKEN.sub(lambda m: names.get(m.group(0), m.group(0)), part)

    lines = []
    for line in text.split("\n"):
        at = line.find(marker)
        code, comment = (line, "") if at < 0 else (line[:at], line[at:])
        comment = re.sub(r"`[^`]*`", lambda m: plain(m.group(0)), comment)
        parts, last = [], 0
        for m in QUOTED.finditer(code):
            parts += [plain(code[last : m.start()]), m.group(0)]
            last = m.end()
        lines.append("".join(parts) + plain(code[last:]) + comment)
    return "\n".join(lines)


def main():
    top = os.getcwd()
    found = declared(top)
    kept = borrowed(top)
    names = {n: turned(n) for n in found if "-" in n and n not in kept}
    clash = collections.defaultdict(set)
    for n in names:
        clash[names[n]].add(n)
        if n not in TOGETHER and (names[n] in found or names[n] in kept):
            clash[names[n]].add(names[n])
    bad = {n: c for n, c in clash.items() if len(c) > 1}
    for n, c in sorted(bad.items()):
        where = sorted({os.path.relpath(p, top) for o in c for p in found.get(o, ())})
        print("falls together:", " ".join(sorted(c)), "in", " ".join(where))
    left = sorted(n for n in found if "-" in n and n in kept)
    if left:
        print("kept, since the library or the check has them:", " ".join(left))
    if "--list" in sys.argv:
        for n in sorted(names):
            print(n, "->", names[n])
        return 0
    if bad:
        return 1
    for path in files(top, ".antt", ".rt"):
        old = read(path)
        new = respell(old, names, "--" if path.endswith(".antt") else "//")
        for word, by in WORDS:
            new = re.sub(word, by, new, flags=re.M)
        if new != old:
            with open(path, "w", encoding="utf-8") as f:
                f.write(new)
    return 0


if __name__ == "__main__":
    sys.exit(main())
