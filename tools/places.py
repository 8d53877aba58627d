#!/usr/bin/env python3
"""Lists the places in crates/*/src that the design pass looks at, point by point, and counts them.

    python3 tools/places.py          the counts
    python3 tools/places.py 3        every place of point 3

What a pattern finds is a place to read, not yet a fault: docs/DESIGN-PASS.md says what became of each.
"""
import glob
import re
import sys
from collections import defaultdict

FILES = sorted(glob.glob("crates/*/src/**/*.rt", recursive=True))


def lines():
    for path in FILES:
        for number, text in enumerate(open(path), 1):
            if not text.lstrip().startswith(("//", "ghost use")):
                yield path, number, text.rstrip()


def matching(*patterns):
    found = []
    for path, number, text in lines():
        if any(re.search(p, text) for p in patterns):
            found.append((f"{path}:{number}", text.strip()))
    return found


def functions():
    """Each function as (place, name, parameters, clauses)."""
    for path in FILES:
        text = re.sub(r"^\s*//.*$", "", open(path).read(), flags=re.M)
        for m in re.finditer(r"\bfn ([a-z_0-9]+)(?:<[^(]*>)?\(", text):
            depth, end = 1, m.end()
            while depth:
                depth += {"(": 1, ")": -1}.get(text[end], 0)
                end += 1
            given = [p.strip() for p in re.split(r",(?![^<(\[]*[>)\]])", text[m.end():end - 1]) if p.strip()]
            body = re.compile(r"^\s*\{|;", re.M).search(text, end)
            head = text[end:body.start() if body else len(text)]
            clauses = []
            for c in re.finditer(r"\b(requires|ensures)\s*(?:([a-z_]+)\s*)?\{", head):
                depth, stop = 1, c.end()
                while depth and stop < len(head):
                    depth += {"{": 1, "}": -1}.get(head[stop], 0)
                    stop += 1
                clauses.append(head[c.end():stop - 1].strip())
            number = text.count("\n", 0, m.start()) + 1
            yield f"{path}:{number}", m.group(1), given, clauses


def twins():
    by_name = defaultdict(list)
    for place, name, _, _ in functions():
        by_name[name].append(place)
    usual = {"main", "fmt", "from", "new", "put", "has", "count", "clear", "limit", "capacity", "bound", "missing", "next"}
    return [(" ".join(p), name) for name, p in sorted(by_name.items()) if len(p) > 1 and name not in usual]


def together():
    """Facts in the contracts of three or more functions of a crate, and parameters that three or more functions share."""
    facts, shared = defaultdict(set), defaultdict(set)
    for place, name, given, clauses in functions():
        crate = place.split("/")[1]
        for clause in clauses:
            for part in re.split(r"×", clause):
                part = re.sub(r"\b(now|old|new|entry|exit)\b", "", part)
                part = re.sub(r"\s+", " ", part).strip(" ().")
                if len(part) > 12 and "result" not in part:
                    facts[(crate, part)].add(place)
        plain = sorted(p for p in given if ":" in p and not p.startswith("rt:"))
        for i, a in enumerate(plain):
            for b in plain[i + 1:]:
                shared[(crate, f"{a}, {b}")].add(place)
    out = [(f"crates/{c}: {len(p)} contracts", fact[:110]) for (c, fact), p in sorted(facts.items()) if len(p) > 2]
    out += [(f"crates/{c}: {len(p)} functions", pair) for (c, pair), p in sorted(shared.items()) if len(p) > 2]
    return out


POINTS = {
    1: ("enums, flags in structs, numbers for kinds", lambda: matching(
        r"^\s*(pub(\(crate\))? )?enum ", r"^\s*(pub )?[a-z_]+: bool,", r"^\s*(pub )?(rule|letter|kind|state|reason): u\d+,",
        r"fn number\(self\)", r"-> bool$.*&mut self")),
    2: ("functions of one name", twins),
    3: ("loops over a range or with a count kept by hand", lambda: matching(
        r"\bfor \w+ in .*\.\.", r"\bwhile\b", r"\bloop\b", r"\+= 1;")),
    4: ("comparing, converting, refusing and printing by hand", lambda: matching(
        r"fn \w*(is_same|_name|same_)\w*\(", r"fn is_(by_rule|ground_at)", r"\bRefusal \{$", r"fn (wide|long_at|letter_byte)\(",
        r"fn (refused_at|wrong_directory|wrong_content|too_short|store_too_small)\(", r"\* (256|65536|16777216)\b",
        r"\bas (u16|u32|u64|usize)\b")),
    5: ("facts in three or more contracts, parameters that three or more functions share", together),
    6: ("fixed buffers, parallel vectors", lambda: matching(
        r"\[[A-Za-z0-9_:{} &\[\]().]+; \d+\]", r":\s*Vec<")),
    7: ("steps one after the other, tables of functions", lambda: matching(
        r"if let Some\((find|found)\) =", r"\bdyn\b", r"\bfn\(", r"\bBox<", r"else \{ return None")),
}

if __name__ == "__main__":
    asked = [int(a) for a in sys.argv[1:]]
    for number, (title, find) in POINTS.items():
        found = find()
        if number in asked:
            for place, text in found:
                print(f"{place}: {text}")
        if not asked or number in asked:
            print(f"point {number}, {title}: {len(found)}")
