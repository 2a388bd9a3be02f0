#!/usr/bin/env python3
"""Brings the repository's own names in specs/ and proofs/ to the kit's spelling, once: words in snake case, types in camel case.

usage: python3 tools/snake_names.py, at the top, on a tree in which every name has the older spelling (a-b, Round-trips, negF).
Names that the check makes (of goals and their steps) and names of the kit's library are not touched. It stops where two names would fall together.
"""
import collections
import glob
import os
import re
import sys

KIT = "/opt/rattle/rattle"
TOKEN = re.compile(r"(\"(?:[^\"\\]|\\.)*\"|[^\s(){}\[\];,.\"`]+)")
HEAD = re.compile(r"\s*(?:(?:abbrev|unfoldable|opaque|pub|record|data|instance)\s+)*([^\s(){},.;]+)\s*(?:\s:\s|\s:$|[({].*:|$)")
MADE = ("Answers.antt", "Invariants.antt")
CAMEL = re.compile(r"^[a-z]+F(?![a-z])|^ringF$")


def bare(line):
    return re.sub(r"(^|\s)--(\s.*)?$", "", line)


def spelled(name):
    """The new spelling of an own name, or the same."""
    if name.startswith(("F·", "ℤ·")):
        name = name[0] + "_" + name[2:]
    if CAMEL.match(name):
        name = re.sub(r"^([a-z]+)F", r"\1_F", name)
    if "-" not in name or not re.search(r"[\w'ℤ≈]-\w", name):
        return name
    if re.match(r"[A-Z][a-z]", name):
        return "".join(p[:1].upper() + p[1:] for p in name.split("-"))
    return name.replace("-", "_")


def files(kind):
    for p in sorted(glob.glob("crates/*/**/*." + kind, recursive=True)):
        if "/out/" not in p:
            yield p


def own_names():
    names = collections.defaultdict(set)
    for p in files("antt"):
        if os.path.basename(p) in MADE:
            continue
        for line in open(p, encoding="utf-8"):
            m = HEAD.match(bare(line).rstrip("\n"))
            if m and spelled(m[1]) != m[1]:
                names[m[1]].add(p)
    return names


def imports(text):
    """Names that a file takes from the kit."""
    taken = set()
    for m in re.finditer(r"(?:ghost )?use (Rattle\.std|borrow|Rattle\.core)[\w.]*\.\{([^}]*)\}", text):
        taken |= {n.strip() for n in m[2].split(",")}
    return taken


def turn(path, new):
    text = open(path, encoding="utf-8").read()
    kept = imports(text)
    made = os.path.basename(path) in MADE
    out = []
    for line in text.split("\n"):
        mark = "//" if path.endswith(".rt") else "--"
        m = re.search(r"(^|\s)" + mark + r"(\s|$)", line)
        code, note = (line[: m.start()], line[m.start() :]) if m else (line, "")

        def one(t):
            w = t[1]
            if w.startswith('"') or w not in new or w in kept:
                return w
            if made and code[: t.start()].rstrip().endswith("goal."):
                return w
            return new[w]

        out.append(TOKEN.sub(one, code) + note)
    text = "\n".join(out)
    open(path, "w", encoding="utf-8").write(text)


def main():
    names = own_names()
    new = {n: spelled(n) for n in names}
    there = collections.defaultdict(set)
    for p in files("antt"):
        for line in open(p, encoding="utf-8"):
            m = HEAD.match(bare(line).rstrip("\n"))
            if m:
                there[m[1]].add(p)
    clash = [(n, w, sorted(names[n] & there[w])) for n, w in new.items() if names[n] & there[w]]
    twice = collections.defaultdict(list)
    for n, w in new.items():
        twice[w].append(n)
    clash += [(ns, w, []) for w, ns in twice.items() if len(ns) > 1]
    if clash:
        print("these names would fall together:", *clash, sep="\n")
        return 1
    for kind in ("antt", "rt"):
        for p in files(kind):
            turn(p, new)
    print(len(new), "names;", *sorted(f"{n} -> {w}" for n, w in new.items()), sep="\n")
    return 0


if __name__ == "__main__":
    sys.exit(main())
