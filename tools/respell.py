#!/usr/bin/env python3
"""Brings the repository's own definitions, lemmas, fields and hypotheses to the spelling of today's Rattle:
words in snake case, types and facts in camel case.

usage: python3 tools/respell.py [--say]      at the top of the repository; with --say it writes nothing and lists

A name counts as the repository's own in a file that declares it, or that imports it from one of the
repository's own crates; fields and constructors count everywhere behind a dot or a bar. Names that
Rattle makes (goals, steps, invariants, measures) and functions, types, strings and file names of src/ stay.
"""
import os
import re
import sys

# where the rule would make two names one, or one that another thing already has
BY_HAND = {"No-path": "HasNoPath", "INF": "inf"}

WORD = r"[^\s(){}\[\];,.|«»⟦⟧\"]+"
TOKEN = re.compile(WORD)


def files(root):
    for folder, dirs, names in os.walk(os.path.join(root, "crates")):
        dirs[:] = sorted(d for d in dirs if d != "out")
        for f in sorted(names):
            if f.endswith((".antt", ".rt")):
                yield os.path.join(folder, f)


def parts(path):
    i = path.split(os.sep)
    k = i.index("crates")
    return i[k + 1], i[k + 2], i[-1]


def uncomment(line, mark):
    i = line.find(mark)
    return line if i < 0 else line[:i]


def imports(text, crates):
    """What a file takes from the repository's own specs/ and proofs/, and what from elsewhere."""
    own, other = set(), set()
    for m in re.finditer(r"(?:ghost )?use ([^\s{};]+)\.\{([^}]*)\}", text):
        path = m.group(1).split(".")
        mine = len(path) > 3 and path[0] == "Rattle" and path[1] in crates and "declared" not in path and path[-1] not in ("Goals", "Given") and path[2] in ("specs", "proofs")
        for it in m.group(2).split(","):
            for name in it.split(" as "):
                if name.strip():
                    (own if mine else other).add(name.strip())
    return own, other


def declared(path, text):
    """The names that a file of specs/ or proofs/ declares at its left edge, and the fields and constructors below a record or data."""
    crate, kind, name = parts(path)
    top, inner = set(), set()
    answers = kind == "proofs" and name in ("Answers.antt", "Invariants.antt", "Proof.antt")
    block, data = None, False
    for m in re.finditer(r" as ([A-Za-z]\S*-[^\s,}]*)", text):
        top.add(m.group(1))
    for raw in text.split("\n"):
        line = uncomment(raw, "--")
        s = line.strip()
        if not s or s.startswith(("use ", "pub use ", "mod ", "pub mod ", "module ", "unfolding ")):
            continue
        indent = len(line) - len(line.lstrip())
        if block is not None and indent <= block:
            block = None
        if block is not None:
            m = re.match(r"(?:pub\s+)?(" + WORD + r")\s*(?:\(|\{|:\s)", s)
            if m:
                (top if data else inner).add(m.group(1))
            continue
        m = re.match(r"((?:(?:abbrev|unfoldable|pub|record|data|ruleset)\s+)+)(" + WORD + r")", s) or re.match(r"()(" + WORD + r")\s*(?::(?:\s|$))", s)
        if m:
            if not (answers and "pub" in m.group(1)):
                top.add(m.group(2))
            if re.search(r"\b(record|data)\b", m.group(1)):
                block, data = indent, "data" in m.group(1)
        # a local definition
        for m in re.finditer(r"\blet (" + WORD + r") : ", s):
            top.add(m.group(1))
    return top, inner


def snake(name):
    name = name.replace("′", "'")
    name = re.sub(r"(?<=[a-z0-9])(?=[A-Z])", "_", name) if not re.match(r"^[A-Z]", name) else name
    return re.sub(r"-", "_", name).lower()


def camel(name):
    return "".join(w[:1].upper() + (w[1:].lower() if w.isupper() and len(w) > 1 else w[1:]) for w in name.split("-"))


def wanted(name, is_type):
    if name in BY_HAND:
        return BY_HAND[name]
    if not re.match(r"^[A-Za-z][A-Za-z0-9_'′-]*$", name):
        return name
    if "-" not in name and name not in ("INF",):
        return name
    if name.split("-")[0] in ("invariant", "decreases"):
        return name
    return camel(name) if is_type else snake(name)


def main(argv):
    root = "."
    crates = set(os.listdir("crates"))
    texts = {p: open(p, encoding="utf-8").read() for p in files(root)}
    # a word of the library goes by its own name
    for p, t in texts.items():
        if "AllByRecursion as All" in t:
            t = t.replace("AllByRecursion as All", "AllByRecursion")
            texts[p] = re.sub(r"(?<![\w'.-])All(?![\w'-])", "AllByRecursion", t)
    tops, inners, where = {}, set(), {}
    for p, t in texts.items():
        if p.endswith(".antt"):
            top, inner = declared(p, t)
            tops[p] = top
            inners |= inner
            for n in top | inner:
                where.setdefault(n, set()).add(p)
        else:
            tops[p] = set()
            for m in re.finditer(r"ghost ([a-z][\w'-]*)\s*:", t):
                inners.add(m.group(1))
                where.setdefault(m.group(1), set()).add(p)
    turn = {}
    for n in where:
        new = wanted(n, n[:1].isupper())
        if new != n:
            turn[n] = new
    if "--say" in argv:
        tokens = {}
        for p, t in texts.items():
            for m in TOKEN.finditer(t):
                tokens.setdefault(m.group(0), set()).add(p)
        back = {}
        for n, new in sorted(turn.items()):
            back.setdefault(new, []).append(n)
            if new in tokens:
                print("falls on:", n, "->", new, "|", sorted(where[n])[0], "|", sorted(tokens[new])[:3], len(tokens[new]))
        for new, ns in sorted(back.items()):
            if len(ns) > 1:
                print("falls together:", new, ns)
        print(len(turn), "names")
        return 0
    for p, t in texts.items():
        own, other = imports(t, crates)
        here = tops[p] | (own - other)

        def one(line):
            out, at = [], 0
            for m in TOKEN.finditer(line):
                w = m.group(0)
                before = line[:m.start()][-1:]
                out.append(line[at:m.start()])
                at = m.end()
                said = line[:m.start()].find("--") >= 0  # in a comment INF is the number's name
                if w in turn and not (said and w == "INF") and (w in here or w in inners and (before == "." or inner_place(line, m, p))):
                    w = turn[w]
                out.append(w)
            out.append(line[at:])
            return "".join(out)

        def inner_place(line, m, p):
            # a field that is declared, or given in a record
            return p.endswith(".antt") and re.match(r"\s*(=|:|↦)(?!\S)", line[m.end():]) is not None

        was = open(p, encoding="utf-8").read()
        new = "\n".join(one(l) if p.endswith(".antt") or "ghost" in l or not l.strip().startswith("//") else l for l in t.split("\n"))
        if new != was:
            with open(p, "w", encoding="utf-8") as f:
                f.write(new)
    return 0


if __name__ == "__main__":
    raise SystemExit(main(sys.argv[1:]))
