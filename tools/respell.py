#!/usr/bin/env python3
"""Respells the repository's own definitions, fields, constructors and lemmas: words in snake case, types in camel case.

usage: tools/respell.py [--check]      at the top of the repository, right after port.py

A name is the repository's own if a file of specs/, or a file of lemmas right below proofs/, declares it. A name that a
file imports from the kit keeps its spelling there, and so do functions of src/, exported C names, strings and outputs.
A lemma that would take the name of a definition gets _lem. The must-fail edits are respelled too. --check changes
nothing, and prints the table and the names that fall together.
"""
import glob
import os
import re
import sys

TOKEN = re.compile(r"[\w'◌‵μ][\w'◌]*(?:-[\w'◌]+)*")
OWN = re.compile(r"Rattle\.(\w+)[.·]")
CRATES = sorted(os.path.basename(c) for c in glob.glob("crates/*"))


def read(path):
    with open(path, encoding="utf-8") as f:
        return f.read()


def lemma_files():
    return sorted(glob.glob("crates/*/specs/**/*.antt", recursive=True) + glob.glob("crates/*/proofs/*.antt"))


def all_files():
    found = glob.glob("crates/*/specs/**/*.antt", recursive=True) + glob.glob("crates/*/proofs/**/*.antt", recursive=True)
    return sorted(found + glob.glob("crates/*/src/**/*.rt", recursive=True))


def declared(text):
    """The names that a file declares: of functions and lemmas, fields and constructors; of types and modules."""
    words, types = set(), set()
    for line in text.split("\n"):
        if line.lstrip().startswith("--"):
            continue
        m = re.match(r"\s*(?:(?:abbrev|unfoldable|pub)\s+)*(record|data|module)\s+([^\s:(){}]+)", line)
        if m:
            types.add(m.group(2))
            continue
        m = re.match(r"\s*(?:(?:abbrev|unfoldable|pub)\s+)*((?:[^\s:(){}=;,.λ]+\s+)+):\s", line)
        if m and not line.lstrip().startswith(("let ", "use ", "open ", "rw ", "unfolding ")):
            words.update(m.group(1).split())
    return words, types


# constructors and fields of specs/ that would fall together with a definition
APART = {"set-regime": "regime_set", "fault-cacheable": "faults_cacheable"}


def snake(name):
    name = re.sub(r"(?<=[a-z0-9])(?=[A-Z])", "_", name)
    return name.replace("-", "_").lower()


def camel(name):
    return "".join(part[:1].upper() + part[1:] for part in re.split(r"[-_]", name))


def table():
    """The new name of each: where several would take one, a definition of specs/ keeps it, then one of proofs/."""
    words, types, rank = set(), set(), {}
    for path in lemma_files():
        text = read(path)
        w, t = declared(text)
        words |= w
        types |= t
        for name in w:
            made = re.search(r"^\s*(?:abbrev|unfoldable) (?:pub )?" + re.escape(name) + r" :", text, re.M)
            rank[name] = min(rank.get(name, 9), (0 if made or "-" not in name else 2) + (0 if "/specs/" in path else 1))
    to, taken = {}, set()
    for name in sorted(words, key=lambda n: (rank[n], "-" in n, n)):
        if not re.match(r"[a-z]", name):
            continue
        new = APART.get(name, snake(name))
        while new in taken:
            new += "_lem"
        taken.add(new)
        if new != name:
            to[name] = new
    for name in types | {w for w in words if w[0].isupper()}:
        if "-" in name:
            to[name] = camel(name)
    return to, words | types


def foreign(text):
    """The names that a file imports from the kit."""
    names = set()
    for m in re.finditer(r"^\s*(?:ghost )?(?:pub )?use ([^\s{;]+?)\.?\{([^}]*)\}", text, re.M):
        own = OWN.match(m.group(1) + ".")
        if not (own and own.group(1) in CRATES):
            for item in m.group(2).split(","):
                if " as " not in item:
                    names.add(item.strip())
    return names


def respelled(line, to, skip):
    def one(m):
        name = m.group(0)
        if name in skip or name not in to:
            return name
        # after a dot stands a field, which Rattle may have made from a name of src/
        return snake(name) if to[name].endswith("_lem") and line[: m.start()].endswith(".") else to[name]
    return TOKEN.sub(one, line)


def snaked(to):
    """The names that are in snake case already, and that another takes: they may be functions of src/ too."""
    return {n for n in to if n == snake(n)}


def aliases(text):
    """The new spelling of the names that a file itself gives, as `x as y`."""
    given = {}
    for m in re.finditer(r"(?m)^\s*(?:ghost )?use [^\n]*", text):
        for name in re.findall(r" as ([a-z][\w'-]*)", m.group(0)):
            if snake(name) != name:
                given[name] = snake(name)
    used = set(TOKEN.findall(text))
    return {name: new for name, new in given.items() if new not in used}


def comment_start(line, mark):
    quoted = False
    for i, ch in enumerate(line):
        if ch == '"':
            quoted = not quoted
        elif not quoted and line.startswith(mark, i):
            return i
    return len(line)


def turn(path, text, to):
    skip = foreign(text) | (snaked(to) if path.endswith(".rt") else set())
    to = to | aliases(text)
    mark = "//" if path.endswith(".rt") else "--"
    in_comments = {n: new for n, new in to.items() if "-" not in n}
    out = []
    for line in text.split("\n"):
        at = comment_start(line, mark)
        code, rest = line[:at], line[at:]
        if path.endswith(".rt"):
            parts = re.split(r'("(?:[^"\\]|\\.)*")', code)
            code = "".join(p if p.startswith('"') else respelled(p, to, skip) for p in parts)
        else:
            code = respelled(code, to, skip)
        rest = respelled(rest, in_comments, skip)
        rest = re.sub(r"`[^`]*`", lambda m: respelled(m.group(0), to, skip), rest)
        out.append(code + rest)
    return "\n".join(out)


def main():
    check = "--check" in sys.argv
    to, own = table()
    for path in all_files():
        text = read(path)
        if check:
            used = set(TOKEN.findall(text))
            for name in sorted(used & set(to)):
                if to[name] in used and name not in foreign(text):
                    where = [l.strip()[:150] for l in text.split("\n") if re.search(r"(?<![\w.'-])" + re.escape(to[name]) + r"(?![\w'-])", l) and not l.lstrip().startswith(("//", "--"))]
                    if where:
                        print(f"{path}: {name} -> {to[name]}: {where[0]}")
            continue
        new = turn(path, text, to)
        if new != text:
            with open(path, "w", encoding="utf-8") as f:
                f.write(new)
    for path in sorted(glob.glob("crates/*/must-fail/*.edit")):
        text = read(path)
        new = "\n".join(respelled(l, to, snaked(to)) if l.startswith(("old: ", "new: ")) else l for l in text.split("\n"))
        if new != text and not check:
            with open(path, "w", encoding="utf-8") as f:
                f.write(new)
    print(f"respell: {len(to)} names")
    if check:
        for name in sorted(to):
            print("  ", name, to[name])


main()
