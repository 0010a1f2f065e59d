#!/usr/bin/env python3
"""respell.py: brings this repository's own names in antt to today's spelling, once, right after the kit's port.py.

A name defined in crates/*/specs or in a lemma file of crates/*/proofs (a definition, a lemma, a field, a constructor) is in snake case,
and a fact in upper camel case. The names follow wherever they stand: in specs and proofs, in the ghost parts of sources, in edits and in
the pages. Functions and types of src/, strings, inputs and outputs keep theirs. The proof of a function f is called f_spec. It ends with 1
where two names fell together in one file.
"""
import os, re, sys

root = os.path.dirname(os.path.dirname(os.path.abspath(__file__)))
# facts whose names began small
FACTS = {"bookStill": "BookStill", "untouched": "IsUntouched", "placePremise": "PlacePremise", "gaveZero": "GaveZero",
         "ruleGaveZero": "RuleGaveZero", "noRoom": "NoRoom"}
PART = "[A-Za-z0-9_'\u2080-\u2089]"
TOKEN = re.compile(rf"(?<![A-Za-z0-9_'\u2080-\u2089-])[A-Za-z_]{PART}*(?:-{PART}+)*")
HEAD = re.compile(rf"^(?:(?:pub|abbrev|unfoldable|data|record|ruleset)\s+)*([A-Za-z_]{PART}*(?:-{PART}+)*)\s*(?=[:({{=])", re.M)
INNER = re.compile(rf"^\s+(?:(?:pub|abbrev|unfoldable)\s+)*([A-Za-z_]{PART}*(?:-{PART}+)*)\s*:", re.M)
IMPORT = re.compile(r"^\s*(?:ghost |pub )*use ((?!Rattle\.(?:%s)\.)[^\n{]*)\.\{([^}]*)\}", re.M)


def read(path):
    with open(path, encoding="utf-8") as f:
        return f.read()


def snake(name):
    s = name.replace("-", "_")
    return re.sub(r"(?<=[a-z0-9'])([A-Z])", lambda m: "_" + m.group(1).lower(), s)


def main():
    crates = [l.split(":")[0].split()[0] for l in read(os.path.join(root, "crates.txt")).splitlines() if ":" in l]
    foreign = re.compile(IMPORT.pattern % "|".join(crates), re.M)
    antt, rest = [], []
    for folder, dirs, files in os.walk(root):
        dirs[:] = sorted(d for d in dirs if d not in ("out", "target", ".git", "tools"))
        for f in sorted(files):
            p = os.path.join(folder, f)
            if f.endswith(".antt"):
                antt.append(p)
            elif f.endswith((".rt", ".edit", ".md")):
                rest.append(p)

    own, fact = set(), dict(FACTS)
    for p in antt:
        if os.path.basename(p) == "Proof.antt":
            continue
        t = read(p)
        own |= set(HEAD.findall(t))
        own |= set(INNER.findall(t))
    own -= {"λ", "let", "in", "pub", "use", "mod", "elim", "record", "data", "abbrev"}
    new = {n: snake(n) for n in own if n[0].islower() and snake(n) != n}
    new.update({n: snake(n) for n in own if n[0].isupper() and "-" in n and snake(n) != n})
    new = {n: (re.sub(r"-", "_", n) if n[0].isupper() else s) for n, s in new.items()}
    new.update(fact)
    # a lemma that would have its function's name
    for n in [n for n in new if "-" in n and any(m != n and new[m] == new[n] for m in new)]:
        new[n] += "_lem"

    fell, count = 0, 0
    for p in antt + rest:
        t = read(p)
        theirs = set()
        for m in foreign.finditer(t):
            theirs |= {x.strip().split(" as ")[-1] for x in m.group(2).split(",")}
        used = set(TOKEN.findall(t))
        page = p.endswith(".md")
        turned = {n: s for n, s in new.items() if n in used and n not in theirs}
        if p.endswith("Proof.antt"):
            turned.update({n: n.replace("-", "_") for n in used if n.endswith("-spec")})
        # local names in camel case
        if p.endswith(".antt"):
            for n in used:
                if n not in turned and n not in theirs and re.match(r"[a-z]+[a-z0-9]*[A-Z]", n) and "-" not in n:
                    turned[n] = snake(n)
        for n, s in sorted(turned.items()):
            if p.endswith(".antt") and s in used or list(turned.values()).count(s) > 1:
                print(f"{os.path.relpath(p, root)}: {n} becomes {s}, which stands there already")
                fell = 1
        if page:
            out = re.sub(r"`[^`\n]*`", lambda b: TOKEN.sub(lambda m: turned.get(m.group(0), m.group(0)), b.group(0)), t)
        else:
            out = TOKEN.sub(lambda m: turned.get(m.group(0), m.group(0)), t)
        if out != t:
            count += 1
            with open(p, "w", encoding="utf-8") as f:
                f.write(out)
    print(f"{len(new)} names, {count} files")
    return fell


sys.exit(main())
