#!/usr/bin/env python3
"""Brought the names that this repository declares in specs/ and proofs/ to one spelling: words in snake case, types and
modules in camel case. It ran once, on what /opt/rattle/port/port.py left of an older tree: docs/PORT.md names the commit.
It does not run on what stands on that, whose goals have dashes of their own.

usage: respell.py [--check]

A name with a small first letter turns: `mostObservations` to `most_observations`, `below-cost` to `below_cost`. A dash
beside an operator stays, as in `⊖-add`. A lemma that would meet a definition, as `level-of` and `levelOf`, gets `_lem`.
Functions of src/, types, modules, goals that the check names and what a file imports from a library keep their names,
and so do the rules' own capitals, as `R` and `A`. --check lists the names that would fall together in a file, and
writes nothing.
"""
import collections
import glob
import os
import re
import sys

OWN = "reply lists table buffer cutting sample text kernel record file recurrence engine walk segment demands tawinrak report cuts".split()
WORD = re.compile(r'[^\s(){}.;,@"«»`]+')
DECLARED = re.compile(r"^ *(?:(?:pub|abbrev|unfoldable) )*([^\s:(){}\[\].,λ;@\"]+)((?: [^\s:(){}\[\].,λ;@\"]+)*)(?: \{[^{}\n]*\})* :(?= |$)")
FIELD = re.compile(r"\bpub ([^\s:(){}\[\].,λ;@\"]+) :")
USE = re.compile(r"use ([^\s{;]+?)\.\{([^}]*)\}")
LEM = set()  # lemmas whose plain spelling a definition, a function or a library's word has
PARTS = {"is-above": "is_above", "is-at-most": "is_at_most", "is-below": "is_below", "is-not": "is_not"}  # of operators


def snake(name):
    if name in PARTS:
        return PARTS[name]
    if re.match(r"[A-Z]", name) and "-" not in name:
        return name
    name = re.sub(r"(?<=[a-z0-9])([A-Z])", lambda m: "_" + m[1].lower(), name) if not re.match(r"[A-Z]", name) else name
    return re.sub(r"(?<=[\wδμ'])-(?=[\w'])", "_", name) + ("_lem" if name in LEM else "")


def files(*kinds):
    for pattern in kinds:
        yield from sorted(glob.glob(pattern, recursive=True))


def read(path):
    with open(path, encoding="utf-8") as f:
        return f.read()


def declared():
    names = collections.defaultdict(set)
    for path in files("crates/*/specs/**/*.antt", "crates/*/proofs/*.antt", "crates/*/proofs/*/**/*.antt"):
        walked = re.search(r"/proofs/[^/]+/", path)
        for line in read(path).split("\n"):
            m = DECLARED.match(line)
            if m and not (walked and re.search(r": (tie|goal)\.|statement M$", line)) and not line.lstrip().startswith("--"):
                for name in [m[1]] + m[2].split():
                    names[name].add(path)
            m = FIELD.search(line)
            if m:
                names[m[1]].add(path)
    definitions = {snake(n) for n in names if "-" not in n}
    LEM.update(n for n in names if "-" in n and snake(n) in definitions)
    LEM.update({"is-nan", "put-file"} & set(names))
    for part in PARTS:
        names[part] = names[f"◌{part}◌"]
    return {n: p for n, p in names.items() if snake(n) != n}


def imported(text):
    """What a file imports from a library."""
    out = set()
    for path, items in USE.findall(text):
        steps = path.split(".")
        if steps[0] == "Rattle" and len(steps) > 1 and steps[1] in OWN:
            continue
        for item in items.split(","):
            words = item.split()
            if words:
                out.add(words[-1])
                out.add(words[0])
    return out


def turned(text, names, code=True):
    keep = imported(text)
    turn = lambda m: snake(m[0]) if m[0] in names and m[0] not in keep else m[0]
    if not code:  # spans between backquotes alone
        return re.sub(r"`[^`\n]*`", lambda s: WORD.sub(turn, s[0]), text)
    out = []
    for line in text.split("\n"):
        m = re.search(r"(?:^|\s)(--|//)(?=\s|$)", line)
        at = m.start(1) if m else len(line)
        prose = line[at:]
        prose = re.sub(r"`[^`\n]*`", lambda s: WORD.sub(turn, s[0]), prose)
        prose = re.sub(r"\b[a-z]+[A-Z]\w*\b", lambda s: turn(s), prose)
        out.append(WORD.sub(turn, line[:at]) + prose)
    return "\n".join(out)


def spans(text):
    """A page's code spans, in which names stand that port.py respelled."""
    known = set()
    for path in files("crates/*/specs/**/*.antt", "crates/*/proofs/*.antt"):
        for line in read(path).split("\n"):
            m = DECLARED.match(line)
            known.update([m[1]] + m[2].split() if m else [])
    turn = lambda m: snake(m[0]) if snake(m[0]) in known else m[0]
    return re.sub(r"`[^`\n]*`", lambda s: WORD.sub(turn, s[0]), text)


def clauses(text, names):
    """The clauses, ghost items and comments of a source file."""
    keep = imported(text)
    turn = lambda m: snake(m[0]) if m[0] in names and m[0] not in keep else m[0]
    out, depth, ghost = [], 0, False
    for line in text.split("\n"):
        if line.lstrip().startswith("//"):
            line = re.sub(r"`[^`\n]*`", lambda s: WORD.sub(turn, s[0]), line)
            line = re.sub(r"\b[a-z]+[A-Z]\w*\b", turn, line)
        elif depth or re.match(r"\s*(ghost use|requires|ensures|ghost)\b", line):
            line = WORD.sub(turn, line)
            depth += line.count("{") - line.count("}")
        out.append(line)
    return "\n".join(out)


def together(names):
    said = 0
    for path in files("crates/*/specs/**/*.antt", "crates/*/proofs/**/*.antt", "crates/*/src/**/*.rt"):
        text = read(path)
        words = set(WORD.findall(re.sub(r"(?m)(^|\s)(--|//).*$", "", text))) if path.endswith(".antt") else set(
            WORD.findall("\n".join(l for l in text.split("\n") if re.match(r"\s*(ghost|requires|ensures)", l))))
        keep = imported(text)
        met = collections.defaultdict(set)
        for w in words:
            met[snake(w) if w in names and w not in keep else w].add(w)
        for new, old in sorted(met.items()):
            if len(old) > 1:
                print(path, new, sorted(old))
                said += 1
    return said


def main():
    if os.path.exists("docs/PORT.md"):
        sys.exit("respell.py: this tree is respelled: docs/PORT.md")
    names = declared()
    if "--check" in sys.argv:
        print(len(names), "names;", together(names), "meet another in a file")
        return
    for path in files("crates/*/specs/**/*.antt", "crates/*/proofs/**/*.antt", "crates/*/src/**/*.rt",
                      "crates/*/must-fail/*.edit", "docs/**/*.md", "README.md", "tests/**/*.md"):
        text = read(path)
        if path.endswith(".rt"):
            new = clauses(text, names)
        elif path.endswith(".md"):
            new = spans(turned(text, names, code=False))
        elif path.endswith(".edit") and "src/" in text.split("\n")[0]:
            new = text
        else:
            new = turned(text, names)
        if new != text:
            with open(path, "w", encoding="utf-8") as f:
                f.write(new)


main()
