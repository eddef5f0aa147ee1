#!/usr/bin/env python3
"""Respells the repository's own names in specs, proofs and clauses: words in snake case, types in camel case.

usage: python3 tools/rename.py [ROOT]

Run once, after the kit's port.py. A name is the repository's own where one of its .antt files declares it;
names that Rattle makes (goals, steps, invariants) and names of libraries stay. Names that would fall together stop it.
"""

import collections
import os
import re
import sys

LETTER = r"A-Za-z0-9_'ℕ◌"
NAME = re.compile(r"(?<![%s\-])[A-Za-zℕ][%s]*(?:-[%s]+)+(?![%s\-])" % (LETTER, LETTER, LETTER, LETTER))
MADE = re.compile(r"(invariant|decreases)-|goal\.")
STEP = re.compile(r"(in|if|else|then|loop|not)-")
LIBRARY = re.compile(r"\s*(ghost )?use (Rattle\.std|borrow|lib|native|mathlib|Prim|denote|logic)\b")
CODE = re.compile(r'"(?:\\.|[^"\\])*"|//.*$')


def files(root):
    for folder, dirs, names in os.walk(os.path.join(root, "crates")):
        dirs[:] = sorted(d for d in dirs if d not in ("out", "target"))
        for name in sorted(names):
            if name.endswith((".antt", ".rt")):
                yield os.path.join(folder, name)


def bare(line):
    """The line without its comment."""
    return re.split(r"(?:^|(?<=\s))--(?=\s|$)", line, maxsplit=1)[0]


def declared(line):
    """The names that a line of an .antt file declares."""
    head = line.split(" : ")[0] if " : " in line else ""
    head = re.sub(r"^\s*(?:(?:pub|abbrev|unfoldable|record|data) )*", "", head)
    head = re.sub(r"[({].*", "", head)
    found = head.split() if re.fullmatch(r"[%s\- ]+" % LETTER, head) else []
    found += re.findall(r"let ([A-Za-z][%s\-]*)" % LETTER, line)
    for binders in re.findall(r"λ ([^.]*)\.", line) + re.findall(r"[({]([A-Za-z][%s\- ]*) :" % LETTER, line):
        found += binders.split()
    return [name for name in found if NAME.fullmatch(name)]


def own_names(root):
    own, foreign = set(), collections.defaultdict(set)
    for path in files(root):
        with open(path, encoding="utf-8") as f:
            for line in f:
                line = bare(line.rstrip("\n"))
                if LIBRARY.match(line):
                    foreign[path] |= set(re.findall(r"[\w'\-]+", line))
                elif path.endswith(".antt") and not line.lstrip().startswith("use ") and ": goal." not in line:
                    own |= {n for n in declared(line) if not MADE.match(n)}
    return own, foreign


def respelled(name):
    if name[0].isupper():
        return "".join(part[0].upper() + part[1:] for part in name.split("-"))
    return name.replace("-", "_")


def turn(path, text, own):
    in_answers = re.search(r"/proofs/.+/(Answers|Invariants|Proof)\.antt$", path)

    def word(m):
        name, before = m.group(0), m.string[: m.start()]
        if name not in own or (in_answers and before.endswith(".") and STEP.match(name)):
            return name
        return respelled(name)

    lines = []
    for line in text.split("\n"):
        if path.endswith(".rt"):
            pieces, last = [], 0
            for m in CODE.finditer(line):
                pieces += [NAME.sub(word, line[last : m.start()]), m.group(0)]
                last = m.end()
            lines.append("".join(pieces) + NAME.sub(word, line[last:]))
        else:
            code = bare(line)
            lines.append((code if LIBRARY.match(code) else NAME.sub(word, code)) + line[len(code) :])
    return "\n".join(lines)


def main():
    root = sys.argv[1] if len(sys.argv) > 1 else "."
    own, foreign = own_names(root)
    spelled = collections.defaultdict(set)
    for name in own:
        spelled[respelled(name)].add(name)
    texts = {}
    for path in files(root):
        with open(path, encoding="utf-8") as f:
            texts[path] = f.read()
    clashes = [sorted(names) for names in spelled.values() if len(names) > 1]
    for path, text in texts.items():
        if path.endswith(".rt"):
            continue  # functions of src/ are no words of clauses
        words = set(re.findall(r"(?<![.%s\-])[%s\-]+" % (LETTER, LETTER), text))
        clashes += [(path, new) for new, names in spelled.items() if new in words and names & words]
    if clashes:
        raise SystemExit("these fall together: %s" % clashes)
    for path, text in texts.items():
        new = turn(path, text, own)
        if new != text:
            with open(path, "w", encoding="utf-8") as f:
                f.write(new)


main()
