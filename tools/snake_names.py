#!/usr/bin/env python3
"""Spells the repository's own definitions and lemmas as today's Rattle does, by names.tsv beside this file.

usage: python3 tools/snake_names.py      once, at the top of the repository, after port.py

Words are in snake case, types and facts in camel case. A line of names.tsv is the old name, the new one and where it is declared (T a type or fact, d
a definition or lemma, l a field or a lemma of a section, a another name under `use .. as`, p a lemma, in proof files alone). Labels that Rattle makes
(behind `goal.`, `c.` and the like, and the answers' own names) and comments' words with a dash keep their spelling; port.py mends labels.
It prints each file in which two names would fall together."""

import os
import re
import subprocess

HERE = os.path.dirname(os.path.realpath(__file__))
TOKEN = re.compile(r'[^\s(){}.;,@"«»`]+')
LABELLED = re.compile(r":\s*goal\.")
MADE = re.compile(r"use Rattle\.\S*\.(?:Goals|Given|Lts)\.\{([^}]*)\}")


def table():
    rows = {}
    for line in open(os.path.join(HERE, "names.tsv"), encoding="utf-8"):
        old, new, kind = line.rstrip("\n").split("\t")
        rows[old] = (new, kind)
    return rows


def labels_of(text):
    """The names in a proof file that Rattle made: answers, invariants, and branches of Goals."""
    found = set()
    for line in text.split("\n"):
        if LABELLED.search(line):
            words = TOKEN.findall(line.split(":")[0])
            found.update(words[-1:])
    for names in MADE.findall(text):
        found.update(TOKEN.findall(names))
    return found


def turned(text, rows, comment, fields, proofs):
    """The text with each name of the table respelled."""
    labels = labels_of(text)
    out = []
    for line in text.split("\n"):
        at = line.find(comment)
        code, rest = (line, "") if at < 0 else (line[:at], line[at:])

        def new_name(m, in_code):
            old = m[0]
            if old not in rows or old in labels:
                return old
            new, kind = rows[old]
            if kind == "p" and not proofs:
                return old
            behind = in_code and m.start() > 0 and code[m.start() - 1] == "."
            if kind == "p" and behind:
                return old
            if "-" in old:
                if not in_code:
                    return old
                path = re.search(r"[^\s(){},;]*$", code[: m.start()])[0]
                if behind and not path.startswith("Rattle.") and old not in fields:
                    return old
            return new

        code = TOKEN.sub(lambda m: new_name(m, True), code)
        rest = TOKEN.sub(lambda m: new_name(m, False), rest)
        out.append(code + rest)
    return "\n".join(out)


def clashes(text, rows, comment, proofs):
    code = "\n".join(l.split(comment)[0] for l in text.split("\n"))
    names = set(TOKEN.findall(code))
    for old in sorted(names):
        if old in rows and (proofs or rows[old][1] != "p") and rows[old][0] in names:
            taken = rows.get(rows[old][0], (rows[old][0],))[0]
            if taken == rows[old][0]:
                yield old, rows[old][0]


def turn_docs(text, rows):
    """Names in backquotes, and names in camel case."""
    within = lambda m: "`" + TOKEN.sub(lambda t: rows[t[0]][0] if t[0] in rows and rows[t[0]][1] != "p" else t[0], m[1]) + "`"
    return re.sub(r"`([^`\n]+)`", within, text)


def main():
    rows = table()
    fields = {"at-flip", "at-round"} | {old for old, (_, kind) in rows.items() if "-" in old and "f" in kind}
    listed = subprocess.run(["git", "ls-files", "crates", "docs", "README.md"], capture_output=True, text=True, check=True)
    for path in listed.stdout.split("\n"):
        if not path or not os.path.isfile(path):
            continue
        if path.endswith((".antt", ".rt")):
            comment = "//" if path.endswith(".rt") else "-- "
            text = open(path, encoding="utf-8").read()
            proofs = "/proofs/" in path
            for old, new in clashes(text, rows, comment, proofs):
                if path.endswith(".antt"):
                    print(f"{path}: {old} and {new} would fall together")
            new = turned(text, rows, comment, fields, proofs)
        elif path.endswith(".md"):
            text = open(path, encoding="utf-8").read()
            new = turn_docs(text, rows)
        else:
            continue
        if new != text:
            open(path, "w", encoding="utf-8").write(new)


if __name__ == "__main__":
    main()
