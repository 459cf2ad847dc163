#!/usr/bin/env python3
"""Spells this repository's own definitions and lemmas as today's library does: words in snake case.

usage: respell.py             in the repository, once, after the library's port.py: every name of respelled.tsv, beside
                              this file, in crates/*/{specs,proofs,src}
       respell.py --table     writes respelled.tsv from what the crates declare

A name in camel case or with a dash gets underscores. It keeps its dash where it would meet another name in some file.
Functions of src/, exported names, strings and the names that Rattle makes stay.
"""
import collections
import os
import re
import sys

HERE = os.path.dirname(os.path.realpath(__file__))
TABLE = os.path.join(HERE, "respelled.tsv")
NAME = r"[^\s(){}.;,@\"«»]+"
DECLARED = re.compile(r"(?m)^ *(?:(?:pub|abbrev|unfoldable|mutual) )*(" + NAME + r")(?: \{[^{}\n]*\})* :(?=\s)")
USE = re.compile(r"(?m)^\s*use ([^\s{]+)\.\{([^}]*)\}")
COMMENT = re.compile(r"--.*")
CAMEL = re.compile(r"(?<=[a-z0-9₀-₉'])[A-Z]")
# what Rattle makes in a proof: the names of its parts, and the proof itself
MADE = re.compile(r"invariant-|decreases-|ghost-|.*-spec$")


def files(endings):
    for folder, dirs, names in os.walk("crates"):
        dirs[:] = sorted(d for d in dirs if d not in ("out", "must-fail"))
        for name in sorted(names):
            if name.endswith(endings):
                yield os.path.join(folder, name)


def read(path):
    with open(path, encoding="utf-8") as f:
        return f.read()


def snake(name):
    return CAMEL.sub(lambda m: "_" + m[0].lower(), name).replace("get_d", "get_or")


def table():
    texts = {path: COMMENT.sub("", read(path)) for path in files(".antt")}
    declared, foreign = set(), set()
    for path, text in texts.items():
        for m in DECLARED.finditer(text):
            if not (path.endswith("/Proof.antt") and MADE.match(m[1])):
                declared.add(m[1])
        for m in USE.finditer(text):
            own = re.match(r"Rattle\.(\w+)\.", m[1])
            if not (own and os.path.isdir(os.path.join("crates", own[1]))):
                foreign |= {it.strip().split(" as ")[0] for it in m[2].split(",")}
    names = {n for n in declared - foreign if re.match("[a-z]", n)}
    rows = {n: snake(n).replace("-", "_") for n in names}
    kept = set()
    for path, text in texts.items():
        met = collections.defaultdict(set)
        for n in set(re.findall(NAME, text)):
            met[rows.get(n, n)].add(n)
        for group in met.values():
            if len(group) > 1:
                kept |= {n for n in group if "-" in n}
    for n in kept & set(rows):
        rows[n] = snake(n)
    return {n: to for n, to in rows.items() if n != to}


def turned(text, rows, camel_only):
    def one(m):
        n = m[0]
        return rows[n] if n in rows and not (camel_only and "-" in n) else n

    return re.sub(NAME, one, text)


def in_antt(text, rows):
    lines = []
    for line in text.split("\n"):
        code, dashes, words = line.partition("--")
        words = re.sub(r"[A-Za-z][\w'-]*", lambda m: rows.get(m[0], m[0]) if CAMEL.search(m[0]) else m[0], words)
        lines.append(turned(code, rows, False) + dashes + words)
    return "\n".join(lines)


# what is no clause: comments and strings
PLAIN = re.compile(r'//[^\n]*|"(?:[^"\\]|\\.)*"')


def in_rust(text, rows):
    out, at = [], 0
    for m in PLAIN.finditer(text):
        out.append(turned(text[at:m.start()], rows, False))
        out.append(m[0])
        at = m.end()
    out.append(turned(text[at:], rows, False))
    return "".join(out)


def main(argv):
    if argv == ["--table"]:
        with open(TABLE, "w", encoding="utf-8") as f:
            f.writelines(f"{n}\t{to}\n" for n, to in sorted(table().items()))
        return 0
    if argv:
        print(__doc__)
        return 2
    rows = dict(line.rstrip("\n").split("\t") for line in open(TABLE, encoding="utf-8"))
    for path in files((".antt", ".rt")):
        before = read(path)
        after = (in_antt if path.endswith(".antt") else in_rust)(before, rows)
        if after != before:
            with open(path, "w", encoding="utf-8") as f:
                f.write(after)
    return 0


if __name__ == "__main__":
    raise SystemExit(main(sys.argv[1:]))
