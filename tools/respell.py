#!/usr/bin/env python3
"""Brings the repository's own definitions, fields, constructors and lemmas to snake case, after port.py has run: run once at the top.

tools/respell.tsv has a line for each name: the old one and the new one. Words are changed where they stand whole, in .antt files, in the
clauses and `ghost use` lines of .rt files, in must-fail edits, and between backquotes in comments. The crate json, which has the name of a
library of the kit now, becomes flat_json.
"""

import os
import re
import subprocess

WORD = re.compile(r"[^\s(){}.,;«»\[\]`]+")
CRATE = ("json", "flat_json")
# Lemmas that would fall together with a definition which gets their name.
LAWS = {
    "pe_header/proofs/WhatIsFound.antt": "all_small",
    "examples/proofs/Marked.antt": "carried_from",
    "pe_turns/proofs/Sending.antt": "chunk_in",
    "pe_run/proofs/Carried.antt": "chunk_in",
    "pe_run/proofs/Chunks.antt": "chunk_in",
    "pe_stage/proofs/WordLaws.antt": "place_at",
    "json/proofs/Follows.antt": "same_branch same_parts",
    "pe_run/proofs/Closes.antt": "shut_open",
}


def mapping():
    with open(os.path.join(os.path.dirname(os.path.realpath(__file__)), "respell.tsv"), encoding="utf-8") as f:
        return dict(line.rstrip("\n").split("\t") for line in f)


def words(text, names):
    return WORD.sub(lambda m: names.get(m.group(0), m.group(0)), text)


def code(text, names, mark):
    """All but comments; of a comment what stands between backquotes."""
    out = []
    for line in text.split("\n"):
        body, sep, comment = line.partition(mark)
        out.append(words(body, names) + sep + re.sub(r"`[^`]*`", lambda m: words(m.group(0), names), comment))
    return "\n".join(out)


def clauses(text, names):
    """Of Rust-like source only `ghost use` lines, clauses and ghost items, which are braces behind a word."""
    text = re.sub(r"(?m)^ghost use .*$", lambda m: words(m.group(0), names), text)
    text = re.sub(r"(?m)//.*$", lambda m: re.sub(r"`[^`]*`", lambda q: words(q.group(0), names), m.group(0)), text)
    out, at = [], 0
    for m in re.finditer(r"\b(?:requires|ensures|invariant|ghost)\b[^{}();]*\{", text):
        if m.start() < at:
            continue
        depth, end = 1, m.end()
        while depth:
            depth += {"{": 1, "}": -1}.get(text[end], 0)
            end += 1
        out += [text[at : m.end()], words(text[m.end() : end], names)]
        at = end
    return "".join(out) + text[at:]


def paths(text):
    old, new = CRATE
    text = re.sub(rf"\bRattle\.{old}\b", f"Rattle.{new}", text)
    return re.sub(rf"(?<![\w.:]){old}::", f"{new}::", text)


def main():
    names = mapping()
    laws = {os.path.join("crates", p): {w: w + "_law" for w in ws.split()} for p, ws in LAWS.items()}
    for path, renamed in laws.items():
        with open(path, encoding="utf-8") as f:
            text = f.read()
        with open(path, "w", encoding="utf-8") as f:
            f.write(words(text, renamed))
    subprocess.run(["git", "mv", f"crates/{CRATE[0]}", f"crates/{CRATE[1]}"], check=True)
    for folder, dirs, files in [*os.walk("crates"), *os.walk("edits")]:
        dirs[:] = sorted(d for d in dirs if d != "out")
        for name in sorted(files):
            path = os.path.join(folder, name)
            if name.endswith(".antt"):
                turn = lambda t: paths(code(t, names, "--"))
            elif name.endswith(".rt"):
                turn = lambda t: paths(clauses(t, names))
            elif name.endswith(".edit"):
                turn = lambda t: paths("\n".join(line if line.startswith("file:") else words(line, names) for line in t.split("\n")))
            else:
                continue
            with open(path, encoding="utf-8") as f:
                text = f.read()
            with open(path, "w", encoding="utf-8") as f:
                f.write(turn(text))
    with open("crates.txt", encoding="utf-8") as f:
        text = f.read()
    with open("crates.txt", "w", encoding="utf-8") as f:
        f.write(re.sub(rf"\b{CRATE[0]}\b", CRATE[1], text))
    for crate in sorted(os.listdir("crates")):
        subprocess.run(["rt", "fmt"], cwd=os.path.join("crates", crate), check=True, stdout=subprocess.DEVNULL)


if __name__ == "__main__":
    main()
