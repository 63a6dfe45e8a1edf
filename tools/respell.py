#!/usr/bin/env python3
"""Brings this repository's own definitions and lemmas to the kit's spelling: words in snake case. Run once, at the top, after port.py.

usage: python3 tools/respell.py [FOLDER]     FOLDER is a checkout (default: this one); the table is tools/respell.tsv, a row `old TAB new` for each name

Turned are .antt files whole, in .rt files the clauses, and in docs/PROOFS.md the code spans (the kit's snake.py), and the lines of must-fail edits.
Functions of src/, exported C names, strings, inputs and outputs keep their names. Where a lemma would have had its function's name it ends in `_lem`.
"""

import os
import re
import subprocess
import sys

HERE = os.path.dirname(os.path.realpath(__file__))
TABLE = os.path.join(HERE, "respell.tsv")
WORD = re.compile(r'[^\s(){}.;,@"«»]+')


def kit():
    page = subprocess.run(["rt", "doc"], capture_output=True, text=True, check=True).stdout.strip().splitlines()[0]
    return os.path.dirname(page)


def turn_edits(top, table):
    """Of each edit: the lines old and new where they are of an .antt file, or of a clause."""
    crates = os.path.join(top, "crates")
    for crate in sorted(os.listdir(crates)):
        folder = os.path.join(crates, crate, "must-fail")
        if not os.path.isdir(folder):
            continue
        for name in sorted(os.listdir(folder)):
            if not name.endswith(".edit"):
                continue
            path = os.path.join(folder, name)
            with open(path, encoding="utf-8") as f:
                lines = f.read().split("\n")
            file = ""
            for k, line in enumerate(lines):
                if line.startswith("file: "):
                    file = line[6:]
                if line.startswith(("old: ", "new: ")) and (file.endswith(".antt") or re.search("ghost use|requires|ensures", line)):
                    lines[k] = line[:5] + WORD.sub(lambda m: table.get(m.group(0), m.group(0)), line[5:])
            with open(path, "w", encoding="utf-8") as f:
                f.write("\n".join(lines))


def sorted_files(top):
    """The files of proofs that walk a function's code, and the others."""
    walks, others = [], []
    for folder, dirs, files in os.walk(os.path.join(top, "crates")):
        dirs[:] = sorted(d for d in dirs if d != "out")
        for name in sorted(files):
            path = os.path.relpath(os.path.join(folder, name), top)
            if name.endswith((".antt", ".rt")):
                (walks if re.search(r"/proofs/.+/", path) else others).append(path)
    return walks, others


def main():
    top = sys.argv[1] if len(sys.argv) > 1 else os.path.dirname(HERE)
    snake = os.path.join(kit(), "port", "notes", "2026-11-18-names-are-in-snake-case", "snake.py")
    with open(TABLE, encoding="utf-8") as f:
        table = dict(row.rstrip("\n").split("\t") for row in f)
    walks, others = sorted_files(top)
    # In a proof that walks the code the names behind `c.` and `s.` are the kit's.
    for kinds, places, more in (("antt,rt", others, []), ("antt", walks, ["--skip-behind", "c,s"]), ("md", ["docs/PROOFS.md"], [])):
        subprocess.run([sys.executable, snake, "--table", TABLE, "--only", kinds, *more, *places], cwd=top, check=True, stdout=subprocess.DEVNULL)
    turn_edits(top, table)


main()
