#!/usr/bin/env python3
"""Prints the lemma modules of the crates, each with the comment at its head.

    python3 tools/index_lemmas.py [WORD ..]

With words, only the modules whose crate, folder, name or comment has each of them. The order of crates is that of crates.txt, each above
those that it rests on. `rt lemma WORD ..` finds single lemmas. `tools/check_docs.py` fails where a module has no comment.
"""
import glob
import os
import re
import sys

ROOT = os.path.dirname(os.path.dirname(os.path.abspath(__file__)))
def comment(path):
    """The sentences at the head of a file, as one line; a table may follow them in the file."""
    lines = []
    with open(path, encoding="utf-8") as file:
        for line in file:
            if not line.startswith("-- ") or re.search(r"\S   ", line):
                break
            lines.append(line[2:].strip())
    return " ".join(lines)


def stem(path):
    return os.path.splitext(os.path.basename(path))[0]


def modules(folder):
    """The lemma modules of a folder, by name, each with its comment."""
    files = sorted(it for it in glob.glob(f"{folder}/*.antt") if re.match(r"[A-Z]", stem(it)) and stem(it) != "Lib")
    return [(stem(it), comment(it)) for it in files]


def crates():
    with open(f"{ROOT}/crates.txt", encoding="utf-8") as file:
        return [line.split(":")[0].split()[0] for line in file if line.strip()]


def index():
    """Each lemma module, by crate, folder and name, with its comment."""
    for crate in crates():
        proofs = f"{ROOT}/crates/{crate}/proofs"
        folders = [("", proofs), ("", f"{proofs}/laws")]
        folders += [(os.path.basename(it.rstrip("/")), it) for it in sorted(glob.glob(f"{proofs}/laws/*/"))]
        for subject, folder in folders:
            for name, said in modules(folder):
                yield crate, subject, name, said


def main(words):
    for crate, subject, name, said in index():
        line = f"{'/'.join(filter(None, [crate, subject, name]))}: {said}"
        if all(word.lower() in line.lower() for word in words):
            print(line)


if __name__ == "__main__":
    main(sys.argv[1:])
