#!/usr/bin/env python3
"""Prints the definitions of `specs`, each with its comment, in an order in which they can be read.

    python3 tools/index_definitions.py [WORD ..]
    python3 tools/index_definitions.py --below NAME ..

Each comes after what it rests on, below the name of its file and the comment at the head of that file. Without words, all of them: this is
the order in which to read `specs`. With words, only the definitions whose crate, file, name or comment has each of them. With `--below`,
the named definitions and all that they rest on: what a reader has to believe of a clause that names them. Types of the code are left
out. No public contract of `i_overlay` or `overlay_contours` rests on a file of `specs/steps`. `tools/check_docs.py` fails where a file has
no comment, and where docs/THEOREMS.md lists other files below its theorems.
"""
import glob
import os
import re
import sys

sys.dont_write_bytecode = True
import index_lemmas  # noqa: E402  (beside this file)

HEADER = re.compile(r"(?:abbrev |unfoldable |pub |record |data |opaque )+(?P<name>[^\s:({]+)")
IMPORT = re.compile(r"use Rattle\.(?P<crate>\w+)\.specs\.(?P<file>[\w.]+)\.\{(?P<names>[^}]*)\}")
WORD = re.compile(r"[^\s(){}\[\],.:;λ→=∷≡]+")


class Definition:
    """A definition: where it is, its comment, and the text that its meaning rests on."""

    def __init__(self, crate, file, name, said):
        self.crate, self.file, self.name, self.said, self.lines = crate, file, name, said, []

    def key(self):
        return self.crate, self.file, self.name


def parse(path, crate, file):
    """The definitions of a file, in order, the comment at its head, and its imports: a name, and what it names."""
    definitions, imports, said, head, indent = [], {}, [], [], ""
    with open(path, encoding="utf-8") as lines:
        for line in map(str.rstrip, lines):
            if line[:1].strip():
                # definitions of a module of parameters are indented, and so are those that rest on one another
                indent = "  " if re.match(r"module |mutual$", line) else ""
            line = line.removeprefix(indent)
            found = HEADER.match(line)
            if line.startswith("--"):
                said.append(line.strip("- "))
            elif it := IMPORT.match(line):
                head, said = head or said, []
                for name in filter(None, map(str.strip, it["names"].split(","))):
                    source, _, alias = name.partition(" as ")
                    imports[alias or source] = (it["crate"], it["file"].replace(".", "/"), source)
            elif found:
                definitions.append(Definition(crate, file, found["name"], " ".join(said)))
                said = []
            elif not line:
                head, said = head or said, []
            if definitions and not line.startswith("--"):
                definitions[-1].lines.append(line)
    return definitions, imports, " ".join(head or said)


def spec_files():
    """Each file of specs: its crate, its name in the folder, and its path."""
    for crate in index_lemmas.crates():
        for path in sorted(glob.glob(f"{index_lemmas.ROOT}/crates/{crate}/specs/**/[A-Z]*.antt", recursive=True)):
            if index_lemmas.stem(path) != "Lib":
                yield crate, os.path.splitext(path.split("/specs/")[1])[0], path


def in_order(files):
    """The keys of files, each after those that it imports."""
    order, seen = [], set()

    def visit(key):
        if key in seen or key not in files:
            return
        seen.add(key)
        for crate, file, _ in files[key][1].values():
            visit((crate, file))
        order.append(key)

    for key in files:
        visit(key)
    return order


def index():
    """All files by crate and name, in order, with their definitions, imports and comments."""
    files = {(crate, file): parse(path, crate, file) for crate, file, path in spec_files()}
    return {key: files[key] for key in in_order(files)}


def below(files, names):
    """The keys of the named definitions and of all on which they rest."""
    known = {it.key(): it for definitions, _, _ in files.values() for it in definitions}
    pending = [key for key in known if key[2] in names]
    reached = set(pending)
    while pending:
        it = known[pending.pop()]
        imports = files[it.crate, it.file][1]
        for word in WORD.findall("\n".join(it.lines)):
            key = imports.get(word, (it.crate, it.file, word))
            if key in known and key not in reached:
                reached.add(key)
                pending.append(key)
    return reached


def main(words):
    files = index()
    kept = below(files, words[1:]) if words[:1] == ["--below"] else None
    if kept == set():
        sys.exit(f"no file of specs defines {' '.join(words[1:])}")
    for (crate, file), (definitions, _, head) in files.items():
        begun = False
        for it in definitions:
            line = f"    {it.name}{': ' if it.said else ''}{it.said}"
            place = f"{crate}/specs/{file}: {head}"
            if it.key() in kept if kept is not None else all(word.lower() in f"{place} {line}".lower() for word in words):
                print(*[] if begun else [place], line, sep="\n")
                begun = True


if __name__ == "__main__":
    main(sys.argv[1:])
