#!/usr/bin/env python3
"""Lists the lemmas that no proof rests on, and exits with 1 if there is one, with 0 if there is none.

A lemma is a top-level name of a file in crates/*/proofs, also one in a `module _ (..) where`. The files that answer
for functions (Answers, Invariants, Proof) or for an impl (Send) and the worked examples (proofs/examples) declare none:
they cite. A lemma is used if one of these cites it, or another used lemma does: a file that answers, an example, a file of
specs/, and in a .rt file `using(..)` or an import. Its own lines cite for a lemma only what they name
besides itself, and an import alone cites nothing. A name means what its file declares or imports under it.

    python3 tools/unused_lemmas.py [CRATE..]      of these crates alone; without a name, of all
"""
import pathlib
import re
import sys

TOP = pathlib.Path(__file__).resolve().parent.parent
WORD = re.compile(r"[^\s(){}\[\],;.@]+(?:\.[^\s(){}\[\],;.@]+)*")
COMMENT = re.compile(r"(^|\s)--(\s.*|$)")
IMPORT = re.compile(r"(?:pub )?(?:ghost )?use ((?:[\w.+◌-]+?)(?:\.\{(.*)\}| as (\S+))?)$", re.S)
BEGINNING = re.compile(r"(?:(?:pub|abbrev|unfoldable|record|data) )*(\S+)( (?:[({].*[)}] )?:| = )?")
NO_LEMMAS = {"Answers", "Invariants", "Proof", "Send", "Lib"}


class Module:
    """A file: what it imports under which name, and the words of each lemma and of what stands outside lemmas."""

    def __init__(self, path, crate):
        self.path = path
        inside = path.relative_to(TOP / "crates" / crate).with_suffix("").parts
        self.name = ".".join(("Rattle", crate) + inside)
        self.gives_lemmas = inside[0] == "proofs" and inside[-1] not in NO_LEMMAS and "examples" not in inside
        self.imports, self.aliases, self.lemmas, self.outside = {}, {}, {}, set()
        self.read(path.read_text().split("\n"))

    def read(self, lines):
        levels, owner, in_header, opens, kept = [0], None, False, False, ""
        for number, line in enumerate(lines, 1):
            line = COMMENT.sub("", line).rstrip()
            if not line:
                continue
            indent = len(line) - len(line.lstrip())
            text = line.strip()
            if opens:
                levels.append(indent)
            while indent < levels[-1]:
                levels.pop()
            in_header = in_header or text.startswith("module ")
            opens = in_header and text.endswith(" where")
            if in_header:
                self.outside.update(WORD.findall(text))
                owner, in_header = None, not opens
                continue
            if kept or re.match(r"(pub )?use ", text):
                kept += text
                if kept.count("{") == kept.count("}"):
                    self.take_import(kept)
                    kept = ""
                continue
            if indent == levels[-1]:
                if re.match(r"(pub )?mod ", text):
                    owner = None
                elif not text.startswith(("unfolding ", ")", "]", "}")):
                    owner = self.owner_of(text, number)
            (self.lemmas[owner][1] if owner else self.outside).update(WORD.findall(text))

    def owner_of(self, text, number):
        name, declares = BEGINNING.match(text).groups()
        if declares and self.gives_lemmas:
            self.lemmas.setdefault(name, (number, set()))
        return name if name in self.lemmas else None

    def take_import(self, text):
        path, names, alias = IMPORT.match(text).groups()
        if names is not None:
            for item in names.split(","):
                name, _, other = item.strip().partition(" as ")
                self.imports[(other or name).strip()] = (path.split(".{")[0], name)
        elif alias:
            self.aliases[alias] = path.split(" as ")[0]

    def cited(self, words):
        """The lemmas that these words of the file mean: (module, name)."""
        for word in words:
            first, _, rest = word.partition(".")
            if first in self.lemmas:
                yield self.name, first
            elif first in self.imports:
                yield self.imports[first]
            elif first in self.aliases and rest:
                yield self.aliases[first], rest.split(".")[0]


def main(crates):
    folders = [path for path in sorted((TOP / "crates").iterdir()) if path.is_dir()]
    modules = {}
    used = set()
    for folder in folders:
        for part in ("proofs", "specs"):
            for path in sorted((folder / part).rglob("*.antt")):
                module = Module(path, folder.name)
                modules[module.name] = module
        for path in sorted((folder / "src").rglob("*.rt")):
            text = path.read_text()
            for found in re.findall(r"crate((?:::\w+)*::proofs(?:::[^\s,():]+)+)", text):
                parts = found.split("::")[1:]
                used.add((".".join(["Rattle", folder.name] + parts[:-1]), parts[-1]))
            for where, names in re.findall(r"use (Rattle\.\w+\.proofs\.[\w.]+)\.\{([^}]*)\}", text):
                used.update((where, name.partition(" as ")[0].strip()) for name in names.split(","))

    for module in modules.values():
        used.update(module.cited(module.outside))
    waiting = list(used)
    while waiting:
        where, name = waiting.pop()
        module = modules.get(where)
        if module and name in module.lemmas:
            found = set(module.cited(module.lemmas[name][1]))
        elif module and name in module.imports:
            found = {module.imports[name]}
        else:
            continue
        waiting.extend(found - used)
        used |= found

    unused = 0
    for module in modules.values():
        if crates and module.name.split(".")[1] not in crates:
            continue
        for name, (number, _) in module.lemmas.items():
            if (module.name, name) not in used:
                print(f"{module.path.relative_to(TOP)}:{number}: {name}")
                unused += 1
    print(f"{unused} unused lemmas")
    return 1 if unused else 0


if __name__ == "__main__":
    sys.exit(main(sys.argv[1:]))
