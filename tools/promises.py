#!/usr/bin/env python3
"""Prints for each public function its clauses, the wrong bodies that the prover has to refuse, and the tests that call it.

    python3 tools/promises.py [CRATE ..]

All is read from the sources: clauses from the contracts, edits from `must-fail/`, whose lines `# refused by FUNCTION: CLAUSE` say what
refuses them, and calls from the bodies, by name. An edit is listed under each public function that it changes, and under those that
reach the changed function through private ones. A test is listed under what it calls, itself or through functions of its own crate.
An export for C has the files that call it, which tests of `rust/`, `c/` and `python/` run. Last come the public functions that have none
of these; laws, which have an empty body, are counted apart. Runs of the programs, in `examples/runs`, are listed under none.
"""
import os
import pathlib
import re
import sys

sys.dont_write_bytecode = True
import index_lemmas  # noqa: E402  (beside this file)
import must_fail  # noqa: E402

TOP = pathlib.Path(index_lemmas.ROOT)
FUNCTION = re.compile(r"(?P<indent> *)(?P<pub>pub (?!\())?(?:pub\(\w+\) )?(?:const )?(?:unsafe )?(?:extern \"C\" )?fn (?P<name>\w+)")
# what tests alone use, and programs of tests
TEST_CRATE = re.compile(r"\w+_tests|refusals")
MOST_TESTS = 8
CLAUSE = re.compile(r"^ *(requires|ensures) ?(\w*) ?\{", re.M)
CALL = re.compile(r"(?:(\w+)(?:::<[^()]*>)?::|(\.))?(\w+)(?:::<[^()]*>)?(?=\()|(?:(\w+)::)?(\b[a-z]\w*)(?=[,)])")


class Function:
    """A function: where it is, its contract, and what its body calls."""

    def __init__(self, crate, file, owner, found, number):
        self.crate, self.file, self.owner, self.name, self.number = crate, file, owner, found["name"], number
        self.is_public = bool(found["pub"]) or owner.is_public
        self.is_test, self.contract, self.body, self.end = False, "", "", number

    def path(self):
        """Its name, with the type that it belongs to."""
        return f"{self.owner.name}::{self.name}" if self.owner.name else self.name

    def has_line(self, file, at):
        """Whether the line of that index belongs to it."""
        return file == f"src/{self.file}" and self.number - 1 <= at <= self.end

    def names(self):
        """All names under which an edit may say that it refuses."""
        return {self.name, self.path(), f"{self.owner.trait}::{self.name}", f"{pathlib.Path(self.file).stem}::{self.name}"}

    def clauses(self):
        """The words `requires` and `ensures` with the names of clauses, in order."""
        return CLAUSE.findall(self.contract)

    def is_export(self):
        return 'extern "C"' in self.contract

    def is_declared(self):
        """Whether it is a trait's, and each `impl` has its body."""
        return self.contract.endswith(";")

    def is_law(self):
        return not self.body.strip() and self.contract.rstrip().endswith("{}") and bool(self.clauses())

    def calls(self):
        """What its body names: a type or module where one stands before, whether it is a method, and the name."""
        for kind, method, name, scope, value in CALL.findall(self.body):
            yield kind or scope, bool(method), name or value


class Owner:
    """What a function belongs to: a type or a trait, and the trait that an `impl` is of."""

    def __init__(self, line=""):
        found = must_fail.IMPL.match(line)
        trait, _, kind, own = found.groups(default="") if found else ("", "", "", "")
        self.name, self.trait = own or kind, trait
        self.is_public = line.startswith("pub trait") or bool(trait)


def functions_of(text, crate="", file=""):
    """The functions of a file. A function within another is part of its body."""
    lines, owner, at, is_test = text.split("\n"), Owner(), 0, False
    while at < len(lines):
        line = lines[at]
        if re.match(r"(impl|(pub )?trait)\b", line):
            owner = Owner(line)
        elif re.match(r"(pub|fn|const|static|struct|enum|mod|use|#\[)", line):
            owner = Owner()
        is_test = is_test or line.strip() == "#[test]"
        if found := FUNCTION.match(line):
            function = Function(crate, file, owner, found, at + 1)
            last = re.compile(rf"{found['indent']}(\{{\}}?|\).*[{{;])$|.*\}};$")
            end = at if re.search(r"[{};]$", line) else next(it for it in range(at + 1, len(lines)) if last.match(lines[it]))
            function.contract = "\n".join(lines[at : end + 1])
            close = found["indent"] + "}"
            at = end
            if lines[end].endswith("{"):
                at = next(it for it in range(end, len(lines)) if lines[it] == close)
            function.body = "\n".join(lines[end + 1 : at])
            function.is_test, is_test, function.end = is_test, False, at
            yield function
        at += 1


def hidden_modules(crate, texts):
    """The files of modules that are not public, and what lies below them."""
    hidden = set()
    for file, text in texts.items():
        folder = "" if file in ("lib.rt", "main.rt") else file.removesuffix(".rt") + "/"
        hidden |= {f"{folder}{name}" for name in re.findall(r"^(?:pub\(crate\) )?mod (\w+);", text, re.M)}
    return hidden if "lib.rt" in texts else set()


class Sources:
    """All functions of the crates, and the tests."""

    def __init__(self):
        self.functions, self.tests, self.edits = [], [], []
        for crate in index_lemmas.crates():
            self.read_crate(crate)
        for crate in index_lemmas.crates():
            for path in sorted(TOP.glob(f"crates/{crate}/must-fail/*.edit")):
                self.edits.append(must_fail.Edit(crate, path))
        self.by_name = {}
        for it in self.functions:
            self.by_name.setdefault(it.name, []).append(it)

    def read_crate(self, crate):
        folder = TOP / "crates" / crate / "src"
        texts = {str(it.relative_to(folder)): it.read_text(encoding="utf-8") for it in sorted(folder.rglob("*.rt"))}
        hidden, exports_alone = hidden_modules(crate, texts), any('extern "C"' in it for it in texts.values())
        for file, text in texts.items():
            for it in functions_of(text, crate, file):
                if TEST_CRATE.fullmatch(crate):
                    self.tests.append(it)
                    continue
                if any(file == f"{name}.rt" or file.startswith(f"{name}/") for name in hidden):
                    it.is_public = False
                it.is_public = it.is_public and (not exports_alone or it.is_export())
                self.functions.append(it)

    def called_by(self, function):
        """The functions that a body names, as well as names tell: a method of whatever type, others by type, module or crate."""
        for scope, is_method, name in function.calls():
            for it in self.by_name.get(name, []):
                if is_method:
                    fits = bool(it.owner.name)
                elif scope:
                    fits = scope in (it.owner.name, it.owner.trait, pathlib.Path(it.file).stem, it.crate)
                    fits = fits or (scope == "Self" and it.owner.name == function.owner.name) or (len(scope) == 1 and bool(it.owner.name))
                else:
                    fits = not it.owner.name
                if fits and (it.is_public or it.crate == function.crate):
                    yield it

    def below(self, function):
        """The function, and the private ones that it reaches through private ones."""
        reached, pending = [function], [function]
        while pending:
            for it in self.called_by(pending.pop()):
                if not it.is_public and it.crate == function.crate and it not in reached:
                    reached.append(it)
                    pending.append(it)
        return reached

    def edits_under(self, function):
        """The edits of what the function reaches, each with the lines that say what refuses it."""
        module = {(it.file, it.number) for it in self.below(function)}
        return [edit for edit in self.edits if edit.crate == function.crate and self.changed_by(edit) & module]

    def changed_by(self, edit):
        """The functions that an edit changes; for a constant, those that refuse it."""
        own = [it for it in self.functions if it.crate == edit.crate]
        return {
            (it.file, it.number)
            for it in own
            if (it.names() & edit.refused_by.keys() if edit.is_alone else any(it.has_line(*place) for place in edit.lines))
        }

    def clauses_of(self, functions):
        """The names of the clauses of functions, and of those that their traits declare."""
        declared = [it for it in self.functions for own in functions if (it.owner.name, it.name) == (own.owner.trait, own.name)]
        return {name for it in [*functions, *declared] for _, name in it.clauses()}

    def tests_by_function(self):
        """The tests that call each function, by file and line."""
        own, found = {}, {}
        for it in self.tests:
            own.setdefault((it.crate, it.name), []).append(it)
        for test in (it for it in self.tests if it.is_test):
            reached, pending = {id(test)}, [test]
            while pending:
                at = pending.pop()
                for it in self.called_by(at):
                    found.setdefault((it.crate, it.file, it.number), {}).setdefault(test.name)
                for _, _, name in at.calls():
                    for it in own.get((test.crate, name), []):
                        if id(it) not in reached:
                            reached.add(id(it))
                            pending.append(it)
        return found


def callers_outside(name):
    """The sources of the packages for C and Rust that name an export."""
    files = sorted([*TOP.glob("c/*.[ch]"), *TOP.glob("rust/src/*.rs")])
    return [str(it.relative_to(TOP)) for it in files if re.search(rf"\b{name}\b", it.read_text(encoding="utf-8"))]


def clauses_in_words(function):
    """The names of the clauses, and how many have none."""
    said = []
    for kind in ("requires", "ensures"):
        names = [name for word, name in function.clauses() if word == kind]
        unnamed = names.count("")
        said += [f"{kind} {', '.join([*filter(None, names), *[f'{unnamed} without a name'] * bool(unnamed)])}"] * bool(names)
    inherited = f"those of {function.owner.trait}" if function.owner.trait else "none"
    return "; ".join(said) or inherited


def main(crates):
    sources = Sources()
    tests, unseen, laws, count = sources.tests_by_function(), [], 0, 0
    unknown = set(crates) - set(index_lemmas.crates())
    if unknown:
        sys.exit(f"no crate is named {' or '.join(sorted(unknown))}")
    for it in sources.functions:
        if not it.is_public or (crates and it.crate not in crates):
            continue
        edits, called = sources.edits_under(it), tests.get((it.crate, it.file, it.number), {})
        count, laws = count + 1, laws + it.is_law()
        print(f"{it.crate}/src/{it.file}:{it.number}: {it.path()}{f' of {it.owner.trait}' if it.owner.trait else ''}")
        print(f"    clauses: {clauses_in_words(it)}")
        for edit in edits:
            said = [f"{name}: {', '.join(clauses)}" if clauses else name for name, clauses in edit.refused_by.items()]
            print(f"    edit {edit.name}: refused by {'; '.join(said)}")
        if called:
            more = f" and {len(called) - MOST_TESTS} more" * (len(called) > MOST_TESTS)
            print(f"    tests: {', '.join(list(called)[:MOST_TESTS])}{more}")
        outside = callers_outside(it.name) if it.is_export() else []
        if outside:
            print(f"    called by: {', '.join(outside)}")
        if not edits and not called and not outside and not it.is_law() and not it.is_declared():
            unseen.append(f"{it.crate}/src/{it.file}:{it.number}: {it.path()}")
    print(f"{count} public functions, {laws} of them laws; {len(unseen)} others have no edit, test or caller outside:")
    print(*[f"    {it}" for it in unseen], sep="\n")


if __name__ == "__main__":
    main(sys.argv[1:])
