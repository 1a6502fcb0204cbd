#!/usr/bin/env python3
"""Tries wrong bodies, the edits of `crates/*/must-fail/`: the prover has to leave a goal open in the function that each changes.

    python3 tools/must_fail.py [--edits FOLDER] [--proved FOLDER] [CRATE[/EDIT] ..]

`rt ci` and `rt must-fail` check a crate once for each edit. The prover reports the open goals of every function, so here the edits
of a crate are tried together, and where two change one function, the second changes a copy of it beside it. An edit whose goal is
not seen there is tried again by itself, and so is an edit of a constant. The other functions of the crate are taken by their
contracts: each has a hole in place of its proof, which `rt ci` checks, and none of its body, but not where an edit is tried over all
proofs. The libraries below a crate are those that `rt ci` or `rt check` left. With `--edits` the edits are FOLDER/CRATE/*.edit. With
`--proved` the edits of a crate wait until the folder has a file of the name of each library below it: so the gate tries edits while
it proves.

Prints the first open goal for each edit, and last `N of M edits refused`. An edit is refused by a goal of a function that it changes
and that one of its lines `# refused by FUNCTION: CLAUSE, ..` names. Where that function has proofs in `Answers.antt`,
the edit is tried by these alone, but for those of further clauses on its result: the prover searches for no other there. Where they
do not refuse it, it is tried once more with all proofs and searches; a line `# by search` has it tried so from the start. A proof
that names what the edit took away does not count: the edit is tried without it, so that the prover searches for one. A line
`# without FUNCTION: GOAL, ..` leaves such proofs out from the start.
"""
import argparse
import itertools
import os
import pathlib
import re
import shutil
import subprocess
import sys
import tempfile
import threading
import time
from concurrent.futures import ThreadPoolExecutor

sys.dont_write_bytecode = True
import run  # noqa: E402  (beside this file)

TOP = pathlib.Path(run.ROOT)
FUNCTION = re.compile(r"\s*(?:pub(?:\(\w+\))? )?(?:const )?(?:unsafe )?(?:extern \"C\" )?fn (\w+)")
IMPL = re.compile(r"impl(?:<.*?>+)? (?:(?:\w+::)*(\w+)(?:<(\w\w+)?.*>)? for )?(\w+|\(\))|(?:pub )?trait (\w+)")
REFUSED_BY = re.compile(r"^# refused by ([\w:]+)(?:: (.*))?$", re.M)
WITHOUT = re.compile(r"^# without (\w+): (.*)$", re.M)
BY_SEARCH = re.compile(r"^# by search$", re.M)
GOAL = re.compile(r"(?:note: )?(?:\./)?(?:proofs/(?P<proof>\S+)/\w+\.antt|(?P<source>src/\S+?)):(?P<line>\d+):\d+:")
# the proof of a goal in a function's Answers.antt, and what the prover says of one that it does not take
ANSWER = re.compile(r"^(?:-- .*\n)*pub (\S+) : goal\.(?:.*\n)(?:(?!-- |pub ).*\n)*", re.M)
ANSWERED = re.compile(r"(?:\./)?(proofs/\S+/Answers\.antt):\d+:\d+: error: `(\S+)`: ")
# what a proof says of a name that an edit took away, and what cites that proof
OF_NAMES = re.compile(r"(?:note: )?(?:\./)?proofs/.*(?:has no field|is not in scope|has no `|was not admitted|was rejected)")
# what the compiler says of a text that does not compile
UNCOMPILED = re.compile(r"(?:\./)?src/\S+?:\d+:\d+: error\[")
NO_FUNCTION = re.compile(r"has no function `(\S+)`")
# with fewer a crate's statements are read more often, with more a last round takes long while other processors idle
EDITS_OF_A_ROUND = 24
# a proof that the prover does not read, as of a function without a body
UNREAD_PROOF = re.compile(r"^(?:\./)?proofs/(\S+)/\w+\.antt: error(?:\[reserved-name\])?: rattle ", re.M)
CYCLE = re.compile(r"\s*#\[cycle\((\w+)\)\]")
# what the name of a copy of a function has between that of the function and the number of the edit
COPY = "_edit_"
HOLE = "use Rattle.{crate}.proofs.{statement}.{{statement}}\n\npub {name}_spec : {{M : Type 1}} → statement M\n{name}_spec = ?\n"


def module_of(file):
    """Returns the path of the module of a source file."""
    return "::".join(it for it in re.sub(r"^src/|\.rt$", "", file).split("/") if it not in ("lib", "main"))


def function_at(text, number):
    """Returns the function at a line of a text, with its type: the one whose attributes begin there, or else the last one above."""
    lines = text.split("\n")
    first = next((at for at in range(number - 1, len(lines)) if not lines[at].lstrip().startswith("#[")), number - 1)
    at, name = next(((at, it[1]) for at in range(first, -1, -1) if (it := FUNCTION.match(lines[at]))), (0, None))
    if not name or not lines[at].startswith(" "):
        return name
    trait, argument, kind, own = next(it for line in reversed(lines[:at]) if (it := IMPL.match(line))).groups(default="")
    kind = kind.replace("()", "Unit")
    return f"{own or kind[0].upper() + kind[1:]}{trait}{argument}::{name}"


def source(crate, file):
    """Returns the text of a file of a crate."""
    return (TOP / "crates" / crate / file).read_text(encoding="utf-8")


def link_or_copy(one, other):
    """Gives a checked module a further name: a check replaces such a file, and changes none. Other files are copied."""
    if one.endswith(".oantt"):
        os.link(one, other)
    else:
        shutil.copy2(one, other)


def path_of(crate, module, found):
    """Returns the path of a function as the prover names it: a type has its arguments where only an impl of some has the function."""
    kind, _, name = (found or "").rpartition("::")
    proofs = TOP / "crates" / crate / "proofs"
    impls = sorted((proofs / pathlib.Path(*module.split("::"))).glob(f"{kind}+*/{name}")) if kind else []
    if len(impls) == 1 and not impls[0].parent.with_name(kind).joinpath(name).exists():
        return "::".join(impls[0].relative_to(proofs).parts)
    return "::".join(filter(None, (module, found)))


def modules_of_proof(crate, found):
    """Returns the modules under which a method's proof can stand: that of its type, where the impl is in another."""
    proofs = TOP / "crates" / crate / "proofs"
    folders = proofs.glob(f"**/{found.replace('::', '/')}") if "::" in found else ()
    return {"::".join(it.relative_to(proofs).parts[:-2]) for it in folders}


def has_body(lines):
    """Returns whether the function that begins these lines has a body: a trait declares some without."""
    return next((line.endswith("{") for line in lines if line.endswith(("{", ";"))), False)


def functions_of(crate):
    """Returns the functions of a crate that have a body: the path of each below the crate, that of its proof, and where it begins."""
    for path in sorted(pathlib.Path(crate.folder, "src").rglob("*.rt")):
        file, text = os.path.relpath(path, crate.folder), path.read_text(encoding="utf-8")
        lines = text.split("\n")
        for at, line in enumerate(lines):
            if FUNCTION.match(line) and has_body(lines[at:]):
                found = path_of(crate.name, module_of(file), function_at(text, at + 1))
                yield found, proof_of(crate, found, lines[:at]), (file, at)


def answers_of(path):
    """Returns the file of the proofs of goals of a function, by its path."""
    return "/".join(["proofs", *path.split("::"), "Answers.antt"])


def attributes_above(lines, at):
    """Returns the attributes and comments right above a line."""
    return list(itertools.takewhile(lambda it: it.lstrip().startswith(("#[", "//")), reversed(lines[:at])))


def proof_of(crate, path, lines):
    """Returns the path of the proof of a function with these lines above it: functions that call one another have one, of their cycle."""
    *above, name = path.split("::")
    cycle = next((it[1] for line in attributes_above(lines, len(lines)) if (it := CYCLE.match(line))), name)
    is_cycle = pathlib.Path(crate.folder, "proofs", *above, f"+{cycle}").is_dir()
    return "::".join([*above, f"+{cycle}"]) if is_cycle else path


def body_of(lines, at):
    """Returns the first and the last line of the body of the function that begins at a line."""
    indent = re.match(" *", lines[at])[0]
    ends = [number for number in range(at, len(lines)) if lines[number].startswith(indent) and lines[number][len(indent) : len(indent) + 1].strip()]
    first = next(number for number in ends if lines[number].endswith(("{", "}", ";")))
    return first, next((number for number in ends if number > first), first)


def without_body(lines, at):
    """Returns the lines of a file with another body for the function that begins at a line: it has as many lines, and does nothing."""
    indent = re.match(" *", lines[at])[0]
    first, last = body_of(lines, at)
    if "const fn" in lines[at] or not lines[first].endswith("{") or lines[last] != f"{indent}}}" or last - first < 2:
        return lines
    return [*lines[: first + 1], f"{indent}    unreachable!()", *[""] * (last - first - 2), *lines[last:]]


def keep_answers(path, goals):
    """Keeps of the proofs in a file those of some goals."""
    text = path.read_text(encoding="utf-8")
    path.write_text(ANSWER.sub(lambda it: it[0] if it[1] in goals else "", text), encoding="utf-8")


def is_of(goal, clauses):
    """Returns whether the proof of a goal can fail where one of these clauses does: it is of that clause, or of no clause on a result."""
    clause = re.match(r"returns\b.*\bclause-(.*)", goal)
    return not clause or clause[1] in clauses


def searching_nothing(lines, at):
    """Returns the line of a function with an attribute by which the prover searches for no proof of its goals."""
    has_other = any("tactic(" in line for line in attributes_above(lines, at))
    return lines[at] if has_other else re.sub(r"^( *)", r"\1#[tactic(none)] ", lines[at])


def block_of(lines, at):
    """Returns the first and the last line of the function that begins at a line, with its comments and attributes."""
    return at - len(attributes_above(lines, at)), body_of(lines, at)[1]


def is_of_trait(lines, at):
    """Returns whether the function that begins at a line is of a trait, or of an impl of one."""
    header = next((it for line in reversed(lines[:at]) if (it := IMPL.match(line))), None)
    return lines[at].startswith(" ") and bool(header[1] or header[4])


class Edit:
    """A wrong body: which lines it changes, in which functions, and which functions have to be refused for it."""

    def __init__(self, crate, path):
        self.crate, self.name = crate, path.stem
        text = path.read_text(encoding="utf-8")
        # the functions that have to refuse it, each with the clauses that it breaks
        self.refused_by = {name: re.findall(r"\w[\w ]*", said) for name, said in REFUSED_BY.findall(text)}
        self.named = {name.split("::")[-1] for name in self.refused_by}
        self.is_alone = False
        # whether it is tried over the proofs of all functions, since it was not refused over their contracts
        self.is_over_proofs = False
        # the proofs without which it is tried, since they name what it took away: each a file and a goal
        self.vain = set()
        # whether the prover is to search for no proof of a goal: a wrong proof in `Answers.antt` refuses it as well
        self.is_by_answers = False
        # the number of the copy of its function that it changes, or 0 where it changes the function itself
        self.number = 0
        # by module and name, and by the name that the prover takes, with the module beside it
        self.functions, self.paths = set(), {}
        self.goal = self.said = None
        self.has_new_vain = False
        self.lines = self.changed_lines(path)
        self.leave_out(WITHOUT.findall(text))
        self.is_by_answers = not (self.is_alone or self.vain or BY_SEARCH.search(text)) and bool(self.answers())

    def steps(self, path):
        """Returns what an edit replaces: file, old text and new text, a line each."""
        file, old = "", ""
        for line in path.read_text(encoding="utf-8").split("\n"):
            word, _, rest = line.partition(" ")
            if word == "file:":
                file = rest.strip()
            elif word == "old:":
                old = rest
            elif word == "new:":
                yield file, old, rest

    def changed_lines(self, path):
        """Returns the lines that it changes, by file and number. No line is added or removed."""
        texts, found = {}, {}
        for file, old, new in self.steps(path):
            text = texts.get(file) or source(self.crate, file)
            if text.count(old) != 1:
                sys.exit(f"{self.crate}/{self.name}: its text occurs {text.count(old)} times in {file}: {old}")
            if not old.startswith("use "):
                self.note_function(file, text, text[: text.index(old)].count("\n") + 1)
            texts[file] = text.replace(old, new)
        for file, text in texts.items():
            pairs = zip(source(self.crate, file).split("\n"), text.split("\n"), strict=True)
            found.update({(file, at): new for at, (old, new) in enumerate(pairs) if old != new})
        if not found:
            sys.exit(f"{self.crate}/{self.name}: it changes nothing")
        return found

    def leave_out(self, goals):
        """Leaves the proofs of some goals out, each of a function that it changes."""
        for name, said in goals:
            files = [answers_of(path) for path in self.paths if path.split("::")[-1] == name]
            for goal in said.split(", "):
                found = {(file, goal) for file in files if f"\npub {goal} : goal." in source(self.crate, file)}
                if not found:
                    sys.exit(f"{self.crate}/{self.name}: it changes no function {name} with a proof of {goal}")
                self.vain |= found

    def answers(self):
        """Returns the proofs that can refuse it, each a file and a goal: of functions that it changes and names, but none of a further
        clause on what a function returns."""
        found = set()
        for name, clauses in self.refused_by.items():
            for path in self.paths:
                file = answers_of(path)
                if path.split("::")[-1] == name.split("::")[-1] and (TOP / "crates" / self.crate / file).exists():
                    goals = {it[1] for it in ANSWER.finditer(source(self.crate, file))}
                    found.update((file, goal) for goal in goals if not clauses or is_of(goal, clauses))
        return found

    def note_function(self, file, text, number):
        """Notes the function at a line of a file, or that a constant is changed."""
        found, module = function_at(text, number), module_of(file)
        if found:
            name = found.split("::")[-1]
            self.functions.add((module, name))
            self.functions.update((it, name) for it in modules_of_proof(self.crate, found))
        else:
            self.is_alone = True
        self.paths[path_of(self.crate, module, found)] = module

    def fits_beside(self, other):
        """Returns whether both can be tried in one round, each on the functions themselves."""
        return not (self.is_alone or other.is_alone or self.functions & other.functions)

    def try_otherwise(self):
        """Has it tried in another way, by itself, if there is one, and returns whether there is."""
        self.number = 0
        if not self.has_new_vain and self.is_over_proofs:
            return False
        if not self.has_new_vain:
            self.is_over_proofs = not self.is_by_answers
        self.is_by_answers = False
        return True

    def tried(self, path):
        """Returns the path of the function that it changes, or of the copy of that."""
        return f"{path}{COPY}{self.number}" if self.number else path

    def how(self):
        """Returns in words how it is tried."""
        if self.is_over_proofs:
            return "over all proofs"
        return f"without {', '.join(sorted(goal for _, goal in self.vain))}" if self.vain else "with searches"

    def try_goals(self, goals):
        """Keeps the first goal of these that refuses it, if any does. Where no proof was searched for, a goal without one is none."""
        for goal, function in goals:
            if self.is_by_answers and not ANSWERED.match(goal):
                continue
            module, name, number = function
            if not self.goal and name in self.named and number == self.number and (self.is_alone or (module, name) in self.functions):
                self.goal = f"{name}: {goal[:120]}"


def rounds_of(edits, can_copy):
    """Puts edits into rounds of a few, which run side by side. An edit that can change a copy does, where another of the round changes
    its function."""
    rounds = []
    for edit in edits:
        fits = lambda other: edit.fits_beside(other) or (can_copy(edit) and not other.is_alone)
        fitting = next((it for it in rounds if len(it) < EDITS_OF_A_ROUND and all(map(fits, it))), None)
        if fitting is None:
            fitting = []
            rounds.append(fitting)
        edit.number = 0 if all(map(edit.fits_beside, fitting)) else len(fitting)
        fitting.append(edit)
    return rounds


class Trial:
    """Tries the edits of a crate on copies of it. Later rounds take what earlier ones proved of functions that no edit changes."""

    def __init__(self, rtlib, crate, edits):
        self.rtlib, self.crate = rtlib, crate
        # the folder of what its rounds proved so far, which one of them reads or writes at a time
        self.kept, self.keeping = None, threading.Lock()
        # the proofs that can have a hole, each with its functions, and where these begin
        self.others, self.places = {}, {}
        for path, proof, place in functions_of(crate):
            self.others.setdefault(proof, set()).add(path)
            self.places.setdefault(path, []).append(place)
        self.rounds = rounds_of(edits, self.can_copy)

    def can_copy(self, edit):
        """Returns whether an edit can change a copy of a function: it changes only one, which has a proof of its own, and is neither of a
        trait nor for C."""
        places = [place for path in edit.paths for place in self.places.get(path, ())]
        if not edit.is_by_answers or len(edit.paths) != 1 or len(places) != 1 or self.others.get(*edit.paths) != {*edit.paths}:
            return False
        file, at = places[0]
        lines = source(self.crate.name, file).split("\n")
        first, last = block_of(lines, at)
        has_own_name = not is_of_trait(lines, at) and "extern" not in lines[at]
        return has_own_name and all(it == file and first <= number <= last for it, number in edit.lines)

    def try_round(self, edits):
        """Tries some edits together, and returns the seconds of a processor that this took."""
        texts, said, took = self.checked_with(edits)
        while unread := self.unread_in(said):
            self.others = {proof: it for proof, it in self.others.items() if proof not in unread}
            texts, said, more = self.checked_with(edits)
            took += more
        wrong = self.uncompiled_in(edits, said, texts)
        if wrong and len(wrong) < len(edits):
            # one that does not compile would hide the goals of all others
            for edit in wrong:
                edit.said = "it does not compile"
                print(f"        {self.crate.name}/{edit.name} does not compile", flush=True)
            return took + self.try_round([edit for edit in edits if edit not in wrong])
        # a message goes on in lines that begin with two spaces, the first of which says what a proof names in vain
        whole = re.sub(r"\n  (?=has no )", " ", said)
        # what has a word in brackets is no goal: the edit does not compile
        goals = [goal for goal in whole.split("\n") if GOAL.match(goal) and (": error: " in goal or goal.startswith("note: "))]
        seen = [(goal, self.function_of(goal, texts)) for goal in goals if not OF_NAMES.match(goal)]
        for edit in edits:
            edit.try_goals(seen)
            if not edit.goal:
                edit.has_new_vain = self.find_vain(edit, goals, texts)
                edit.said = "\n".join(said.split("\n")[-8:])
        return took

    def uncompiled_in(self, edits, said, texts):
        """Returns the edits that change a function in which the compiler finds an error."""
        found = {self.function_of(line, texts) for line in said.split("\n") if UNCOMPILED.match(line)}
        is_wrong = lambda edit: any((*function, edit.number) in found for function in edit.functions)
        return [edit for edit in edits if is_wrong(edit)]

    def find_vain(self, edit, goals, texts):
        """Notes the proofs of functions that an edit changes which name what it took away, and returns whether there is a new one."""
        said = [(goal, ANSWERED.match(goal)) for goal in goals if OF_NAMES.match(goal)]
        found = {it.groups() for goal, it in said if it and not edit.number and self.function_of(goal, texts)[:2] in edit.functions}
        is_new = not found <= edit.vain
        edit.vain |= found
        return is_new

    def unread_in(self, said):
        """Returns the proofs whose holes the prover did not read."""
        return self.others.keys() & {it.replace("/", "::") for it in UNREAD_PROOF.findall(said)}

    def checked_with(self, edits):
        """Returns the texts that edits change, and what the check of a copy with these says and takes."""
        with tempfile.TemporaryDirectory(prefix="must-fail-") as room:
            texts = self.copy_with([edit for edit in edits if not edit.number], room)
            if not any(edit.is_alone or edit.is_over_proofs for edit in edits):
                self.put_holes({path for edit in edits for path in edit.paths}, room)
            for edit in edits:
                if edit.is_by_answers and not edit.number:
                    self.search_nothing(edit, room)
            self.add_copies([edit for edit in edits if edit.number], room, texts)
            with self.keeping:
                if self.kept:
                    shutil.copytree(self.kept.name, f"{room}/kept", copy_function=link_or_copy)
            os.makedirs(f"{room}/kept", exist_ok=True)
            said, took = self.check(room, {edit.tried(path): module for edit in edits for path, module in edit.paths.items()})
            if not self.unread_in(said):
                self.keep(f"{room}/kept")
        return texts, said, took

    def keep(self, folder):
        """Keeps what a round proved, for later rounds: the prover takes of it what fits."""
        copy = lambda one, other: os.path.exists(other) or link_or_copy(one, other)
        with self.keeping:
            self.kept = self.kept or tempfile.TemporaryDirectory(prefix="must-fail-kept-")
            shutil.copytree(folder, self.kept.name, dirs_exist_ok=True, copy_function=copy)

    def put_holes(self, changed, room):
        """Puts a hole in place of each proof of functions that no edit changes, and no body in place of theirs."""
        kept = [it for it, functions in self.others.items() if not functions & changed]
        # functions that call one another have one proof, since they do
        apart = [proof for proof in kept if not proof.split("::")[-1].startswith("+")]
        self.drop_bodies({path for proof in apart for path in self.others[proof]}, room)
        for proof in kept:
            folder = pathlib.Path(room, "proofs", *proof.split("::"))
            folder.mkdir(parents=True, exist_ok=True)
            for name in ("Answers.antt", "Invariants.antt"):
                (folder / name).unlink(missing_ok=True)
            # the statement of a cycle is in a module of its name
            statement = proof.replace("::", ".") + ("" if folder.name.startswith("+") else ".Statement")
            words = {"crate": self.crate.name, "statement": statement, "name": folder.name}
            (folder / "Proof.antt").write_text(HOLE.format(**words), encoding="utf-8")

    def search_nothing(self, edit, room):
        """Has the prover search for no proof in functions that an edit changes, and keeps of their proofs those that its goals have."""
        answers = edit.answers()
        for path in edit.paths:
            for file, at in self.places.get(path, ()):
                lines = pathlib.Path(room, file).read_text(encoding="utf-8").split("\n")
                lines[at] = searching_nothing(lines, at)
                pathlib.Path(room, file).write_text("\n".join(lines), encoding="utf-8")
            if pathlib.Path(room, answers_of(path)).exists():
                keep_answers(pathlib.Path(room, answers_of(path)), {goal for file, goal in answers if file == answers_of(path)})

    def add_copies(self, edits, room, texts):
        """Adds, for each edit, a copy of the function that it changes below that, with a copy of its proofs."""
        added = {}
        for edit in edits:
            path = next(iter(edit.paths))
            file, at = self.places[path][0]
            lines = source(self.crate.name, file).split("\n")
            first, last = block_of(lines, at)
            for (_, number), line in edit.lines.items():
                lines[number] = line
            lines[at] = re.sub(r"\bfn (\w+)", rf"fn \1{COPY}{edit.number}", searching_nothing(lines, at))
            added.setdefault(file, []).append((last, lines[first : last + 1]))
            self.copy_proofs(edit, path, room)
        for file, copies in added.items():
            lines = pathlib.Path(room, file).read_text(encoding="utf-8").split("\n")
            for last, copy in sorted(copies, reverse=True):
                lines[last + 1 : last + 1] = ["", *copy]
            texts[file] = "\n".join(lines)
            pathlib.Path(room, file).write_text(texts[file], encoding="utf-8")

    def copy_proofs(self, edit, path, room):
        """Copies the proofs of a function for the copy that an edit changes."""
        dotted, name = path.replace("::", r"\."), path.split("::")[-1]
        folder = pathlib.Path(room, "proofs", *edit.tried(path).split("::"))
        shutil.copytree(pathlib.Path(self.crate.folder, "proofs", *path.split("::")), folder)
        keep_answers(folder / "Answers.antt", {goal for _, goal in edit.answers()})
        for file in folder.glob("*.antt"):
            text = re.sub(rf"(\.proofs\.{dotted}\b)", rf"\1{COPY}{edit.number}", file.read_text(encoding="utf-8"))
            file.write_text(re.sub(rf"\b{name}_spec\b", f"{name}{COPY}{edit.number}_spec", text), encoding="utf-8")

    def drop_bodies(self, paths, room):
        """Drops the bodies of functions, since their contracts are taken without a proof."""
        by_file = {}
        for file, at in {place for path in paths for place in self.places[path]}:
            by_file.setdefault(file, []).append(at)
        for file, begins in by_file.items():
            lines = pathlib.Path(room, file).read_text(encoding="utf-8").split("\n")
            for at in begins:
                lines = without_body(lines, at)
            pathlib.Path(room, file).write_text("\n".join(lines), encoding="utf-8")

    def copy_with(self, edits, room):
        """Copies the crate with edits, and returns the texts that they change."""
        for part in self.rtlib.PARTS:
            if os.path.isdir(f"{self.crate.folder}/{part}"):
                shutil.copytree(f"{self.crate.folder}/{part}", f"{room}/{part}")
        texts = {}
        for edit in edits:
            for (file, at), line in edit.lines.items():
                texts.setdefault(file, source(edit.crate, file).split("\n"))[at] = line
        texts = {file: "\n".join(lines) for file, lines in texts.items()}
        for file, text in texts.items():
            pathlib.Path(room, file).write_text(text, encoding="utf-8")
        for file, goal in {it for edit in edits for it in edit.vain}:
            # what was seen in a copy of a function is tried in the function itself
            path = pathlib.Path(room, re.sub(f"{COPY}[0-9]+", "", file))
            kept = ANSWER.sub(lambda it: "" if it[1] == goal else it[0], path.read_text(encoding="utf-8"))
            path.write_text(kept, encoding="utf-8")
        return texts

    def check(self, room, paths):
        """Checks functions of the copy, each by its path or, where the prover knows none of that name, with its whole module.

        Returns what the check says, and the seconds of a processor that it takes.
        """
        flags = ["--jobs", "1", "--allow-holes", "--incremental", f"{room}/kept"]
        words = [*self.rtlib.guarded(), self.rtlib.RATTLE, "check", *self.crate.words(flags, keeps=False)]
        how = {"cwd": room, "stdin": subprocess.DEVNULL, "stdout": subprocess.PIPE, "stderr": subprocess.STDOUT}
        chosen, took = dict.fromkeys(sorted(paths)), 0
        while True:
            only = [word for path in chosen for word in ("--only", path)]
            with subprocess.Popen([*words, *only], text=True, errors="replace", **how) as ran:
                said = ran.stdout.read()
                _, status, used = os.wait4(ran.pid, 0)
                ran.returncode = os.waitstatus_to_exitcode(status)
            took += used.ru_utime + used.ru_stime
            unknown = {it for it in NO_FUNCTION.findall(said) if it in paths} if ran.returncode == 2 else set()
            if not unknown & chosen.keys():
                return said, took
            chosen = dict.fromkeys(sorted({paths[it] if it in unknown else it for it in chosen}))

    def function_of(self, goal, texts):
        """Returns the module and the name of the function whose goal this is, and the number of the copy, or 0."""
        found = GOAL.match(goal)
        if found["proof"]:
            *above, name = found["proof"].split("/")
            module = "::".join(above[:-1] if above and not above[-1][0].islower() else above)
        else:
            module, text = module_of(found["source"]), texts.get(found["source"]) or source(self.crate.name, found["source"])
            name = (function_at(text, int(found["line"])) or "").split("::")[-1]
        # the folder of a function that calls itself begins with a plus
        name, _, number = name.removeprefix("+").partition(COPY)
        return module, name, int(number or 0)


def are_built(crate):
    """Returns whether the libraries below a crate are built."""
    return all(os.path.isfile(f"{it.rlib}/format") for it in crate.below())


def edits_by_crate(folder, names):
    """Returns the edits of each crate, of those that are named, or of all."""
    paths = sorted(pathlib.Path(folder).glob("*/*.edit") if folder else TOP.glob("crates/*/must-fail/*.edit"))
    found = {}
    for path in paths:
        crate = path.parts[-2] if folder else path.parts[-3]
        if not names or crate in names or f"{crate}/{path.stem}" in names:
            found.setdefault(crate, []).append(Edit(crate, path))
    return found


def seconds_of(trial, edits):
    """Returns about how long a round takes beside what each takes: ten seconds an edit, and one for each 10 KB of the crate."""
    texts = [path for part in ("src", "specs", "proofs") for path in pathlib.Path(trial.crate.folder, part).rglob("*.*")]
    return 10 * len(edits) + sum(path.stat().st_size for path in texts) / 10_000


def order_of(trial, edits):
    """Returns what orders rounds: those of crates over more libraries are earlier, since they can begin late; then those that take
    longest, which prove most of what the others of the crate take."""
    return -len(trial.crate.below()), -seconds_of(trial, edits)


class Marks:
    """Says which libraries are proved, by the files of a folder."""

    def __init__(self, folder):
        self.folder = pathlib.Path(folder) if folder else None

    def has_all(self, crate):
        """Returns whether the libraries below a crate are proved."""
        return self.folder is None or all((self.folder / it.name).exists() for it in crate.below())


def next_of(waiting, busy, marks):
    """Returns the round to begin next, or none: of a crate whose libraries are proved, and, until those of all are, one of which no
    other round runs. Only where few run, as at first, is it one more of the same crate."""
    ready = [it for it in waiting if marks.has_all(it[0].crate)]
    apart = [it for it in ready if it[0] not in busy]
    is_more = len(ready) == len(waiting) or len(busy) < run.processors() // 2
    return next(iter(apart or (ready if is_more else [])), None)


def try_all(trials, marks, start):
    """Tries all edits in rounds, and by itself each edit whose goal was not seen in its round."""
    waiting = [(trial, edits) for trial in trials for edits in trial.rounds]
    waiting.sort(key=lambda it: order_of(*it))

    def try_one(trial, edits):
        took = trial.try_round(edits)
        seen = [edit for edit in edits if edit.goal]
        said = f"{len(seen)} of {len(edits)} edits refused in {took:.0f} s of a processor"
        print(f"{time.time() - start:5.0f} s: {trial.crate.name}: {said}", flush=True)
        again = [edit for edit in edits if not edit.goal and edit.try_otherwise()]
        for edit in again:
            print(f"        {trial.crate.name}/{edit.name} is tried again {edit.how()}", flush=True)
        return [(trial, [edit]) for edit in again]

    running = {}
    with ThreadPoolExecutor(run.processors()) as lanes:
        while waiting or running:
            for task in [it for it in running if it.done()]:
                del running[task]
                waiting.extend(task.result())
            while len(running) < run.processors() and (task := next_of(waiting, running.values(), marks)):
                waiting.remove(task)
                running[lanes.submit(try_one, *task)] = task[0]
            time.sleep(1)


def print_verdict(edit):
    """Prints what came of an edit."""
    if edit.goal:
        print(f"{edit.crate}/{edit.name}: refused by {edit.goal}")
    else:
        print(f"{edit.crate}/{edit.name}: NOT REFUSED by {', '.join(sorted(edit.named)) or 'anything: it names nothing'}: {edit.said}")


def main():
    parser = argparse.ArgumentParser(description=__doc__, formatter_class=argparse.RawDescriptionHelpFormatter)
    parser.add_argument("--edits", metavar="FOLDER", help="where the edits are, in a folder for each crate")
    parser.add_argument("--proved", metavar="FOLDER", help="where a file of its name says that a library is proved")
    parser.add_argument("names", nargs="*", metavar="CRATE[/EDIT]", help="crates or edits to try (all)")
    given = parser.parse_args()
    rtlib = run.toolchain()
    crates = {crate.name: crate for crate in rtlib.crates_below(run.ROOT)}
    edits = edits_by_crate(given.edits, given.names)
    if not edits and (given.names or not given.edits or not os.path.isdir(given.edits)):
        sys.exit("there are no such edits")
    unbuilt = [name for name in edits if not given.proved and not are_built(crates[name])]
    if unbuilt:
        sys.exit(f"the libraries below {', '.join(unbuilt)} are not built: run `rt ci` first")
    rtlib.guarded()
    try_all([Trial(rtlib, crates[name], found) for name, found in edits.items()], Marks(given.proved), time.time())
    every = [edit for found in edits.values() for edit in found]
    for edit in every:
        print_verdict(edit)
    refused = sum(1 for edit in every if edit.goal)
    print(f"{refused} of {len(every)} edits refused")
    sys.exit(refused != len(every))


if __name__ == "__main__":
    main()
