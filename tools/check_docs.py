#!/usr/bin/env python3
"""Fails where a document leaves out what it lists, or names what is not there.

    python3 tools/check_docs.py

ARCHITECTURE names each source file. THEOREMS lists the files of `specs/` on which its theorems rest, in reading order, counts right,
and quotes what is there. Each edit of `must-fail/` names functions that have to refuse it, with clauses of their contracts, and it
changes one of them. Each lemma module and each file of `specs/` begins with a comment. A link of a document leads to a file. No
document and no comment uses a word of NOT_SAID. No contract of a public function of `i_overlay` or `overlay_contours` names a
definition of `specs/steps`. A document has no more words than LENGTHS gives it, names no path that is not there, and its numbers are
those of SAME_NUMBERS.
"""
import glob
import itertools
import os
import re
import sys

sys.dont_write_bytecode = True
import index_definitions  # noqa: E402  (beside this file)
import index_lemmas  # noqa: E402
import promises  # noqa: E402

ROOT = os.path.dirname(os.path.dirname(os.path.abspath(__file__)))
# files that every crate has
COMMON = {"Lib", "lib", "main"}
CELLS_OF_A_FILE = 3
THEOREMS = "docs/THEOREMS.md"
# documents, and sources with comments, but for the header that a tool writes from the comments of the exports
WITH_PROSE = r".*\.md|crates/\w+/(src|specs|proofs)/.*\.(rt|antt)|(rust|c|python)/.*(?<!_exports)\.(rs|c|h|py)"
COMMENT = {".antt": r"\s*-- (.*)", ".py": r"\s*# (.*)"}
COMMENT_OF_OTHERS = r"\s*(?:///?|//!|/?\*) (.*)"
# what documents and comments do not say, and what to say in its place
NOT_SAID = {
    r"(evenly|oddly) many": "an even or odd number of",
    r"(stands?|stood)(?!-| for\b)": "is, are, lie",
    r"(asks|asked|(?-i:ask))": "compares, calls for, follows from",
    r"(tells?|told)": "says, returns, reports",
    r"answer(s|ed)?": "result, returns",
    r"(?<!to )round(?! (up|down|to nearest)\b)": "around; is rounded",
    r"(?<!none )(?<!each )(?<!all )(?<!both )(?<!most )(?<!some )of which": "name the noun, then the condition",
    r"the same,? but": "the function, and the difference",
}
# how many words each document may have, and all of them, without the marks of tables
LENGTHS = {
    "README.md": 1_200,
    "CONTRIBUTING.md": 1_400,
    "CHANGELOG.md": 1_900,
    "docs/ARCHITECTURE.md": 1_750,
    "docs/DECISIONS.md": 3_000,
    "docs/DIFFERENCES.md": 1_700,
    "docs/GATE.md": 900,
    "docs/GUIDE.md": 1_600,
    "docs/LIMITS.md": 1_200,
    "docs/MEASUREMENTS.md": 2_050,
    "docs/PROGRAMS.md": 1_850,
    "docs/THEOREMS.md": 6_350,
}
ALL_WORDS, LINES_OF_README = 24_000, 120
# where a path of a document may begin, and how it may end
OF_A_CRATE = ("", "src/", "specs/", "proofs/", "proofs/laws/*/")
PLACES = ("", "rust/", "rust/src/", "rust/tests/", "bench/", *(f"crates/*/{it}" for it in OF_A_CRATE))
ENDINGS = ("", ".rt", ".antt", ".rs", ".md", ".txt")
A_PATH = r"[\w.-]+(/[\w.-]+)+|[\w-]+\.(py|rs|md|txt|sh|patch|edit)"
# paths of documents that no file has: what commands make, and `.ci/run`, without its first point
NOT_PATHS = r"(crates/\w+|c)/out(/.*)?|.*\bci/run|(rust/)?dist/[\w-]+\.s"
# a number of a document, and where it comes from
SAME_NUMBERS = (
    ("README.md", r"compare ([\d,]+) random runs", "rust/tests/runs.rs", r'"RUNS", ([\d_]+)'),
    ("README.md", r"of ([\d,]+) others", "rust/tests/program.rs", r'"RUNS", ([\d_]+)'),
    ("docs/PROGRAMS.md", r"`limit` .*\| (\d+) \|", "crates/overlay_split/src/split/solver.rt", r"SNAP_LIMIT: u32 = (\d+)"),
)
# folders of what is made
MADE = {".git", "out", "target", "__pycache__"}


def read(path):
    with open(f"{ROOT}/{path}", encoding="utf-8") as file:
        return file.read()


def present():
    """The files of the repository, but for what its commands make."""
    found = []
    for folder, below, names in os.walk(ROOT):
        below[:] = [it for it in below if it not in MADE]
        found += [os.path.relpath(f"{folder}/{it}", ROOT) for it in names]
    return sorted(found)


def stem(path):
    return os.path.splitext(os.path.basename(path))[0]


def words(text):
    """The words that stand in a document as code."""
    return set(re.findall(r"\w+", " ".join(re.findall(r"`([^`\n]+)`", text))))


def left_out(files, pattern, document):
    """The files of a pattern whose names a document has not."""
    named = words(read(document))
    return [f"{document} does not name {it}" for it in files if re.fullmatch(pattern, it) and stem(it) not in named | COMMON]


def rows(text):
    """The cells of the rows of tables."""
    return [[cell.strip() for cell in re.split(r"(?<!\\)\|", line.strip())[1:-1]] for line in text.splitlines() if line.startswith("| ")]


def dead_links(files):
    """The links of documents that lead to no file."""
    found = []
    for document in (it for it in files if it.endswith(".md")):
        for target in re.findall(r"\]\(([^)#:\s]+)(?:#[^)]*)?\)", read(document)):
            if not os.path.exists(os.path.normpath(f"{ROOT}/{os.path.dirname(document)}/{target}")):
                found.append(f"{document} links to {target}, which is not there")
    return found


def exported_modules():
    """The names in the `pub use` items of `i_overlay`: those of modules are among them."""
    text = "".join(read(f"crates/i_overlay/src/{it}") for it in sorted(os.listdir(f"{ROOT}/crates/i_overlay/src")) if it.endswith(".rt"))
    return {word for item in re.findall(r"^ *pub use ([^;]*);", text, re.M) for word in re.findall(r"\b[a-z]\w*", item)}


def steps_in_public(files):
    """The words of `specs/steps` in contracts of public functions of `i_overlay` and `overlay_contours`."""
    exported, found = exported_modules(), []
    for file in files:
        is_exported = re.fullmatch(r"crates/(overlay_(?!c/|text)(\w+(?<!_tests)))/src/(\w+/)*\w+\.rt", file) and stem(file) in exported
        if is_exported or re.fullmatch(r"crates/(i_overlay|overlay_contours)/src/(\w+/)*\w+\.rt", file):
            text = read(file)
            imports = re.findall(r"ghost use Rattle\.\w+\.specs\.steps\.[\w.]*\{([^}]*)\}", text)
            steps = {it.split(" as ")[-1].strip() for names in imports for it in names.split(",")}
            for function in filter(lambda it: it.is_public, promises.functions_of(text)):
                rests_on = sorted(steps & set(re.findall(r"\w+", function.contract)))
                found += [f"{file}: the contract of {function.name} rests on {it}, a step" for it in rests_on]
    return found


def lemmas_without_comment():
    return [f"the lemma module {name} of {crate} has no comment" for crate, _, name, said in index_lemmas.index() if not said]


def faults_of_reading_order(specs):
    """Where THEOREMS counts definitions wrong, or its list of files is not that of those on which its theorems rest, in their order."""
    found, reached = [], {}
    for theorem, definition, count in (cells for cells in rows(read(THEOREMS)) if len(cells) == CELLS_OF_A_FILE):
        if said := re.fullmatch(r"(\d+), in (\d+) files", count):
            below = index_definitions.below(specs, re.findall(r"`([^`]+)`", definition)[:1])
            files = reached[theorem.split(",")[0]] = {it[:2] for it in below}
            if (len(below), len(files)) != (int(said[1]), int(said[2])):
                found.append(f"{THEOREMS} counts wrong below {definition}: {len(below)}, in {len(files)} files")
    due = []
    for crate, file in specs:
        names = [theorem for theorem, files in reached.items() if (crate, file) in files]
        due += [(f"`{crate.removeprefix('overlay_')}/{file}`", "".join(names))] * bool(names)
    listed = [(file, theorems) for file, theorems, _ in (it for it in rows(read(THEOREMS)) if len(it) == CELLS_OF_A_FILE) if "/" in file]
    found += [f"{THEOREMS} leaves out {' '.join(it)}" for it in due if it not in listed]
    wrong = [it for it, wanted in itertools.zip_longest(listed, due) if it and it != wanted]
    found += [f"{THEOREMS} lists {' '.join(it)} where another file is due, or none" for it in wrong[:1]]
    uncommented = [key for key, (_, _, said) in specs.items() if not said]
    return [*found, *[f"the file {file} of the specs of {crate} has no comment" for crate, file in uncommented]]


def prose(path):
    """The paragraphs of a document, or of the comments of a source file, without code; each with the number of its first line."""
    text = read(path)
    if path.endswith(".md"):
        text = re.sub(r"```.*?```", lambda it: "\n" * it[0].count("\n"), text, flags=re.S)
        lines = ["" if it.startswith("    ") else it for it in text.split("\n")]
    else:
        mark = re.compile(COMMENT.get(os.path.splitext(path)[1], COMMENT_OF_OTHERS))
        lines = [found[1] if (found := mark.match(it)) else "" for it in text.split("\n")]
    first, part = 0, []
    for number, line in enumerate([*lines, ""], 1):
        if line.strip():
            first, part = (first if part else number), [*part, line.strip()]
        elif part:
            yield first, re.sub(r"`[^`]*`", "``", " ".join(part))
            part = []


def faults_of_words(files):
    """The paragraphs of documents and comments with a word that has a better one."""
    found = []
    for path in (it for it in files if re.fullmatch(WITH_PROSE, it)):
        for number, text in prose(path):
            for pattern, better in NOT_SAID.items():
                found += [f"{path}:{number}: {it[0]!r}: {better}" for it in re.finditer(rf"\b{pattern}\b", text, re.I)]
    return found


def faults_of_quotes(files):
    """The indented parts of THEOREMS, between lines `..`, that no file of `specs` has: comments and line breaks aside."""
    def plain(text):
        return " ".join(re.sub(r"^ *--.*$", "", text, flags=re.M).split())

    known = [plain(read(it)) for it in files if re.fullmatch(r"crates/\w+/specs/(\w+/)*\w+\.antt", it)]
    quotes = re.findall(r"(?:^ {4}.*\n|^\n(?= {4}))+", read(THEOREMS), re.M)
    parts = [it for quote in quotes for it in re.split(r"^ *\.\.\n|\n\n", quote, flags=re.M) if it.strip() and "python3" not in it]
    unknown = [plain(it) for it in parts if not any(plain(it) in text for text in known)]
    return [f"{THEOREMS} quotes what no file of specs has: {it[:80]}" for it in unknown]


def faults_of_edits():
    """The edits that name nothing which refuses them, no function that they change, or a clause that its contract has not."""
    sources, found = promises.Sources(), []
    for edit in sources.edits:
        name, changed = f"{edit.crate}/must-fail/{edit.name}.edit", sources.changed_by(edit)
        found += [f"{name} has no line `# refused by FUNCTION: CLAUSE`"] * (not edit.refused_by)
        for function, clauses in edit.refused_by.items():
            own = [it for it in sources.functions if it.crate == edit.crate and function in it.names()]
            named = [it for it in own if (it.file, it.number) in changed]
            known = sources.clauses_of(named)
            found += [f"{name} changes no function {function}"] * (not named)
            # the clauses of traits of std are not in this repository
            unknown = [it for it in clauses if it not in known and not it.startswith("requires of ")] if known else []
            found += [f"{name} names a clause {it} that {function} has not" for it in unknown]
    return found


def words_of(document):
    """How many words a document has; the marks of tables are none."""
    return len(re.findall(r"\S*\w\S*", read(document)))


def faults_of_lengths(files):
    """The documents that have too many words, or no length."""
    lengths = {it: words_of(it) for it in LENGTHS}
    found = [f"{it} has {length} words, and {LENGTHS[it]} at most" for it, length in lengths.items() if length > LENGTHS[it]]
    found += [f"{it} has no length" for it in files if re.fullmatch(r"(docs/)?\w+\.md", it) and it not in LENGTHS]
    found += [f"all documents have {sum(lengths.values())} words, and {ALL_WORDS} at most"] * (sum(lengths.values()) > ALL_WORDS)
    return found + ["README.md has too many lines"] * (read("README.md").count("\n") > LINES_OF_README)


def is_there(document, path):
    """Whether some file has the path that a document names."""
    beside = [f"{os.path.dirname(document)}/"] if "/" in document else []
    return any(glob.glob(f"{ROOT}/{place}{path}{ending}") for place in [*PLACES, *beside] for ending in ENDINGS)


def faults_of_paths():
    """The paths that documents name and no file has."""
    found = []
    for document in (*LENGTHS, "rust/README.md", "python/README.md"):
        text = "\n".join(re.sub(r"^\|.*", "", it) if document == THEOREMS else it for it in read(document).split("\n"))
        named = {word.strip(".,;:()\"").rstrip("/") for code in re.findall(r"`([^`\n]+)`", text) for word in code.split()}
        paths = [it for it in sorted(named) if re.fullmatch(A_PATH, it) and not re.fullmatch(NOT_PATHS, it)]
        found += [f"{document} names {it}, which is not there" for it in paths if not is_there(document, it)]
    return found


def faults_of_numbers():
    """The numbers of documents that are not those of the sources from which they come."""
    found = []
    for document, said, source, made in SAME_NUMBERS:
        numbers = [re.sub(r"[,_]", "", it[1]) if it else None for it in (re.search(said, read(document)), re.search(made, read(source)))]
        found += [f"{document} says {numbers[0]} where {source} has {numbers[1]}"] * (None in numbers or numbers[0] != numbers[1])
    return found


def main():
    files = present()
    found = [
        *left_out(files, r"crates/\w+(?<!_tests)/src/(\w+/)*\w+\.rt", "docs/ARCHITECTURE.md"),
        *lemmas_without_comment(),
        *faults_of_reading_order(index_definitions.index()),
        *faults_of_words(files),
        *faults_of_quotes(files),
        *dead_links(files),
        *faults_of_edits(),
        *steps_in_public(files),
        *faults_of_lengths(files),
        *faults_of_paths(),
        *faults_of_numbers(),
    ]
    print(*found, sep="\n", end="\n" * bool(found))
    print(f"{len(found)} faults in documents")
    sys.exit(bool(found))


if __name__ == "__main__":
    main()
