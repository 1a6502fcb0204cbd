#!/usr/bin/env python3
"""Writes `rust/dist/`, the proved library and the program `polygons` as assembly text, which needs no toolchain but an assembler.

    python3 tools/dist.py [TARGET ..]            writes the texts, and `rust/dist/MANIFEST`
    python3 tools/dist.py --check [TARGET ..]    makes them again, and fails where a byte differs from those in `rust/dist/`
    python3 tools/dist.py --stale                fails where `rust/dist/` is not there, or was made of other sources; takes no toolchain

TARGET is x86_64-linux, which is meant where none is given, or aarch64-linux. The libraries below have to be proved (`tools/archive.py` and
`tools/run.py`, or the gate, do it). `overlay_c` and `polygons` are proved for each target, unless `out/checked` or `out/checked-TARGET`
records a proof of these files.

The toolchain compiles the proved crate as always, by its own compiler in two steps: to text, and the text to an object file. Where
`tools/archive.py` has left an archive, or `rt ci` a program, which are compiled in one step, the object file has to be the same, byte for byte.
"""
import hashlib
import itertools
import os
import pathlib
import re
import shutil
import sys
import tempfile

sys.dont_write_bytecode = True
# where `tools/ci.py` has the toolchain record a proof, in the crate's folder
RECORD = "out/checked"
TOP = pathlib.Path(__file__).resolve().parent.parent
DIST = TOP / "rust/dist"
LIBRARY, PROGRAM = "overlay_c", "polygons"
# the file of each crate's text
FILES = {LIBRARY: "{target}.s", PROGRAM: "polygons-{target}.s"}
TRIPLES = {"x86_64-linux": "x86_64-unknown-linux-gnu", "aarch64-linux": "aarch64-unknown-linux-gnu"}
FIRST = next(iter(TRIPLES))

HEAD = """/* {crate} for {target}, as the Rattle toolchain compiles it once it is proved. Written by tools/dist.py; do not edit.
   It calls three functions for memory, which c/heap.c and rust/src/heap.rs define. NOTICE says which terms are known. */
"""

# the processor for which the toolchain's assembler fills gaps between code; of another, it takes other lengths of nop
PROCESSORS = {"x86_64-linux": "x86-64-v2", "aarch64-linux": "armv8-a"}

# a compiler that does what the toolchain's does in two steps, and keeps the text between them
COMPILER = """#!/bin/sh
here=${0%/bin/*}
case " $* " in *" -c "*) ;; *) exec "$here/kit/bin/clang" "$@" ;; esac
for word; do
    shift
    case $word in -c) word=-S ;; module.o) word=$here/text.s ;; esac
    set -- "$@" "$word"
done
cp module.bc "$here/code.bc"
"$here/kit/bin/clang" "$@" -fno-verbose-asm || exit
exec "$here/kit/bin/clang" TARGET -c "$here/text.s" -o module.o
"""

# labels that end with the text: rustc takes it as its own assembly, whose labels have such names too, and says that one is defined twice
LABEL = re.compile(rb"(?<![\w.$\"])\.L(?=[A-Za-z_])")

# what the text has for LLVM's own linker alone, and no other assembler reads
FOR_LLVM = re.compile(rb"^\t\.addrsig(_sym .*)?\n", re.M)


def sources():
    """The files of code and contracts of the two crates and of every crate below them."""
    rows = {line.split()[0].rstrip(":"): line.partition(":")[2].split() for line in (TOP / "crates.txt").read_text(encoding="utf-8").splitlines() if line.strip()}
    crates = {LIBRARY, PROGRAM, *rows[LIBRARY], *rows[PROGRAM]}
    folders = [TOP / "crates" / it / "src" for it in crates if (TOP / "crates" / it).is_dir()]
    return sorted(it for folder in folders for it in folder.rglob("*.rt"))


def sum_of_sources():
    """One sum of the names and bytes of all sources."""
    whole = hashlib.sha256()
    for path in sources():
        digest = hashlib.sha256(path.read_bytes()).hexdigest()
        whole.update(f"{digest}  {path.relative_to(TOP).as_posix()}\n".encode())
    return whole.hexdigest()


def shipped(text):
    """The text as any assembler takes it. Of its object file only names of labels and a section for LLVM's linker are others."""
    return LABEL.sub(rb".Lov_", FOR_LLVM.sub(b"", text))


def objects_in(archive):
    """The bytes of each object file in an archive."""
    found, at = [], 8
    while at + 60 <= len(archive):
        name, size = archive[at : at + 16].strip(), int(archive[at + 48 : at + 58])
        if name not in (b"/", b"//"):
            found.append(archive[at + 60 : at + 60 + size])
        at += 60 + size + size % 2
    return found


def toolchain_folder(kit, folder, target):
    """Makes a folder in the form of the toolchain's, whose compiler also writes text."""
    (folder / "bin").mkdir()
    (folder / "kit").symlink_to(f"{kit}/toolchain")
    (folder / "lib").symlink_to("kit/lib")
    for name in os.listdir(f"{kit}/toolchain/bin"):
        if name != "clang":
            (folder / "bin" / name).symlink_to(f"../kit/bin/{name}")
    flags = f"--target={TRIPLES[target]} -march={PROCESSORS[target]}"
    (folder / "bin/clang").write_text(COMPILER.replace("TARGET", flags), encoding="utf-8")
    (folder / "bin/clang").chmod(0o755)


def without_check(words):
    """The words of a build that takes a recorded proof, and so no flags of a check."""
    for flag in {"--logic-built", "--jobs"}.intersection(words):
        at = words.index(flag)
        words = [*words[:at], *words[at + 2 :]]
    return words


def make(rtlib, crate, target):
    """Compiles the proved crate for a target, and returns the text and the record of its proof; stops where that fails."""
    record = f"{crate.folder}/{RECORD}" + f"-{target}" * (target != FIRST)
    os.makedirs(os.path.dirname(record), exist_ok=True)
    words = [*crate.words(["--jobs", "1"], keeps=False), "--target", TRIPLES[target]]
    with tempfile.TemporaryDirectory() as folder:
        room = pathlib.Path(folder)
        toolchain_folder(rtlib.KIT, room, target)
        by = ["--toolchain", str(room), "--backend", "llvm", "-o", str(room / "made")]
        for _ in range(2):
            taken = os.path.isdir(record) and not crate.call(rtlib.RATTLE, "build", *without_check(words), "--crate-checked", record, *by)
            if taken:
                break
            if crate.call(rtlib.RATTLE, "check", *words, "-o", record):
                sys.exit(f"{crate.name} is not proved for {target}")
        else:
            sys.exit(f"{crate.name} was not built for {target}")
        text, made = (room / "text.s").read_bytes(), (room / "made").read_bytes()
        # what page/make.py takes
        shutil.copy(room / "code.bc", f"{crate.folder}/out/{target}.bc")
    if target == FIRST:
        compare_with_direct(crate, made)
    return HEAD.format(crate=crate.name, target=target).encode() + shipped(text), record


def compare_with_direct(crate, made):
    """Stops where the toolchain has built something else in one step: the archive, or the program, as `rt ci` leaves it."""
    out = pathlib.Path(crate.folder, "out")
    if crate.name == LIBRARY:
        direct = out / "libfadrinzo_exports.a"
        differs = direct.is_file() and objects_in(made)[0] not in objects_in(direct.read_bytes())
    else:
        direct = out / f"{crate.name}.o"
        # beside it `rt ci` leaves what the other compiler makes; `rt run` may leave that in its place
        differs = (out / f"{crate.name}.by-rattle.o").is_file() and made != direct.read_bytes()
    if differs:
        sys.exit(f"the text does not assemble to the object file of {direct}")


def line_of(record, file, word):
    """The rest of the line of a record's file that begins with a word."""
    lines = (pathlib.Path(record) / file).read_text(encoding="utf-8").splitlines()
    return next(line[len(word) :].strip() for line in lines if line.startswith(word))


def rows_of_manifest():
    """The lines of `rust/dist/MANIFEST`, by what is before the colon."""
    return dict(line.split(": ", 1) for line in (DIST / "MANIFEST").read_text(encoding="utf-8").splitlines())


def manifest(rtlib, made):
    """What `rust/dist/MANIFEST` says."""
    rows = {"sources": sum_of_sources(), "toolchain": pathlib.Path(rtlib.KIT, "KIT-ID").read_text(encoding="utf-8").splitlines()[0]}
    if (DIST / "MANIFEST").is_file():
        had = rows_of_manifest()
        # what is said of other targets stays, if it was made of the same sources by the same toolchain
        rows = {**had, **rows} if all(had.get(name) == value for name, value in rows.items()) else rows
    for name, (text, record) in made.items():
        rows[f"{name} file"] = hashlib.sha256(text).hexdigest()
        rows[f"{name} code"] = line_of(record, "inputs", "mir ")
        # without the words that say which earlier checks the run took, which are others in a fresh folder
        rows[f"{name} verdict"] = " ".join(word for word in line_of(record, "verdict", "logic=").split() if not word.endswith("=trusted"))
    return "".join(f"{name}: {value}\n" for name, value in rows.items())


def fault():
    """What is wrong with `rust/dist/`, by its list and the sources: a sentence, or `None`."""
    if not (DIST / "MANIFEST").is_file():
        return "rust/dist/ is missing: run `python3 tools/dist.py`"
    rows = rows_of_manifest()
    if rows.get("sources") != sum_of_sources():
        return "rust/dist/ was made of other sources: run `python3 tools/dist.py`"
    files = {name.removesuffix(" file"): digest for name, digest in rows.items() if name.endswith(" file")}
    lacking = {it.format(target=FIRST) for it in FILES.values()} - files.keys()
    for name in [*sorted(lacking), *files]:
        path = DIST / name
        if not path.is_file():
            return f"rust/dist/{name} is missing: run `python3 tools/dist.py`"
        if name in lacking or hashlib.sha256(path.read_bytes()).hexdigest() != files[name]:
            return f"rust/dist/{name} is not as rust/dist/MANIFEST says"
    others = {it.name for it in DIST.glob("*.s")} - files.keys()
    return f"rust/dist/MANIFEST does not name {min(others)}" if others else None


def main(flags):
    if flags == ["--stale"]:
        sys.exit(fault())
    targets = [it for it in flags if it != "--check"] or [FIRST]
    if not set(targets) <= set(TRIPLES):
        sys.exit(__doc__)
    import run  # beside this file

    rtlib = run.toolchain()
    rtlib.guarded()
    made = {}
    for name, target in itertools.product(FILES, targets):
        crate = rtlib.Crate(f"{TOP}/crates/{name}", str(TOP), {})
        made[FILES[name].format(target=target)] = make(rtlib, crate, target)
    files = {name: text for name, (text, _) in made.items()} | {"MANIFEST": manifest(rtlib, made).encode()}
    if "--check" not in flags:
        DIST.mkdir(exist_ok=True)
        for name, data in files.items():
            (DIST / name).write_bytes(data)
        return
    differ = [name for name, data in files.items() if not (DIST / name).is_file() or (DIST / name).read_bytes() != data]
    for name in files:
        print(f"rust/dist/{name} {'DIFFERS from' if name in differ else 'is'} what the proved sources give")
    sys.exit(1 if differ else 0)


if __name__ == "__main__":
    main(sys.argv[1:])
