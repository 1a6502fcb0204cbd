#!/usr/bin/env python3
"""Builds the archive of the exports, `crates/overlay_c/out/libfadrinzo_exports.a`, which may be linked in place of the text in `rust/dist/`.

    python3 tools/archive.py [--beside-ci]

It holds the proved library `overlay_c`, and the part of the toolchain in C that this calls. The libraries below `overlay_c` are
proved side by side, as `tools/run.py` does it, and `rt lib` makes `liboverlay_c.a` over them. With `--beside-ci` it is made over
the libraries that `rt ci` has proved and left in `out/`, while that goes on, and by the proof of `overlay_c` that `tools/ci.py` had it
record; without such a record the toolchain proves the crate again. It compiles no crate that is not proved.
"""
import os
import subprocess
import sys

sys.dont_write_bytecode = True
import ci  # noqa: E402  (beside this file)
import run  # noqa: E402

NAME = "overlay_c"


def are_left_by_ci(libraries):
    """Returns whether `rt ci` left all of these: a library of any other command has a stamp beside it."""
    return all(os.path.isfile(f"{it.rlib}/format") and not os.path.exists(f"{os.path.dirname(it.rlib)}/stamp") for it in libraries)


def build_over_left(rtlib, crate, archive):
    """Compiles the crate over the libraries that `rt ci` left below it, and returns the status. `rt ci` has the locks.

    By the recorded proof, where there is one that fits all files and the code, or else once it is proved again.
    """
    rtlib.guarded()
    os.makedirs(f"{crate.folder}/out", exist_ok=True)
    words = crate.words(["--jobs", "1"], keeps=False)
    by = ["--toolchain", f"{rtlib.KIT}/toolchain", "--backend", "llvm", "-o", archive]
    if os.path.isdir(f"{crate.folder}/{ci.RECORD}") and not crate.call(rtlib.RATTLE, "build", *without_check(words), *by):
        return 0
    return crate.call(rtlib.RATTLE, "build", *words, *by)


def without_check(words):
    """Returns the words of a build that takes the recorded proof, and so no flags of a check."""
    for flag in {"--logic-built", "--jobs"}.intersection(words):
        at = words.index(flag)
        words = [*words[:at], *words[at + 2 :]]
    return [*words, "--crate-checked", ci.RECORD]


def build(rtlib, crate, flags):
    """Makes the archive of the crate, and returns its path below the crate's folder; `None` where that fails."""
    if "--beside-ci" in flags and are_left_by_ci(crate.below()):
        # `rt ci` may write the archive under its usual name
        archive = f"out/lib{crate.name}_beside_ci.a"
        return None if build_over_left(rtlib, crate, archive) else archive
    if not run.build_libraries(crate.name) or subprocess.run(["rt", "lib"], cwd=crate.folder).returncode:
        return None
    return f"out/lib{crate.name}.a"


def pack(rtlib, crate, archive):
    """Puts the archive and the toolchain's part in C into one, so that a program links one file."""
    packed = f"{crate.folder}/out/libfadrinzo_exports.a"
    if os.path.exists(packed):
        os.remove(packed)
    parts = [f"{crate.folder}/{archive}", f"{rtlib.KIT}/c/liblibc_c.a"]
    subprocess.run([f"{rtlib.KIT}/toolchain/bin/llvm-ar", "qcsL", packed, *parts], check=True)


def main(flags):
    rtlib = run.toolchain()
    crate = rtlib.Crate(f"{run.ROOT}/crates/{NAME}", run.ROOT, {})
    archive = build(rtlib, crate, flags)
    if not archive:
        sys.exit(1)
    pack(rtlib, crate, archive)


if __name__ == "__main__":
    if sys.argv[1:] not in ([], ["--beside-ci"]):
        sys.exit(__doc__)
    main(sys.argv[1:])
