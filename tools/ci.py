#!/usr/bin/env python3
"""Runs `rt ci`, which then also records its proofs of `overlay_c` and `polygons`, so that the archive and `rust/dist/` need no second ones.

    python3 tools/ci.py

The command is the toolchain's own, and proves and tests what it does without this file. Its check of the library has one flag
more, `-o out/checked`: the toolchain writes there what it proved, with sums of all files that it read and of the code. Of the program the
command has that made by itself.
`tools/archive.py --beside-ci` and `tools/dist.py` have the crates compiled by these records, and the toolchain refuses them where
anything differs.
The two lowest libraries get a job for each of half of the processors, since nothing else can be proved before them, and the last
crates of the longest chain, from snap rounding on, two jobs each; the other processors try edits. Under a toolchain whose command has other steps this is plain `rt ci`, and the archive's crate is proved once more.
"""
import importlib.machinery
import importlib.util
import inspect
import os
import shutil
import sys

sys.dont_write_bytecode = True
import run  # noqa: E402  (beside this file)

RECORD = "out/checked"
SHIPPED = ("overlay_c", "polygons")
LOWEST = ("overlay_geometry", "overlay_base")
LAST = ("overlay_snapping", "overlay_contours", "overlay_c", "polygons")


def command():
    """The module of the command `rt`."""
    path = os.path.realpath(shutil.which("rt"))
    loader = importlib.machinery.SourceFileLoader("rt", path)
    module = importlib.util.module_from_spec(importlib.util.spec_from_loader("rt", loader))
    sys.modules["rt"] = module
    loader.exec_module(module)
    return module


def has_steps(rt):
    """Whether the command has the two steps to which flags are added."""
    steps = [getattr(rt.Crate, name, None) for name in ("ci", "prove")]
    return all(steps) and [list(inspect.signature(it).parameters) for it in steps] == [["self", "flags", "tests"], ["self", "commands"]]


def jobs_of(crate):
    """How many jobs the check of a crate gets; of the others `rt` decides."""
    if crate in LOWEST:
        return max(run.processors() // 2, 1)
    return min(run.processors(), 2) if crate in LAST else None


def is_check(words):
    """Whether a command of the toolchain checks a crate, and not its tests."""
    return words[0] == "check" and "--test" not in words


def recorded(words):
    """The command, with a record of what it proves if it is a check."""
    return [*words, "-o", RECORD] if is_check(words) and "-o" not in words else words


def main():
    rt = command()
    if not has_steps(rt):
        os.execvp("rt", ["rt", "ci"])

    class Crate(rt.Crate):
        """A crate whose check, if its code is shipped as text, is recorded."""

        def ci(self, flags, tests):
            jobs = jobs_of(self.name)
            if jobs and not tests:
                flags = ["--jobs", str(jobs)]
            return super().ci(flags, tests)

        def prove(self, *commands):
            if self.name not in SHIPPED:
                return super().prove(*commands)
            commands = [recorded(words) for words in commands]
            status = super().prove(*commands)
            for words in commands:
                # of a program the command itself has a record made, elsewhere, and removes it at its end
                if not status and is_check(words) and words[words.index("-o") + 1] != RECORD:
                    shutil.rmtree(f"{self.folder}/{RECORD}", ignore_errors=True)
                    shutil.copytree(words[words.index("-o") + 1], f"{self.folder}/{RECORD}")
            return status

    rt.Crate = Crate
    return rt.main(["ci"])


if __name__ == "__main__":
    sys.exit(main() if len(sys.argv) == 1 else __doc__)
