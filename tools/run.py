#!/usr/bin/env python3
"""Proves and runs a program, as `rt run` does, with the libraries below it proved side by side.

    python3 tools/run.py CRATE [-- ARGUMENT ..]

`rt run` proves one library after another, each with several jobs. Here those that do not rest on one another are proved at a time,
since each further job of one check loads the libraries again. What is proved is the same: each library is built by the toolchain's
own function, and `rt run` then finds it built.
"""
import importlib.machinery
import importlib.util
import os
import shutil
import sys
import threading
import time

ROOT = os.path.dirname(os.path.dirname(os.path.abspath(__file__)))

# a check takes up to this much memory
BYTES_OF_A_CHECK = 3 << 30


def toolchain():
    """The module of the toolchain that builds libraries, which lies beside `rt`."""
    path = os.path.join(os.path.dirname(os.path.realpath(shutil.which("rt"))), "rtlib.py")
    sys.dont_write_bytecode = True
    loader = importlib.machinery.SourceFileLoader("rtlib", path)
    module = importlib.util.module_from_spec(importlib.util.spec_from_loader("rtlib", loader))
    sys.modules["rtlib"] = module
    loader.exec_module(module)
    return module


def available_memory():
    """How many bytes of memory a check can take, what the system keeps of files included, since it gives that back."""
    with open("/proc/meminfo", encoding="ascii") as lines:
        kilobytes = next(int(line.split()[1]) for line in lines if line.startswith("MemAvailable:"))
    return 1024 * kilobytes


def processors():
    """How many checks can run at a time."""
    return max(1, min(len(os.sched_getaffinity(0)), available_memory() // BYTES_OF_A_CHECK))


class Builds:
    """Libraries that are built side by side, each after those below it."""

    def __init__(self, libraries):
        self.left = list(libraries)
        self.jobs = {}
        self.failed = []
        self.ended = threading.Condition()
        self.idle = processors()
        self.start = time.time()

    def is_ready(self, library):
        waited_for = [*self.left, *self.jobs]
        return not any(below in waited_for for below in library.below())

    def build(self, library):
        """Builds a library, and says so. What its check printed is shown where it failed."""
        os.makedirs(f"{library.folder}/out", exist_ok=True)
        with open(f"{library.folder}/out/said", "w+", encoding="utf-8", errors="replace") as library.out:
            status = library.build_rlib(["--jobs", str(self.jobs[library])], anew=False)
            library.out.seek(0)
            said = library.out.read() if status else ""
        library.out = sys.stderr
        with self.ended:
            word = "NOT PROVED" if status else "proved"
            print(f"{said}{time.time() - self.start:5.0f} s: {library.name} {word}", file=sys.stderr, flush=True)
            self.failed += [library] * bool(status)
            self.idle += self.jobs.pop(library)
            self.ended.notify()

    def start_next(self):
        """Starts the library for which most others wait, of those that can be built, with its share of the idle processors."""
        ready = [it for it in self.left if self.is_ready(it)]
        if not ready or not self.idle or self.failed:
            return False
        library = max(ready, key=lambda it: sum(it in other.below() for other in self.left))
        self.left.remove(library)
        self.jobs[library] = -(-self.idle // len(ready))
        self.idle -= self.jobs[library]
        threading.Thread(target=self.build, args=[library]).start()
        return True

    def run(self):
        """Builds all, and returns whether all are built."""
        with self.ended:
            while self.start_next() or self.jobs:
                if not self.idle or not any(map(self.is_ready, self.left)) or self.failed:
                    self.ended.wait()
        return not self.failed


def build_libraries(name):
    """Builds the libraries below a crate, and returns whether all are built."""
    rtlib = toolchain()
    libraries = rtlib.Crate(f"{ROOT}/crates/{name}", ROOT, {}).below()
    # its first call sets a signal's handler, which only the main thread may
    rtlib.guarded()
    held = rtlib.lock(libraries)
    try:
        return Builds([it for it in libraries if not it.is_built()]).run()
    finally:
        for lock in held:
            os.close(lock)


def main(name, *words):
    if not build_libraries(name):
        sys.exit(1)
    os.chdir(f"{ROOT}/crates/{name}")
    os.execvp("rt", ["rt", "run", *words])


if __name__ == "__main__":
    if len(sys.argv) < 2 or sys.argv[1].startswith("-") or not os.path.isdir(f"{ROOT}/crates/{sys.argv[1]}"):
        sys.exit(__doc__)
    main(*sys.argv[1:])
