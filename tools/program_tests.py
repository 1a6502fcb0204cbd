"""Makes whole runs of the programs `arrange` and `polygons`, as `rt ci` or `rt run` has built them.

    python3 tools/program_tests.py [--programs FOLDER]

The runs of `examples/runs` have to end with the status and the text that these files give. Runs whose input, output or faults fail
have to end as they are listed here, with `tools/fail_calls.c` loaded. `tools/graph_claims.py` has what is claimed of other runs.
Prints each run that differs, with both texts, and how many agree.
"""

import argparse
import dataclasses
import errno
import os
import pathlib
import re
import subprocess
import sys
import tempfile
from concurrent import futures

sys.dont_write_bytecode = True
import graph_claims  # noqa: E402  (beside this file)
import refusals  # noqa: E402

RUNS = refusals.TOP / "examples" / "runs"
PART = re.compile(r"[^\n]*\n(?P<words>(?:\$[^\n]*\n)*)(?P<given>[^>]*)>(?P<status>\d+)\n(?P<text>.*)", re.S)

USAGE = b"usage: arrange join|cross|split|graph|walks [name=value ..]\n"
# the last call of all that fail
EVER = 1 << 30


@dataclasses.dataclass(frozen=True)
class Run:
    """A run of a program, and how it has to end: its exit status, and what it writes to its two outputs."""

    crate: str
    words: list[bytes]
    given: bytes
    wanted: refusals.Ended
    # which calls fail, by the variables of `tools/fail_calls.c`: the first, the last, and the error
    failing: dict[str, tuple[int, int, int]] = dataclasses.field(default_factory=dict)
    # how many writes it makes to its output, where that is known
    writes: int | None = None
    # whether the program is given its own name, before its words
    is_named: bool = True


def unescaped(text: str) -> bytes:
    return text.encode("ascii").decode("unicode_escape").encode("latin-1")


def read_runs(crate: str) -> list[Run]:
    """Returns the runs of a file of `examples/runs`, which says itself how they are written."""
    runs = []
    for part in re.split(r"^#", (RUNS / f"{crate}.txt").read_text(encoding="ascii"), flags=re.M)[1:]:
        found = PART.fullmatch(part)
        if not found:
            raise SystemExit(f"{crate}.txt: no run:\n#{part}")
        status, text = int(found["status"]), unescaped(found["text"])
        wanted = (status, b"", text) if status else (0, text, b"")
        is_listed = found["given"].startswith("<")
        inputs = [it.removeprefix("<") for it in found["given"].split("\n")[:-1]] if is_listed else [found["given"]]
        lists = [it[1:].split("|") for it in found["words"].split("\n")[:-1]] or [[]]
        runs += [Run(crate, [unescaped(it) for it in words], unescaped(given), wanted) for words in lists for given in inputs]
    return runs


def failing_runs() -> list[Run]:
    """Returns runs of `arrange` of which calls fail, after calls that take one byte each."""
    runs = []
    # a faulty line is not reported before all the input is read
    for given in (b"", b"S 0 0 1 1\n", b"x\n"):
        for error, status, text in ((errno.EIO, 5, b"input failed\n"), (errno.ENOMEM, 4, b"out of memory\n")):
            runs.append(Run("arrange", [b"join"], given, (status, b"", text), {"FAIL_INPUT": (len(given) + 1, EVER, error)}))
    failed, text = b"output failed\n", b"flag false\n"
    for count in (0, 1, 10):
        runs.append(Run("arrange", [b"join"], b"", (5, text[:count], failed), {"FAIL_OUTPUT": (count + 1, EVER, errno.EPIPE)}))
    # nothing follows a failed write
    runs.append(Run("arrange", [b"join"], b"", (5, text[:2], failed), {"FAIL_OUTPUT": (3, 3, errno.EPIPE)}, writes=3))
    both = {"FAIL_OUTPUT": (1, EVER, errno.EPIPE), "FAIL_FAULTS": (4, EVER, errno.EPIPE)}
    for words, given, status, text in (
        (b"joint", b"", 2, USAGE),
        (b"join", b"x\n", 3, b"line 1: form\n"),
        (b"join", b"S 0 0 1 1\n", 5, failed),
    ):
        runs.append(Run("arrange", [words], given, (status, b"", text[:3]), both))
    return runs


class Programs:
    """The programs, the library that makes calls fail, and what was seen of the runs so far."""

    def __init__(self, programs: dict[str, str], folder: str):
        self.programs, self.folder = programs, pathlib.Path(folder)
        self.made, self.faults = 0, []
        self.library = f"{folder}/fail_calls.so"
        source = str(refusals.TOP / "tools" / "fail_calls.c")
        subprocess.run([refusals.clang(), "-shared", "-fPIC", "-O1", "-o", self.library, source], check=True)

    def ended(self, run: Run, number: int = 0) -> tuple[refusals.Ended, int]:
        """Returns how a run ends, and how many writes it made to its output where calls fail. Runs that are made at a time have
        numbers of their own."""
        calls, environment = self.folder / f"calls-{number}", {}
        if run.failing:
            environment = {name: " ".join(map(str, plan)) for name, plan in run.failing.items()}
            environment |= {"LD_PRELOAD": self.library, "CALLS": str(calls)}
        path = self.programs[run.crate]
        words = [path.encode(), *run.words] if run.is_named else run.words
        done = subprocess.run(words, executable=path, input=run.given, capture_output=True, env=environment, timeout=60, check=False)
        writes = int(calls.read_text(encoding="ascii").split()[1]) if run.failing else 0
        return (done.returncode, done.stdout, done.stderr), writes

    def want(self, holds: bool, run: Run, said: str) -> None:
        """Takes down what was found wrong of a run."""
        if not holds:
            self.faults.append(f"{run.crate} {b' '.join(run.words)!r}, input {run.given!r}:\n    {said}")

    def compare(self, runs: list[Run]) -> None:
        """Makes runs, as many at a time as there are processors."""
        self.made += len(runs)
        with futures.ThreadPoolExecutor(os.cpu_count()) as pool:
            for run, (ended, writes) in zip(runs, pool.map(self.ended, runs, range(len(runs)))):
                self.want(ended == run.wanted, run, f"ended  {ended}\n    wanted {run.wanted}")
                self.want(run.writes in (None, writes), run, f"{writes} writes, wanted {run.writes}")

    def written(self, words: str, lines: str) -> tuple[str, Run]:
        """Makes a run of `arrange` that has to be done, and returns what it writes, and the run."""
        self.made += 1
        run = Run("arrange", [it.encode() for it in words.split()], lines.encode(), (0, b"", b""))
        ended, _ = self.ended(run)
        self.want((ended[0], ended[2]) == (0, b""), run, f"ended  {ended}\n    wanted status 0 and no faults")
        return ended[1].decode(), run


def main() -> None:
    parser = argparse.ArgumentParser(description=__doc__.partition("\n")[0])
    parser.add_argument("--programs", type=pathlib.Path, help="the folder of both programs, in place of crates/*/out")
    folder = parser.parse_args().programs
    paths = {crate: str(folder / crate) if folder else refusals.program(crate) for crate in ("arrange", "polygons")}
    with tempfile.TemporaryDirectory() as room:
        programs = Programs(paths, room)
        for crate in paths:
            programs.compare(read_runs(crate))
        programs.compare([Run("arrange", [], b"x\n", (2, b"", USAGE), is_named=False), *failing_runs()])
        for claim in (graph_claims.kept_links, graph_claims.regions, graph_claims.walks_by_chance, graph_claims.walks_through_nodes):
            claim(programs)
    print(*programs.faults, sep="\n", end="\n" * bool(programs.faults))
    print(f"{programs.made} runs of programs, {len(programs.faults)} faults" if programs.faults else f"{programs.made} runs agree")
    sys.exit(bool(programs.faults))


if __name__ == "__main__":
    main()
