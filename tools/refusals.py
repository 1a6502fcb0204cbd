"""Refuses each growth in turn, over the programs that `rt ci` or `rt run` has built.

    python3 tools/refusals.py

The program `refusals` makes each call that can take memory, and, where a growth is refused, makes it again: it has to
print the same, and end well, whichever growth was refused. A run of `arrange` or `polygons` has to print the whole answer,
or nothing but `out of memory`, with exit status 4. Prints how many growths were refused, and fails where a run differs.
"""

import os
import pathlib
import subprocess
import tempfile
from concurrent import futures

TOP = pathlib.Path(__file__).resolve().parent.parent

# How a run ends: its exit status, and what it writes to its two outputs.
Ended = tuple[int, bytes, bytes]

# The words of the runs of each program, and the example that each is over.
RUNS = {
    "arrange": [
        ("join", "squares.txt"),
        ("split strategy=list", "squares.txt"),
        ("split strategy=tree", "comb.txt"),
        ("split strategy=frag", "comb.txt"),
        ("graph rule=intersect", "squares.txt"),
        ("graph rule=intersect strategy=tree", "comb.txt"),
        ("walks rule=xor", "squares.txt"),
    ],
    "polygons": [
        ("rule=union", "polygons/squares.txt"),
        ("rule=difference", "polygons/letter.txt"),
        ("shapes report rule=difference", "polygons/frame.txt"),
        ("also=xor also=clip report rule=union", "polygons/squares.txt"),
    ],
}


def clang() -> str:
    """Returns the compiler of the kit, which lies beside the page that `rt doc` names."""
    page = subprocess.run(["rt", "doc"], capture_output=True, text=True, check=True).stdout.split()[0]
    return str(pathlib.Path(page).parent / "toolchain" / "bin" / "clang")


def program(crate: str) -> str:
    """Returns the path of a program that is built."""
    path = TOP / "crates" / crate / "out" / crate
    if not path.exists():
        raise SystemExit(f"{crate} is not built: run `rt ci`, or `rt run` in crates/{crate}")
    return str(path)


class Refusing:
    """Runs programs of which one growth is refused."""

    def __init__(self, folder: str):
        self.folder = pathlib.Path(folder)
        self.library = f"{folder}/refuse_growth.so"
        source = str(TOP / "tools" / "refuse_growth.c")
        subprocess.run([clang(), "-shared", "-fPIC", "-O1", "-o", self.library, source], check=True)

    def run(self, command: list[str], given: bytes, number: int) -> tuple[Ended, int]:
        """Returns how a run ends of which the growth of that number is refused, and how many growths it asks for."""
        growths = self.folder / f"growths-{number}"
        environment = {"LD_PRELOAD": self.library, "REFUSE_GROWTH": str(number), "GROWTHS": str(growths)}
        done = subprocess.run(command, input=given, capture_output=True, env=environment, timeout=60, check=False)
        count = int(growths.read_text())
        growths.unlink()
        return (done.returncode, done.stdout, done.stderr), count

    def check(self, command: list[str], given: bytes, refused: list[Ended]) -> int:
        """Refuses each growth in turn, and then one more, so that the last run refuses nothing. A run has to end as that
        one, or in one of the ways that are named. Returns how many growths were refused."""
        whole, count = self.run(command, given, 0)
        if whole[0] != 0:
            raise SystemExit(f"{command}: exit status {whole[0]} with memory")
        with futures.ThreadPoolExecutor(os.cpu_count()) as pool:
            runs = pool.map(lambda number: self.run(command, given, number)[0], range(1, count + 2))
            for number, ended in enumerate(runs, 1):
                is_refused = number <= count and ended in refused
                if ended != whole and not is_refused:
                    raise SystemExit(f"{command}: growth {number} refused: {ended}")
        return count


def main() -> None:
    refusals, programs = program("refusals"), {crate: program(crate) for crate in RUNS}
    with tempfile.TemporaryDirectory() as folder:
        refusing = Refusing(folder)
        print(f"refusals: {refusing.check([refusals], b'', [])} growths refused in turn")
        for crate, path in programs.items():
            count = 0
            for words, example in RUNS[crate]:
                given = (TOP / "examples" / example).read_bytes()
                count += refusing.check([path, *words.split()], given, [(4, b"", b"out of memory\n")])
            print(f"{crate}: {count} growths refused in turn")


if __name__ == "__main__":
    main()
