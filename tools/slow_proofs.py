#!/usr/bin/env python3
"""The proofs of a crate that took longest to check.

    python3 tools/slow_proofs.py CRATE [COUNT]

Reads when each module that the last checks kept, in crates/CRATE/out, was written: the time between one and the next is what the
later one took, where the check had one job. So it tells most after a first `rt check --jobs 1`. A `Proof` that takes seconds has
goals that the tactics search for long: answer them in the function's Answers.antt.
"""
import os
import sys

# a longer gap is a pause between two checks
GREATEST_GAP = 60


def kept_modules(folder):
    for at, _, names in os.walk(folder):
        for name in names:
            path = os.path.join(at, name)
            yield os.stat(path).st_mtime, name.removesuffix(".oantt").removesuffix(".decls")


def main(crate, count="20"):
    here = os.path.dirname(os.path.abspath(__file__))
    kept = sorted(kept_modules(os.path.join(here, "..", "crates", crate, "out", "incremental")))
    taken = [(after - before, name) for (before, _), (after, name) in zip(kept, kept[1:])]
    slowest = sorted((it for it in taken if it[0] < GREATEST_GAP and "-proofs." in it[1]), reverse=True)
    for seconds, name in slowest[: int(count)]:
        print(f"{seconds:6.1f} {name}")


if __name__ == "__main__":
    if not 2 <= len(sys.argv) <= 3:
        sys.exit(__doc__)
    main(*sys.argv[1:])
