"""The overlay of two files of WKT, on the command line.

    python3 -m fadrinzo difference buildings.wkt roads.wkt > built.wkt

Each line of a file is a POLYGON or MULTIPOLYGON with decimals; `-` is the standard input. Prints one MULTIPOLYGON.
"""
from __future__ import annotations

import argparse
import sys
import typing
import warnings

from . import FILLS, RULES, OverlayError
from .wkt import overlay_wkt


def lines_of(path: str) -> typing.List[str]:
    """The lines of a file."""
    if path == "-":
        return sys.stdin.read().splitlines()
    with open(path, encoding="utf-8-sig") as file:
        return file.read().splitlines()


def main() -> None:
    parser = argparse.ArgumentParser(prog="python3 -m fadrinzo", description=__doc__, formatter_class=argparse.RawDescriptionHelpFormatter)
    parser.add_argument("rule", choices=list(RULES))
    parser.add_argument("subject", help="a file of WKT")
    parser.add_argument("clip", nargs="?", help="another (none)")
    parser.add_argument("--fill", choices=list(FILLS), default="nonzero", help="which windings are inside (nonzero)")
    given = parser.parse_args()
    warnings.showwarning = lambda message, *_: print(f"{parser.prog}: {message}", file=sys.stderr)
    try:
        sides = [lines_of(path) if path else [] for path in (given.subject, given.clip)]
        print(overlay_wkt(sides[0], sides[1], given.rule, given.fill, [f"{path}, line" for path in (given.subject, given.clip)]))
    except MemoryError:
        sys.exit(f"{parser.prog}: there is not enough memory")
    except (OSError, ValueError, OverlayError) as error:
        sys.exit(f"{parser.prog}: {error}")


if __name__ == "__main__":
    main()
