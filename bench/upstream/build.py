#!/usr/bin/env python3
"""Builds upstream's files into the program that bench/race.py, bench/in_process.py and bench/split.py race against.

Usage: python3 bench/upstream/build.py FOLDER

FOLDER is the crate i_overlay 9.0.1, unpacked as a registry gives it, or a folder of its files under flat names, as
`src--src--split--solver.rs.txt` for `src/split/solver.rs`. All is put together and compiled in `bench/upstream/out/`, where upstream's
files are copied; the last line printed is the path of the program. No other file of the crate is read.
"""
import argparse
import glob
import os
import re
import shutil
import subprocess
import sys

HERE = os.path.dirname(os.path.abspath(__file__))
OUT = os.path.join(HERE, "out")
VERSION = "9.0.1"

# upstream's files, by folder
FILES = {
    "build": ["boolean", "builder", "graph", "string", "sweep", "util"],
    "core": ["edge_data", "fill_rule", "graph", "integer", "link", "overlay_rule", "solver"],
    "geom": ["end", "v_segment", "x_segment"],
    "segm": ["boolean", "merge", "segment", "string", "winding"],
    "split": ["cross_solver", "fragment", "grid_layout", "line_mark", "snap_radius", "solver", "solver_fragment", "solver_list",
              "solver_tree"],
    "string": ["graph"],
}

# the one line that is added to them, below the head of the function that each splitting loop calls once a pass
COUNTED = "src/split/snap_radius.rs"
HEAD = re.compile(r"^( *)pub\(super\) fn radius_squared<.*\{\n", re.MULTILINE)


def check_version(folder):
    """Stops where the folder is a crate of another version."""
    manifest = os.path.join(folder, "Cargo.toml")
    if os.path.exists(manifest):
        with open(manifest, encoding="utf-8") as file:
            if f'version = "{VERSION}"' not in file.read():
                sys.exit(f"{manifest} is not of version {VERSION}")


def find(folder, path):
    """The file of a path of the crate, which may have a flat name."""
    flat = glob.glob(os.path.join(glob.escape(folder), "*" + path.replace("/", "--") + "*"))
    found = [it for it in [os.path.join(folder, path), *flat] if os.path.isfile(it)]
    if len(found) != 1:
        sys.exit(f"{folder} has {len(found)} files {path}: is it i_overlay {VERSION}?")
    return found[0]


def copy_own():
    """Copies this package to where it is compiled; what was compiled before stays."""
    os.makedirs(OUT, exist_ok=True)
    for name in ("src", "stand_ins"):
        shutil.rmtree(os.path.join(OUT, name), ignore_errors=True)
        shutil.copytree(os.path.join(HERE, name), os.path.join(OUT, name))
    shutil.copy(os.path.join(HERE, "Cargo.toml"), OUT)


def copy_upstream(folder):
    """Copies upstream's files beside ours. None of them takes the place of one of ours."""
    for part, names in FILES.items():
        for path in (f"src/{part}/{name}.rs" for name in names):
            target = os.path.join(OUT, path)
            if os.path.exists(target):
                sys.exit(f"{path} is there twice")
            shutil.copyfile(find(folder, path), target)


def count_passes():
    """Lets the program count its passes."""
    path = os.path.join(OUT, COUNTED)
    with open(path, encoding="utf-8") as file:
        text, changes = HEAD.subn(r"\g<0>\1    crate::passes::note_pass();\n", file.read())
    if changes != 1:
        sys.exit(f"{COUNTED} has {changes} functions radius_squared")
    with open(path, "w", encoding="utf-8") as file:
        file.write(text)


def main():
    parser = argparse.ArgumentParser(description=__doc__, formatter_class=argparse.RawDescriptionHelpFormatter)
    parser.add_argument("folder", metavar="FOLDER", help=f"the crate i_overlay {VERSION}")
    folder = parser.parse_args().folder
    check_version(folder)
    copy_own()
    copy_upstream(folder)
    count_passes()
    target = os.path.join(OUT, "target")
    command = ["cargo", "build", "--release", "--offline", "--quiet", "--target-dir", target]
    if subprocess.run(command, cwd=OUT).returncode:
        sys.exit("the program was not built")
    print(os.path.relpath(os.path.join(target, "release", "upstream_arrange")))


if __name__ == "__main__":
    main()
