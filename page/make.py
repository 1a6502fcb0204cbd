#!/usr/bin/env python3
"""Makes a page that overlays polygons by the library in a browser, and tests it: a demonstration, which nothing vouches for.

    python3 page/make.py [--code FILE] [--library FILE] [--linked]

The toolchain compiles no heap for WebAssembly, and so no module of this library. So the code that `tools/dist.py` had compiled for x86-64,
`crates/overlay_c/out/x86_64-linux.bc`, is compiled here for wasm64 by the toolchain's compiler, under another data layout. That it means
the same there is tested alone: node, and headless Chromium, where these are, compare random overlays with the shared library
(`c/out/libfadrinzo.so`). `page/out/index.html` is the page, in one file, which needs no server; `page/out/page.png` is a picture of it.
"""
import argparse
import base64
import json
import os
import pathlib
import re
import shutil
import subprocess
import sys

HERE = pathlib.Path(__file__).resolve().parent
TOP = HERE.parent
OUT = HERE / "out"
CODE = TOP / "crates/overlay_c/out/x86_64-linux.bc"
LIBRARY = TOP / "c/out/libfadrinzo.so"
LAYOUT = "e-m:e-p:64:64-p10:8:8-p20:8:8-i64:64-i128:128-n32:64-S128-ni:1:10:20"
TARGET = ["--target=wasm64-unknown-unknown", "-mbulk-memory"]
EXPORTS = "version text new free clear add_contour overlay overlay_shapes overlay_by_rules arrange arranged arranged_shapes locate get".split()
CASES = 500
# a text is opened as a file's would be, and what the page says of it goes into its title
OPENS = """rule.value = "union";
openText("POLYGON ((0 0, 9 0, 9 9, 0 9), (3 3, 6 3, 6 6, 3 6))");
document.title += "; " + said.textContent.split(", in")[0];"""
BROWSERS = ("chromium", "chromium-browser", "google-chrome")


def kit():
    """The folder of the toolchain."""
    path = shutil.which("rt")
    if not path:
        sys.exit("the page was not made: there is no toolchain in PATH")
    return pathlib.Path(path).resolve().parent.parent


def run(*words, **named):
    return subprocess.run([str(it) for it in words], check=True, **named)


def clang(*words):
    run(kit() / "toolchain/bin/clang", *words)


def retargeted(text):
    """The code under the data layout of wasm64, without what is for x86-64 alone."""
    text = re.sub(r"^target datalayout = .*$", f'target datalayout = "{LAYOUT}"', text, flags=re.M)
    text = re.sub(r"^target triple = .*$", 'target triple = "wasm64-unknown-unknown"', text, flags=re.M)
    return re.sub(r' "(probe-stack|stack-probe-size|target-cpu|target-features)"="[^"]*"', "", text)


def compile_code(code):
    """Compiles the code of the library for wasm64."""
    clang("--target=x86_64-unknown-linux-gnu", "-x", "ir", code, "-S", "-emit-llvm", "-Xclang", "-disable-llvm-passes", "-o", OUT / "given.ll")
    (OUT / "code.ll").write_text(retargeted((OUT / "given.ll").read_text(encoding="utf-8")), encoding="utf-8")
    clang(*TARGET, "-O2", "-mllvm", "-sink-common-insts=false", "-c", "-x", "ir", OUT / "code.ll", "-o", OUT / "code.o")


def link():
    """Compiles what is in C, and links the module."""
    headers = ["-nostdinc", "-ffreestanding", "-fno-builtin", "-isystem", HERE / "include"]
    headers += [f"-Doverlay_c_{it}=page_{it}" for it in ("sizes", "report", "arranged_report")]
    for file in (HERE / "page.c", TOP / "c/heap.c", TOP / "c/fadrinzo.c"):
        clang(*TARGET, *headers, "-std=c11", "-Wall", "-O2", "-c", file, "-o", OUT / f"{file.stem}.o")
    names = [f"--export=fadrinzo_{it}" for it in EXPORTS] + ["--export=malloc", "--export=free"]
    objects = [OUT / f"{it}.o" for it in ("code", "page", "heap", "fadrinzo")]
    linker = [kit() / "toolchain/bin/ld.lld", "-flavor", "wasm", "-mwasm64", "--no-entry", "--stack-first", "-z", "stack-size=1048576"]
    run(*linker, "--gc-sections", "--strip-all", *names, *objects, "-o", OUT / "fadrinzo.wasm")


def write_pages(cases):
    """Writes the page, and the same with cases that it compares when it is opened."""
    parts = {name: (HERE / f"{name}.mjs").read_text(encoding="utf-8").replace("export ", "") for name in ("overlay", "wkt", "compare")}
    page = (HERE / "index.html").read_text(encoding="utf-8").replace("/*MODULE*/", parts["overlay"] + parts["wkt"])
    page = page.replace("/*BYTES*/", base64.b64encode((OUT / "fadrinzo.wasm").read_bytes()).decode())
    (OUT / "index.html").write_text(page, encoding="utf-8")
    tests = f"{parts['compare']}\ndocument.title = compare(library, {json.dumps(cases)});\n{OPENS}"
    (OUT / "test.html").write_text(page.replace("/*TESTS*/", tests), encoding="utf-8")


def make_cases(library):
    """Random overlays, with what the shared library returns of each."""
    environment = {**os.environ, "PYTHONPATH": str(TOP / "python"), "FADRINZO_SO": str(library)}
    said = run(sys.executable, "-B", HERE / "cases.py", CASES, stdout=subprocess.PIPE, text=True, env=environment).stdout
    (OUT / "cases.json").write_text(said, encoding="utf-8")
    return [json.loads(line) for line in said.splitlines()]


def test_in_node():
    if not shutil.which("node"):
        print("the page was not tried in node: there is none")
        return True
    return subprocess.run(["node", "--experimental-wasm-memory64", HERE / "test.mjs", OUT / "fadrinzo.wasm", OUT / "cases.json"], check=False).returncode == 0


def test_in_browser():
    browser = os.environ.get("BROWSER") or next(filter(None, map(shutil.which, BROWSERS)), None)
    if not browser:
        print("the page was not tried in a browser: there is no Chromium")
        return True
    words = [browser, "--headless", "--no-sandbox", "--disable-gpu", "--virtual-time-budget=60000", "--window-size=960,720"]
    done = subprocess.run([*words, "--dump-dom", f"file://{OUT}/test.html"], capture_output=True, text=True, timeout=300, check=False)
    title = re.search(r"<title>(.*?)</title>", done.stdout)
    print(f"in the browser: {title[1] if title else done.stderr[-500:]}")
    run(*words, f"--screenshot={OUT}/page.png", f"file://{OUT}/index.html", stderr=subprocess.DEVNULL)
    return bool(title) and title[1] == f"{CASES} the same, 0 other; 1 shapes, 1 holes (red)"


def main():
    parser = argparse.ArgumentParser(description=__doc__, formatter_class=argparse.RawDescriptionHelpFormatter)
    parser.add_argument("--code", type=pathlib.Path, default=CODE)
    parser.add_argument("--library", type=pathlib.Path, default=LIBRARY)
    parser.add_argument("--linked", action="store_true", help="take the code that was compiled before")
    given = parser.parse_args()
    OUT.mkdir(exist_ok=True)
    if not given.linked:
        compile_code(given.code)
    link()
    write_pages(make_cases(given.library))
    return 0 if all([test_in_node(), test_in_browser()]) else 1


if __name__ == "__main__":
    sys.exit(main())
