#!/usr/bin/env python3
"""Writes `c/fadrinzo_exports.h`, the exports of the archive as C declares them, from the sources of `crates/overlay_c`.

    python3 tools/c_header.py [--check]

With `--check` nothing is written: it fails where the file is stale, and where `rust/src/ffi.rs` declares an export or a record in
another way than the sources do.

A slice of the sources is a pointer and a length in C; a `Global` takes no bytes, and does not cross.
"""
import pathlib
import re
import sys

TOP = pathlib.Path(__file__).resolve().parent.parent
SOURCES = TOP / "crates/overlay_c/src"
HEADER = TOP / "c/fadrinzo_exports.h"
PACKAGE = TOP / "rust/src"

NUMBERS = {"i32": "int32_t", "u8": "uint8_t", "u32": "uint32_t", "u64": "uint64_t", "i64": "int64_t", "usize": "size_t", "bool": "bool"}
PREFIX = "fadrinzo_"

# what the package calls the records of the sources
PACKAGE_NAMES = {
    "Handle": "Handle", "SegmentRecord": "Segment", "LineRecord": "LineSegment", "LinkRecord": "OverlayLink", "SettingsRecord": "Settings",
    "SizesRecord": "Sizes", "WordsRecord": "Words", "ReportRecord": "Report", "PointRecord": "IntPoint", "TaggedRecord": "DataSegment",
    "CrossRecord": "Cross", "MatrixRecord": "Matrix", "TileRecord": "Tile",
}

STRUCT = re.compile(r"((?:///[^\n]*\n)+)#\[repr\(C\)\]\n(?:#\[[^\n]*\n)*pub struct (\w+) \{\n(.*?)\n\}", re.DOTALL)
FIELD = re.compile(r"((?: *///[^\n]*\n)*) *(?:pub(?:\(\w+\))? )?(\w+): ([^,]+),")
EXPORT = re.compile(r"((?:///[^\n]*\n)+)#\[unsafe\(no_mangle\)\]\npub extern \"C\" fn (\w+)\((.*?)\)(?: -> (\w+))?\n", re.DOTALL)
FOREIGN = re.compile(r"fn (overlay_c_\w+)\((.*?)\)(?: -> (\w+))?;", re.DOTALL)


class Record:
    """A record: its name, its doc, and of each field the name, the type and the doc."""

    def __init__(self, doc, name, body):
        self.doc, self.name = doc, name
        lines = [line for line in body.split("\n") if not re.match(r" *(pub )?ghost ", line)]
        self.fields = [(name, kind.strip(), doc) for doc, name, kind in FIELD.findall("\n".join(lines))]


def text_of(doc):
    """Returns the text of a doc, its lines in one."""
    return " ".join(line.strip().removeprefix("///").strip() for line in doc.strip().split("\n"))


def records():
    """Returns the records that cross, by name, each below those that it has."""
    found = {}
    for name in ("records", "contours", "tags", "cross", "handle", "relations", "tiles"):
        for doc, record, body in STRUCT.findall((SOURCES / f"{name}.rt").read_text(encoding="utf-8")):
            found[record] = Record(doc, record, body)
    return found


def exports():
    """Returns of each export the doc, the name, the parameters by name and type, and the type of the result."""
    found = []
    for doc, name, parameters, result in EXPORT.findall((SOURCES / "lib.rt").read_text(encoding="utf-8")):
        pairs = [part.strip().split(": ", 1) for part in parameters.split(",") if part.strip()]
        found.append((doc, name, [(word, kind) for word, kind in pairs if kind != "Global"], result))
    return found


def c_name(record):
    """Returns the name of a record in C."""
    return PREFIX + re.sub(r"(?<!^)([A-Z])", r"_\1", record.removesuffix("Record")).lower()


def c_type(kind):
    """Returns a type in C: of a number, or of a record."""
    return NUMBERS.get(kind) or c_name(kind)


def c_parameter(name, kind):
    """Returns a parameter in C: of a slice the pointer and the length."""
    if found := re.fullmatch(r"&(mut )?\[(\w+)\]", kind):
        const = "" if found[1] else "const "
        return f"{const}{c_type(found[2])} *{name}, size_t {name}_len"
    if found := re.fullmatch(r"&(mut )?(\w+)", kind):
        return f"{'' if found[1] else 'const '}{c_type(found[2])} *{name}"
    return f"{c_type(kind)} {name}"


def comment(doc, indent=""):
    """Returns a doc as a comment of lines of at most 120 columns."""
    lines, line = [], f"{indent}/*"
    for word in text_of(doc).replace("`", "").split():
        if len(line) + len(word) > 115:
            lines.append(line)
            line = f"{indent}  "
        line += f" {word}"
    return "\n".join([*lines, f"{line} */"])


def header():
    """Returns the text of the header."""
    known = records()
    parts = ["/* The exports of libfadrinzo_exports.a. Written by tools/c_header.py from crates/overlay_c; do not edit.\n"
             "   Each requires a full handle, which overlay_c_new makes, and slices of the lengths that overlay_c_sizes reports. No\n"
             "   condition is tested: fadrinzo.h has calls that test theirs. */",
             "#ifndef FADRINZO_EXPORTS_H\n#define FADRINZO_EXPORTS_H\n",
             "#include <stdbool.h>\n#include <stddef.h>\n#include <stdint.h>\n",
             "#ifdef __cplusplus\nextern \"C\" {\n#endif\n"]
    for record in in_order(known):
        fields = [(f"{comment(doc, '    ')}\n" if doc else "") + f"    {field(name, kind)};"
                  for name, kind, doc in record.fields if kind != "Global"]
        parts.append(f"{comment(record.doc)}\ntypedef struct {{\n" + "\n".join(fields) + f"\n}} {c_name(record.name)};\n")
    for doc, name, parameters, result in exports():
        words = ", ".join(c_parameter(*it) for it in parameters) or "void"
        parts.append(f"{comment(doc)}\n{c_type(result) if result else 'void'} {name}({words});\n")
    parts.append("#ifdef __cplusplus\n}\n#endif\n\n#endif")
    return "\n".join(parts) + "\n"


def field(name, kind):
    """Returns a field in C."""
    return f"void *{name}" if kind == "*mut u8" else f"{c_type(kind)} {name}"


def in_order(known):
    """Returns the records, each after those that are fields of it."""
    done = []
    left = list(known.values())
    while left:
        ready = next(it for it in left if all(kind not in known or known[kind] in done for _, kind, _ in it.fields))
        done.append(ready)
        left.remove(ready)
    return done


def package_parameters(parameters):
    """Returns the parameters of an export as the package has to declare them."""
    found = []
    for name, kind in parameters:
        if slice_of := re.fullmatch(r"&(mut )?\[(\w+)\]", kind):
            found += [f"*{'mut' if slice_of[1] else 'const'} {package_type(slice_of[2])}", "usize"]
        elif record := re.fullmatch(r"&(mut )?(\w+)", kind):
            found.append(f"&{record[1] or ''}{package_type(record[2])}")
        else:
            found.append(package_type(kind))
    return found


def package_type(kind):
    """Returns what the package calls a type."""
    return "u64" if kind == "Tag" else PACKAGE_NAMES.get(kind, kind)


def differences():
    """Returns a sentence for each export that the package declares in another way."""
    text = (PACKAGE / "ffi.rs").read_text(encoding="utf-8")
    declared = {name: ([part.split(":", 1)[1].strip() for part in parameters.split(",") if part.strip()], result)
                for name, parameters, result in FOREIGN.findall(text)}
    wanted = {name: (package_parameters(parameters), package_type(result)) for _, name, parameters, result in exports()}
    for name in sorted(declared.keys() | wanted.keys()):
        if declared.get(name) != wanted.get(name):
            yield f"rust/src/ffi.rs declares {name} as {declared.get(name)}, and crates/overlay_c as {wanted.get(name)}"
    yield from record_differences()


def flat(kind, known):
    """Returns the numbers of a type in their order."""
    if kind == "Global":
        return []
    if kind not in known:
        return ["u64"] if kind == "Tag" else [kind]
    return [number for _, inner, _ in known[kind].fields for number in flat(inner, known)]


def record_differences():
    """Returns a sentence for each record whose numbers the package has in another order."""
    theirs = {}
    for path in sorted(PACKAGE.glob("*.rs")):
        text = path.read_text(encoding="utf-8")
        for name, body in re.findall(r"#\[repr\(C\)\]\n(?:#\[[^\n]*\n)*(?:pub )?struct (\w+) \{\n(.*?)\n\}", text, re.DOTALL):
            theirs[name] = Record("", name, body)
    aliases = {"SegmentFill": "u8"}
    known = records()
    for name, other in PACKAGE_NAMES.items():
        if other not in theirs:
            yield f"the package has no record {other}"
            continue
        ours = flat(name, known)
        package = [aliases.get(it, it) for it in flat(other, theirs)]
        if ours != package:
            yield f"the package's {other} has {package}, and {name} has {ours}"


def main(flags):
    wanted = header()
    if "--check" not in flags:
        HEADER.parent.mkdir(exist_ok=True)
        HEADER.write_text(wanted, encoding="utf-8")
        return 0
    faults = list(differences())
    if not HEADER.is_file() or HEADER.read_text(encoding="utf-8") != wanted:
        faults.append("c/fadrinzo_exports.h is stale: run `python3 tools/c_header.py`")
    for fault in faults:
        print(fault)
    return 1 if faults else 0


if __name__ == "__main__":
    sys.exit(main(sys.argv[1:]))
