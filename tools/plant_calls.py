#!/usr/bin/env python3
"""Plants wrong bodies in what lies above the exports, and runs the tests of their layers: each has to fail there.

    python3 tools/plant_calls.py [--archive FILE] [NAME ..]

A body is one line of `c/`, `python/` or `rust/src` in place of another, in a copy. Its layer's table of rules and refusals is run over it,
and for some the test that a line of PLANTS names. Prints each body that passes, and how many fail; ends with 1 where one passes, or where
a line is not there to be replaced.
"""
import argparse
import concurrent.futures
import dataclasses
import os
import pathlib
import shutil
import subprocess
import sys
import tempfile

ROOT = pathlib.Path(__file__).resolve().parent.parent
ARCHIVE = ROOT / "crates/overlay_c/out/libfadrinzo_exports.a"
FLAGS = ["-std=c11", "-O1", "-UNDEBUG"]
C, HEADER, PYTHON, WKT, RELATED = "c/fadrinzo.c", "c/fadrinzo.hpp", "python/fadrinzo/__init__.py", "python/fadrinzo/wkt.py", "python/fadrinzo/related.py"
CLIP = "python/fadrinzo/clip.py"
RUST = "rust/src/"


@dataclasses.dataclass(frozen=True)
class Plant:
    """A wrong body: the file, the line and what is in its place, and the tests that have to fail, or the table of its layer."""

    name: str
    file: str
    old: str
    new: str
    tests: str = ""


PLANTS = [
    Plant("positive is taken as non-zero", C, ".fill_rule = (uint8_t)fill_rule}", ".fill_rule = (uint8_t)(fill_rule == 2 ? 1 : fill_rule)}"),
    Plant("positive and negative are exchanged", C, ".fill_rule = (uint8_t)fill_rule}", ".fill_rule = (uint8_t)(fill_rule < 2 ? fill_rule : 5 - fill_rule)}"),
    Plant("inverse difference is difference", C, "call(&overlay->handle, &settings, (uint8_t)rule);", "call(&overlay->handle, &settings, (uint8_t)(rule == 5 ? 4 : rule));"),
    Plant("crossings are rounded pair by pair", C, ".strategy = 3,", ".strategy = 3, .rounding = 1,"),
    Plant("reach is taken from passes", C, "overlay_c_report(&overlay->handle).reach.low", "overlay_c_report(&overlay->handle).passes.low"),
    Plant("the reach of an arrangement is that of the last overlay", C, "overlay_c_arranged_report(", "overlay_c_report("),
    Plant("the reach of an arrangement is the most there is", C, "overlay_c_arranged_report(&overlay->handle).reach.low", "1"),
    Plant("the last table is refused", C, "rule < FADRINZO_RULE_TABLE + 16", "rule < FADRINZO_RULE_TABLE + 15"),
    Plant("a result is dropped", C, "        .contours = sizes.contours,", "        .contours = sizes.contours - (sizes.contours > 2),"),
    Plant("a rule of many is the first one", C, "codes[i] = (uint8_t)rules[i];", "codes[i] = (uint8_t)rules[i ? i - 1 : 0];"),
    Plant("collinear points stay", C, "call(&overlay->handle, (uint8_t)rule, corners != 0);", "call(&overlay->handle, (uint8_t)rule, false);"),
    Plant("a clip is added to the subject", C, "points, (uint8_t)shape);", "points, (uint8_t)(shape & 0));"),
    Plant("borders of a tile are exchanged", C, ".min_x = tile->min_x, .min_y = tile->min_y", ".min_x = tile->min_y, .min_y = tile->min_x"),
    Plant("given contours are those of the subject", C, "overlay_c_given(&overlay->handle, (uint8_t)shape)", "overlay_c_given(&overlay->handle, (uint8_t)(shape & 0))"),
    Plant("a refused call leaves the result before", C, "    if (overlay)\n        drop_result(overlay);\n    return FADRINZO_BAD_ARGUMENT;", "    return FADRINZO_BAD_ARGUMENT;"),
    Plant("a rule without a name is taken", C, "rule <= FADRINZO_RULE_XOR)", "rule <= FADRINZO_RULE_XOR + 1)"),
    Plant("a boundary counts as inside", C, "(fadrinzo_location)code;", "(fadrinzo_location)(code == 1 ? 0 : code);"),
    Plant("a relation is that of another code", C, "&settings, (uint8_t)relation, &found);", "&settings, (uint8_t)(relation == 2 ? 1 : relation), &found);"),
    Plant("a refused relation is written", C, "    if (status == FADRINZO_OK)\n        *holds = found;", "    *holds = found;"),
    Plant("a relation without a name is taken", C, "relation <= FADRINZO_DISJOINT", "relation <= FADRINZO_DISJOINT + 1"),
    Plant("a region that is not there is taken", C, "!is_relation(relation) || first >= overlay->regions || second >=", "!is_relation(relation) || first > overlay->regions || second >"),
    Plant("numbers of regions begin at one", C, "*number = overlay->regions++;", "*number = ++overlay->regions;"),
    Plant("regions are exchanged", C, "&settings, first, second, (uint8_t)relation", "&settings, second, first, (uint8_t)relation"),
    Plant("contours of many are turned", C, "lengths, contours, add_as_given);", "lengths, contours, add_turned);"),
    Plant("parts go on where the line left", C, " && is_same_point(last->end, from->b);", ";"),
    Plant("points at which contours meet lines are left out", C, "&& !is_corner(it, next->start))", ")"),
    Plant("points at which lines meet stay", C, "        if (segment->subj) {", "        if (segment) {"),
    Plant("parts outside are those along the boundary", C, "invert != 0, boundary_included != 0)", "boundary_included != 0, invert != 0)"),
    Plant("sums along far steps leave their range", C, ".half = half_of(of_p) + half_of(of_q) + rests / 2,", ".half = (int64_t)((uint64_t)of_p + (uint64_t)of_q),"),
    Plant("sides far beside a line wind no more", C, "if (!(it->shared & sides)) {", "if (!(it->shared | sides)) {"),
    Plant("a refused clip of lines leaves the parts before", C, "    drop_parts(overlay);\n    if ((!lengths", "    if ((!lengths"),
    Plant("fields of a clip rule are exchanged", HEADER, "clip_rule.invert,\n                                          clip_rule.boundary_included,", "clip_rule.boundary_included,\n                                          clip_rule.invert,"),
    Plant("wide coordinates are cut", HEADER, "::digits <= 31;", "::digits <= 63;"),
    Plant("an outer boundary is left out", HEADER, "contours(found, found.shape_starts[i], found", "contours(found, found.shape_starts[i] + 1, found"),
    Plant("bits of a table are exchanged", HEADER, "2 * subject + 4 * clip", "4 * subject + 2 * clip"),
    Plant("collinear points stay in shapes for C++", HEADER, "fadrinzo_arranged_shapes(handle(), static_cast<int>(rule), collinear == Collinear::Drop)", "fadrinzo_arranged_shapes(handle(), static_cast<int>(rule), 0)"),
    Plant("a refused growth is an error as others", HEADER, "if (status == FADRINZO_NO_MEMORY)", "if (false)"),
    Plant("a status is not thrown", HEADER, "if (status != FADRINZO_OK)", "if (status == FADRINZO_POINT_OUT_OF_RANGE)"),
    Plant("covers and within are exchanged", PYTHON, '"covers": 1, "is-within": 2', '"covers": 2, "is-within": 1'),
    Plant("a shape that crosses itself is no error of its own", PYTHON, "NOT_EXACT = (6, 7)", "NOT_EXACT = ()"),
    Plant("scaled coordinates are floored", PYTHON, "return round(scaled) if", "return int(scaled // 1) if"),
    Plant("a hole is left out", PYTHON, "(contours[0], contours[1:])", "(contours[0], contours[2:])"),
    Plant("fills are exchanged", PYTHON, '"positive": 2, "negative": 3', '"positive": 3, "negative": 2'),
    Plant("rules are exchanged", PYTHON, '"difference": 4, "inverse-difference": 5', '"difference": 5, "inverse-difference": 4'),
    Plant("the clip is the subject", PYTHON, 'name, contours in [("subject", subject), ("clip", clip)]]', 'name, contours in [("subject", subject), ("clip", subject)]]'),
    Plant("polygons of the clip are the subject's", PYTHON, 'polygons in [("subject", subject), ("clip", clip)]]', 'polygons in [("subject", subject), ("clip", subject)]]', "test_overlay.Polygons"),
    Plant("inside is the boundary", PYTHON, '= ["inside", "boundary", "outside"]', '= ["boundary", "inside", "outside"]'),
    Plant("a coordinate at the end of the range is refused", PYTHON, "if not MIN_COORD <= number <= MAX_COORD:", "if not MIN_COORD < number < MAX_COORD:"),
    Plant("an arrangement has the reach of the last result", PYTHON, "_check(_calls().fadrinzo_arranged(self._handle, NOTHING, 0))", "pass"),
    Plant("an arrangement has always moved edges", PYTHON, "return _calls().fadrinzo_get(self._handle).reach", "return 1"),
    Plant("an origin moves both coordinates by x", PYTHON, "moved[index % 2]", "moved[0]", "test_origin"),
    Plant("an origin is not subtracted", PYTHON, "_whole(value, where) - (0 if grid is None else grid.origin[axis])", "_whole(value, where)", "test_origin"),
    Plant("lines have the numbers of parts", CLIP, "(found.lines[index], ", "(index, ", "test_clip"),
    Plant("a closed line is opened", CLIP, "points = base._points(line, where)", "points = base._points(line, where)\n        points = points[:-1] if len(points) > 1 and points[0] == points[-1] else points", "test_clip"),
    Plant("holes of WKT run as they are written", WKT, "points[::-1] if (area < 0) == (index == 0) else points", "points[::-1] if area < 0 and index == 0 else points", "test_wkt.Overlays"),
    Plant("inverse difference has the code of difference", RUST + "rules.rs", "OverlayRule::InverseDifference => 5,", "OverlayRule::InverseDifference => 4,"),
    Plant("a table loses its last bit", RUST + "rules.rs", "16 + table.bits,", "16 + table.bits % 8,"),
    Plant("positive and negative change places", RUST + "overlay.rs", "fill_rule: fill_rule as u8,", "fill_rule: [0, 1, 3, 2][fill_rule as usize],"),
    Plant("each rounding is pairwise", RUST + "overlay.rs", "rounding: self.rounding as u8,", "rounding: 1,"),
    Plant("reach is the number of passes", RUST + "overlay.rs", "self.reach = reach.number();", "self.reach = passes.number();"),
    Plant("a boundary is inside", RUST + "overlay.rs", "1 => PointLocation::OnBoundary,", "1 => PointLocation::Inside,"),
    Plant("rings are turned the other way", RUST + "overlay.rs", "(area > 0) == is_counterclockwise", "(area > 0) != is_counterclockwise"),
    Plant("collinear points stay in shapes", RUST + "arrangement.rs", "arranged_shapes(overlay_rule.code(), corners)", "arranged_shapes(overlay_rule.code(), false && corners)"),
    Plant("an arrangement reports the last overlay", RUST + "arrangement.rs", "self.engine.arranged_report()", "self.engine.report()"),
    Plant("the reach of an arrangement is one", RUST + "arrangement.rs", "reach: reach.number() })", "reach: 1 })"),
    Plant("the reach of an arrangement is its passes", RUST + "arrangement.rs", "reach: reach.number() })", "reach: passes.number() })"),
    Plant("an arrangement has made one pass", RUST + "arrangement.rs", "passes: passes.number(),", "passes: 1,"),
    Plant("within is covers", RUST + "relations.rs", "IsWithin = 2,\n    SameRegion = 3,", "IsWithin = 3,\n    SameRegion = 2,", "relations"),
    Plant("rows of the matrix are exchanged", RUST + "relations.rs", "[interior, boundary, exterior]", "[interior, exterior, boundary]", "relations"),
    Plant("the clip is named for the subject", RUST + "relations.rs", "6 => Error::NotExact(ShapeType::Subject)", "6 => Error::NotExact(ShapeType::Clip)", "relations"),
    Plant("boxes that touch are apart", RUST + "related.rs", "low.x <= other_high.x", "low.x < other_high.x", "related"),
    Plant("regions without area are covered", RUST + "related.rs", "Ok(holds && regions.interiors_meet(first, second)?)", "Ok(holds)", "related"),
    Plant("a refused clip is named as the subject", RUST + "related.rs", "Error::NotExact(_) => Error::NotExact(ShapeType::Clip)", "Error::NotExact(_) => Error::NotExact(ShapeType::Subject)", "related"),
    Plant("a region is compared with itself", RUST + "regions.rs", "&settings, [first, second], code as u8", "&settings, [first, first], code as u8", "related"),
    Plant("boxes that touch are apart in Python", RELATED, "bounds[2] >= west", "bounds[2] > west", "test_related"),
    Plant("floats are cut", RUST + "float.rs", "(point[axis] - center[axis]) * scale).round()", "(point[axis] - center[axis]) * scale).trunc()"),
    Plant("digits are bits", RUST + "float.rs", "f64::powi(10.0, digits.into())", "f64::powi(2.0, digits.into())", "floats"),
    Plant("coordinates of f32 are exchanged", RUST + "float_point.rs", "[x as f32, y as f32]", "[y as f32, x as f32]", "floats"),
    Plant("an arrangement of floats drops points", RUST + "float_arrangement.rs", "self.arrangement.contours(", "self.arrangement.contours_without_collinear(", "floats"),
    Plant("lines of floats have the next number", RUST + "float_lines.rs", "Ok((*line, self", "Ok((*line + 1, self", "floats"),
    Plant("parts are joined where the line left", RUST + "clip.rs", "open == Some(step.line)", "open.is_some() || index > 0", "clip_lines"),
    Plant("a part has the number of another line", RUST + "clip.rs", "number - sides, segment", "(number - sides) / 2, segment", "clip_lines"),
    Plant("an engine that was not made is freed", RUST + "ffi.rs", "is_full.then(|| Engine { handle, regions: 0 })", "is_full.then_some(Engine { handle, regions: 0 })", "memory"),
    Plant("only shapes along borders reach other tiles", RUST + "tiled.rs", "any(|point| seams.have(point))", "all(|point| seams.have(point))", "tiled"),
    Plant("a refused tile stops none", RUST + "tiled.rs", "self.stopped.store(true,", "self.stopped.store(false,", "memory"),
    Plant("a run of points is turned", RUST + "tiling.rs", "extend(buffer, [*first, *last])?", "extend(buffer, [*last, *first])?", "tiled"),
    Plant("tiles between lines leave the last out", RUST + "tiling.rs", "    push(&mut parts, rest)?;\n    Ok(parts)", "    Ok(parts)", "tiled"),
    Plant("the next chain counterclockwise leads on", RUST + "joining.rs", "rays[(index + rays.len() - 1) % rays.len()].3", "rays[(index + 1) % rays.len()].3", "tiled"),
    Plant("shapes of two tiles stay apart", RUST + "joining.rs", "self.classes.join(one, other),", "self.classes.join(one, one),", "tiled"),
    Plant("cycles are not cut", RUST + "joining.rs", "if comes_at[starts[chain]] > 0 {", "if comes_at[starts[chain]] > way.len() {", "tiled"),
    Plant("contours that meet are not cut", RUST + "joining.rs", "filter(|pair| pair[0] == pair[1])", "filter(|pair| pair[0] > pair[1])", "tiled"),
    Plant("sides are not cut at nodes", RUST + "joining.rs", "take_while(|&&node| node < (line, to))", "take_while(|&&node| node < (line, from))", "tiled"),
    Plant("the last shape is left out", RUST + "ffi.rs", "let len = self.sizes().shapes;", "let len = self.sizes().shapes.saturating_sub(1);"),
]


def copy_of(folder):
    """Copies what the layers are made of."""
    for part in ("c", "python", "rust"):
        shutil.copytree(ROOT / part, f"{folder}/{part}", symlinks=True, ignore=shutil.ignore_patterns("target", "out", "__pycache__", "footprints"))


def write(folder, plant):
    """Writes the body into the copy. Returns the text that was there."""
    path = pathlib.Path(folder, plant.file)
    text = path.read_text(encoding="utf-8")
    if text.count(plant.old) != 1:
        sys.exit(f"{plant.name}: the line is {text.count(plant.old)} times in {plant.file}")
    path.write_text(text.replace(plant.old, plant.new), encoding="utf-8")
    return text


def passes(*words, **named):
    """Whether a command ends with 0."""
    return subprocess.run(words, stdout=subprocess.DEVNULL, stderr=subprocess.DEVNULL, check=False, **named).returncode == 0


def build(*words, **named):
    """Runs a command that has to end with 0: a body that cannot be built is none."""
    done = subprocess.run(words, stdout=subprocess.PIPE, stderr=subprocess.STDOUT, text=True, check=False, **named)
    if done.returncode:
        sys.exit(f"{' '.join(words)}: {done.stdout}")


def passes_c(folder, archive, _):
    table = f"{folder}/table"
    build("cc", *FLAGS, "-o", table, f"{folder}/c/table.c", f"{folder}/c/fadrinzo.c", archive)
    return passes(table)


def passes_cxx(folder, archive, _):
    table, calls = f"{folder}/table_cpp", f"{folder}/fadrinzo.o"
    build("cc", *FLAGS, "-c", "-o", calls, f"{folder}/c/fadrinzo.c")
    build("c++", "-std=c++17", "-O1", "-o", table, f"{folder}/c/table.cpp", calls, archive)
    return passes(table)


def passes_python(folder, archive, plant):
    library = f"{folder}/libfadrinzo.so"
    if not os.path.exists(library):
        build("cc", *FLAGS, "-fPIC", "-shared", "-o", library, f"{folder}/c/fadrinzo.c", archive)
    environment = {**os.environ, "FADRINZO_SO": library, "PYTHONPATH": f"{folder}/python:{folder}/python/tests"}
    tests = plant.tests.split() or ["test_table.Table", "test_table.Refusals"]
    return passes(sys.executable, "-B", "-m", "unittest", "-f", *tests, env=environment)


def passes_rust(folder, archive, plant):
    # each copy has a target of its own name, so that cargo compiles the body and not what was there before
    environment = {**os.environ, "FADRINZO_LIB": str(archive), "CARGO_TARGET_DIR": f"{folder}/target"}
    words = ["cargo", "test", "--offline", "--quiet", "--test", plant.tests or "table"]
    build(*words, "--no-run", env=environment, cwd=f"{folder}/rust")
    return passes(*words, env=environment, cwd=f"{folder}/rust")


LAYERS = {"c": passes_c, "c++": passes_cxx, "python": passes_python, "rust": passes_rust}


def layer_of(plant):
    """The layer whose tests have to refuse a body."""
    return "c++" if plant.file == HEADER else plant.file.split("/")[0]


def try_layer(layer, plants, archive):
    """Tries the bodies of a layer in a copy, one after another. Returns those that pass."""
    with tempfile.TemporaryDirectory(prefix="plant-calls-") as folder:
        copy_of(folder)
        whole = Plant("nothing is wrong", "", "", "")
        if not LAYERS[layer](folder, archive, whole):
            sys.exit(f"the tests of {layer}/ fail without a wrong body")
        found = []
        for plant in plants:
            text = write(folder, plant)
            if LAYERS[layer](folder, archive, plant):
                found.append(plant)
            pathlib.Path(folder, plant.file).write_text(text, encoding="utf-8")
    return found


def main():
    parser = argparse.ArgumentParser(description=__doc__, formatter_class=argparse.RawDescriptionHelpFormatter)
    parser.add_argument("--archive", type=pathlib.Path, default=ARCHIVE)
    parser.add_argument("names", nargs="*")
    given = parser.parse_args()
    chosen = [it for it in PLANTS if not given.names or it.name in given.names]
    layers = {layer: [it for it in chosen if layer_of(it) == layer] for layer in LAYERS}
    for layer, tool in (("rust", "cargo"), ("c++", "c++")):
        if not shutil.which(tool) and layers.pop(layer):
            print(f"no wrong body for {layer} was tried: there is no {tool}")
    with concurrent.futures.ThreadPoolExecutor() as pool:
        jobs = [pool.submit(try_layer, layer, plants, given.archive.resolve()) for layer, plants in layers.items() if plants]
        passing = [it for job in jobs for it in job.result()]
    for plant in passing:
        print(f"{plant.file}: {plant.name}: the tests PASS")
    tried = sum(map(len, layers.values()))
    print(f"{tried - len(passing)} of {tried} wrong calls refused by their tests")
    return 1 if passing else 0


if __name__ == "__main__":
    sys.exit(main())
