"""A run of python/examples/dask_overlay.py on a local cluster, beside the same in one process, where Dask is installed."""
import importlib.util
import io
import os
import pathlib
import random
import signal
import subprocess
import sys
import tempfile
import unittest

import fadrinzo
from fadrinzo import tiles, wkt

EXAMPLE = pathlib.Path(__file__).resolve().parents[1] / "examples" / "dask_overlay.py"
HAS_DASK = importlib.util.find_spec("distributed") is not None


def example():
    """The example as a module, which workers find too."""
    if str(EXAMPLE.parent) not in sys.path:
        sys.path.append(str(EXAMPLE.parent))
    return importlib.import_module(EXAMPLE.stem)


def polygons(seed, count, step):
    """Lines of polygons with five points, on a grid of so many units."""
    numbers = random.Random(seed)
    for _ in range(count):
        x, y = (numbers.randrange(0, 2_000) for _ in "xy")
        points = [(x + step * numbers.randrange(20), y + step * numbers.randrange(20)) for _ in range(5)]
        yield "POLYGON ((" + ", ".join(f"{x} {y}" for x, y in points) + "))\n"


def rectangles(seed, count):
    """Lines of rectangles: no overlay of these rounds anything."""
    numbers = random.Random(seed)
    for _ in range(count):
        (x, y), (width, height) = ((numbers.randrange(0, 2_000) for _ in "xy"), (numbers.randrange(1, 90) for _ in "xy"))
        yield f"POLYGON (({x} {y}, {x + width} {y}, {x + width} {y + height}, {x} {y + height}))\n"


def doubled_area(polygons):
    """Twice the area of polygons whose outer boundaries run counterclockwise and whose holes run clockwise."""
    return sum(a[0] * b[1] - a[1] * b[0] for rings in polygons for ring in rings for a, b in zip(ring, ring[1:] + ring[:1]))


@unittest.skipUnless(HAS_DASK, "dask.distributed is not installed")
class Dask(unittest.TestCase):
    def setUp(self):
        folder = tempfile.TemporaryDirectory()
        self.addCleanup(folder.cleanup)
        self.room = pathlib.Path(folder.name)

    def write(self, name, lines):
        path = self.room / name
        path.write_text("".join(lines))
        return str(path)

    def run_example(self, *words):
        subprocess.run([sys.executable, "-B", EXAMPLE, *words], check=True, capture_output=True, timeout=300)
        return (self.room / "out.wkt").read_text().splitlines()

    def test_is_the_run_in_one_process(self):
        subject, clip = self.write("subject.wkt", polygons(1, 300, 9)), self.write("clip.wkt", polygons(2, 300, 9))
        found = self.run_example("difference", self.room / "out.wkt", subject, clip, "--tiles", "12", "--workers", "2")
        made = example()
        sides = [list(made.lines_of(path, 0)) for path in (subject, clip)]
        jobs = made.jobs_of(*sides, "difference", "nonzero", 0, 12)
        self.assertEqual(len(jobs), 12)
        divided = [made.overlay_lines(job) for job in jobs]
        wanted = io.StringIO()
        made.write_shapes(wanted, [shape for whole, _ in divided for shape in whole] + tiles.join_tiles(it for _, it in divided), 0)
        self.assertEqual(sorted(found), sorted(wanted.getvalue().splitlines()))

    def test_has_the_area_of_the_overlay_without_tiles(self):
        lines = list(rectangles(3, 400))
        found = self.run_example("union", self.room / "out.wkt", self.write("subject.wkt", lines), "--tiles", "9", "--workers", "2", "--digits", "1")
        found = wkt.polygons_of(found)
        rings = [ring for polygon in wkt.polygons_of(lines) for ring in polygon]
        wanted = fadrinzo.overlay([[tuple(int(it) for it in point) for point in ring] for ring in rings], [], "union")
        self.assertEqual(doubled_area(found), doubled_area([boundary, *holes] for boundary, holes in wanted))

    def test_a_killed_worker_loses_nothing(self):
        made, lines = example(), [*rectangles(4, 300)]
        jobs = made.jobs_of(list(made.lines_of(self.write("subject.wkt", lines), 0)), [], "union", "nonzero", 0, 8)
        told = self.room / "told"
        told.write_text("")

        def overlay_or_die(job, overlay=made.overlay_lines, told=str(told)):
            """The worker that comes first to remove the file dies amid its tile."""
            try:
                os.unlink(told)
            except FileNotFoundError:
                return overlay(job)
            os.kill(os.getpid(), signal.SIGKILL)

        out = io.StringIO()
        with made.LocalCluster(n_workers=2, threads_per_worker=1, dashboard_address=None, silence_logs=50) as cluster, made.Client(cluster) as client:
            made.overlay_files(client, jobs, out, 0, overlay_or_die)
        self.assertFalse(told.exists())
        found = wkt.polygons_of(out.getvalue().splitlines())
        rings = [[tuple(int(it) for it in point) for point in ring] for polygon in wkt.polygons_of(lines) for ring in polygon]
        wanted = fadrinzo.overlay(rings, [], "union")
        self.assertEqual(doubled_area(found), doubled_area([boundary, *holes] for boundary, holes in wanted))


if __name__ == "__main__":
    unittest.main()
