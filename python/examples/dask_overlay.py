#!/usr/bin/env python3
"""Overlays files of WKT by tiles, on the workers of a Dask cluster.

    python3 python/examples/dask_overlay.py union united.wkt buildings.wkt --tiles 64 --workers 4
    python3 python/examples/dask_overlay.py difference built.wkt buildings.wkt roads.wkt --scheduler tcp://head:8786

Each line of a file is a POLYGON or MULTIPOLYGON. Coordinates are multiplied by a power of ten (`--digits`) and rounded. The lines are read
once for their bounding boxes, of which tiles are made. A worker reads the lines whose boxes meet its tile, and overlays them there. What
touches no border is written as soon as its tile is done; the rest is joined. So a process holds the data of a tile, and of borders.
Workers need the files under the same names. The scheduler gives the tile of a worker that dies to another one.

The result is right at each point that is farther than a whole unit from every given edge that runs along no axis. Spark or Ray map the same
function, `overlay_lines`, over the same list of jobs.
"""
from __future__ import annotations

import argparse
import contextlib
import decimal
import typing

from dask.distributed import Client, LocalCluster, as_completed, progress
from fadrinzo import FILLS, RULES
from fadrinzo.tiles import divide_part, join_tiles, overlay_tile, tiles_around
from fadrinzo.wkt import polygons_of

Line = typing.NamedTuple("Line", [("path", str), ("offset", int), ("box", tuple)])
Job = typing.NamedTuple("Job", [("tile", tuple), ("subject", list), ("clip", list), ("rule", str), ("fill", str), ("digits", int)])


def rings_of(text, path, offset, digits):
    """The rings of a line in whole numbers, outer boundaries counterclockwise and holes clockwise."""
    for polygon in polygons_of([text.decode()], f"{path}, from byte {offset} on, line"):
        for index, ring in enumerate(polygon):
            points = [tuple(int(it.scaleb(digits).to_integral_value()) for it in point) for point in ring]
            area = sum(a[0] * b[1] - a[1] * b[0] for a, b in zip(points, points[1:] + points[:1]))
            yield points[::-1] if (area < 0) == (index == 0) else points


def lines_of(path, digits):
    """Where each line of a file begins that has points, and the bounding box of these."""
    offset = 0
    with open(path, "rb") as file:
        for text in file:
            points = [point for ring in rings_of(text, path, offset, digits) for point in ring]
            if points:
                xs, ys = zip(*points)
                yield Line(path, offset, (min(xs), min(ys), max(xs), max(ys)))
            offset += len(text)


def meeting(lines, tile):
    """Of some lines those whose boxes meet a tile: the files and where the lines begin."""
    return [(it.path, it.offset) for it in lines
            if it.box[0] < tile[2] and tile[0] < it.box[2] and it.box[1] < tile[3] and tile[1] < it.box[3]]


def jobs_of(subject, clip, rule, fill, digits, tiles):
    """A job for each tile of about so many, which make up the boxes of all lines."""
    corners = [[it.box[:2], it.box[2:]] for it in subject + clip]
    return [Job(tile, meeting(subject, tile), meeting(clip, tile), rule, fill, digits) for tile in tiles_around(corners, tiles)]


def read_lines(places, digits):
    """The rings of the lines that begin at some places of files."""
    with contextlib.ExitStack() as stack:
        files = {path: stack.enter_context(open(path, "rb")) for path in {path for path, _ in places}}
        for path, offset in places:
            files[path].seek(offset)
            yield from rings_of(files[path].readline(), path, offset, digits)


def overlay_lines(job):
    """The part of a job's tile in two lists: the shapes that are whole, and those that others continue. What a worker runs."""
    subject, clip = (list(read_lines(places, job.digits)) for places in (job.subject, job.clip))
    return divide_part(overlay_tile(subject, clip, job.rule, job.tile, job.fill), job.tile)


def write_shapes(out, shapes, digits):
    """Writes shapes, each as a line of WKT."""
    for boundary, holes in shapes:
        rings = (", ".join(f"{decimal.Decimal(x).scaleb(-digits):f} {decimal.Decimal(y).scaleb(-digits):f}" for x, y in [*ring, ring[0]])
                 for ring in [boundary, *holes])
        out.write(f"POLYGON ({', '.join(f'({ring})' for ring in rings)})\n")


def overlay_files(client, jobs, out, digits, run=overlay_lines, shows=False):
    """Has a cluster make the jobs, and writes the shapes of the overlay."""
    futures = client.map(run, jobs, pure=False)
    if shows:
        progress(futures, notebook=False)
    reaching = []
    for _, (whole, others) in as_completed(futures, with_results=True):
        write_shapes(out, whole, digits)
        reaching.append(others)
    write_shapes(out, join_tiles(reaching), digits)


def main(words=None):
    parser = argparse.ArgumentParser(description=__doc__, formatter_class=argparse.RawDescriptionHelpFormatter)
    parser.add_argument("rule", choices=list(RULES))
    parser.add_argument("out", help="the file of the result")
    parser.add_argument("subject", help="a file of WKT")
    parser.add_argument("clip", nargs="?", help="another (none)")
    parser.add_argument("--fill", choices=list(FILLS), default="nonzero")
    parser.add_argument("--digits", type=int, default=0, help="by which power of ten coordinates are multiplied (0)")
    parser.add_argument("--tiles", type=int, default=16, help="about how many (16)")
    parser.add_argument("--workers", type=int, default=None, help="processes on this machine (as many as processors)")
    parser.add_argument("--scheduler", help="the address of a cluster, in place of processes on this machine")
    given = parser.parse_args(words)
    subject, clip = (list(lines_of(path, given.digits)) if path else [] for path in (given.subject, given.clip))
    jobs = jobs_of(subject, clip, given.rule, given.fill, given.digits, given.tiles)
    started = None if given.scheduler else LocalCluster(n_workers=given.workers, threads_per_worker=1, dashboard_address=None)
    with Client(given.scheduler or started) as client, open(given.out, "w", encoding="utf-8") as out:
        overlay_files(client, jobs, out, given.digits, shows=True)
    if started:
        started.close()


if __name__ == "__main__":
    main()
