#!/usr/bin/env python3
"""Turns the lines that `arrange split`, `arrange graph` or `polygons` prints into a picture.

Usage: arrange graph rule=xor < INPUT | python3 tools/picture.py > PICTURE.svg
       polygons rule=xor < INPUT | python3 tools/picture.py > PICTURE.svg

Contours are filled where they wind around a point, whichever way. Links are drawn by their fill: blue where they bound the subject alone, red the clip alone, purple both; dashed where one of
the two has the same on both sides. Segments of a split are drawn by their counts in the same colors. Nodes are white dots
where two links meet, and black squares elsewhere. It needs Python's standard library alone.
"""
import sys

SIZE = 640
MARGIN = 24
BLUE, RED, PURPLE, GRAY = "#2563eb", "#dc2626", "#7e22ce", "#6b7280"
LIGHT = "#bfdbfe"


def color(subject, clip):
    """The color of what bounds the subject, the clip, both or none of them."""
    return {(True, False): BLUE, (False, True): RED, (True, True): PURPLE}.get((subject, clip), GRAY)


def read_link(words):
    ends = tuple(int(word) for word in words[:4])
    fill = int(words[4])
    subject, clip = fill & 3, fill >> 2 & 3
    dashed = subject == 3 or clip == 3
    return ends, color(subject in (1, 2), clip in (1, 2)), dashed


def read_segment(words):
    ends = tuple(int(word) for word in words[:4])
    subject, clip = (int(word) != 0 for word in words[4:6])
    return ends, color(subject, clip), False


def read_contour(words):
    numbers = [int(word) for word in words]
    return list(zip(numbers[0::2], numbers[1::2]))


def read(lines):
    """The segments as (ends, color, whether dashed), the nodes as (x, y, whether a bridge), and the contours as lists of (x, y)."""
    segments, nodes, contours = [], [], []
    for line in lines:
        kind, *words = line.split() or [""]
        if kind == "link":
            segments.append(read_link(words))
        elif kind == "seg":
            segments.append(read_segment(words))
        elif kind == "node":
            nodes.append((int(words[0]), int(words[1]), words[2] == "bridge"))
        elif kind == "contour":
            contours.append(read_contour(words))
    return segments, nodes, contours


def frame(segments, contours):
    """A function from whole points to places in the picture, y upward."""
    points = [point for ends, _, _ in segments for point in (ends[:2], ends[2:])]
    points += [point for contour in contours for point in contour]
    xs, ys = zip(*points or [(0, 0)])
    scale = (SIZE - 2 * MARGIN) / max(max(xs) - min(xs), max(ys) - min(ys), 1)
    height = (max(ys) - min(ys)) * scale + 2 * MARGIN
    return lambda x, y: (MARGIN + (x - min(xs)) * scale, height - MARGIN - (y - min(ys)) * scale), height


def draw(segments, nodes, contours):
    place, height = frame(segments, contours)
    yield f'<svg xmlns="http://www.w3.org/2000/svg" viewBox="0 0 {SIZE} {height:.0f}" width="{SIZE}" height="{height:.0f}">'
    yield '<rect width="100%" height="100%" fill="white"/>'
    if contours:
        steps = (" L".join("{:.1f} {:.1f}".format(*place(x, y)) for x, y in contour) for contour in contours if contour)
        path = " ".join(f"M{step} Z" for step in steps)
        yield f'<path d="{path}" fill="{LIGHT}" stroke="{BLUE}" stroke-width="2" stroke-linejoin="round"/>'
    for ends, stroke, dashed in segments:
        (ax, ay), (bx, by) = place(*ends[:2]), place(*ends[2:])
        dashes = ' stroke-dasharray="5 4"' if dashed else ""
        yield (f'<line x1="{ax:.1f}" y1="{ay:.1f}" x2="{bx:.1f}" y2="{by:.1f}" stroke="{stroke}" stroke-width="2" '
               f'stroke-linecap="round"{dashes}/>')
    for x, y, bridge in nodes:
        px, py = place(x, y)
        if bridge:
            yield f'<circle cx="{px:.1f}" cy="{py:.1f}" r="3" fill="white" stroke="#111827" stroke-width="1.2"/>'
        else:
            yield f'<rect x="{px - 3.5:.1f}" y="{py - 3.5:.1f}" width="7" height="7" fill="#111827"/>'
    yield "</svg>"


def main():
    print("\n".join(draw(*read(sys.stdin))))


if __name__ == "__main__":
    main()
