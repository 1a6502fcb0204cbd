"""What `tools/program_tests.py` claims of graphs and walks of `arrange` without their texts.

The links of a graph are those that its rule keeps, and enclose the region of the rule, at places of a lattice: a count of crossings
compares them with the contours that were given. Walks go through all links. Coordinates of places are doubled, so that they lie between
whole points.
"""

import re

# A square of the subject, and one of the clip that covers its upper right corner.
TWO_SQUARES = "S 0 0 4 0\nS 4 0 4 4\nS 4 4 0 4\nS 0 4 0 0\nC 2 2 6 2\nC 6 2 6 6\nC 6 6 2 6\nC 2 6 2 2\n"

# The links of the graph of all segments, but for the numbers of their nodes.
LINKS = [
    "link 0 0 0 4 2 ",
    "link 0 0 4 0 1 ",
    "link 0 4 2 4 2 ",
    "link 2 2 2 4 11 ",
    "link 2 2 4 2 7 ",
    "link 2 4 2 6 8 ",
    "link 2 4 4 4 14 ",
    "link 2 6 6 6 8 ",
    "link 4 0 4 2 1 ",
    "link 4 2 4 4 13 ",
    "link 4 2 6 2 4 ",
    "link 6 2 6 6 4 ",
]

# The nodes of that graph, and whether it is valid.
NODES = """node 0 0 bridge 0 1
node 0 4 bridge 2 0
node 2 2 bridge 3 4
node 2 4 cross 5 6 2 3
node 2 6 bridge 7 5
node 4 0 bridge 8 1
node 4 2 cross 9 10 4 8
node 4 4 bridge 6 9
node 6 2 bridge 11 10
node 6 6 bridge 7 11
valid true
"""

# Which of these links each rule keeps.
KEPT = {
    "subject": [0, 1, 2, 6, 8, 9],
    "clip": [3, 4, 5, 7, 10, 11],
    "intersect": [3, 4, 6, 9],
    "union": [0, 1, 2, 5, 7, 8, 10, 11],
    "difference": [0, 1, 2, 3, 4, 8],
    "inverse-difference": [5, 6, 7, 9, 10, 11],
    "xor": [0, 1, 2, 3, 4, 5, 6, 7, 8, 9, 10, 11],
    "all": [0, 1, 2, 3, 4, 5, 6, 7, 8, 9, 10, 11],
}

# Two triangles, a star and a bow tie, whose crossings are not at whole points.
INPUTS = [
    "S 0 0 31 7\nS 31 7 5 29\nS 5 29 0 0\nC 30 0 33 31\nC 33 31 2 13\nC 2 13 30 0\n",
    "S 0 11 40 14\nS 40 14 7 37\nS 7 37 21 0\nS 21 0 33 38\nS 33 38 0 11\nC 5 5 36 9\nC 36 9 30 33\nC 30 33 5 5\n",
    "S 0 0 37 23\nS 37 23 37 2\nS 37 2 0 25\nS 0 25 0 0\nC 11 0 29 1\nC 29 1 26 27\nC 26 27 13 24\nC 13 24 11 0\n",
]

# How far, in halves, passes of the default precision move things at most: those before the last one move them.
REACHES = {"passes 1": 0, "passes 2": 4, "passes 3": 8, "passes 4": 14, "passes 5": 20}

# What each rule wants of a place inside the subject or not, and inside the clip or not.
RULES = {
    "subject": lambda subject, clip: subject,
    "clip": lambda subject, clip: clip,
    "intersect": lambda subject, clip: subject and clip,
    "union": lambda subject, clip: subject or clip,
    "difference": lambda subject, clip: subject and not clip,
    "inverse-difference": lambda subject, clip: clip and not subject,
    "xor": lambda subject, clip: subject != clip,
}

# Four triangles that touch in one point.
FOUR_TRIANGLES = (
    "S 0 0 4 -1\nS 4 -1 4 1\nS 4 1 0 0\nS 0 0 1 4\nS 1 4 -1 4\nS -1 4 0 0\n"
    "S 0 0 -4 1\nS -4 1 -4 -1\nS -4 -1 0 0\nS 0 0 -1 -4\nS -1 -4 1 -4\nS 1 -4 0 0\n"
)

# The lines, the rule, and a node of the graph: of the two squares one where four links meet, and one of eight.
MANY_LINKS_AT_A_NODE = [
    (TWO_SQUARES, "xor", "node 2 4 cross 5 6 2 3\n"),
    (FOUR_TRIANGLES, "subject", "node 0 0 cross 7 8 9 10 1 2 3 5\n"),
]

# A point with doubled coordinates, and a way from one to another.
Place = tuple[int, int]
Way = tuple[Place, Place]


def kept_links(programs) -> None:
    """Wants of each rule the links that it keeps, in order, and then a node."""
    for rule, kept in KEPT.items():
        text, run = programs.written(f"graph rule={rule}", TWO_SQUARES)
        lines = text.split("\n")
        wanted = [*[LINKS[it] for it in kept], "node "]
        are_kept = len(lines) >= len(wanted) and all(line.startswith(it) for line, it in zip(lines, wanted))
        programs.want(are_kept, run, f"wrote  {text!r}\n    wanted lines that begin with {wanted}")
        programs.want(rule != "all" or text.endswith(NODES), run, f"wrote  {text!r}\n    wanted at the end {NODES!r}")


def ways_of(text: str, first: str) -> list[Way]:
    """The four numbers of each line that begins with this letter or word, doubled."""
    found = re.findall(rf"^{first} (-?\d+) (-?\d+) (-?\d+) (-?\d+)(?= |$)", text, re.M)
    return [((2 * int(a), 2 * int(b)), (2 * int(c), 2 * int(d))) for a, b, c, d in found]


def turn(way: Way, place: Place) -> int:
    """Above 0 where the place lies to the left of the way."""
    (ax, ay), (bx, by) = way
    return (bx - ax) * (place[1] - ay) - (by - ay) * (place[0] - ax)


def passes_below(way: Way, place: Place) -> int:
    """1 where the way runs to the right below the place, -1 where it runs to the left below it, and else 0."""
    (ax, _), (bx, _) = way
    left = turn(way, place)
    return (ax < place[0] < bx and left > 0) - (bx < place[0] < ax and left < 0)


def is_far(way: Way, place: Place, reach: int) -> bool:
    """Whether the way keeps out of the square around the place."""
    (ax, ay), (bx, by) = way
    left, right, low, high = place[0] - reach, place[0] + reach, place[1] - reach, place[1] + reach
    is_beside = max(ax, bx) < left or right < min(ax, bx)
    is_above = max(ay, by) < low or high < min(ay, by)
    corners = [turn(way, (x, y)) for x in (left, right) for y in (low, high)]
    return is_beside or is_above or min(corners) > 0 or max(corners) < 0


def far_places(ways: list[Way], reach: int) -> list[Place]:
    """The places of a lattice that are far from all ways."""
    lattice = range(-5, -5 + 15 * 6, 6)
    return [(x, y) for x in lattice for y in lattice if all(is_far(it, (x, y), reach) for it in ways)]


def regions(programs) -> None:
    """Wants that the links of a rule enclose a place that is far from all that is given where the rule wants it."""
    for lines in INPUTS:
        split, run = programs.written("split", lines)
        subject, clip = ways_of(lines, "S"), ways_of(lines, "C")
        reach = REACHES.get(split.rstrip("\n").rpartition("\n")[2], 0)
        programs.want(reach > 0, run, f"wrote  {split!r}\n    wanted 2 to 5 passes")
        far = far_places([*subject, *clip], reach)
        programs.want(len(far) > 60, run, f"only {len(far)} places are far")
        for rule, is_wanted in RULES.items():
            text, run = programs.written(f"graph rule={rule}", lines)
            links = ways_of(text, "link")
            wrong = []
            for place in far:
                sides = [sum(passes_below(it, place) for it in ways) != 0 for ways in (subject, clip)]
                is_enclosed = sum(passes_below(it, place) != 0 for it in links) % 2 == 1
                wrong += [place] * (is_enclosed != is_wanted(*sides))
            programs.want(not wrong, run, f"wrote  {text!r}\n    wanted the other side at {wrong}, in halves")


def next_number(state: int) -> int:
    """The next number of a row that looks like chance."""
    return (state * 6364136223846793005 + 1442695040888963407) % 2**64


def point_of(state: int) -> Place:
    """A point with coordinates from 0 to 99."""
    return (state >> 33) % 100, (next_number(state) >> 33) % 100


def contour(shape: str, state: int) -> tuple[str, int]:
    """The sides of a closed contour with seven corners, and where the row of numbers is then."""
    state = next_number(state)
    corners = [point_of(state)]
    for _ in range(7):
        state = next_number(next_number(state))
        corners.append(point_of(state))
    corners[7] = corners[0]
    sides = [(a, b) for a, b in zip(corners, corners[1:]) if a != b]
    return "".join(f"{shape} {a[0]} {a[1]} {b[0]} {b[1]}\n" for a, b in sides), state


def fault_of_walks(text: str, links: list[Way]) -> str:
    """What is wrong of walks: each link has to share an end with the next, the last one with the first, and be in one walk, once."""
    walks = [line.split(" ") for line in text.split("\n")[:-1]]
    if not all(len(it) > 1 and it[0] == "walk" and all(word.isdecimal() for word in it[1:]) for it in walks):
        return "a line is no walk"
    numbers = [[int(word) for word in it[1:]] for it in walks]
    if sorted(number for walk in numbers for number in walk) != list(range(len(links))):
        return "a link is left out, is there twice, or is none"
    for walk in numbers:
        if not all(set(links[a]) & set(links[b]) for a, b in zip([walk[-1], *walk], walk)):
            return f"links of the walk {walk} share no end"
    return ""


def compare_walks(programs, rule: str, lines: str, node: str = "", count: int | None = None) -> None:
    """Wants walks through all links of a graph, which has this node and, where that is known, this number of links."""
    graph, run = programs.written(f"graph rule={rule}", lines)
    links = ways_of(graph, "link")
    programs.want(node in graph and count in (None, len(links)), run, f"wrote  {graph!r}\n    wanted {node!r} and {count} links")
    walks, run = programs.written(f"walks rule={rule}", lines)
    fault = fault_of_walks(walks, links)
    programs.want(not fault, run, f"wrote  {walks!r}\n    of {graph!r}\n    {fault}")


def walks_by_chance(programs) -> None:
    """Compares walks of contours by chance with their links."""
    state = 2026
    for _ in range(6):
        subject, state = contour("S", state)
        clip, state = contour("C", state)
        for rule in RULES:
            compare_walks(programs, rule, subject + clip)


def walks_through_nodes(programs) -> None:
    """Compares walks through nodes at which many links meet."""
    for lines, rule, node in MANY_LINKS_AT_A_NODE:
        compare_walks(programs, rule, lines, node, 12)
