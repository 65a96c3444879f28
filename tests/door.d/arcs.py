"""Jobs of arcs, and whether a picture has them exactly: arcs.py make KIND >JOB; arcs.py check JOB SVG.

KIND: short, a few pulses long; long, of any length; half, within a few pulses of half a turn; whole, of a whole turn and little less. The
check reads the job again and computes from each path's numbers, as SVG defines them, which circle it is of and how far it goes round.
"""
import math
import random
import re
import sys
import xml.etree.ElementTree as tree

SVG = "{http://www.w3.org/2000/svg}"
ARCS = 200
PULSE = 0.02


def circle_point(n, x, y):
    """A circle point of n in this direction or next to it: nearest along the longer coordinate."""
    b = round(min(abs(x), abs(y)) * math.sqrt(n) / math.hypot(x, y))
    a = round(math.sqrt(n - b * b))
    if a < b:
        a, b = round(math.sqrt(n - a * a)), a
    a, b = (a, b) if abs(x) >= abs(y) else (b, a)
    return int(math.copysign(a, x)), int(math.copysign(b, y))


def swept(kind, radius, chance):
    """How far round the arc is to go, in radians."""
    few = chance.uniform(2, 9) / radius
    return {
        "short": few,
        "long": chance.uniform(0.1, 6.2),
        "half": math.pi + few * chance.choice((-1, 1)),
        "whole": 2 * math.pi - few * chance.choice((0, 1)),
    }[kind]


def make(kind):
    chance, at, lines = random.Random(kind), (0, 0), []
    while len(lines) < ARCS:
        radius = chance.choice((5, 20, 100, 1_000, 20_000) if kind == "short" else (20, 100, 1_000, 4_000))
        i, j = chance.randint(-radius, radius), chance.randint(-radius, radius)
        if i * i + j * j < 16:
            continue
        turn, angle = chance.choice((2, 3)), math.atan2(-j, -i)
        goes = swept(kind, math.hypot(i, j), chance)
        angle += goes if turn == 3 else -goes
        x, y = circle_point(i * i + j * j, math.cos(angle), math.sin(angle))
        end = (at[0] + i + x, at[1] + j + y) if goes < 2 * math.pi else at
        if max(abs(end[0]), abs(end[1])) > 400_000 or end == at and kind != "whole":
            continue
        words = [f"{letter}{pulses / 50:.2f}" for letter, pulses in zip("XYIJ", (*end, i, j))]
        lines.append(f"G{turn} {' '.join(words)}" + (" F6000" if not lines else ""))
        at = end
    print("\n".join(lines))


def centre(p, q, r, large, sweep):
    """SVG 1.1, F.6.5: the centre of the circle of an arc from p to q; and how far it goes, counterclockwise positive."""
    (x, y), (u, v) = p, q
    half = math.dist(p, q) / 2
    r = max(r, half)
    off = math.sqrt(r * r - half * half) * (1 if large != sweep else -1) / (2 * half)
    cx, cy = (x + u) / 2 + off * (y - v), (y + v) / 2 - off * (x - u)
    # Y goes down: what SVG calls positive is clockwise to the eye.
    angle = math.atan2(y - cy, x - cx) - math.atan2(v - cy, u - cx)
    angle %= 2 * math.pi
    return (cx, cy), angle if not sweep else angle - 2 * math.pi


def told(path):
    """The start of a path, and the pieces of its arc: radius, large, sweep, end."""
    words = path.split()
    assert words[0] == "M" and all(words[i] == "A" for i in range(3, len(words), 8)) and (len(words) - 3) % 8 == 0, path
    numbers = [words[i + 1 : i + 8] for i in range(3, len(words), 8)]
    pieces = [(float(r), int(large), int(sweep), (float(x), float(y))) for r, _, _, large, sweep, x, y in numbers]
    assert all(r == other and turned == "0" for r, other, turned, *_ in numbers), path
    return (float(words[1]), float(words[2])), pieces


def check_one(path, start, end, middle, turn):
    """Positions are in millimetres, Y up."""
    down = lambda p: (p[0], -p[1])
    at, pieces = told(path)
    assert 1 <= len(pieces) <= 2 and math.dist(at, down(start)) < 1e-9, path
    goes = 0
    for radius, large, sweep, to in pieces:
        assert abs(radius - math.dist(start, middle)) < 1e-8 and sweep == (turn == 2), (path, math.dist(start, middle))
        found, angle = centre(at, to, radius, large, sweep)
        assert math.dist(found, down(middle)) < 0.1 * PULSE and abs(angle) < math.pi + 1e-3, (path, found, middle)
        goes, at = goes + angle, to
    assert math.dist(at, down(end)) < 0.5 * PULSE, (path, end)
    angle = math.atan2(end[1] - middle[1], end[0] - middle[0]) - math.atan2(start[1] - middle[1], start[0] - middle[0])
    expected = angle % (2 * math.pi) if turn == 3 else -(-angle % (2 * math.pi))
    if start == end:
        expected = 2 * math.pi if turn == 3 else -2 * math.pi
    assert abs(goes - expected) < 1e-3, (path, goes, expected)


def check(job, picture):
    root = tree.parse(picture).getroot()
    paths = [p.get("d") for p in root.iter(SVG + "path") if p.find(SVG + "title") is not None]
    lines = open(job, encoding="ascii").read().split("\n")[:-1]
    assert len(paths) == len(lines) == ARCS, len(paths)
    at = (0.0, 0.0)
    for path, line in zip(paths, lines):
        turn, *numbers = re.match(r"G([23]) X(\S+) Y(\S+) I(\S+) J(\S+)", line).groups()
        x, y, i, j = map(float, numbers)
        check_one(path, at, (x, y), (at[0] + i, at[1] + j), int(turn))
        at = (x, y)


if sys.argv[1] == "make":
    make(sys.argv[2])
else:
    check(sys.argv[2], sys.argv[3])
