"""Writes a job of 65,536 bytes, arcs and straight lines in turn, all of them accepted: the same bytes at every call."""
import itertools
import math
import sys

SIZE = 65536


def draws():
    """A fixed row of numbers (splitmix64)."""
    state = 0
    while True:
        state = (state + 0x9E3779B97F4A7C15) % 2**64
        z = (state ^ state >> 30) * 0xBF58476D1CE4E5B9 % 2**64
        z = (z ^ z >> 27) * 0x94D049BB133111EB % 2**64
        yield z ^ z >> 31


DRAWS = draws()


def between(low, high):
    return low + next(DRAWS) % (high - low + 1)


def millimetres(pulses):
    """At 50 pulses per millimetre, with no more digits than are needed."""
    whole, part = divmod(abs(pulses), 50)
    digits = f"{whole}.{2 * part:02}".rstrip("0").rstrip(".")
    return "-" + digits if pulses < 0 else digits


def nearest_root(n):
    q = math.isqrt(n)
    return q + (n > q * q + q)


def circle_point(square):
    """One of the circle points, anywhere on the circle: the shorter coordinate is drawn, the longer one is nearest to the circle."""
    shorter = between(0, nearest_root(2 * square) // 2)
    longer = nearest_root(square - shorter * shorter)
    x, y = (longer, shorter) if between(0, 1) else (shorter, longer)
    return (x, -x)[between(0, 1)], (y, -y)[between(0, 1)]


def arc(at, reach):
    """From here about a centre so near: the line, and its end."""
    i, j = 0, 0
    while i == 0 and j == 0:
        i, j = between(-reach, reach), between(-reach, reach)
    x, y = at if between(0, 7) == 0 else (a + c + e for a, c, e in zip(at, (i, j), circle_point(i * i + j * j)))
    words = f"G{between(2, 3)} X{millimetres(x)} Y{millimetres(y)} I{millimetres(i)} J{millimetres(j)}"
    return words, (x, y)


def line(reach):
    x, y = between(-reach, reach), between(-reach, reach)
    return f"G1 X{millimetres(x)} Y{millimetres(y)}", (x, y)


def lines():
    """Radii of a pulse to some 140 mm, half of them below 1.4 mm."""
    at = 0, 0
    yield "G1 F3000"
    for n in itertools.count():
        words, at = arc(at, 50 if between(0, 1) else 5000) if n % 2 else line(20000)
        yield words + f" F{between(100, 6000)}" if n % 16 == 0 else words


def main():
    text = ""
    for words in lines():
        if len(text) + len(words) + 1 > SIZE:
            break
        text += words + "\n"
    sys.stdout.write(text[:-1].ljust(SIZE - 1) + "\n")


main()
