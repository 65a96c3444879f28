"""Puts the tables that bench/run prints (standard input) into a document, each in place of the one with the same first heading:
bench/run | python3 bench/fill.py docs/BENCHMARKS.md"""
import itertools
import sys

# What bench/run does not print: the figures beside an earlier archive, of bench/before.py.
KEPT = {"call"}


def parts(text):
    """The lines in runs that are tables and runs that are not."""
    return [list(lines) for _, lines in itertools.groupby(text.splitlines(), key=lambda line: line.startswith("|"))]


def heading(lines):
    return lines[0].split("|")[1].strip() if lines[0].startswith("|") else None


def main():
    path = sys.argv[1]
    with open(path, encoding="utf-8") as document:
        old = parts(document.read())
    new = {heading(lines): lines for lines in parts(sys.stdin.read()) if heading(lines)}
    places = {heading(lines) for lines in old} - {None}
    if places - KEPT != set(new):
        sys.exit(f"fill: in one and not in the other: {', '.join(sorted((places - KEPT) ^ set(new)))}")
    with open(path, "w", encoding="utf-8") as document:
        document.writelines(line + "\n" for lines in old for line in new.get(heading(lines), lines))


main()
