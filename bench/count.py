"""Instructions of the works that bench times, as tables: a work done twice as often less the work once, so that the start of the
program cancels."""
import itertools
import subprocess

import counted

BENCH = "target/bench/bench"


def per_unit(table, work, side, times, units):
    once, twice = (counted.instructions([BENCH, "do", table, work, side, str(n)]) for n in (int(times), 2 * int(times)))
    return (twice - once) / (int(times) * int(units))


def part(ratio):
    return f"{ratio:.5f}" if ratio < 0.005 else f"{ratio:.2f}"


def row(name, sides):
    counts = [per_unit(*side[:5]) for side in sides]
    digits = 3 if counts[0] < 10 else 0
    return f"| {name} | {counts[0]:.{digits}f} | " + " | ".join(f"{c:.{digits}f} ({part(counts[0] / c)})" for c in counts[1:]) + " |"


def main():
    if not counted.there:
        print("No valgrind here: instructions are not counted.")
        return
    listed = [line.split("\t") for line in subprocess.run([BENCH, "list"], stdout=subprocess.PIPE, check=True).stdout.decode().splitlines()]
    for (name, unit), table in itertools.groupby(listed, key=lambda side: (side[5], side[6])):
        works = [(work, list(sides)) for work, sides in itertools.groupby(table, key=lambda side: side[7])]
        print(f"| {name}, instructions a {unit} | " + " | ".join(side[8] for side in works[0][1]) + " |")
        print("|---|" + "---|" * len(works[0][1]))
        for work, sides in works:
            print(row(work, sides), flush=True)
        print()


main()
