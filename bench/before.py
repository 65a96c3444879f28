"""The core beside an earlier archive of it: python3 bench/before.py EARLIER.a prints a table, for each call the ns of the core and of the
earlier one, which are medians, and the least and the greatest of six medians of 101 ratios, each from a process of its own. The earlier
archive is a copy of target/libverdaizka.a, or is made by tools/archive in a tree of then."""
import pathlib
import statistics
import subprocess
import sys

FOLDER = pathlib.Path("target/bench")
PROCESSES, ROUNDS = 6, 101


def said(*words):
    return subprocess.run(words, stdout=subprocess.PIPE, check=True).stdout.decode()


def build(earlier):
    subprocess.run(["tools/archive"], stdout=sys.stderr, check=True)
    FOLDER.mkdir(parents=True, exist_ok=True)
    names = sorted({line.split()[-1] for line in said("nm", "-g", "--defined-only", earlier).splitlines() if " T vz_" in line})
    (FOLDER / "before.names").write_text("".join(f"{name} before_{name}\n" for name in names))
    said("objcopy", f"--redefine-syms={FOLDER}/before.names", earlier, f"{FOLDER}/libbefore.a")
    # In the other order the same instructions of a tick can take a third longer, by their place alone.
    said("gcc", "-std=c11", "-Wall", "-Wextra", "-O3", "-Iinclude", "bench/before.c", "target/libverdaizka.a", f"{FOLDER}/libbefore.a",
         "-o", f"{FOLDER}/before")


def main():
    if len(sys.argv) != 2:
        sys.exit("python3 bench/before.py EARLIER.a")
    build(sys.argv[1])
    told = {}
    for _ in range(PROCESSES):
        for line in said(str(FOLDER / "before"), str(ROUNDS)).splitlines():
            name, *figures = line.split("\t")
            told.setdefault(name, []).append([float(figure) for figure in figures])
    print("| call | core, ns | before, ns | times before |")
    print("|---|---|---|---|")
    for name, figures in told.items():
        core, before, ratios = zip(*figures)
        print(f"| {name} | {statistics.median(core):.1f} | {statistics.median(before):.1f} | {min(ratios):.2f} to {max(ratios):.2f} |")


main()
