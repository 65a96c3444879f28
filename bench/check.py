"""The check program beside a plain one in C and one in Rust, and the panel's, which holds one line at a time, beside the check program.

check.py agree           compares their listings: on every stored job, on the arcs of arcs.py and on made-up jobs of the second
                         implementation; the panel's where the text is not too long, since of a longer one it lists more
check.py tables GOALS    compares, then times them on two jobs of 65,536 bytes and counts instructions where valgrind is there;
                         the goals' rows are added to a file
"""
import glob
import os
import resource
import statistics
import subprocess
import sys
import tempfile

import counted

LIMIT, PANEL_LIMIT = 1.0, 1.3
LONGEST_TEXT = 65_536
# A turn is a millisecond or two, and what an empty process takes is half of it: more of them than of the other tables' turns.
TURNS = 8
PROGRAMS = {"core": "target/bin/jobcheck", "plain C": "target/bench/check-c", "plain Rust": "target/bench/check-rust"}
PANEL = "target/bin/panelcheck"
SECOND = "target/second/release/second"
SEEDS, MADE_UP = (1, 2), 400
LINES, ARCS = "tests/jobs.d/65536-bytes.job", "target/bench/arcs.job"
TIMED = {"short lines": LINES, "arcs and lines": ARCS}


def listing(program, job):
    with open(job, "rb") as text:
        return subprocess.run([program], stdin=text, stdout=subprocess.PIPE, check=True).stdout


def stored(job):
    with open(job.removesuffix(".job") + ".listing", "rb") as told:
        return told.read()


def agree_on(job, wanted):
    panel = {"panel": PANEL} if os.path.getsize(job) <= LONGEST_TEXT else {}
    for name, program in (PROGRAMS | panel).items():
        if listing(program, job) != wanted:
            sys.exit(f"bench: the listing of {name} is another one: {job}")


def agree():
    for job in sorted(path for folder in ("examples", "examples/refused", "tests/jobs.d") for path in glob.glob(f"{folder}/*.job")):
        agree_on(job, stored(job))
    agree_on(ARCS, subprocess.run([SECOND, "check", ARCS], stdout=subprocess.PIPE, check=True).stdout)
    for seed in SEEDS:
        with tempfile.TemporaryDirectory() as folder:
            subprocess.run([SECOND, "gen", "jobs", str(seed), str(MADE_UP), folder], check=True)
            for job in sorted(glob.glob(f"{folder}/*")):
                agree_on(job, listing(PROGRAMS["core"], job))


def children():
    """Processor time of the programs that have ended."""
    used = resource.getrusage(resource.RUSAGE_CHILDREN)
    return used.ru_utime + used.ru_stime


def milliseconds(program, job):
    with open(job, "rb") as text:
        start = children()
        subprocess.run([program], stdin=text, stdout=subprocess.DEVNULL, check=True)
        return 1e3 * (children() - start)


def timed(job, rounds):
    """The medians in turns, each round beginning with another program, without that of an empty process, and that one."""
    programs = ["/bin/true", *PROGRAMS.values(), PANEL]
    times = {program: [] for program in programs}
    for start in range(rounds):
        for k in range(len(programs)):
            program = programs[(start + k) % len(programs)]
            times[program].append(milliseconds(program, job))
    empty, *rest = (statistics.median(times[program]) for program in programs)
    return [t - empty for t in rest], empty


def instructions(job):
    with open(job, "rb") as text:
        counts = []
        for program in [*PROGRAMS.values(), PANEL]:
            text.seek(0)
            counts.append(counted.instructions([program], text))
    return counts


def measured():
    """Of each job the times of all programs, the panel's last, that of an empty process, and the instructions where they are counted."""
    rounds = TURNS * int(os.environ.get("BENCH_ROUNDS", "51"))
    return {name: (*timed(job, rounds), instructions(job) if counted.there else None) for name, job in TIMED.items()}


def row(name, values, shown):
    first, *others = values
    return f"| {name} | {shown(first)} | " + " | ".join(f"{shown(v)} ({first / v:.2f})" for v in others)


def print_table(heading, sides, figures, limit):
    """The table of these sides, each a name and its place in the figures; answers the first one's part of the second on each job."""
    names, places = zip(*sides)
    print(f"| {heading} | " + " | ".join(names) + " | goal | met |\n|---|" + "---|" * (len(names) + 2))
    parts = {}
    for job, (times, empty, counts) in figures.items():
        own = [times[place] for place in places]
        parts[job] = own[0] / own[1]
        met = "yes" if parts[job] <= limit else "**no**"
        shown = row(f"{job}, ms without the {empty:.2f} of an empty process", own, "{:.2f}".format)
        print(f"{shown} | {names[1]} at most {limit:g} | {met} |")
        if counts:
            print(row(f"{job}, instructions", [counts[place] for place in places], "{:,}".format) + " | | |")
    print(flush=True)
    return parts


def write_goal(goal, limit, parts, path):
    told = " to ".join(f"{v:.2f}" for v in sorted({min(parts.values()), max(parts.values())}))
    missed = "; ".join(name for name, part in parts.items() if part > limit)
    with open(path, "a", encoding="utf-8") as goals:
        goals.write(f"| {goal} | {told} | {'**no**: ' + missed if missed else 'yes'} |\n")


def main():
    agree()
    if sys.argv[1] == "tables":
        figures, panel = measured(), len(PROGRAMS)
        parts = print_table("check of 65,536 bytes", [(name, place) for place, name in enumerate(PROGRAMS)], figures, LIMIT)
        write_goal(f"check at most {LIMIT:g} times plain C", LIMIT, parts, sys.argv[2])
        parts = print_table("panel check of 65,536 bytes", [("panel check", panel), ("check program", 0)], figures, PANEL_LIMIT)
        write_goal(f"panel check at most {PANEL_LIMIT:g} times the check program", PANEL_LIMIT, parts, sys.argv[2])


main()
