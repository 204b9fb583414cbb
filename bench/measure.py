#!/usr/bin/env python3
"""Runs both programs on every case, in turn, and prints the table. Called by `run`.

    measure.py OURS BUDDY FOLDER ROUNDS

Times are user CPU time. "Whole" is that of the whole process. "Work" leaves the start out: of BuDDy's the driver takes the
time itself, after bdd_init and reading; of ours the median of a run on a netlist of two lines is taken off.
"""
import os
import re
import statistics
import subprocess
import sys

# The size of BuDDy's table and of each of its caches: room for every case without collecting or growing, and as many
# cache entries as our memo has rows.
NODES = "2000000"
CACHE = "1048576"

# Name, arguments of make.py, what it is.
CASES = [
    ("adder-16", ["adder", 16, 16], "adder, 16 bits, all sums"),
    ("adder-17", ["adder", 17, 15], "adder, 17 bits, 15 sums"),
    ("select-15", ["select", 15, 15], "carry-select, 15 bits"),
    ("multiplier-10", ["multiplier", 10], "multiplier, 10 × 10"),
    ("bus-18", ["bus", 18], "bus, 18 drivers"),
    ("converter-18", ["converter", 18], "converter, 18 codes"),
]


def run(command, text):
    """What a command printed, what it wrote to standard error, and its user time."""
    with open(text, "rb") as source:
        child = subprocess.Popen(command, stdin=source, stdout=subprocess.PIPE, stderr=subprocess.PIPE)
        out = child.stdout.read()
        errors = child.stderr.read()
        _, status, usage = os.wait4(child.pid, 0)
        child.returncode = os.waitstatus_to_exitcode(status)
    if child.returncode != 0:
        sys.exit(f"{command[0]} on {text}: exit {child.returncode}: {errors.decode()}")
    return out.decode(), errors.decode(), usage.ru_utime


def generate(folder, name, args):
    path = os.path.join(folder, name + ".txt")
    maker = os.path.join(os.path.dirname(os.path.abspath(__file__)), "make.py")
    with open(path, "wb") as out:
        subprocess.run([sys.executable, maker] + [str(a) for a in args], stdout=out, check=True)
    return path


def shape(path):
    """The inputs, and the lines of both netlists."""
    rows = open(path).read().splitlines()
    heads = [row for row in rows if row[6:10] == "HEAD"]
    return int(heads[0][12:18]), sum(int(row[0:5]) for row in heads)


def main():
    ours, buddy, folder, rounds = sys.argv[1], sys.argv[2], sys.argv[3], int(sys.argv[4])
    print(subprocess.run([buddy, "--test"], capture_output=True, text=True, check=True).stdout, end="", file=sys.stderr)

    start_text = generate(folder, "none", ["none", 60])
    start = statistics.median(run([ours], start_text)[2] for _ in range(2 * rounds + 1))

    print("| case | inputs | lines | our places | our time, whole | our time, work | BuDDy's nodes | BuDDy's time, whole "
          "| BuDDy's time, work | our records per second | ours / BuDDy, whole | ours / BuDDy, work |")
    print("|---|--:|--:|--:|--:|--:|--:|--:|--:|--:|--:|--:|")
    agreed, pairs, unclean = 0, 0, 0
    for name, args, title in CASES:
        text = generate(folder, name, args)
        inputs, lines = shape(text)
        own, theirs, inner = [], [], []
        for _ in range(rounds):
            report, _, user = run([ours], text)
            own.append(user)
            first, *rows = report.splitlines()
            if first[6:12] != "REPORT":
                sys.exit(f"{name}: {first}")
            if first[12] == "0":
                sys.exit(f"{name}: more places than six columns can tell: {first}")
            other, facts, user = run([buddy, NODES, CACHE], text)
            theirs.append(user)
            facts = dict(re.findall(r"(\w+)=([0-9.]+)", facts))
            inner.append(float(facts["work"]))
            if int(facts["collections"]) or int(facts["growths"]):
                sys.exit(f"{name}: BuDDy's table is too small")
            if rows != other.splitlines()[1:]:
                sys.exit(f"{name}: the verdicts differ")
        agreed += 1
        pairs += len(rows)
        unclean += sum(1 for row in rows if len(row) > 7)
        places = int(first[12:18])
        whole, work = statistics.median(own), statistics.median(own) - start
        b_whole, b_work = statistics.median(theirs), statistics.median(inner)
        print(f"| {title} | {inputs} | {lines} | {places:,} | {whole:.2f} s | {work:.2f} s | {int(facts['produced']):,} "
              f"| {b_whole:.2f} s | {b_work:.2f} s | {places / work:,.0f} | {whole / b_whole:.2f} | {work / b_work:.2f} |")
        print(f"{name}: ours {min(own):.3f} to {max(own):.3f} s, BuDDy {min(theirs):.3f} to {max(theirs):.3f} s", file=sys.stderr)
    print(f"\nour start: {start:.3f} s. Verdicts: the same in {agreed} of {len(CASES)} cases, {pairs} pairs, of which "
          f"{unclean} are not clean, with the same grade, values and first pattern.")


if __name__ == "__main__":
    main()
