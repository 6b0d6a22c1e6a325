#!/usr/bin/env python3
"""Times the proved program on games of identical patrols, beside a plain floating-point filling in the same run.

The program is crates/patrol/out/patrol, as `.ci/run` leaves it, or the one that PATROL names. Prints, for some numbers of targets and patrols: the program's
seconds (least of five runs, from file to report), its peak memory, the size of the report, the seconds of the floating-point
filling (which gives the level alone: no reading, no tickets, no text), and the ratio of the two.
"""
import os
import random
import resource
import subprocess
import sys
import tempfile
import time

TOP = os.path.dirname(os.path.dirname(os.path.abspath(__file__)))
PROGRAM = os.environ.get("PATROL", os.path.join(TOP, "crates", "patrol", "out", "patrol"))
SCALE = 2**32


def payoffs_of(targets, seed):
    draw = random.Random(seed)
    rows = []
    for _ in range(targets):
        gap = 2 ** (10 + draw.randrange(11))
        covered = -draw.randrange(1000)
        rows.append((draw.randrange(1000), -1 - draw.randrange(1000), covered, covered + gap))
    return rows


def close_payoffs_of(targets, seed):
    """Payoffs so close that every target is covered: as many tickets as a report can have."""
    draw = random.Random(seed)
    rows = []
    for _ in range(targets):
        uncovered = 2**20 + draw.randrange(1000)
        rows.append((draw.randrange(1000), -1 - draw.randrange(1000), uncovered - 2**20, uncovered))
    return rows


def write_game(path, rows, patrols):
    names = ", ".join(f'"t{i + 1}"' for i in range(len(rows)))
    payoffs = ", ".join("[%d, %d, %d, %d]" % row for row in rows)
    with open(path, "w") as file:
        file.write(
            f'version = 1\nform = "security"\nscale = {SCALE}\npatrols = {patrols}\ntargets = [{names}]\n\n'
            f'[[type]]\nname = "a1"\nprior = 1\npayoffs = [{payoffs}]\n'
        )


def float_filling(rows, patrols):
    """ORIGAMI in floating point: sort by uncovered payoff, and lower the level until the patrols are spent."""
    order = sorted(rows, key=lambda row: -row[3])
    inverse = weighted = 0.0
    level = None
    for i, (_, _, covered, uncovered) in enumerate(order):
        inverse += 1.0 / (uncovered - covered)
        weighted += uncovered / (uncovered - covered)
        candidate = (weighted - patrols) / inverse
        if i + 1 == len(order) or candidate >= order[i + 1][3]:
            level = candidate
            break
    level = max(level, max(row[2] for row in rows))
    return max(
        du + (dc - du) * min(1.0, (au - level) / (au - ac)) for dc, du, ac, au in rows if au >= level
    )


def main():
    if not os.path.exists(PROGRAM):
        sys.exit("no proved program: run .ci/run first")
    print("targets  patrols  program s  peak MB  report MB  float s   ratio  value (program, float)")
    with tempfile.TemporaryDirectory() as folder:
        for targets, patrols, draw in (
            (100, 1, payoffs_of),
            (1000, 1, payoffs_of),
            (10000, 1, payoffs_of),
            (1000, 50, payoffs_of),
            (10000, 200, payoffs_of),
            (1000, 50, close_payoffs_of),
            (10000, 200, close_payoffs_of),
        ):
            rows = draw(targets, targets)
            path = os.path.join(folder, f"{targets}.toml")
            write_game(path, rows, patrols)
            best = None
            for _ in range(5):
                start = time.perf_counter()
                done = subprocess.run([PROGRAM, "solve", path], capture_output=True, check=True)
                spent = time.perf_counter() - start
                best = spent if best is None else min(best, spent)
            peak = resource.getrusage(resource.RUSAGE_CHILDREN).ru_maxrss / 1024
            start = time.perf_counter()
            value = float_filling(rows, patrols)
            plain = time.perf_counter() - start
            line = next(l for l in done.stdout.decode().split("\n") if l.startswith("value "))
            _, num, den = line.split()
            print(
                f"{targets:7d}  {patrols:7d}  {best:9.4f}  {peak:7.1f}  {len(done.stdout) / 2**20:9.1f}  {plain:7.4f}  {best / plain:6.1f}  "
                f"{int(num) / int(den):.6f}, {value:.6f}"
            )


if __name__ == "__main__":
    main()
