#!/usr/bin/env python3
"""Times the proved program on rosters, beside Python's `csv` writing the same rows in the same run.

The program is crates/patrol/out/patrol, as `.ci/run` leaves it, or the one that PATROL names. The game has 32 resources, each with 40
schedules, all names of 10 bytes; the report, written here, has 97 plays and the wanted number of tickets, and a gap. Prints for each
number of days: the bytes of the roster, the program's seconds (least of five runs, from the files to the roster in a file) and peak
memory, the seconds of its `check` of the same report (reading and checking alone), the seconds in which Python writes the rows, formed
before, to a file, and the ratio of the two.
"""
import csv
import itertools
import os
import sys
import tempfile
import time

from reports import timed

DAYS = (1000, 1_000_000)
RESOURCES = 32
TARGETS = 40
PLAYS = 97


def name(word, number):
    return f"{word}{number:02d}"


def write_game(path):
    targets = ", ".join(f'"{name("terminal", i)}"' for i in range(TARGETS))
    schedules = "".join(f'[[schedule]]\nname = "{name("schedule", i)}"\ntargets = ["{name("terminal", i)}"]\n' for i in range(TARGETS))
    held = ", ".join(f'"{name("schedule", i)}"' for i in range(TARGETS))
    resources = "".join(f'[[resource]]\nname = "{name("resource", i)}"\nschedules = [{held}]\n' for i in range(RESOURCES))
    payoffs = ", ".join("[0, -1, 0, 1]" for _ in range(TARGETS))
    with open(path, "w") as file:
        file.write(
            f'version = 1\nform = "security"\ntargets = [{targets}]\n{schedules}{resources}'
            f'[[type]]\nname = "thief"\nprior = 1\npayoffs = [{payoffs}]\n'
        )


def plays():
    """Lists of choices that leave the last target uncovered."""
    return sorted([1 + (play * 7 + resource * 3) % (TARGETS - 1) for resource in range(RESOURCES)] for play in range(PLAYS))


def write_report(path, days):
    """The last target is never covered, so the attackers take it: the value is -1."""
    chosen = sorted(map(list, set(map(tuple, plays()))))
    weights = [days // len(chosen)] * len(chosen)
    weights[0] += 1
    weights[-1] += days - sum(weights)
    with open(path, "w") as file:
        file.write(f"patrol-report 1\ntickets {len(chosen)} {days}\n")
        for weight, play in zip(weights, chosen):
            file.write(f"t {weight} {' '.join(map(str, play))}\n")
        file.write(f"value -1 1\nsplit 1 {TARGETS}\nopen\n" + "open\n" * TARGETS + "upper 0 1\nverdict gap nodes 1\nend\n")


def python_seconds(source, target):
    """The seconds of writing alone; the rows are formed before, a block at a time."""
    seconds = 0.0
    with open(source, newline="") as rows, open(target, "w", newline="") as file:
        reader, writer = csv.reader(rows), csv.writer(file, lineterminator="\n")
        while True:
            block = list(itertools.islice(reader, 10_000))
            start = time.perf_counter()
            if not block:
                file.flush()
                return seconds + time.perf_counter() - start
            writer.writerows(block)
            seconds += time.perf_counter() - start


def main():
    print("| Days | Roster, MB | `roster`, s | Peak memory, MB | `check`, s | Python `csv`, s | Ratio |")
    print("|---|---|---|---|---|---|---|")
    with tempfile.TemporaryDirectory() as folder:
        game, report, roster, again = (os.path.join(folder, part) for part in ("game.toml", "report", "roster.csv", "again.csv"))
        write_game(game)
        for days in DAYS:
            write_report(report, days)
            checked, _ = timed(["check", game, report], again, 10)
            seconds, memory = timed(["roster", game, report, "--seed", "7"], roster, 0)
            beside = min(python_seconds(roster, again) for _ in range(3))
            if open(roster, "rb").read() != open(again, "rb").read():
                sys.exit("Python writes other bytes")
            size = os.path.getsize(roster) / 1e6
            print(f"| {days:,} | {size:.1f} | {seconds:.4f} | {memory:.0f} | {checked:.4f} | {beside:.4f} | {seconds / beside:.2f} |", flush=True)


if __name__ == "__main__":
    main()
