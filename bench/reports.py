#!/usr/bin/env python3
"""Times the proved program on the largest reports that it writes: solving, checking and showing them, beside Python reading the same text.

The program is crates/patrol/out/patrol, as `.ci/run` leaves it, or the one that PATROL names. Each game has payoffs so close that
every target is covered, which gives as many tickets as a report can have. Prints for each: the bytes of the report; the program's
seconds (least of five runs) for `solve`, for `check` of the report, for `check` of the report with one line too many, which is read
whole and then refused, for `check` of an empty report, which reads the game alone, and for `show`; the peak memory of `check`; the
seconds in which Python splits the report into lines and numbers; and the ratios of `check`, of reading and of `show` to that.
Reading is the difference of the refused report and the empty one.
"""
import os
import shutil
import sys
import tempfile
import time

from origami import PROGRAM, close_payoffs_of, write_game

SIZES = ((1000, 50), (10000, 50), (10000, 200))
RUNS = 5


def run_once(words, out):
    """The status, the seconds and the peak memory in MB of one run, whose output goes to a file."""
    start = time.perf_counter()
    pid = os.fork()
    if pid == 0:
        os.dup2(os.open(out, os.O_WRONLY | os.O_CREAT | os.O_TRUNC, 0o600), 1)
        os.dup2(os.open(os.devnull, os.O_WRONLY), 2)
        os.execv(words[0], words)
    _, status, usage = os.wait4(pid, 0)
    return os.waitstatus_to_exitcode(status), time.perf_counter() - start, usage.ru_maxrss / 1024


def timed(words, out, wanted):
    """The least seconds of some runs that all end with this status, and the greatest peak memory."""
    least = float("inf")
    most = 0.0
    for _ in range(RUNS):
        status, seconds, peak = run_once([PROGRAM] + words, out)
        if status != wanted:
            sys.exit(f"patrol {words[0]}: status {status}, where {wanted} is wanted")
        least = min(least, seconds)
        most = max(most, peak)
    return least, most


def append(path, text):
    with open(path, "a") as file:
        file.write(text)


def first_line(path):
    with open(path) as file:
        return file.readline()


def plain_reading(path):
    """The least seconds in which Python splits a report into lines, and the ticket lines into numbers."""
    with open(path) as file:
        text = file.read()
    least = float("inf")
    for _ in range(RUNS):
        start = time.perf_counter()
        for line in text.split("\n"):
            fields = line.split(" ")
            if fields[0] == "t":
                list(map(int, fields[1:]))
        least = min(least, time.perf_counter() - start)
    return least


def measure(folder, targets, patrols):
    game, report, longer, empty, out = (
        os.path.join(folder, name) for name in ("game.toml", "report", "longer", "empty", "out")
    )
    write_game(game, close_payoffs_of(targets, targets), patrols)
    solve, _ = timed(["solve", game], report, 0)
    shutil.copy(report, longer)
    append(longer, "more\n")
    append(empty, "")
    check, peak = timed(["check", game, report], out, 0)
    if not first_line(out).startswith("yes optimal "):
        sys.exit("patrol check: the answer is not 'yes optimal'")
    refused, _ = timed(["check", game, longer], out, 7)
    alone, _ = timed(["check", game, empty], out, 7)
    show, _ = timed(["show", game, report], out, 0)
    # Last, since a run's peak memory is at least that of this script when it starts it.
    plain = plain_reading(report)
    read = refused - alone
    print(
        f"{targets:7d}  {patrols:7d}  {os.path.getsize(report) / 2**20:9.1f}  {solve:7.3f}  {check:7.3f}  {refused:7.3f}  {alone:7.3f}  {show:7.3f}  "
        f"{peak:7.1f}  {plain:8.3f}  {check / plain:7.2f}  {read / plain:6.2f}  {show / plain:6.2f}"
    )


def main():
    if not os.path.exists(PROGRAM):
        sys.exit("no proved program: run .ci/run first")
    print("targets  patrols  report MB  solve s  check s  too long  game s   show s  peak MB  python s  check/p  read/p  show/p")
    with tempfile.TemporaryDirectory() as folder:
        for targets, patrols in SIZES:
            measure(folder, targets, patrols)


if __name__ == "__main__":
    main()
