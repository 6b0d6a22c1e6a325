#!/usr/bin/env python3
"""Times the proved program's `check` on reports whose facts over plays are many or have many marks.

The program is crates/patrol/out/patrol, as `.ci/run` leaves it, or the one that PATROL names. Each report holds up to its line `upper`, which is wrong where the
column 'status' is 7, so that all facts are tested. Prints for each: its lines; the status; the seconds from start to end, and those of the processor alone (least of
three runs).

- blocks: 8 resources with 15 schedules each, so 16^8 plays, and a fact of 4 marks for each of 40 targets.
- bare, marked: 32 resources with 15 schedules each and 200 targets, so 16^32 plays, and a fact for each target: without marks, and with all 199.
- rows: 4,096 rows, three types of 22 actions, and facts of three types with 500,000 marks in all.
"""
import os
import random
import sys
import tempfile
import time

from origami import PROGRAM

RUNS = 3


def listed(names):
    return "[" + ", ".join(f'"{name}"' for name in names) + "]"


def security_game(targets, schedules, of_resources):
    """A game of one type whose attacks cost the defender 1 where the target isn't covered, and pay the attacker 1."""
    names = [f"t{i + 1}" for i in range(targets)]
    text = f'version = 1\nform = "security"\ntargets = {listed(names)}\n'
    for i, members in enumerate(schedules):
        text += f'\n[[schedule]]\nname = "s{i + 1}"\ntargets = {listed([names[t] for t in members])}\n'
    for i, own in enumerate(of_resources):
        text += f'\n[[resource]]\nname = "r{i + 1}"\nschedules = {listed([f"s{s + 1}" for s in own])}\n'
    payoffs = ", ".join(["[0, -1, 0, 1]"] * targets)
    return text + f'\n[[type]]\nname = "a1"\nprior = 1\npayoffs = [{payoffs}]\n'


def blocks():
    schedules, of_resources = [], []
    for b in range(8):
        block = range(5 * b, 5 * b + 5)
        own = [[t] for t in block] + [[t, u] for t in block for u in block if t < u]
        of_resources.append(range(len(schedules), len(schedules) + len(own)))
        schedules += own
    report = "patrol-report 1\ntickets 5 5\n"
    for choice in (6, 9, 10, 13, 15):
        report += "t 1 " + " ".join([str(choice)] * 8) + "\n"
    report += "value -3 5\nsplit 1 40\nopen\n"
    for a in range(40):
        report += "plays 5 7 4\n"
        report += "".join(f"m 1 {b + 1} 1\n" for b in range(a // 5 * 5, a // 5 * 5 + 5) if b != a)
    return security_game(40, schedules, of_resources), report + "upper -3 5\nverdict optimal\nend\n", 0


def wide(mu, marked):
    rng = random.Random(5)
    schedules = [rng.sample(range(200), rng.randrange(1, 6)) for _ in range(32 * 15)]
    of_resources = [range(15 * r, 15 * r + 15) for r in range(32)]
    report = "patrol-report 1\ntickets 1 1\nt 1 " + " ".join(["0"] * 32) + "\nvalue -1 1\nsplit 1 200\nopen\n"
    for a in range(1, 201):
        others = [b for b in range(1, 201) if marked and b != a]
        report += f"plays 1 {mu} {len(others)}\n" + "".join(f"m 1 {b} 1\n" for b in others)
    return security_game(200, schedules, of_resources), report + "upper 1000000 1\nverdict gap nodes 1\nend\n", 7


def rows():
    rng = random.Random(2)
    actions, types, count = 22, 3, 4096
    names = [f"r{i + 1}" for i in range(count)]
    game = f'version = 1\nform = "matrix"\nrows = {listed(names)}\n'
    for l in range(types):
        leader = [[0] * actions for _ in range(count)]
        follower = [[rng.randrange(-9, 10) for _ in range(actions)] for _ in range(count)]
        game += f'\n[[type]]\nname = "a{l + 1}"\nprior = 1\nactions = {listed([f"x{i + 1}" for i in range(actions)])}\nleader = {leader}\nfollower = {follower}\n'
    report = ["patrol-report 1\ntickets 1 1\nt 1 1\nvalue 0 1\ncap 2 plain 0\ncap 3 plain 0\nsplit 1 22\nopen\n"]
    left = 500_000
    for a in range(1, actions + 1):
        if left <= 0:
            report.append("open\n")
            continue
        report.append("split 2 22\nopen\n")
        for b in range(1, actions + 1):
            if left <= 0:
                report.append("open\n")
                continue
            report.append("split 3 22\nopen\n")
            for c in range(1, actions + 1):
                if left <= 0:
                    report.append("open\n")
                    continue
                marks = [f"m {l} {y} 1\n" for l, x in ((1, a), (2, b), (3, c)) for y in range(1, actions + 1) if y != x]
                report.append(f"plays 1 2000 {len(marks)}\n" + "".join(marks))
                left -= len(marks)
    return game, "".join(report) + "upper 1000000 1\nverdict gap nodes 1\nend\n", 7


def run_once(game, report, out):
    """The status, the seconds and the processor's seconds of one run of `check`."""
    start = time.perf_counter()
    pid = os.fork()
    if pid == 0:
        file = os.open(out, os.O_WRONLY | os.O_CREAT | os.O_TRUNC, 0o600)
        os.dup2(file, 1)
        os.dup2(file, 2)
        os.execv(PROGRAM, [PROGRAM, "check", game, report])
    _, status, usage = os.wait4(pid, 0)
    return os.waitstatus_to_exitcode(status), time.perf_counter() - start, usage.ru_utime + usage.ru_stime


def measure(folder, name, made):
    text, report_text, wanted = made
    game, report, out = (os.path.join(folder, each) for each in ("game.toml", "report", "out"))
    for path, content in ((game, text), (report, report_text)):
        with open(path, "w") as file:
            file.write(content)
    lines = report_text.count("\n")
    least, processor = float("inf"), float("inf")
    for _ in range(RUNS):
        status, seconds, used = run_once(game, report, out)
        with open(out) as file:
            answer = file.readline().strip()
        if status != wanted or (wanted == 7 and answer != f"no 7 at line {lines - 2}"):
            sys.exit(f"{name}: status {status}, '{answer}', where {wanted} is wanted")
        least, processor = min(least, seconds), min(processor, used)
    print(f"{name:8}  {lines:8d}  {wanted:6d}  {least:9.4f}  {processor:11.4f}", flush=True)


def main():
    if not os.path.exists(PROGRAM):
        sys.exit("no proved program: run .ci/run first")
    print("report       lines  status    check s  processor s")
    with tempfile.TemporaryDirectory() as folder:
        for name, made in (("blocks", blocks()), ("bare", wide(33, False)), ("marked", wide(1000, True)), ("rows", rows())):
            measure(folder, name, made)


if __name__ == "__main__":
    main()
