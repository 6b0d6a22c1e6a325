#!/usr/bin/env python3
"""Times the proved program on the largest game files that the limits allow, beside Python's own TOML reader in the same run.

The program is crates/patrol/out/patrol, as `.ci/run` leaves it. Each game is read whole and answered: by a report, by 'not yet' or
by a refusal. Prints the file's bytes, the status, the program's seconds (least of three runs) and peak memory, the seconds of
Python's reader alone, and their ratio.
"""
import os
import sys
import tempfile
import time

try:
    import tomllib
except ImportError:
    tomllib = None

TOP = os.path.dirname(os.path.dirname(os.path.abspath(__file__)))
PROGRAM = os.path.join(TOP, "crates", "patrol", "out", "patrol")
SECURITY = 'version = 1\nform = "security"\n'


def name(letter, number):
    return letter + f"{number:063d}"


def targets(count):
    return "targets = [" + ", ".join(f'"{name("t", i)}"' for i in range(count)) + "]\n"


def thieves(count, goals):
    rows = ", ".join(f"[{1073741823 - i % 7}, -1073741823, -1073741823, 1073741823]" for i in range(goals))
    return "".join(f'[[type]]\nname = "a{i}"\nprior = 1048576\npayoffs = [{rows}]\n' for i in range(count))


def scaled(goals, repeat=False):
    names = [f'"{name("t", i)}"' for i in range(goals)]
    if repeat:
        names[-1] = names[0]
    rows = ", ".join("[%d, -5, 0, %d]" % (i % 1000, 2 ** (10 + i % 11)) for i in range(goals))
    head = f"scale = {2 ** 32}\npatrols = 1\ntargets = [{', '.join(names)}]\n"
    return SECURITY + head + f'[[type]]\nname = "a"\nprior = 1\npayoffs = [{rows}]\n'


def scheduled():
    members = ", ".join(f'"{name("t", i)}"' for i in range(56))
    schedules = "".join(f'[[schedule]]\nname = "{name("s", i)}"\ntargets = [{members}]\n' for i in range(500))
    held = ", ".join(f'"{name("s", i)}"' for i in range(500))
    resources = "".join(f'[[resource]]\nname = "r{i}"\nschedules = [{held}]\n' for i in range(32))
    return SECURITY + targets(200) + schedules + resources + thieves(2, 200)


def matrix():
    rows = ", ".join(f'"r{i}"' for i in range(4096))
    actions = ", ".join(f'"a{i}"' for i in range(64))
    table = ", ".join("[" + ", ".join(str((i * j) % 997) for j in range(64)) + "]" for i in range(4096))
    head = f'version = 1\nform = "matrix"\nrows = [{rows}]\n[[type]]\nname = "a"\nprior = 1\nactions = [{actions}]\n'
    return head + f"leader = [{table}]\nfollower = [{table}]\n"


def cut(text, at):
    """The text filled up by a comment, or cut, to so many bytes."""
    return (text + "#" * max(0, at - len(text)))[:at]


GAMES = {
    "10,000 targets": lambda: scaled(10000),
    "10,000 targets, 4 MiB": lambda: cut(scaled(10000), 4194304),
    "10,000 targets, last name repeated": lambda: scaled(10000, True),
    "500 schedules, 32 resources of all": scheduled,
    "4,096 rows by 64 actions": matrix,
    "one byte too many": lambda: cut(scaled(10000), 4194305),
}


def peak_of(words):
    pid = os.fork()
    if pid == 0:
        os.dup2(os.open(os.devnull, os.O_WRONLY), 1)
        os.dup2(1, 2)
        os.execv(words[0], words)
    _, status, usage = os.wait4(pid, 0)
    return os.waitstatus_to_exitcode(status), usage.ru_maxrss / 1024


def main():
    if not os.path.exists(PROGRAM):
        sys.exit("no proved program: run .ci/run first")
    print(f"{'game':36} {'bytes':>8} status seconds peak MB  python  ratio")
    with tempfile.TemporaryDirectory() as folder:
        path = os.path.join(folder, "game.toml")
        for title, text_of in GAMES.items():
            text = text_of()
            with open(path, "w") as file:
                file.write(text)
            least = float("inf")
            for _ in range(3):
                start = time.perf_counter()
                status, peak = peak_of([PROGRAM, "solve", path])
                least = min(least, time.perf_counter() - start)
            python = "-"
            ratio = "-"
            if tomllib and len(text) <= 4194304:
                start = time.perf_counter()
                tomllib.loads(text)
                python = time.perf_counter() - start
                ratio, python = f"{least / python:.2f}", f"{python:.3f}"
            print(f"{title:36} {len(text):8} {status:6} {least:7.3f} {peak:7.1f} {python:>7} {ratio:>6}")


if __name__ == "__main__":
    main()
