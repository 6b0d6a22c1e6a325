#!/usr/bin/env python3
"""Times the proved program on generated games, beside Python making the same text in the same run (tools/generated_game.py).

The program is crates/patrol/out/patrol, as `.ci/run` leaves it, or the one that PATROL names. Prints for each shape the bytes of the game, the
program's seconds (least of five runs) and peak memory, and Python's seconds; the two texts must be the same.
"""
import os
import subprocess
import sys
import tempfile
import time

from reports import timed

TOP = os.path.dirname(os.path.dirname(os.path.abspath(__file__)))
SHAPES = ("free-10000-200", "blocks-8-10-1000", "matrix-4096-12-4")


def main():
    print("| Shape | Bytes | `make`, s | Peak memory, MB | Python, s |")
    print("|---|---|---|---|---|")
    with tempfile.TemporaryDirectory() as folder:
        made = os.path.join(folder, "made.toml")
        for shape in SHAPES:
            seconds, memory = timed(["make", shape, "1"], made, 0)
            start = time.perf_counter()
            beside = subprocess.run([sys.executable, os.path.join(TOP, "tools", "generated_game.py"), shape, "1"], capture_output=True, check=True).stdout
            python = time.perf_counter() - start
            if open(made, "rb").read() != beside:
                sys.exit(f"{shape}: Python makes another game")
            print(f"| `{shape}` | {len(beside):,} | {seconds:.3f} | {memory:.0f} | {python:.2f} |", flush=True)


if __name__ == "__main__":
    main()
