#!/usr/bin/env python3
"""Runs the built program on mutated game files, made from examples/ by a seed, and compares each answer with what docs/GAME-FILE.md says.

    tools/mutate.py [CASES] [SEED]

Each run must end within ten seconds with status 0, 3 or 6. With 0 the report must be accepted by `report_checker.py`, which shares no code
with the program; with 3 and 6 standard output must be empty and standard error the line of that status,
which with 6 is the reason and place that `explain.py` finds. Not part of the gate: it needs
crates/patrol/out/patrol, as .ci/run leaves it.
"""
import os
import random
import re
import subprocess
import sys
import tempfile

from explain import explain
from report_checker import Game, answer

TOP = os.path.dirname(os.path.dirname(os.path.abspath(__file__)))
PROGRAM = os.path.join(TOP, "crates", "patrol", "out", "patrol")
NUMBERS = [b"0", b"1", b"-1", b"2", b"4", b"1073741824", b"1073741825", b"-1073741825", b"4294967296", b"9223372036854775808", b"1.0", b"true"]


def mutated(draw, text):
    """The text after one to three changes."""
    for _ in range(draw.randrange(1, 4)):
        kind = draw.randrange(6)
        if kind == 0 and text:
            at = draw.randrange(len(text))
            text = text[:at] + bytes([draw.randrange(256)]) + text[at + 1 :]
        elif kind in (1, 2):
            lines = text.split(b"\n")
            at = draw.randrange(len(lines))
            lines[at : at + 1] = [] if kind == 1 else [lines[at], lines[at]]
            text = b"\n".join(lines)
        else:
            found = list(re.finditer(rb"-?[0-9]+", text))
            if found:
                it = draw.choice(found)
                text = text[: it.start()] + draw.choice(NUMBERS) + text[it.end() :]
    return text


def is_right(text, report, expected):
    """Whether another checker accepts the report with this status."""
    status, _, _ = answer(Game(text.decode()), report)
    return status == expected


def fault_of(text, ran):
    """What is wrong with an answer, or nothing."""
    if ran.returncode in (0, 10):
        return None if not ran.stderr and is_right(text, ran.stdout, ran.returncode) else "a wrong report"
    if ran.stdout:
        return "something was written"
    if ran.returncode == 3:
        return None if ran.stderr == b"not yet\n" else "a wrong line"
    if ran.returncode == 6:
        refused, _ = explain(text)
        is_told = refused is not None and ran.stderr == f"game refused {refused.reason} at {refused.place}\n".encode()
        return None if is_told else "another reason or place than explain.py's"
    return "a status that should not come"


def main():
    cases = int(sys.argv[1]) if len(sys.argv) > 1 else 2000
    draw = random.Random(int(sys.argv[2]) if len(sys.argv) > 2 else 1)
    folder = os.path.join(TOP, "examples")
    examples = [open(os.path.join(folder, it), "rb").read() for it in sorted(os.listdir(folder)) if it.endswith(".toml")]
    seen, failed = {}, 0
    with tempfile.TemporaryDirectory() as work:
        path = os.path.join(work, "game.toml")
        for _ in range(cases):
            text = mutated(draw, draw.choice(examples))
            with open(path, "wb") as file:
                file.write(text)
            ran = subprocess.run([PROGRAM, "solve", path], capture_output=True, timeout=10)
            seen[ran.returncode] = seen.get(ran.returncode, 0) + 1
            fault = fault_of(text, ran)
            if fault:
                failed += 1
                sys.stdout.buffer.write(f"failed: {fault}: status {ran.returncode}\n".encode() + text + b"\n")
    print(f"{cases} cases, {failed} failed; statuses {dict(sorted(seen.items()))}")
    sys.exit(1 if failed else 0)


if __name__ == "__main__":
    if not os.path.exists(PROGRAM):
        sys.exit("no built program: run .ci/run first")
    main()
