#!/usr/bin/env python3
"""Runs every command that README.md and docs/ show and compares what it prints with what they say it prints.

    tools/printed-lines.py [PROGRAM]

Two forms are read: a block whose lines begin with `$ ` (a command, then what it prints), and a line "`bin/patrol ..` prints" or "has .."
followed by a block. Each page is run in a folder of its own, which sees `bin`, `examples` and `tools`, with errors printed as the
terminal shows them. With PROGRAM that program stands for `bin/patrol`. It ends with 1 where a line differs or a page shows no command.
"""
import os
import pathlib
import re
import shlex
import subprocess
import sys
import tempfile

TOP = pathlib.Path(__file__).resolve().parent.parent
SHOWN = re.compile(r"^`(bin/patrol [^`]*)`.*:?$")


def blocks(page):
    """Each fenced block with the last line of text before it."""
    before, block = "", None
    for line in page.splitlines():
        if line.startswith("```"):
            if block is None:
                block = []
            else:
                yield before, block
                before, block = "", None
        elif block is not None:
            block.append(line)
        elif line.strip():
            before = line
            command = SHOWN.match(line)
            if command:
                before = line


def calls(page):
    """Each command with the lines that the page says it prints."""
    for before, block in blocks(page):
        if block and block[0].startswith("$ "):
            call = None
            for line in block:
                if line.startswith("$ "):
                    if call:
                        yield call
                    call = (line[2:], [])
                else:
                    call[1].append(line)
            yield call
        else:
            shown = SHOWN.match(before)
            if shown:
                yield shown.group(1), block


def main():
    program = pathlib.Path(sys.argv[1]).resolve() if len(sys.argv) > 1 else TOP / "bin" / "patrol"
    wrong = run = 0
    for path in [TOP / "README.md", *sorted((TOP / "docs").glob("*.md"))]:
        with tempfile.TemporaryDirectory() as folder:
            for name in ("examples", "tools"):
                os.symlink(TOP / name, pathlib.Path(folder) / name)
            os.mkdir(pathlib.Path(folder) / "bin")
            called = pathlib.Path(folder) / "bin" / "patrol"
            called.write_text(f'#!/bin/sh\nexec {shlex.quote(str(program))} "$@"\n')
            called.chmod(0o755)
            for command, said in calls(path.read_text()):
                run += 1
                ended = subprocess.run(["bash", "-c", command], cwd=folder, stdout=subprocess.PIPE, stderr=subprocess.STDOUT, text=True)
                printed = ended.stdout.splitlines()
                if printed != said:
                    wrong += 1
                    print(f"{path.relative_to(TOP)}: `{command}`\n  says   {said}\n  prints {printed}")
    print(f"{run} commands, {wrong} printed otherwise")
    return 1 if wrong or not run else 0


if __name__ == "__main__":
    sys.exit(main())
