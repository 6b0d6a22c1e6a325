#!/usr/bin/env python3
"""Runs the built program with one request for memory refused, the first, the second and so on, until its own answer comes.

    tools/refused-memory.py

With a request refused the program must end with status 11, the line `want of memory` and nothing on standard output (`roster`, which forms
its rows while it writes them, with a beginning of its own text there); where the number lies past the last request, with its own answer. Requests are refused by a small library that stands before malloc and realloc, which `cc`
compiles. Not part of the gate: it needs crates/patrol/out/patrol, as .ci/run leaves it.
"""
import os
import subprocess
import sys
import tempfile

from report_cases import INSPECTION, SMALL

TOP = os.path.dirname(os.path.dirname(os.path.abspath(__file__)))
PROGRAM = os.path.join(TOP, "crates", "patrol", "out", "patrol")
REFUSING = r"""
#define _GNU_SOURCE
#include <dlfcn.h>
#include <errno.h>
#include <stdlib.h>

static long seen = 0;

static int is_refused(void) {
    static long number = -1;
    if (number < 0) {
        const char *text = getenv("REFUSED_REQUEST");
        number = text ? atol(text) : 0;
    }
    seen += 1;
    if (seen != number) return 0;
    errno = ENOMEM;
    return 1;
}

void *malloc(size_t size) {
    static void *(*real)(size_t) = 0;
    if (!real) real = (void *(*)(size_t))dlsym(RTLD_NEXT, "malloc");
    return is_refused() ? 0 : real(size);
}

void *realloc(void *block, size_t size) {
    static void *(*real)(void *, size_t) = 0;
    if (!real) real = (void *(*)(void *, size_t))dlsym(RTLD_NEXT, "realloc");
    return is_refused() ? 0 : real(block, size);
}

void *aligned_alloc(size_t alignment, size_t size) {
    static void *(*real)(size_t, size_t) = 0;
    if (!real) real = (void *(*)(size_t, size_t))dlsym(RTLD_NEXT, "aligned_alloc");
    return is_refused() ? 0 : real(alignment, size);
}

int posix_memalign(void **block, size_t alignment, size_t size) {
    static int (*real)(void **, size_t, size_t) = 0;
    if (!real) real = (int (*)(void **, size_t, size_t))dlsym(RTLD_NEXT, "posix_memalign");
    return is_refused() ? ENOMEM : real(block, alignment, size);
}
"""

def ran(library, number, words):
    """The status and both outputs with the request of this number refused; 0: none is."""
    changed = dict(os.environ, LD_PRELOAD=library, REFUSED_REQUEST=str(number))
    done = subprocess.run([PROGRAM] + words, capture_output=True, timeout=20, env=changed)
    return done.returncode, done.stdout, done.stderr


def tried(library, words):
    """How many requests a call makes; ends the script where a refused one is answered otherwise than by want of memory."""
    own = ran(library, 0, words)
    number = 1
    while True:
        answer = ran(library, number, words)
        if answer == own:
            return number - 1, own
        beginning = answer[1] if words[0] == "roster" and own[1].startswith(answer[1]) else b""
        if answer != (11, beginning, b"want of memory\n"):
            sys.exit(f"failed: {words}: request {number} refused: {answer}")
        number += 1


def main():
    with tempfile.TemporaryDirectory() as work:
        source, library = os.path.join(work, "refusing.c"), os.path.join(work, "refusing.so")
        with open(source, "w") as file:
            file.write(REFUSING)
        subprocess.run(["cc", "-O1", "-shared", "-fPIC", "-o", library, source, "-ldl"], check=True)
        game, report, wrong = (os.path.join(work, it) for it in ("game.toml", "report", "wrong"))
        for path, text in ((game, INSPECTION), (report, SMALL), (wrong, SMALL.replace("value 11 3", "value 4 1"))):
            with open(path, "w") as file:
                file.write(text)
        airport = os.path.join(TOP, "examples", "airport.toml")
        solved = os.path.join(work, "solved")
        with open(solved, "wb") as file:
            file.write(subprocess.run([PROGRAM, "solve", airport], capture_output=True, check=True).stdout)
        for words in (
            ["solve", os.path.join(TOP, "examples", "two-targets.toml")],
            ["solve", airport],
            ["solve", game],
            ["check", airport, solved],
            ["show", airport, solved],
            ["check", game, report],
            ["show", game, report],
            ["roster", airport, solved, "--seed", "7"],
            ["roster", game, report],
            ["roster", game, wrong],
            ["check", game, wrong],
            ["solve", report],
            ["solve"],
        ):
            count, own = tried(library, words)
            print(f"{words[0]}: {count} requests for memory, then status {own[0]}")


if __name__ == "__main__":
    if not os.path.exists(PROGRAM):
        sys.exit("no built program: run .ci/run first")
    main()
