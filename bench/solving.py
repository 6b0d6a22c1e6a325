#!/usr/bin/env python3
"""Times the proved program on games without a scale, beside HiGHS solving the same tree of node programs in the same run.

The program is crates/patrol/out/patrol, as `.ci/run` leaves it, or the one that PATROL names. The nodes are those that the report holds facts
of: the actions of each proved cap, and the prefixes of the tree. For each of them the same linear program over all plays is handed to HiGHS by
`scipy.optimize.linprog` (Debian's python3-scipy), whose arithmetic is not exact and which forms no certificate. Prints for each game: the plays,
the nodes, the seconds of `solve` (least of five runs, from the file to the report in a file) and its peak memory, the seconds of HiGHS (the calls
alone; the tables are formed before), their ratio, and the seconds of `check` of the report.
"""
import os
import subprocess
import sys
import tempfile
import time

import numpy
from scipy.optimize import linprog

sys.path.insert(0, os.path.join(os.path.dirname(os.path.abspath(__file__)), "..", "tools"))
from origami import PROGRAM
from report_checker import Fact, Game, Open, Split, read_report
from reports import timed

SHAPES = (("matrix-50-10-2", 1), ("matrix-50-10-4", 1), ("matrix-20-5-8", 1))

TERMINALS = ((2, -8, -2, 10), (1, -6, -4, 8), (1, -5, 0, 6), (1, -4, -2, 4), (1, -3, -1, 3), (0, -2, -2, 2), (0, -1, -3, 1), (0, -1, -4, 0))
# a second type, to whom the small terminals are worth as much as the great ones to the first
OTHERS = tuple((c, u, ac, au) for c, u, ac, au in reversed(TERMINALS))


def airport(types):
    """Eight terminals and three patrols, without a scale."""
    text = 'version = 1\nform = "security"\npatrols = 3\ntargets = [' + ", ".join(f'"t{i}"' for i in range(1, 9)) + "]\n"
    for name, rows in types:
        text += f'\n[[type]]\nname = "{name}"\nprior = 1\npayoffs = [' + ", ".join(str(list(row)) for row in rows) + "]\n"
    return text


def games(folder):
    """The games by name, each in a file."""
    for shape, seed in SHAPES:
        path = os.path.join(folder, shape + ".toml")
        with open(path, "wb") as file:
            subprocess.run([PROGRAM, "make", shape, str(seed)], stdout=file, check=True)
        yield shape, path
    for name, types in (("airport, one type", (("a", TERMINALS),)), ("airport, two types", (("a", TERMINALS), ("b", OTHERS)))):
        path = os.path.join(folder, f"airport-{len(types)}.toml")
        with open(path, "w") as file:
            file.write(airport(types))
        yield name, path


def tree_nodes(tree, acts):
    """The prefixes whose facts a tree holds."""
    if isinstance(tree, Fact):
        yield 1, acts
    elif isinstance(tree, Split):
        if not isinstance(tree.base, Open):
            yield 1, acts
        for a, part in enumerate(tree.parts):
            yield from tree_nodes(part, acts + [a + 1])


def nodes_of(report):
    """The nodes that a report has facts of: the first type that is fixed, and the actions from it on."""
    for cap in report.caps:
        for a in range(len(cap.proof)):
            yield cap.l, [a + 1]
    yield from tree_nodes(report.tree, [])


def tables_of(game):
    """What each play pays both sides, for each type and action."""
    plays = list(game.all_plays())
    pays_d = [numpy.array([[game.pay_d(l, play, a) for play in plays] for a in range(1, game.actions(l) + 1)], dtype=float) for l in game.all_types()]
    pays_a = [numpy.array([[game.pay_a(l, play, a) for play in plays] for a in range(1, game.actions(l) + 1)], dtype=float) for l in game.all_types()]
    return len(plays), pays_d, pays_a


def highs_seconds(game, nodes, tables):
    """The seconds of the calls, and the greatest bound of a whole prefix."""
    plays, pays_d, pays_a = tables
    seconds = 0.0
    ones = numpy.ones((1, plays))
    for first, acts in nodes:
        gain, rows = numpy.zeros(plays), []
        for l, a in enumerate(acts, first):
            gain += game.prior(l) * pays_d[l - 1][a - 1]
            rows.append(numpy.delete(pays_a[l - 1] - pays_a[l - 1][a - 1], a - 1, axis=0))
        limits = numpy.concatenate(rows)
        start = time.perf_counter()
        found = linprog(-gain, A_ub=limits if len(limits) else None, b_ub=numpy.zeros(len(limits)) if len(limits) else None, A_eq=ones, b_eq=[1.0], method="highs")
        seconds += time.perf_counter() - start
        if found.status not in (0, 2):
            sys.exit(f"HiGHS: status {found.status}")
    return seconds


def main():
    print("| Game | Plays | Nodes | `solve`, s | Peak memory, MB | HiGHS, s | Ratio | `check`, s |")
    print("|---|---|---|---|---|---|---|---|")
    with tempfile.TemporaryDirectory() as folder:
        out, again = os.path.join(folder, "report"), os.path.join(folder, "again")
        for name, path in games(folder):
            seconds, memory = timed(["solve", path], out, 0)
            checked, _ = timed(["check", path, out], again, 0)
            game, report = Game(open(path).read()), read_report(open(out, "rb").read())
            nodes = list(nodes_of(report))
            tables = tables_of(game)
            beside = min(highs_seconds(game, nodes, tables) for _ in range(3))
            print(
                f"| {name} | {tables[0]:,} | {len(nodes):,} | {seconds:.4f} | {memory:.0f} | {beside:.4f} | {seconds / beside:.2f} | {checked:.4f} |",
                flush=True,
            )


if __name__ == "__main__":
    main()
