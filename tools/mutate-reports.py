#!/usr/bin/env python3
"""Runs the built program's `check` and `show` on mutated reports, and compares each answer with that of the checker in tools/report_checker.py.

    tools/mutate-reports.py [CASES] [SEED] [--program PATH]    so many reports, made by the seed
    tools/mutate-reports.py --self-test                        no program: the checker on reports worked out by hand, and on the examples of docs/REPORT.md

The reports are those that `solve` writes, some worked out by hand, of several types and with cover facts too, and right ones made up by the seed for the games of examples/ and for small made-up
games; each with none to three changes. Each run must end within ten seconds with the status, the standard output and the standard error that the
checker tells, and one that refuses must leave standard output empty. Not part of the gate: it needs crates/patrol/out/patrol, as .ci/run leaves it.
"""
import argparse
import itertools
import os
import random
import re
import subprocess
import sys
import tempfile
from fractions import Fraction
from math import gcd

sys.dont_write_bytecode = True
from report_cases import COVERED, COVERED_TWICE, DEEP, IN_A_ROW, INSPECTION, NEIGHBOURS, NESTED, ONE_TARGET, PAIRS, SHARED, SMALL, SPENT, THREE_TYPES, TWO_TARGETS, TWO_TYPES, exchange, self_test
from report_checker import LEAST, MOST, NUMBER, WORD, Game, Ticket, answer, fields_of, read_report, water_bound

TOP = os.path.dirname(os.path.dirname(os.path.abspath(__file__)))
PROGRAM = os.path.join(TOP, "crates", "patrol", "out", "patrol")

# ---- games and reports made up


MARSHALS_BEST = """patrol-report 1
tickets 4 4
t 1 1 1
t 1 1 2
t 1 2 1
t 1 2 2
value -1 4
split 1 4
open
plays 4 7 3
m 1 2 1
m 1 3 1
m 1 4 1
plays 4 7 3
m 1 1 1
m 1 3 1
m 1 4 1
plays 4 7 3
m 1 1 1
m 1 2 1
m 1 4 1
plays 4 7 3
m 1 1 1
m 1 2 1
m 1 3 1
upper -1 4
verdict optimal
end
"""
# a third action, which is never best: its region is empty
NEVER_BEST = """version = 1
form = "matrix"
rows = ["A", "B"]

[[type]]
name = "first"
prior = 1
actions = ["x", "y", "z"]
leader = [[2, 4, 9], [1, 3, 9]]
follower = [[1, 0, -1], [0, 2, -1]]
"""
NEVER_TAKEN = SMALL.replace("split 1 2", "split 1 3").replace("m 1 1 1\n", "m 1 1 1\nplays 1 0 1\nm 1 1 9\n")
EXTREME = [-(2**30), 2**30]


def payoff(draw):
    return draw.choice(EXTREME) if draw.random() < 0.02 else draw.randrange(-5, 6)


def tables(draw, rows, actions):
    return [[payoff(draw) for _ in range(actions)] for _ in range(rows)]


def scaled_payoffs(draw):
    """The payoffs of a target whose gap divides 12."""
    covered, defended = draw.randrange(-5, 6), draw.randrange(-5, 6)
    return [defended, defended - draw.randrange(1, 6), covered, covered + draw.choice([1, 2, 3, 4, 6, 12])]


def listed(draw, table, name, key, members):
    """A schedule or resource with some of these members."""
    some = ", ".join(f'"{it}"' for it in draw.sample(members, draw.randrange(1, min(len(members), 3) + 1)))
    return f'\n[[{table}]]\nname = "{name}"\n{key} = [{some}]\n'


def made_up_game(draw):
    """The text of a small game of one type."""
    kind = draw.choice(["matrix", "patrols", "scale", "resources", "resources"])
    goals = [f"g{i + 1}" for i in range(draw.randrange(1, 5))]
    quoted_goals = ", ".join(f'"{it}"' for it in goals)
    text = f'version = 1\nform = "{"matrix" if kind == "matrix" else "security"}"\n{"rows" if kind == "matrix" else "targets"} = [{quoted_goals}]\n'
    if kind in ("patrols", "scale"):
        text += f"patrols = {draw.randrange(0, 4)}\n" + ("scale = 12\n" if kind == "scale" else "")
    if kind == "resources":
        schedules = [f"s{i + 1}" for i in range(draw.randrange(1, 5))]
        resources = [f"r{i + 1}" for i in range(draw.randrange(0, 4))]
        text += "" if resources else "resource = []\n"
        text += "".join(listed(draw, "schedule", it, "targets", goals) for it in schedules)
        text += "".join(listed(draw, "resource", it, "schedules", schedules) for it in resources)
    text += f'\n[[type]]\nname = "thief"\nprior = {1 if kind == "scale" else draw.choice([1, 1, 2, 7, 2**20])}\n'
    if kind == "matrix":
        actions = draw.randrange(1, 5)
        names = ", ".join(f'"x{i + 1}"' for i in range(actions))
        return text + f"actions = [{names}]\nleader = {tables(draw, len(goals), actions)}\nfollower = {tables(draw, len(goals), actions)}\n"
    return text + f"payoffs = {[scaled_payoffs(draw) for _ in goals] if kind == 'scale' else tables(draw, len(goals), 4)}\n"


def size(draw):
    """A number of at least 1, now and then one of more than a hundred bits."""
    return draw.randrange(1, 2 ** draw.choice([1, 1, 1, 2, 2, 2, 3, 3, 4, 4, 6, 8, 30, 60, 97, 110, 118, 121]))


def made_up_tickets(draw, game):
    """Different legal lists of choices with weights in lowest terms."""
    if game.is_matrix:
        every = [[row] for row in range(1, len(game.goals) + 1)]
    else:
        every = [list(it) for it in itertools.islice(itertools.product(*(range(len(own) + 1) for own in game.choices)), 3000)]
    some = sorted(draw.sample(every, draw.randrange(1, min(len(every), 5) + 1)))
    weights = [size(draw) for _ in some]
    return [Ticket(3 + i, weight // gcd(*weights), choices) for i, (weight, choices) in enumerate(zip(weights, some))]


def made_up_fact(draw, game, a):
    """The lines of a fact over plays for an action, true and as sharp as its marks allow, and the bound that it has."""
    rho = size(draw)
    others = [b for b in range(1, game.actions(1) + 1) if b != a]
    marks = {b: draw.randrange(1, 3 * rho + 1) for b in sorted(draw.sample(others, draw.randrange(0, len(others) + 1)))}
    worth = lambda play: rho * game.prior(1) * (game.pay_d(1, play, a) + game.shift)
    regret = lambda play: sum(v * (game.pay_a(1, play, b) - game.pay_a(1, play, a)) for b, v in marks.items())
    mu = max(0, max(worth(play) - regret(play) for play in game.all_plays()))
    lines = [f"plays {rho} {mu} {len(marks)}"] + [f"m 1 {b} {v}" for b, v in marks.items()]
    return lines, None if mu == 0 else Fraction(mu, rho * game.prior(1)) - game.shift


def made_up_tree(draw, game):
    """The lines of a tree that holds, and the bounds of its leaves."""
    if game.scale > 0:
        j = draw.randrange(len(game.goals))
        level = Fraction(game.types[0]["payoffs"][j][2])
        return [f"water {fields_of(level)} target {j + 1}"], [water_bound(game, level)]
    lines, bounds = [f"split 1 {game.actions(1)}", "open"], []
    for a in range(1, game.actions(1) + 1):
        more, bound = (["open"], Fraction(game.greatest[0])) if draw.random() < 0.2 else made_up_fact(draw, game, a)
        lines += more
        bounds += [] if bound is None else [bound]
    return lines, bounds


def made_up_report(draw, game, tree=None):
    """The text of a report that is right but for sums that may not fit: some tickets, with a tree that holds or the one that is given."""
    tickets = made_up_tickets(draw, game)
    plays = [game.play(it.choices) for it in tickets]
    total = sum(it.weight for it in tickets)
    gains = {a: sum(it.weight * game.pay_a(1, play, a) for it, play in zip(tickets, plays)) for a in range(1, game.actions(1) + 1)}
    best = [a for a, gain in gains.items() if gain == max(gains.values())]
    value = Fraction(max(sum(it.weight * game.pay_d(1, play, a) for it, play in zip(tickets, plays)) for a in best), total)
    lines, bounds = tree or made_up_tree(draw, game)
    upper = max([value] + bounds)
    fix = f"1 1 {draw.randrange(1, game.actions(1) + 1)}"
    wide = f"wide {draw.randrange(1, 8)} {draw.choice(['sum', 'less', 'times'])} {MOST} -3 2 {fix}"
    gap = draw.choice([f"nodes {size(draw) % WORD + 1}", f"pivots 7 {fix}", f"looks 9 0 {fix}", wide])
    head = ["patrol-report 1", f"tickets {len(tickets)} {total}"] + [" ".join(map(str, ["t", it.weight] + it.choices)) for it in tickets]
    tail = [f"upper {fields_of(upper)}", "verdict optimal" if upper == value else f"verdict gap {gap}", "end"]
    return "".join(line + "\n" for line in head + [f"value {fields_of(value)}"] + lines + tail)


# ---- mutations

POOL = [b"open", b"split 1 1", b"split 1 2", b"plays 1 2 0", b"plays 1 0 0", b"cover 1 2 0", b"water 4 3 resources", b"water 0 1 target 1"]
POOL += [b"cap 2 plain 4", b"cap 1 proved 4 1", b"m 1 1 1", b"c 1 1", b"t 1 1", b"value 1 1", b"upper 1 1", b"end", b"", b"patrol-report 1", b"tickets 1 1"]
POOL += [b"verdict optimal", b"verdict gap nodes 1", b"verdict gap pivots 1 1 1 1", b"verdict gap looks 1 0 1 1 1", b"verdict gap wide 4 sum 1 1 0 1 1 1"]
WORDS = sorted({word for line in POOL for word in line.split(b" ") if not word.isdigit()} | {b"less", b"times", b"x", b"Open", b"open\r", b"\xc3\xa9"})
NINE_DEEP = b"split 1 1\nopen\n" * 8 + b"split 1 1"
HUGE = [2**31, 2**63, 2**64, 2**126, MOST, MOST + 1, LEAST, LEAST - 1, 10**60, 65535, 65536, 1535, 1536]


def other_number(draw, text):
    """Another spelling or another number in the place of one."""
    number = int(text)
    kind = draw.randrange(10)
    if kind < 5:
        return b"%d" % (number + draw.choice([-1, 1]))
    if kind < 9:
        return b"%d" % draw.choice([-number, 0, draw.choice(HUGE), draw.randrange(-9, 10), number * 2])
    return draw.choice([b"0" + text, b"+" + text, b"-0", text + b".0", b"", text + b" ", text + b"_0"])


def with_other_lines(draw, text):
    """One line dropped, repeated, exchanged with another, put elsewhere or made another."""
    lines = text.split(b"\n")
    i, j = draw.randrange(len(lines)), draw.randrange(len(lines))
    kind = draw.randrange(6)
    if kind == 0:
        del lines[i]
    elif kind == 1:
        lines.insert(i, lines[i])
    elif kind == 2:
        exchange(lines, i, j)
    elif kind == 3:
        lines.insert(j, lines.pop(i))
    elif kind == 4:
        lines[i] = draw.choice(POOL + [NINE_DEEP])
    else:
        lines.insert(i, draw.choice(POOL + [NINE_DEEP]))
    return b"\n".join(lines)


def other_size(draw, text):
    """Another number of at least 1, as a rule a near one."""
    number, edge = int(text), MOST // draw.randrange(1, 13) + draw.choice([-1, 0, 1])
    return b"%d" % max(1, draw.choice([number - 1, number - 1, number + 1, number + 1, 2 * number, size(draw), edge]))


def near_fraction(draw, num, den):
    """A fraction in lowest terms with the same denominator."""
    return b"%d" % (int(num) + draw.choice([-1, 1, draw.randrange(-9, 10)]) * int(den))


def without_mark(lines, i):
    """The lines without the mark at this place, with its fact's count of marks lowered."""
    head = max(at for at in range(i) if not lines[at].startswith(b"m "))
    fields = lines[head].split(b" ")
    if len(fields) == 4 and fields[3].isdigit():
        lines[head] = b" ".join(fields[:3] + [b"%d" % (int(fields[3]) - 1)])
    del lines[i]


def without_fact(lines, i):
    """The lines with `open` in the place of a fact."""
    end = i + 1
    while end < len(lines) and lines[end].startswith(b"m "):
        end += 1
    lines[i:end] = [b"open"]


def with_weight_and_total(draw, lines, i):
    """The lines with another weight of one ticket, and with the total that it gives."""
    fields, head = lines[i].split(b" "), lines[1].split(b" ")
    weight = other_size(draw, fields[1])
    if len(head) == 3 and NUMBER.fullmatch(head[2]):
        lines[1] = b" ".join(head[:2] + [b"%d" % (int(head[2]) - int(fields[1]) + int(weight))])
    lines[i] = b" ".join([fields[0], weight] + fields[2:])


def kept_in_form(draw, text):
    """The text after one change that as a rule leaves it a report text, so that the tests behind the reading are met."""
    lines = text.split(b"\n")
    i = draw.choice([at for at, line in enumerate(lines) if re.fullmatch(rb"(t|value|upper|water|plays|m|open|verdict|tickets)( .*)?", line)] or [0])
    fields = lines[i].split(b" ")
    word, numbers = fields[0], [at for at, field in enumerate(fields) if NUMBER.fullmatch(field)]
    kind = draw.randrange(4)
    if word in (b"value", b"upper", b"water") and numbers[:2] == [1, 2]:
        fields[1] = near_fraction(draw, fields[1], fields[2])
    elif word == b"open":
        fields = [NINE_DEEP if kind == 0 else b"plays %d %d 0" % (draw.randrange(1, 4), draw.randrange(0, 9))]
    elif word == b"verdict":
        fields = [draw.choice([b"verdict optimal", b"verdict gap nodes 3", b"verdict gap wide 4 sum 1 1 0 1 1 1"])]
    elif word == b"m" and kind == 0:
        without_mark(lines, i)
        return b"\n".join(lines)
    elif word == b"plays" and kind == 0:
        without_fact(lines, i)
        return b"\n".join(lines)
    elif word == b"t" and kind < 2 and 1 in numbers:
        with_weight_and_total(draw, lines, i)
        return b"\n".join(lines)
    elif numbers:
        at = draw.choice(numbers[:2] if word in (b"plays", b"t") else numbers[-1:])
        fields[at] = other_size(draw, fields[at])
    lines[i] = b" ".join(fields)
    return b"\n".join(lines)


def mutated(draw, text):
    """The text after one change."""
    kind = draw.randrange(40)
    if kind == 0:
        at = draw.randrange(len(text) + 1)
        return text[:at] + bytes([draw.choice([draw.randrange(256), draw.randrange(32, 127), 10, 32])]) + text[at + 1 :]
    if kind == 1:
        return text[: draw.randrange(len(text) + 1)]
    if kind < 6:
        return with_other_lines(draw, text)
    if kind < 26:
        return kept_in_form(draw, text)
    if kind < 28:
        found = list(re.finditer(rb"[^ \n]+", text))
        new = lambda old: draw.choice(WORDS)
    else:
        found = list(re.finditer(rb"(?<=[ ])-?[0-9]+(?=[ \n])", text))
        new = lambda old: other_number(draw, old)
    if not found:
        return text
    it = draw.choice(found)
    return text[: it.start()] + new(it.group()) + text[it.end() :]


def facts_times(draw, text):
    """The text with the numbers of each fact over plays multiplied: it says the same."""
    by = draw.choice([2, 3, 10, 2**64, 2**100])
    lines = []
    for line in text.split(b"\n"):
        fields = line.split(b" ")
        if re.fullmatch(rb"plays [0-9]+ [0-9]+ [0-9]+", line):
            line = b"plays %d %d %s" % (int(fields[1]) * by, int(fields[2]) * by, fields[3])
        elif re.fullmatch(rb"m [0-9]+ [0-9]+ [0-9]+", line):
            line = b"m %s %s %d" % (fields[1], fields[2], int(fields[3]) * by)
        lines.append(line)
    return b"\n".join(lines)


# ---- the program beside the checker


def examples():
    """The texts of the example games."""
    folder = os.path.join(TOP, "examples")
    for name in sorted(os.listdir(folder)):
        if name.endswith(".toml"):
            with open(os.path.join(folder, name), encoding="utf-8") as file:
                yield file.read()


class Bench:
    """Games in files of a folder, each with reports to start from."""

    def __init__(self, program, folder, draw):
        self.program, self.folder, self.draw = program, folder, draw
        self.games = []
        for text in list(examples()) + [INSPECTION, NEVER_BEST, ONE_TARGET, NEIGHBOURS, IN_A_ROW] + [TWO_TYPES, THREE_TYPES, TWO_TARGETS] * 8 + [made_up_game(draw) for _ in range(60)]:
            self.add(text)

    def add(self, text):
        path = os.path.join(self.folder, f"game-{len(self.games)}.toml")
        with open(path, "w", encoding="utf-8") as file:
            file.write(text)
        game = Game(text)
        self.games.append((path, game, self.reports(path, text, game)))

    def reports(self, path, text, game):
        """Reports to start from: what `solve` writes, those worked out by hand, and some made up."""
        if len(game.types) > 1:
            return [{THREE_TYPES: DEEP, TWO_TARGETS: COVERED_TWICE}.get(text, NESTED).encode()]
        found = [made_up_report(self.draw, game).encode() for _ in range(6)]
        if game.scale > 0:
            solved = subprocess.run([self.program, "solve", path], capture_output=True, timeout=10)
            if solved.returncode != 0:
                sys.exit(f"no report on this game: {solved.stderr.decode().strip()}\n{text}")
            report = read_report(solved.stdout)
            water = re.search(r"^water .*$", solved.stdout.decode(), re.M)[0]
            tree = [water], [water_bound(game, report.tree.level)]
            found += [solved.stdout] * 4 + [made_up_report(self.draw, game, tree).encode() for _ in range(2)]
        if "oslo" in text:
            found += [MARSHALS_BEST.encode()] * 4
        worked = {NEVER_BEST: NEVER_TAKEN, ONE_TARGET: COVERED, NEIGHBOURS: SHARED, IN_A_ROW: PAIRS}.get(text)
        found += [worked.encode()] * 3 if worked else []
        if game.is_matrix and game.types[0]["leader"] == [[2, 4], [1, 3]]:
            found += [SMALL.encode()] * 4 + [SPENT.encode()] * 2
        return found

    def fault(self, path, game, report, command):
        """What is wrong with an answer of the program, or nothing, and the answer that is expected."""
        with open(os.path.join(self.folder, "report"), "wb") as file:
            file.write(report)
        status, out, err = answer(game, report, command)
        expected = status, out.encode(), err.encode()
        try:
            ran = subprocess.run([self.program, command, path, file.name], capture_output=True, timeout=10)
        except subprocess.TimeoutExpired:
            return "it did not end in ten seconds", expected
        if ran.returncode not in (0, 10) and ran.stdout:
            return f"refused with {ran.returncode}, and yet wrote {ran.stdout!r}", expected
        told = ran.returncode, ran.stdout, ran.stderr
        return (None if told == expected else f"the program: {told}, the checker: {expected}"), expected

    def case(self):
        """A game with a report after none to three changes."""
        path, game, reports = self.draw.choice(self.games)
        report = self.draw.choice(reports)
        if self.draw.random() < 0.15:
            report = facts_times(self.draw, report)
        for _ in range(self.draw.choice([0, 1, 1, 1, 1, 1, 1, 2, 3])):
            report = mutated(self.draw, report)
        return path, game, report


def compare(program, cases, seed):
    """Compares the program with the checker, prints each disagreement, and says how often each answer was expected."""
    draw, seen, failed = random.Random(seed), {}, 0
    with tempfile.TemporaryDirectory() as folder:
        bench = Bench(program, folder, draw)
        for _ in range(cases):
            path, game, report = bench.case()
            command = draw.choice(["check", "check", "check", "show"])
            fault, (status, out, err) = bench.fault(path, game, report, command)
            kind = err.decode().split(" at ")[0].strip() if err else "shown" if command == "show" else " ".join(out.decode().split(" ")[:2])
            seen[kind] = seen.get(kind, 0) + 1
            if fault:
                failed += 1
                with open(path, "rb") as file:
                    sys.stdout.buffer.write(f"failed: {command}: {fault}\n".encode() + file.read() + report + b"\n")
                    sys.stdout.flush()
    for kind in sorted(seen):
        print(f"{seen[kind]:8} {kind}")
    print(f"{cases} cases, {failed} failed")
    return 1 if failed else 0


def main():
    parser = argparse.ArgumentParser(description="Mutated reports for the program, beside a checker of its own.")
    parser.add_argument("cases", nargs="?", type=int, default=2000)
    parser.add_argument("seed", nargs="?", type=int, default=1)
    parser.add_argument("--program", default=PROGRAM)
    parser.add_argument("--self-test", action="store_true")
    options = parser.parse_args()
    if options.self_test:
        return self_test()
    if not os.path.exists(options.program):
        sys.exit("no built program: run .ci/run first")
    return compare(options.program, options.cases, options.seed)


if __name__ == "__main__":
    sys.exit(main())
