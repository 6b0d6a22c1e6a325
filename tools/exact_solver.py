#!/usr/bin/env python3
"""A small exact solver that has no code in common with the program: for games whose plays can be listed.

    tools/exact_solver.py GAME             prints a report of a best commitment
    tools/exact_solver.py --self-test N    solves N made-up games, and has each report accepted by tools/report_checker.py

One linear program for each list of actions, one action a type (the multiple-LPs method of Conitzer and Sandholm, 2006), by the primal simplex method
over fractions with Bland's rule. It makes no use of bounds to leave a list out, so it is slow: a few types with a few actions.
"""
import itertools
import os
import random
import sys
from fractions import Fraction
from math import gcd, lcm

sys.dont_write_bytecode = True
from report_checker import Game, Ticket, answer, coverage_costs, coverage_rows, fields_of, value_of


# ---- linear programs


def greatest(costs, rows):
    """The greatest cost of amounts, none below 0, where row 0 is at most 1 and each other row at most 0.

    `rows` has for each row an entry for each column. Gives the amounts by column and the multipliers by row; both reach the greatest cost. The
    method is that of the tableau, with Bland's rule: of the columns that raise the cost the first enters, and of the rows that stop it the one
    whose column is first leaves."""
    height, width = len(rows), len(costs)
    table = [[Fraction(it) for it in row] + [Fraction(i == j) for j in range(height)] + [Fraction(i == 0)] for i, row in enumerate(rows)]
    reduced = [Fraction(it) for it in costs] + [Fraction(0)] * (height + 1)
    basis = [width + i for i in range(height)]
    while True:
        enters = next((j for j in range(width + height) if reduced[j] > 0), None)
        if enters is None:
            break
        stops = [(table[i][-1] / table[i][enters], basis[i], i) for i in range(height) if table[i][enters] > 0]
        leaves = min(stops)[2]
        pivot = table[leaves][enters]
        table[leaves] = [it / pivot for it in table[leaves]]
        for i in range(height):
            if i != leaves and table[i][enters] != 0:
                factor = table[i][enters]
                table[i] = [a - factor * b for a, b in zip(table[i], table[leaves])]
        factor = reduced[enters]
        reduced = [a - factor * b for a, b in zip(reduced, table[leaves])]
        basis[leaves] = enters
    amounts = [Fraction(0)] * width
    for i, j in enumerate(basis):
        if j < width:
            amounts[j] = table[i][-1]
    return amounts, [-it for it in reduced[width : width + height]]


def whole(numbers):
    """The least whole number above 0 that makes all of these whole when multiplied by it."""
    return lcm(*(it.denominator for it in numbers))


# ---- facts


def plays_of(game):
    """All legal plays as lists of choices."""
    if game.is_matrix:
        return [[row] for row in range(1, len(game.goals) + 1)]
    return [list(it) for it in itertools.product(*(range(len(own) + 1) for own in game.choices))]


def others(game, fix):
    """For each fixed type each action but the fixed one."""
    return [(l, b) for l, a in fix.items() for b in range(1, game.actions(l) + 1) if b != a]


def over_plays(game, fix, plays):
    """The sharpest fact over plays where these types take these actions: its lines, its rho and mu, and the best tickets of the region."""
    does = [game.play(it) for it in plays]
    costs = [sum(game.prior(l) * (game.pay_d(l, play, a) + game.shift) for l, a in fix.items()) for play in does]
    rows = [[1] * len(plays)] + [[game.pay_a(l, play, b) - game.pay_a(l, play, fix[l]) for play in does] for l, b in others(game, fix)]
    amounts, multipliers = greatest(costs, rows)
    rho = whole(multipliers)
    marks = [(l, b, v * rho) for (l, b), v in zip(others(game, fix), multipliers[1:]) if v > 0]
    mu = multipliers[0] * rho
    total = whole(amounts)
    tickets = [(int(x * total), play) for x, play in zip(amounts, plays) if x > 0] if mu > 0 else []
    return [f"plays {rho} {mu} {len(marks)}"] + [f"m {l} {b} {v}" for l, b, v in marks], rho, int(mu), tickets


def over_coverage(game, fix):
    """The sharpest fact over the coverage table where these types take these actions: its lines, its rho and mu."""
    named = coverage_rows(game, fix)
    columns = ["h"] + [("x", r, j) for r, own in enumerate(game.choices, 1) for j in range(1, len(own) + 1)] + [("y", t) for t in range(1, len(game.goals) + 1)]
    costs = coverage_costs(game, fix)
    rows = [[int(column == "h") for column in columns]] + [[row.get(column, 0) for column in columns] for row in named]
    _, multipliers = greatest([costs.get(column, 0) for column in columns], rows)
    rho = whole(multipliers)
    lines = [(i, v * rho) for i, v in enumerate(multipliers) if i > 0 and v > 0]
    mu = multipliers[0] * rho
    return [f"cover {rho} {mu} {len(lines)}"] + [f"c {row} {v}" for row, v in lines], rho, int(mu)


# ---- the answer


def tickets_of(parts):
    """Tickets in rising order and lowest terms."""
    divisor = gcd(*(weight for weight, _ in parts))
    return [Ticket(3 + i, weight // divisor, choices) for i, (choices, weight) in enumerate(sorted((it, w) for w, it in parts))]


def best_of(game, plays):
    """Tickets with the greatest value, and that value."""
    best, value = None, None
    for acts in itertools.product(*(range(1, game.actions(l) + 1) for l in game.all_types())):
        _, _, mu, parts = over_plays(game, dict(enumerate(acts, 1)), plays)
        if mu == 0:
            continue
        tickets = tickets_of(parts)
        reached = value_of(game, tickets, 0)
        if value is None or reached > value:
            best, value = tickets, reached
    return best, value


class Writer:
    """Writes a tree that closes every list of actions, and chooses by a draw what it may choose: caps, bases, and which facts are over coverage."""

    def __init__(self, game, plays, draw):
        self.game, self.plays, self.draw = game, plays, draw
        self.caps, self.cap_lines = self.caps_of()

    def fact(self, fix):
        if not self.game.is_matrix and self.draw.random() < 0.2:
            return over_coverage(self.game, fix)
        return over_plays(self.game, fix, self.plays)[:3]

    def caps_of(self):
        caps, lines = [], []
        for l in range(2, len(self.game.types) + 1):
            if self.draw.random() < 0.5:
                caps.append(self.game.greatest[l - 1])
                lines.append(f"cap {l} plain {caps[-1]}")
                continue
            facts = [self.fact({l: a}) for a in range(1, self.game.actions(l) + 1)]
            caps.append(max(-(-mu // (rho * self.game.prior(l))) for _, rho, mu in facts if mu > 0) - self.game.shift)
            lines.append(f"cap {l} proved {caps[-1]} {len(facts)}")
            lines += [line for it, _, _ in facts for line in it]
        return caps, lines

    def bound(self, acts, rho, mu):
        rest = sum(self.game.prior(l) * self.caps[l - 2] for l in self.game.all_types() if l > len(acts))
        rest -= self.game.shift * sum(self.game.prior(l) for l in self.game.all_types() if l <= len(acts))
        return Fraction(mu + rho * rest, rho * self.game.prior_total)

    def node(self, acts, value):
        """The lines of a node and the bounds of its leaves; a node whose bound is at most the value is mostly not split. A fact over coverage of a
        full list may leave a gap."""
        lines, rho, mu = self.fact(dict(enumerate(acts, 1)))
        bounds = [] if mu == 0 else [self.bound(acts, rho, mu)]
        is_low = not bounds or bounds[0] <= value
        if len(acts) == len(self.game.types) or is_low and self.draw.random() < 0.9:
            return lines, bounds
        base = lines if self.draw.random() < 0.7 else ["open"]
        l = len(acts) + 1
        parts = [self.node(acts + [a], value) for a in range(1, self.game.actions(l) + 1)]
        return [f"split {l} {len(parts)}"] + base + [line for it, _ in parts for line in it], [it for _, found in parts for it in found]


def report_of(game, draw):
    """The text of a report on a game without a scale whose tickets have the greatest value."""
    plays = plays_of(game)
    tickets, value = best_of(game, plays)
    writer = Writer(game, plays, draw)
    parts = [writer.node([a], value) for a in range(1, game.actions(1) + 1)]
    upper = max([value] + [it for _, found in parts for it in found])
    lines = ["patrol-report 1", f"tickets {len(tickets)} {sum(it.weight for it in tickets)}"]
    lines += [f"t {it.weight} {' '.join(map(str, it.choices))}".rstrip() for it in tickets]
    lines += [f"value {fields_of(value)}"] + writer.cap_lines + [f"split 1 {len(parts)}", "open"] + [line for it, _ in parts for line in it]
    lines += [f"upper {fields_of(upper)}", "verdict optimal" if upper == value else "verdict gap nodes 1", "end"]
    return "".join(line + "\n" for line in lines)


# ---- its own test


def made_up(draw):
    """The text of a small game of one to three types."""
    kind = draw.choice(["matrix", "patrols", "resources"])
    goals = [f"g{i + 1}" for i in range(draw.randrange(1, 4))]
    quoted = lambda names: ", ".join(f'"{it}"' for it in names)
    text = f'version = 1\nform = "{"matrix" if kind == "matrix" else "security"}"\n{"rows" if kind == "matrix" else "targets"} = [{quoted(goals)}]\n'
    if kind == "patrols":
        text += f"patrols = {draw.randrange(0, 3)}\n"
    if kind == "resources":
        names = [f"s{i + 1}" for i in range(draw.randrange(1, 4))]
        for it in names:
            text += f'\n[[schedule]]\nname = "{it}"\ntargets = [{quoted(draw.sample(goals, draw.randrange(1, len(goals) + 1)))}]\n'
        for i in range(draw.randrange(1, 3)):
            text += f'\n[[resource]]\nname = "r{i + 1}"\nschedules = [{quoted(draw.sample(names, draw.randrange(1, len(names) + 1)))}]\n'
    for l in range(draw.choice([1, 1, 2, 2, 3])):
        pays = lambda wide: [[draw.randrange(-6, 7) for _ in range(wide)] for _ in goals]
        text += f'\n[[type]]\nname = "a{l + 1}"\nprior = {draw.choice([1, 1, 2, 5])}\n'
        if kind == "matrix":
            actions = draw.randrange(1, 4)
            text += f"actions = [{quoted([f'x{i + 1}' for i in range(actions)])}]\nleader = {pays(actions)}\nfollower = {pays(actions)}\n"
        else:
            text += f"payoffs = {pays(4)}\n"
    return text


def self_test(count):
    seen, failed = {}, 0
    for seed in range(count):
        draw = random.Random(seed)
        text = made_up(draw)
        game = Game(text)
        report = report_of(game, draw)
        status, _, err = answer(game, report.encode())
        seen[status] = seen.get(status, 0) + 1
        if status not in (0, 10):
            failed += 1
            print(f"failed: seed {seed}: {status} {err}{text}{report}")
    print(f"{count} games, {failed} failed; statuses {dict(sorted(seen.items()))}")
    return 1 if failed else 0


def main():
    if sys.argv[1:2] == ["--self-test"]:
        return self_test(int(sys.argv[2]) if len(sys.argv) > 2 else 200)
    if len(sys.argv) != 2:
        sys.exit(__doc__)
    with open(sys.argv[1], encoding="utf-8") as file:
        game = Game(file.read())
    if game.scale > 0:
        sys.exit("a game with a scale has its own kind of report: patrol solves it")
    sys.stdout.write(report_of(game, random.Random(0)))
    return 0


if __name__ == "__main__":
    sys.exit(main())
