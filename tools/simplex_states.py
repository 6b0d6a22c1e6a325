#!/usr/bin/env python3
"""The run of the lexicographic simplex method on a small program, state by state, without the method's own steps.

    tools/simplex_states.py PROGRAM [PIVOTS [LOOKS]]

PROGRAM is a Python list of columns, each a cost and its entries by row: '[(4, [1, 1]), (3, [1, -2])]'. The program asks for the greatest cost of a
combination of columns, none below 0, that is at most 1 in row 0 and at most 0 in each other row. Prints each state (the basis by row, its lists, the
multipliers and their denominator) and how the run ends. Each state is found anew from its basis by solving equations over fractions; what is formed
on the way is formed in the stated order, so that the first operation that leaves 128 bits is told with the number of its value and its operands.
"""
import ast
import sys
from fractions import Fraction
from math import gcd, lcm


class Misfit(Exception):
    """The number of a value, and its first operation that doesn't fit."""

    def __str__(self):
        return f"wide {self.args}"


def formed(name, word, left, right):
    value = {"sum": left + right, "less": left - right, "times": left * right}[word]
    if not -(2**127) <= value < 2**127:
        raise Misfit(name, word, left, right)
    return value


def product(name, places, entries):
    total = 0
    for place, entry in zip(places, entries):
        total = formed(name, "sum", total, formed(name, "times", place, entry))
    return total


def inverse(rows):
    """The inverse of a square of whole numbers."""
    size = len(rows)
    table = [[Fraction(it) for it in row] + [Fraction(i == j) for j in range(size)] for i, row in enumerate(rows)]
    for j in range(size):
        pivot = next(i for i in range(j, size) if table[i][j] != 0)
        table[j], table[pivot] = table[pivot], table[j]
        table[j] = [it / table[j][j] for it in table[j]]
        for i in range(size):
            if i != j:
                factor = table[i][j]
                table[i] = [a - factor * b for a, b in zip(table[i], table[j])]
    return [row[size:] for row in table]


def whole(numbers):
    """The multiple of fractions, by a number above 0, that is whole and has no common divisor."""
    scale = lcm(*(it.denominator for it in numbers))
    parts = [int(it * scale) for it in numbers]
    return [it // gcd(*parts) for it in parts]


class Program:
    def __init__(self, columns):
        self.columns, self.height = columns, len(columns[0][1])

    def entries(self, member):
        kind, number = member
        return [int(j == number) for j in range(self.height)] if kind == "slack" else self.columns[number][1]

    def cost(self, member):
        kind, number = member
        return 0 if kind == "slack" else self.columns[number][0]

    def state(self, basis):
        """The lists, the multipliers and their denominator, from the basis alone."""
        lists = inverse([[self.entries(it)[j] for it in basis] for j in range(self.height)])
        prices = [sum(self.cost(it) * row[j] for it, row in zip(basis, lists)) for j in range(self.height)]
        *y, rho = whole(prices + [Fraction(1)])
        return [whole(row) for row in lists], y, rho

    def entering(self, y, rho, looks):
        """The member that enters, None where none does, or 'looks' where they are spent."""
        for i, it in enumerate(y):
            if it < 0:
                return ("slack", i)
        for k, (cost, entries) in enumerate(self.columns):
            if k >= looks:
                return "looks"
            worth = formed(2, "times", rho, cost)
            if worth > product(2, y, entries):
                return ("column", k)
        return None

    def leaving(self, member, lists, y, rho):
        """The row that leaves; all that a move forms is formed."""
        entries = self.entries(member)
        q = [product(2, row, entries) for row in lists]
        r = min((k for k in range(self.height) if q[k] > 0), key=lambda k: [Fraction(it, q[k]) for it in lists[k]])
        for k, row in enumerate(lists):
            if k != r:
                for a, b in zip(row, lists[r]):
                    formed(3, "less", formed(3, "times", a, q[r]), formed(3, "times", q[k], b))
        gap = product(2, y, entries)
        gap = formed(2, "less", gap, formed(2, "times", rho, self.cost(member)))
        for a, b in zip(y + [rho], lists[r] + [0]):
            formed(3, "less", formed(3, "times", a, q[r]), formed(3, "times", gap, b))
        return r


def run(program, pivots, looks):
    """The states, and how the run ends."""
    basis = [("slack", i) for i in range(program.height)]
    states = []
    while True:
        lists, y, rho = program.state(basis)
        states.append((list(basis), lists, y, rho))
        try:
            member = program.entering(y, rho, looks)
            if member is None:
                return states, "done"
            if member == "looks":
                return states, "looks spent"
            if len(states) > pivots:
                return states, "pivots spent"
            basis[program.leaving(member, lists, y, rho)] = member
        except Misfit as misfit:
            return states, misfit


def main():
    if len(sys.argv) not in (2, 3, 4):
        sys.exit(__doc__)
    pivots, looks = (int(it) for it in (sys.argv[2:] + ["1000", "1000"][len(sys.argv) - 2 :]))
    states, end = run(Program(ast.literal_eval(sys.argv[1])), pivots, looks)
    for basis, lists, y, rho in states:
        print(" ".join(f"{kind}{number}" for kind, number in basis), lists, y, rho)
    print(end)


if __name__ == "__main__":
    main()
