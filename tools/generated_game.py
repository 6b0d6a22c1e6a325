#!/usr/bin/env python3
"""A generated game, computed apart from the program.

    tools/generated_game.py SHAPE SEED

prints the game file of a shape and a seed, as `make` has to write it. SHAPE is `free-T-R`, `blocks-B-W-S` or `matrix-N-A-L`, as
docs/GAME-FILE.md says; the words that are drawn are those of tools/roster_order.py.
"""
import itertools
import sys

from roster_order import words


def quoted(names):
    return "[" + ", ".join(f'"{name}"' for name in names) + "]"


def rows(table):
    return "[" + ", ".join("[" + ", ".join(map(str, row)) + "]" for row in table) + "]"


def numbered(front, count, first=1):
    return [f"{front}{number}" for number in range(first, first + count)]


def free(draws, targets, patrols):
    payoffs = []
    for _ in range(targets):
        gap, least, best, worst = (next(draws) for _ in range(4))
        covered = -(least % 1000)
        payoffs.append([best % 1000, -1 - worst % 1000, covered, covered + 2 ** (10 + gap % 11)])
    head = f'form = "security"\nscale = {2**32}\npatrols = {patrols}\ntargets = {quoted(numbered("t", targets))}\n'
    return head + f'\n[[type]]\nname = "a1"\nprior = 1\npayoffs = {rows(payoffs)}\n'


def blocks(draws, count, width, span):
    text = f'form = "security"\ntargets = {quoted(numbered("t", count * width))}\n'
    tables, held = "", []
    number = 0
    for block in range(count):
        targets = numbered("t", width, block * width + 1)
        names = []
        for covered in [[target] for target in targets] + [list(pair) for pair in itertools.combinations(targets, 2)]:
            number += 1
            names.append(f"s{number}")
            tables += f'\n[[schedule]]\nname = "s{number}"\ntargets = {quoted(covered)}\n'
        held.append(names)
    for block, names in enumerate(held, 1):
        tables += f'\n[[resource]]\nname = "r{block}"\nschedules = {quoted(names)}\n'
    losses = [1 + next(draws) % span for _ in range(count * width)]
    payoffs = rows([0, -loss, 0, loss] for loss in losses)
    return text + tables + f'\n[[type]]\nname = "a1"\nprior = 1\npayoffs = {payoffs}\n'


def matrix(draws, count, actions, types):
    text = f'form = "matrix"\nrows = {quoted(numbered("r", count))}\n'
    for number in range(1, types + 1):
        leader, follower = ([[next(draws) % 21 - 10 for _ in range(actions)] for _ in range(count)] for _ in range(2))
        text += f'\n[[type]]\nname = "a{number}"\nprior = 1\nactions = {quoted(numbered("x", actions))}\nleader = {rows(leader)}\nfollower = {rows(follower)}\n'
    return text


def main():
    shape, *numbers = sys.argv[1].split("-")
    kinds = {"free": free, "blocks": blocks, "matrix": matrix}
    print("version = 1\n" + kinds[shape](words(int(sys.argv[2])), *map(int, numbers)), end="")


if __name__ == "__main__":
    main()
