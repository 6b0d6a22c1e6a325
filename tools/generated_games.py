#!/usr/bin/env python3
"""The game file of a shape and a seed, worked out apart from the program: `generated_games.py SHAPE SEED` writes it.

With `--sum` it writes the length of the file and its sum of Fowler, Noll and Vo with 64 bits.
"""
import sys

from roster_order import words


def quoted(names):
    return ", ".join(f'"{name}"' for name in names)


def named(letter, count):
    return [f"{letter}{i + 1}" for i in range(count)]


def lists(rows):
    return ", ".join("[" + ", ".join(map(str, row)) + "]" for row in rows)


def lone_type(rows):
    return f'[[type]]\nname = "a1"\nprior = 1\npayoffs = [{lists(rows)}]\n'


def free(draw, targets, patrols):
    rows = []
    for _ in range(targets):
        gap = 2 ** (10 + next(draw) % 11)
        covered = -(next(draw) % 1000)
        gain = next(draw) % 1000
        rows.append((gain, -1 - next(draw) % 1000, covered, covered + gap))
    head = f'version = 1\nform = "security"\nscale = 4294967296\npatrols = {patrols}\n'
    return head + f'targets = [{quoted(named("t", targets))}]\n\n' + lone_type(rows)


def blocks(draw, resources, width, span):
    text = f'version = 1\nform = "security"\ntargets = [{quoted(named("t", resources * width))}]\n\n'
    shares, count = [], 0
    for block in range(resources):
        own = [f"t{block * width + i + 1}" for i in range(width)]
        schedules = [[t] for t in own] + [[t, u] for i, t in enumerate(own) for u in own[i + 1:]]
        shares.append([f"s{count + i + 1}" for i in range(len(schedules))])
        for targets in schedules:
            count += 1
            text += f'[[schedule]]\nname = "s{count}"\ntargets = [{quoted(targets)}]\n\n'
    for r, share in enumerate(shares):
        text += f'[[resource]]\nname = "r{r + 1}"\nschedules = [{quoted(share)}]\n\n'
    pays = [1 + next(draw) % span for _ in range(resources * width)]
    return text + lone_type((0, -pay, 0, pay) for pay in pays)


def matrix(draw, rows, actions, types):
    text = f'version = 1\nform = "matrix"\nrows = [{quoted(named("r", rows))}]\n'
    for l in range(types):
        text += f'\n[[type]]\nname = "a{l + 1}"\nprior = 1\nactions = [{quoted(named("x", actions))}]\n'
        for side in ("leader", "follower"):
            text += f"{side} = [{lists([[next(draw) % 21 - 10 for _ in range(actions)] for _ in range(rows)])}]\n"
    return text


def game_text(shape, seed):
    kind, *numbers = shape.split("-")
    return {"free": free, "blocks": blocks, "matrix": matrix}[kind](words(seed), *map(int, numbers))


def main():
    shape, seed = sys.argv[-2], int(sys.argv[-1])
    text = game_text(shape, seed)
    if "--sum" not in sys.argv:
        sys.stdout.write(text)
        return
    total = 0xCBF29CE484222325
    for byte in text.encode():
        total = (total ^ byte) * 0x100000001B3 % 2**64
    print(len(text), total)


if __name__ == "__main__":
    main()
