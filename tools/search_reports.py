#!/usr/bin/env python3
"""The report of a search on a game whose plays can be listed, worked out apart from the program.

    tools/search_reports.py GAME [WORD VALUE]..   prints the report and, after it, how many nodes were worked
    tools/search_reports.py --self-test N         on N made-up games: searches in every order and number of lanes come to the greatest value

The words are --nodes, --pivots, --looks, --order (file, best or seeded), --lanes and --seed, with the defaults of the program. The search is made event
by event from its definition: each time, what each lane may do is read off the nodes, and the order names one event. The program of a node is run by
tools/simplex_states.py, which finds each state anew from its basis, and the greatest value beside it by tools/exact_solver.py, which knows no search.
"""
import random
import sys
from fractions import Fraction
from math import gcd

sys.dont_write_bytecode = True
from exact_solver import best_of, made_up, others, plays_of
from report_checker import Game, answer, fields_of
from roster_order import words
from simplex_states import Misfit, Program, formed, product, run

DEFAULTS = {"nodes": 100_000, "pivots": 100_000, "looks": 100_000_000, "order": "file", "lanes": 1, "seed": 0}


def weighed(name, pays, tickets):
    """The sum of weight times pay, one operation at a time."""
    total = 0
    for (weight, _), pay in zip(tickets, pays):
        total = formed(name, "sum", total, formed(name, "times", weight, pay))
    return total


def value_of(game, tickets):
    """The defender value of tickets."""
    worth = 0
    does = [game.play(play) for _, play in tickets]
    for l in game.all_types():
        actions = range(1, game.actions(l) + 1)
        gains = {a: weighed(6, [game.pay_a(l, it, a) for it in does], tickets) for a in actions}
        best = [a for a in actions if gains[a] == max(gains.values())]
        take = max(weighed(6, [game.pay_d(l, it, a) for it in does], tickets) for a in best)
        worth = formed(6, "sum", worth, formed(6, "times", game.prior(l), take))
    return Fraction(worth, formed(7, "times", sum(weight for weight, _ in tickets), game.prior_total))


# ---- nodes: a tuple of the first type that is fixed, and the actions from it on


class Node:
    """What the program of a node comes to: after so many moves its fact and its tickets, or its cause."""

    def __init__(self, search, first, acts):
        game, words = search.game, search.words
        self.first, self.acts = first, acts
        fix = dict(enumerate(acts, first))
        does = [game.play(it) for it in search.plays]
        costs = [sum(game.prior(l) * (game.pay_d(l, it, a) + game.shift) for l, a in fix.items()) for it in does]
        marked = others(game, fix)
        columns = [(cost, [1] + [game.pay_a(l, it, b) - game.pay_a(l, it, fix[l]) for l, b in marked]) for cost, it in zip(costs, does)]
        states, end = run(Program(columns), words["pivots"], words["looks"])
        self.moves = len(states) - 1
        self.fact, self.tickets, self.cause = None, None, None
        named = f"{first} {len(acts)} {' '.join(map(str, acts))}"
        if end == "pivots spent":
            self.cause = f"pivots {words['pivots']} {named}"
        elif end == "looks spent":
            self.cause = f"looks {words['looks']} {self.moves} {named}"
        else:
            try:
                if isinstance(end, Misfit):
                    raise end
                self.close(search, fix, marked, columns, states[-1])
            except Misfit as misfit:
                name, word, left, right = misfit.args
                self.cause = f"wide {name} {word} {left} {right} {self.moves} {named}"

    def close(self, search, fix, marked, columns, state):
        """Forms all that a final state has to give, in the stated order."""
        game = search.game
        basis, lists, y, rho = state
        marks = [(l, b, v) for (l, b), v in zip(marked, y[1:]) if v > 0]
        priors = sum(game.prior(l) for l in fix)
        worth = formed(4, "times", formed(4, "times", rho, priors), game.defender_most)
        multipliers = 0
        for *_, v in marks:
            multipliers = formed(4, "sum", multipliers, v)
        formed(4, "sum", worth, formed(4, "times", multipliers, game.attacker_most))
        if self.first == 1 and y[0] > 0:
            for caps in (game.greatest, [1 - game.shift] * len(game.types)):
                bound(game, self.acts, rho, y[0], caps)
        tickets = []
        if y[0] > 0:
            parts = [(lists[i], basis[i][1]) for i in range(len(basis)) if basis[i][0] == "column" and lists[i][0] > 0]
            shares = [(Fraction(row[0], product(5, row, columns[k][1])), k) for row, k in parts]
            total = 1
            for share, _ in shares:
                total = formed(5, "times", total // gcd(total, share.denominator), share.denominator)
            weights = [formed(5, "times", share.numerator, total // share.denominator) for share, _ in shares]
            summed = 0
            for weight in weights:
                summed = formed(5, "sum", summed, weight)
            tickets = sorted(((weight, search.plays[k]) for weight, (_, k) in zip(weights, shares)), key=lambda it: it[1])
            value_of(game, tickets)
        self.fact, self.tickets = (rho, y[0], marks), tickets


def bound(game, acts, rho, mu, caps):
    """The bound of a fact where the first types take these actions, under these caps."""
    rest = sum(game.prior(l) * caps[l - 1] for l in game.all_types() if l > len(acts)) - game.shift * sum(game.prior(l) for l in game.all_types() if l <= len(acts))
    top = formed(4, "sum", mu, formed(4, "times", rho, rest))
    return Fraction(top, formed(4, "times", rho, game.prior_total))


# ---- the search


class Search:
    def __init__(self, game, words):
        self.game, self.words = game, words
        self.plays = plays_of(game)
        rows = 1 + (sum(game.actions(l) - 1 for l in game.all_types()) if game.is_matrix else len(game.choices) + 2 * len(game.goals) + len(game.types) * (len(game.goals) - 1))
        self.budget = min(words["nodes"], 6_000_000 // rows)
        self.waiting = {(1, (a,)) for a in range(1, game.actions(1) + 1)} | {(l, (a,)) for l in game.all_types() if l > 1 for a in range(1, game.actions(l) + 1)}
        self.lanes = [None] * words["lanes"]
        self.split, self.worked, self.stuck, self.run_nodes = set(), {}, [], {}
        least = [1] if game.is_matrix else [0] * len(game.choices)
        self.tickets = [(1, least)]
        self.lower = value_of(game, self.tickets)
        self.most = Fraction(sum(game.prior(l) * game.greatest[l - 1] for l in game.all_types()), game.prior_total)

    # what is read off the nodes

    def cap_facts(self, l):
        """The facts that prove the cap of a type, none while one is missing."""
        nodes = [(l, (a,)) for a in range(1, self.game.actions(l) + 1)]
        return [self.worked[it].fact for it in nodes] if all(it in self.worked for it in nodes) else None

    def cap(self, l):
        facts = self.cap_facts(l) if l > 1 else None
        if facts is None:
            return self.game.greatest[l - 1]
        return max(-(-mu // (rho * self.game.prior(l))) for rho, mu, _ in facts if mu > 0) - self.game.shift

    def own_bound(self, node):
        """The bound of a worked prefix, none where its region is empty."""
        rho, mu, _ = self.worked[node].fact
        return bound(self.game, node[1], rho, mu, [self.cap(l) for l in self.game.all_types()]) if mu > 0 else None

    def bound_above(self, node):
        """The bound that an open prefix has from the one above it."""
        return self.most if len(node[1]) == 1 else self.own_bound((1, node[1][:-1]))

    def held(self):
        return [it[0] for it in self.lanes if it]

    def upper(self):
        closed = [self.own_bound(it) for it in self.worked if it[0] == 1 and it not in self.split]
        unproved = [self.bound_above(it) for it in list(self.waiting) + self.held() + [it for it, _ in self.stuck] if it[0] == 1]
        return max([self.lower] + [it for it in closed + unproved if it is not None])

    def choices(self):
        """The nodes that may be taken, or else those that may be split, in the order of the file."""
        takes = [it for it in self.waiting if it[0] > 1 or self.bound_above(it) is not None and self.bound_above(it) > self.lower]
        if takes:
            return sorted(takes, key=lambda it: (len(it[1]) > 1, it[0], it[1])), False
        if any(it[0] > 1 for it in self.held()):
            return [], False
        closed = [it for it in self.worked if it[0] == 1 and it not in self.split and len(it[1]) < len(self.game.types)]
        return sorted(it for it in closed if self.own_bound(it) is not None and self.own_bound(it) > self.lower), True

    def enabled(self, lane):
        """What a lane may do: 0 for nothing, a number of choices, 'turn' or 'finish'."""
        if self.lanes[lane]:
            node, moves = self.lanes[lane]
            return "finish" if moves > self.node(node).moves else "turn"
        if len(self.worked) + len(self.held()) >= self.budget or self.upper() <= self.lower:
            return 0
        return len(self.choices()[0])

    def node(self, node):
        if node not in self.run_nodes:
            self.run_nodes[node] = Node(self, *node)
        return self.run_nodes[node]

    def rank(self, node):
        return self.most if node[0] > 1 else self.bound_above(node) if node in self.waiting else self.own_bound(node)

    # its events

    def event(self, lane, n):
        if not self.lanes[lane]:
            nodes, is_split = self.choices()
            node = nodes[n]
            if is_split:
                self.split.add(node)
                parts = [(1, node[1] + (a,)) for a in range(1, self.game.actions(len(node[1]) + 1) + 1)]
                self.waiting |= set(parts)
                node = parts[0]
            self.waiting.remove(node)
            self.lanes[lane] = (node, 0)
            return
        node, moves = self.lanes[lane]
        done = self.node(node)
        if moves <= done.moves:
            self.lanes[lane] = (node, moves + 1)
            return
        self.lanes[lane] = None
        if done.cause:
            self.stuck.append((node, done.cause))
            return
        self.worked[node] = done
        if done.tickets and value_of(self.game, done.tickets) > self.lower:
            self.tickets, self.lower = done.tickets, value_of(self.game, done.tickets)

    def run(self):
        draws, last = words(self.words["seed"]), len(self.lanes) - 1
        while True:
            ready = [lane for lane in range(len(self.lanes)) if self.enabled(lane)]
            if not ready:
                return self
            if self.words["order"] == "seeded":
                lane = ready[next(draws) % len(ready)]
            else:
                lane = min(ready, key=lambda it: (it - last - 1) % len(self.lanes))
            n, last = 0, lane
            if not self.lanes[lane]:
                nodes = self.choices()[0]
                if self.words["order"] == "seeded":
                    n = next(draws) % len(nodes)
                if self.words["order"] == "best":
                    ranks = [self.rank(it) for it in nodes]
                    n = ranks.index(max(ranks))
            self.event(lane, n)

    # its report

    def fact_lines(self, fact):
        rho, mu, marks = fact
        return [f"plays {rho} {mu} {len(marks)}"] + [f"m {l} {b} {v}" for l, b, v in marks]

    def tree_lines(self, acts):
        if acts and (1, acts) not in self.worked:
            return ["open"]
        base = self.fact_lines(self.worked[1, acts].fact) if acts else ["open"]
        if acts and (1, acts) not in self.split:
            return base
        l = len(acts) + 1
        parts = [line for a in range(1, self.game.actions(l) + 1) for line in self.tree_lines(acts + (a,))]
        return [f"split {l} {self.game.actions(l)}"] + base + parts

    def report(self):
        lines = ["patrol-report 1", f"tickets {len(self.tickets)} {sum(weight for weight, _ in self.tickets)}"]
        lines += [" ".join(map(str, ["t", weight] + play)) for weight, play in self.tickets]
        lines.append(f"value {fields_of(self.lower)}")
        for l in self.game.all_types():
            facts = self.cap_facts(l) if l > 1 else None
            if l > 1 and facts is None:
                lines.append(f"cap {l} plain {self.cap(l)}")
            elif l > 1:
                lines.append(f"cap {l} proved {self.cap(l)} {len(facts)}")
                lines += [line for it in facts for line in self.fact_lines(it)]
        lines += self.tree_lines(()) + [f"upper {fields_of(self.upper())}"]
        cause = self.stuck[0][1] if self.stuck else f"nodes {self.budget}"
        lines += ["verdict optimal" if self.upper() == self.lower else f"verdict gap {cause}", "end"]
        return "".join(line + "\n" for line in lines)


# ---- its own test


def self_test(count):
    failed = 0
    for seed in range(count):
        draw = random.Random(seed)
        text = made_up(draw)
        game = Game(text)
        _, greatest = best_of(game, plays_of(game))
        for order, lanes in [("file", 1), ("file", 8), ("best", 1), ("best", 2), ("seeded", 1), ("seeded", 3)]:
            search = Search(game, DEFAULTS | {"order": order, "lanes": lanes, "seed": seed}).run()
            status, _, err = answer(game, search.report().encode())
            if (status, search.lower, search.upper()) != (0, greatest, greatest):
                failed += 1
                print(f"failed: seed {seed}: {order} {lanes} {status} {err}{text}{search.report()}")
    print(f"{count} games, {failed} failed")
    return 1 if failed else 0


def main():
    if sys.argv[1:2] == ["--self-test"]:
        return self_test(int(sys.argv[2]) if len(sys.argv) > 2 else 100)
    if len(sys.argv) < 2 or len(sys.argv) % 2 != 0:
        sys.exit(__doc__)
    with open(sys.argv[1], encoding="utf-8") as file:
        game = Game(file.read())
    if game.scale > 0:
        sys.exit("a game with a scale has its own kind of report")
    told = {word.removeprefix("--"): value if word == "--order" else int(value) for word, value in zip(sys.argv[2::2], sys.argv[3::2])}
    search = Search(game, DEFAULTS | told).run()
    sys.stdout.write(search.report())
    print(f"worked {len(search.worked)}")
    return 0


if __name__ == "__main__":
    sys.exit(main())
