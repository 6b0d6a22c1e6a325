#!/usr/bin/env python3
"""A checker of reports that has no code in common with the program.

    tools/report_checker.py GAME REPORT    what `check` has to answer: its status, its line on standard output or standard error

It follows docs/REPORT.md test by test, with Python's whole numbers and fractions. It takes a game file to be one: it is
reports that it tests. It knows the whole format, several types of attacker and cover facts too. tools/report_cases.py tries it on reports worked
out by hand, tools/mutate-reports.py compares the program with it.
"""
import re
import sys
import tomllib
from fractions import Fraction
from math import gcd
from typing import NamedTuple

LEAST, MOST = -(2**127), 2**127 - 1
WORD = 2**64 - 1
NUMBER = re.compile(rb"0|-?[1-9][0-9]*")


# ---- games


class Game:
    """A game, from the text of its file. Types, actions, targets, rows, resources and choices count from 1."""

    def __init__(self, text):
        file = tomllib.loads(text)
        self.is_matrix = file["form"] == "matrix"
        self.scale = file.get("scale", 0)
        self.goals = file["rows" if self.is_matrix else "targets"]
        self.types = file["type"]
        self.choices = [] if self.is_matrix else self.choices_of(file)
        self.plays = range(1, len(self.goals) + 1) if self.is_matrix else None
        self.prior_total = sum(it["prior"] for it in self.types)
        pays = [self.defender_pays(l) for l in self.all_types()]
        self.greatest = [max(it) for it in pays]
        self.shift = 1 - min(min(it) for it in pays)
        self.defender_most = max(self.greatest) + self.shift
        self.attacker_most = max([1] + [max(it) - min(it) for it in map(self.attacker_pays, self.all_types())])

    def choices_of(self, file):
        """For each resource the sets of targets that it may choose."""
        if "patrols" in file:
            return [[frozenset([t + 1]) for t in range(len(self.goals))]] * file["patrols"]
        schedules = {it["name"]: frozenset(self.goals.index(t) + 1 for t in it["targets"]) for it in file["schedule"]}
        return [[schedules[name] for name in it["schedules"]] for it in file["resource"]]

    def all_types(self):
        return range(1, len(self.types) + 1)

    def prior(self, l):
        return self.types[l - 1]["prior"]

    def actions(self, l):
        return len(self.types[l - 1]["actions"]) if self.is_matrix else len(self.goals)

    def action_name(self, l, a):
        return self.types[l - 1]["actions"][a - 1] if self.is_matrix else self.goals[a - 1]

    def defender_pays(self, l):
        """All that the defender may get against a type."""
        of = self.types[l - 1]
        return [it for row in of["leader"] for it in row] if self.is_matrix else [it for row in of["payoffs"] for it in row[:2]]

    def attacker_pays(self, l):
        """All that a type may get."""
        of = self.types[l - 1]
        return [it for row in of["follower"] for it in row] if self.is_matrix else [it for row in of["payoffs"] for it in row[2:]]

    def is_legal(self, choices):
        if self.is_matrix:
            return len(choices) == 1 and 1 <= choices[0] <= len(self.goals)
        return len(choices) == len(self.choices) and all(0 <= c <= len(own) for c, own in zip(choices, self.choices))

    def play(self, choices):
        """What a legal list of choices does: its row, or the set of the targets that it covers."""
        if self.is_matrix:
            return choices[0]
        return frozenset().union(*(own[c - 1] for c, own in zip(choices, self.choices) if c > 0))

    def all_plays(self):
        """What the legal plays do; plays that cover the same targets stand once."""
        if self.plays is None:
            self.plays = {frozenset()}
            for own in self.choices:
                self.plays = {covered | more for covered in self.plays for more in [frozenset()] + own}
        return self.plays

    def pay_d(self, l, play, a):
        if self.is_matrix:
            return self.types[l - 1]["leader"][play - 1][a - 1]
        return self.types[l - 1]["payoffs"][a - 1][0 if a in play else 1]

    def pay_a(self, l, play, a):
        if self.is_matrix:
            return self.types[l - 1]["follower"][play - 1][a - 1]
        return self.types[l - 1]["payoffs"][a - 1][2 if a in play else 3]


# ---- reading a report


class Fault(Exception):
    """The reason why the line that was read last is refused."""


class Refused(Exception):
    """Bytes that are no report text: reason and line."""


class Ticket(NamedTuple):
    line: int
    weight: int
    choices: list


class Fact(NamedTuple):
    """A fact over plays, with marks (type, action, multiplier), or over the coverage table, with lines (row, multiplier)."""

    line: int
    is_cover: bool
    rho: int
    mu: int
    lines: list


class Water(NamedTuple):
    """A level, which a target holds up, or the patrols (0)."""

    line: int
    level: Fraction
    target: int


class Open(NamedTuple):
    line: int


class Split(NamedTuple):
    line: int
    l: int
    base: object
    parts: list


class Cap(NamedTuple):
    line: int
    l: int
    v: int
    proof: list


class Report(NamedTuple):
    total: int
    tickets: list
    value_line: int
    value: Fraction
    caps: list
    tree: object
    upper_line: int
    upper: Fraction
    is_optimal: bool


def shaped(fields, form, counted=None):
    """The fields that stand for numbers. The fixed words of the form come first (# is a number), then the count of fields, then the spelling."""
    words = form.split(b" ")
    for at, word in enumerate(words):
        if word != b"#" and at >= len(fields):
            raise Fault(4)
        if word != b"#" and fields[at] != word:
            raise Fault(3)
    if not (len(fields) == len(words) if counted is None else counted):
        raise Fault(4)
    found = [field for at, field in enumerate(fields) if at >= len(words) or words[at] == b"#"]
    if not all(NUMBER.fullmatch(field) for field in found):
        raise Fault(5)
    return found


def ranged(field, low=LEAST, high=MOST):
    """The number of a field, from low to high."""
    if len(field) > 40 or not low <= int(field) <= high:
        raise Fault(6)
    return int(field)


def fraction(num, den):
    """A fraction in lowest terms."""
    num, den = ranged(num), ranged(den, 1)
    if gcd(num, den) != 1:
        raise Fault(6)
    return Fraction(num, den)


def is_counted(fields, at):
    """Whether as many fields follow as the one at this place says; where it is no number from 0 on, the line need only reach it."""
    if at >= len(fields):
        return False
    told = fields[at]
    return not NUMBER.fullmatch(told) or told.startswith(b"-") or (len(told) < 10 and len(fields) == at + 1 + int(told))


def cause(fields):
    """Reads the verdict of a gap."""
    kind = fields[2] if len(fields) > 2 else b""
    if kind == b"nodes":
        ranged(shaped(fields, b"verdict gap nodes #")[0], 1, WORD)
        return
    if kind == b"pivots":
        found = shaped(fields, b"verdict gap pivots", is_counted(fields, 5))
        ranged(found[0], 1, WORD)
        fix = found[1:]
    elif kind == b"looks":
        found = shaped(fields, b"verdict gap looks", is_counted(fields, 6))
        ranged(found[0], 1, WORD)
        ranged(found[1], 0, WORD)
        fix = found[2:]
    else:
        op = fields[4] if len(fields) > 4 and fields[4] in (b"sum", b"less") else b"times"
        found = shaped(fields, b"verdict gap wide # " + op, is_counted(fields, 9))
        ranged(found[0], 1, 7)
        ranged(found[1])
        ranged(found[2])
        ranged(found[3], 0, WORD)
        fix = found[4:]
    ranged(fix[0], 1, 8)
    ranged(fix[1], 1, 8)
    for action in fix[2:]:
        ranged(action, 1, 65535)


class Reader:
    """Reads a report line by line."""

    def __init__(self, text):
        self.text, self.at, self.line = text, 0, 0

    def peek(self):
        """The first field of the next line, where that is there and ends."""
        end = self.text.find(b"\n", self.at)
        return None if end < 0 else self.text[self.at : end].split(b" ")[0]

    def next(self):
        """The fields of the next line."""
        self.line += 1
        end = self.text.find(b"\n", self.at)
        if end < 0:
            raise Fault(2)
        fields = self.text[self.at : end].split(b" ")
        self.at = end + 1
        return fields

    def ticket(self, before):
        weight, *choices = shaped(fields := self.next(), b"t", 2 <= len(fields) <= 202)
        weight, choices = ranged(weight, 1), [ranged(it, 0, 65535) for it in choices]
        if before and (len(choices) != len(before[-1].choices) or choices <= before[-1].choices):
            raise Fault(7)
        return Ticket(self.line, weight, choices)

    def mark(self, before):
        l, a, v = shaped(self.next(), b"m # # #")
        found = ranged(l, 1, 8), ranged(a, 1, 65535), ranged(v, 1)
        if before and found[:2] <= before[-1][:2]:
            raise Fault(7)
        return found

    def row(self, before):
        row, v = shaped(self.next(), b"c # #")
        found = ranged(row, 1, 1535), ranged(v, 1)
        if before and found[0] <= before[-1][0]:
            raise Fault(7)
        return found

    def repeated(self, read, count):
        """So many items, each read beside those before it."""
        items = []
        while len(items) < count:
            items.append(read(items))
        return items

    def fact(self, fields):
        """A fact, whose first line was read."""
        line = self.line
        if fields[0] == b"water":
            form = b"water # # resources" if len(fields) > 3 and fields[3] == b"resources" else b"water # # target #"
            found = shaped(fields, form)
            level = fraction(found[0], found[1])
            return Water(line, level, ranged(found[2], 1, 65535) if len(found) > 2 else 0)
        if fields[0] not in (b"plays", b"cover"):
            raise Fault(3)
        is_cover = fields[0] == b"cover"
        rho, mu, count = shaped(fields, fields[0] + b" # # #")
        rho, mu, count = ranged(rho, 1), ranged(mu, 0), ranged(count, 0)
        return Fact(line, is_cover, rho, mu, self.repeated(self.row if is_cover else self.mark, count))

    def cap(self):
        fields, line = self.next(), self.line
        if len(fields) > 2 and fields[2] == b"plain":
            l, v = shaped(fields, b"cap # plain #")
            return Cap(line, ranged(l, 1, 8), ranged(v, -(2**63), 2**63 - 1), [])
        l, v, n = shaped(fields, b"cap # proved # #")
        l, v, n = ranged(l, 1, 8), ranged(v, -(2**63), 2**63 - 1), ranged(n, 1, 65535)
        return Cap(line, l, v, self.repeated(lambda _: self.fact(self.next()), n))

    def leaf(self, fields):
        """An open node or a fact, whose first line was read."""
        if fields[0] != b"open":
            return self.fact(fields)
        shaped(fields, b"open")
        return Open(self.line)

    def node(self, depth):
        """A node with at most so many splits below one another."""
        fields, line = self.next(), self.line
        if fields[0] != b"split":
            return self.leaf(fields)
        l, n = shaped(fields, b"split # #")
        l, n = ranged(l, 1, 8), ranged(n, 1, 65535)
        if depth == 0:
            raise Fault(8)
        return Split(line, l, self.leaf(self.next()), self.repeated(lambda _: self.node(depth - 1), n))

    def fraction(self, word):
        return fraction(*shaped(self.next(), word + b" # #"))

    def verdict(self):
        """Whether it is optimal."""
        fields = self.next()
        if len(fields) > 1 and fields[1] == b"optimal":
            shaped(fields, b"verdict optimal")
            return True
        cause(fields)
        return False

    def report(self):
        if self.next() != [b"patrol-report", b"1"]:
            raise Fault(1)
        plays, total = shaped(self.next(), b"tickets # #")
        plays, total = ranged(plays, 1), ranged(total)
        tickets = self.repeated(self.ticket, plays)
        value, value_line = self.fraction(b"value"), self.line
        caps = []
        while self.peek() == b"cap":
            caps.append(self.cap())
        tree = self.node(8)
        upper, upper_line = self.fraction(b"upper"), self.line
        is_optimal = self.verdict()
        shaped(self.next(), b"end")
        if self.at < len(self.text):
            self.line += 1
            raise Fault(9)
        return Report(total, tickets, value_line, value, caps, tree, upper_line, upper, is_optimal)


def read_report(text):
    """The report that bytes spell."""
    reader = Reader(text)
    try:
        return reader.report()
    except Fault as fault:
        raise Refused(fault.args[0], reader.line) from None


# ---- checking a report


class No(Exception):
    """The first test that fails: reason and line."""


def fit(number, line):
    """A stated sum, which must fit 128 bits."""
    if not LEAST <= number <= MOST:
        raise No(9, line)
    return number


def weighed(pays, tickets, line):
    """The sum of weight times pay, one operation at a time."""
    total = 0
    for ticket, pay in zip(tickets, pays):
        total = fit(total + fit(ticket.weight * pay, line), line)
    return total


def taken(game, l, tickets, plays, line):
    """What the defender gets of type l, and the type's answer: the first of its best actions with the most for the defender."""
    actions = range(1, game.actions(l) + 1)
    gains = {a: weighed([game.pay_a(l, play, a) for play in plays], tickets, line) for a in actions}
    best = [a for a in actions if gains[a] == max(gains.values())]
    sums = {a: weighed([game.pay_d(l, play, a) for play in plays], tickets, line) for a in best}
    take = max(sums.values())
    return take, min(a for a in best if sums[a] == take)


def value_of(game, tickets, line):
    """The defender value of legal tickets."""
    plays = [game.play(ticket.choices) for ticket in tickets]
    worth = 0
    for l in game.all_types():
        take, _ = taken(game, l, tickets, plays, line)
        worth = fit(worth + fit(game.prior(l) * take, line), line)
    return Fraction(worth, fit(sum(ticket.weight for ticket in tickets) * game.prior_total, line))


def is_plays_fact(game, fix, fact):
    """Whether a fact over plays holds where these types are fixed to these actions."""
    for l, a, _ in fact.lines:
        if l not in fix or a == fix[l] or not 1 <= a <= game.actions(l):
            return False
    for play in game.all_plays():
        cost = sum(game.prior(l) * (game.pay_d(l, play, a) + game.shift) for l, a in fix.items())
        regret = sum(v * (game.pay_a(l, play, a) - game.pay_a(l, play, fix[l])) for l, a, v in fact.lines)
        if fact.rho * cost - regret > fact.mu:
            return False
    return True


def coverage_costs(game, fix):
    """The columns of the coverage table with what they are worth, where that is not 0: `h`, and `y` of a target."""
    costs = {"h": 0}
    for l, a in fix.items():
        dc, du, _, _ = game.types[l - 1]["payoffs"][a - 1]
        costs["h"] += game.prior(l) * (du + game.shift)
        costs["y", a] = costs.get(("y", a), 0) + game.prior(l) * (dc - du)
    return costs


def coverage_rows(game, fix):
    """The rows of the coverage table from row 1, each with its entries that are not 0 by column: `h`, `x` of a resource and a choice, `y` of a target."""
    targets = range(1, len(game.goals) + 1)
    choices = [(r, j, held) for r, own in enumerate(game.choices, 1) for j, held in enumerate(own, 1)]
    rows = [{"h": -1} | {("x", r, j): 1 for r, j, _ in choices if r == s} for s in range(1, len(game.choices) + 1)]
    rows += [{("y", t): 1} | {("x", r, j): -1 for r, j, held in choices if t in held} for t in targets]
    rows += [{("y", t): 1, "h": -1} for t in targets]
    for l, a in fix.items():
        pays = game.types[l - 1]["payoffs"]
        _, _, covered, uncovered = pays[a - 1]
        for b in targets:
            if b != a:
                _, _, other_covered, other = pays[b - 1]
                rows.append({"h": other - uncovered, ("y", b): other_covered - other, ("y", a): uncovered - covered})
    return rows


def is_cover_fact(game, fix, fact):
    """Whether a fact over the coverage table holds where these types are fixed to these actions."""
    rows = [] if game.is_matrix else coverage_rows(game, fix)
    if game.is_matrix or any(row > len(rows) for row, _ in fact.lines):
        return False
    costs = coverage_costs(game, fix)
    used = [(rows[row - 1], v) for row, v in fact.lines]
    for column in set(costs).union(*(row for row, _ in used)):
        most = sum(v * row.get(column, 0) for row, v in used) + (fact.mu if column == "h" else 0)
        if fact.rho * costs.get(column, 0) > most:
            return False
    return True


def water_bound(game, level):
    """The greatest payoff to the defender over the targets of the level, each covered so that it pays the level."""
    pays = [it for it in game.types[0]["payoffs"] if it[3] >= level]
    return max(du + (dc - du) * (au - level) / (au - ac) for dc, du, ac, au in pays)


def is_water(game, water):
    """Whether a level holds."""
    rows = game.types[0]["payoffs"]
    if water.target > 0:
        return water.target <= len(rows) and rows[water.target - 1][2] == water.level
    shares = [(au - water.level) / (au - ac) for _, _, ac, au in rows if au >= water.level]
    return len(shares) > 0 and sum(shares) == len(game.choices)


class Checker:
    """Makes the tests of a report in their order, and stops at the first that fails."""

    def __init__(self, game, report):
        self.game, self.report = game, report

    def tickets(self):
        for ticket in self.report.tickets:
            if not self.game.is_legal(ticket.choices):
                raise No(1, ticket.line)
        total = 0
        for ticket in self.report.tickets:
            total = fit(total + ticket.weight, 2)
        if total != self.report.total or gcd(*(ticket.weight for ticket in self.report.tickets)) != 1:
            raise No(2, 2)

    def value(self):
        line = self.report.value_line
        if value_of(self.game, self.report.tickets, line) != self.report.value:
            raise No(3, line)

    def caps(self):
        for l, cap in enumerate(self.report.caps, 2):
            self.cap(l, cap)
        if len(self.report.caps) + 1 != len(self.game.types):
            raise No(4, self.report.tree.line)

    def cap(self, l, cap):
        """The cap that stands for type l."""
        if l > len(self.game.types) or cap.l != l:
            raise No(4, cap.line)
        if len(cap.proof) != self.game.actions(l) if cap.proof else cap.v != self.game.greatest[l - 1]:
            raise No(4, cap.line)
        for a, fact in enumerate(cap.proof, 1):
            self.inequalities({l: a}, fact)
        if any(fact.mu > fact.rho * self.game.prior(l) * (cap.v + self.game.shift) for fact in cap.proof if fact.mu > 0):
            raise No(4, cap.line)

    def inequalities(self, fix, fact):
        """The size sum of a fact, then what it says."""
        if isinstance(fact, Water):
            raise No(6, fact.line)
        priors = fit(fact.rho * sum(self.game.prior(l) for l in fix), fact.line)
        worth = fit(priors * self.game.defender_most, fact.line)
        multipliers = 0
        for *_, v in fact.lines:
            multipliers = fit(multipliers + v, fact.line)
        fit(worth + fit(multipliers * self.game.attacker_most, fact.line), fact.line)
        if not (is_cover_fact if fact.is_cover else is_plays_fact)(self.game, fix, fact):
            raise No(6, fact.line)

    def bound(self, acts, fact):
        """The bound of a fact where the first types take these actions, after its other tests; none where its region is empty."""
        self.inequalities(dict(enumerate(acts, 1)), fact)
        if fact.mu == 0:
            return None
        rest = sum(self.game.prior(l) * self.report.caps[l - 2].v for l in self.game.all_types() if l > len(acts))
        rest -= self.game.shift * sum(self.game.prior(l) for l in self.game.all_types() if l <= len(acts))
        top = fit(fact.mu + fit(fact.rho * rest, fact.line), fact.line)
        return Fraction(top, fit(fact.rho * self.game.prior_total, fact.line))

    def node(self, acts, node, above):
        """The bounds of the leaves of a node, where an open one has the bound above."""
        if isinstance(node, Open):
            return [above]
        if not isinstance(node, Split):
            return [self.bound(acts, node)]
        l = len(acts) + 1
        if node.l != l or l > len(self.game.types) or len(node.parts) != self.game.actions(l):
            raise No(5, node.line)
        base = above if isinstance(node.base, Open) else self.bound(acts, node.base)
        return [it for a, part in enumerate(node.parts, 1) for it in self.node(acts + [a], part, base)]

    def tree(self):
        """The bounds of all leaves."""
        root = self.report.tree
        if self.game.scale > 0:
            if not isinstance(root, Water):
                raise No(5, root.line)
            if not is_water(self.game, root):
                raise No(6, root.line)
            return [water_bound(self.game, root.level)]
        if not isinstance(root, Split) or not isinstance(root.base, Open):
            raise No(5, root.line)
        plain = sum(self.game.prior(l) * self.game.greatest[l - 1] for l in self.game.all_types())
        return self.node([], root, Fraction(plain, self.game.prior_total))

    def check(self):
        report = self.report
        self.tickets()
        self.value()
        self.caps()
        bounds = self.tree()
        if report.upper != max([report.value] + [it for it in bounds if it is not None]):
            raise No(7, report.upper_line)
        if report.is_optimal != (report.value == report.upper):
            raise No(8, report.upper_line + 1)


def fields_of(number):
    return f"{number.numerator} {number.denominator}"


def verdict_line(game, report):
    """What `check` writes for an accepted report."""
    if report.is_optimal:
        return f"yes optimal {fields_of(report.value)}\n"
    return f"yes gap {fields_of(report.value)} {fields_of(report.upper)}\n"


def table(game, report):
    """What `show` writes for an accepted report."""
    plays = [game.play(ticket.choices) for ticket in report.tickets]
    text = lambda number: f"{number.numerator}/{number.denominator}"
    lines = [f"value {text(report.value)}", f"upper {text(report.upper)}", f"tickets {report.total}"]
    for n, name in enumerate(game.goals, 1):
        count = sum(it.weight for it, play in zip(report.tickets, plays) if (play == n if game.is_matrix else n in play))
        lines.append(f"{'row' if game.is_matrix else 'target'} {name} {count}")
    for l in game.all_types():
        _, a = taken(game, l, report.tickets, plays, report.value_line)
        lines.append(f"type {game.types[l - 1]['name']} attacks {game.action_name(l, a)}")
    return "".join(line + "\n" for line in lines)


def answer(game, text, command="check"):
    """The status, standard output and standard error of a call."""
    try:
        report = read_report(text)
        Checker(game, report).check()
    except Refused as refused:
        return 7, "", "report refused %d at line %d\n" % refused.args
    except No as no:
        return 7, "", "no %d at line %d\n" % no.args
    if command == "show":
        return 0, table(game, report), ""
    return 0 if report.is_optimal else 10, verdict_line(game, report), ""


def main():
    with open(sys.argv[1], encoding="utf-8") as game, open(sys.argv[2], "rb") as report:
        status, out, err = answer(Game(game.read()), report.read())
    sys.stdout.write(out)
    sys.stderr.write(err)
    return status


if __name__ == "__main__":
    sys.exit(main() if len(sys.argv) == 3 else __doc__)
