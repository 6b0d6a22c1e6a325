"""Reports worked out by hand, with edits in words and the answers that they must get, and the examples of docs/REPORT.md.

`tools/mutate-reports.py --self-test` tries the checker of tools/report_checker.py on all of them.
"""
import os
import re

from report_checker import MOST, Game, answer

TOP = os.path.dirname(os.path.dirname(os.path.abspath(__file__)))
PAGE = os.path.join(TOP, "docs", "REPORT.md")

# ---- games and reports

INSPECTION = """version = 1
form = "matrix"
rows = ["A", "B"]

[[type]]
name = "first"
prior = 1
actions = ["x", "y"]
leader = [[2, 4], [1, 3]]
follower = [[1, 0], [0, 2]]
"""
TWO_TYPES = INSPECTION + """
[[type]]
name = "second"
prior = 1
actions = ["x", "y"]
leader = [[2, 4], [1, 3]]
follower = [[0, 1], [2, 0]]
"""
ONE_TARGET = """version = 1
form = "security"
patrols = 1
targets = ["gate"]

[[type]]
name = "thief"
prior = 1
payoffs = [[1, -1, 0, 1]]
"""
LEVELS = """version = 1
form = "security"
scale = 4
patrols = 1
targets = ["gate", "hall"]

[[type]]
name = "thief"
prior = 1
payoffs = [[2, -2, 0, 4], [1, -1, 0, 2]]
"""
SMALL = """patrol-report 1
tickets 2 3
t 2 1
t 1 2
value 11 3
split 1 2
open
plays 1 2 0
plays 3 11 1
m 1 1 1
upper 11 3
verdict optimal
end
"""
SPENT = """patrol-report 1
tickets 1 1
t 1 1
value 2 1
split 1 2
open
plays 1 2 0
open
upper 4 1
verdict gap pivots 1 1 1 2
end
"""
NESTED = """patrol-report 1
tickets 2 3
t 2 1
t 1 2
value 11 3
cap 2 proved 4 2
plays 3 5 1
m 2 2 1
plays 1 4 0
split 1 2
open
plays 1 2 0
split 2 2
plays 3 11 1
m 1 1 1
plays 3 16 1
m 2 2 2
plays 3 22 1
m 1 1 2
upper 11 3
verdict optimal
end
"""
ONE_WORKED = """patrol-report 1
tickets 1 1
t 1 1
value 3 1
cap 2 plain 4
split 1 2
open
plays 1 2 0
open
upper 4 1
verdict gap nodes 1
end
"""
COVERED = """patrol-report 1
tickets 1 1
t 1 1
value 1 1
split 1 1
open
cover 1 3 1
c 3 2
upper 1 1
verdict optimal
end
"""
LEVEL = """patrol-report 1
tickets 2 3
t 2 1
t 1 2
value 2 3
water 4 3 resources
upper 2 3
verdict optimal
end
"""
NEIGHBOURS = """version = 1
form = "security"
targets = ["a", "b", "c"]

[[schedule]]
name = "at-a"
targets = ["a"]

[[schedule]]
name = "at-b"
targets = ["b"]

[[schedule]]
name = "at-c"
targets = ["c"]

[[resource]]
name = "left"
schedules = ["at-a", "at-b"]

[[resource]]
name = "right"
schedules = ["at-b", "at-c"]

[[type]]
name = "thief"
prior = 1
payoffs = [[0, -1, 0, 1], [0, -1, 0, 1], [0, -1, 0, 1]]
"""
SHARED_FACT = """cover 3 5 7
c 1 1
c 2 1
c 3 1
c 4 1
c 5 1
c 9 1
c 10 1
"""
SHARED = f"""patrol-report 1
tickets 3 3
t 1 1 1
t 1 1 2
t 1 2 2
value -1 3
split 1 3
open
{SHARED_FACT * 3}upper -1 3
verdict optimal
end
"""
IN_A_ROW = """version = 1
form = "security"
targets = ["a", "b", "c"]

[[schedule]]
name = "ab"
targets = ["a", "b"]

[[schedule]]
name = "bc"
targets = ["b", "c"]

[[resource]]
name = "guard"
schedules = ["ab", "bc"]

[[type]]
name = "thief"
prior = 1
payoffs = [[0, -1, 0, 1], [0, -1, 0, 1], [0, -1, 0, 1]]
"""
PAIRS = """patrol-report 1
tickets 2 2
t 1 1
t 1 2
value -1 2
split 1 3
open
plays 2 3 1
m 1 3 1
plays 2 3 2
m 1 1 1
m 1 3 1
plays 2 3 1
m 1 1 1
upper -1 2
verdict optimal
end
"""
MOST_TEXT = str(MOST)

# a report with its edit, and the line that `check` has to write
SMALL_CASES = [
    ("as it is", "yes optimal 11 3"),
    # one fact that is false, an action that is left out, and a part that is missing
    ("line 10 is `m 1 1 2`", "no 6 at line 9"),
    ("line 6 is `split 1 1`; line 8 is left out", "no 5 at line 6"),
    ("line 8 is left out", "report refused 3 at line 10"),
    # hostile texts
    ("no bytes", "report refused 2 at line 1"),
    ("line 1 is `patrol-report 9`", "report refused 1 at line 1"),
    ("cut after line 9", "report refused 2 at line 10"),
    ("the last newline is missing", "report refused 2 at line 13"),
    ("line 10 is `m 1 1 -1`", "report refused 6 at line 10"),
    ("line 10 is `m 1 1 01`", "report refused 5 at line 10"),
    ("line 10 is `m 1 1`", "report refused 4 at line 10"),
    ("line 5 is `value 22 6`", "report refused 6 at line 5"),
    ("lines 3 and 4 are exchanged", "report refused 7 at line 4"),
    ("line 3 is `t 170141183460469231731687303715884105728 1`", "report refused 6 at line 3"),
    ("from line 6 on 9 times `split 1 1`, `open`", "report refused 8 at line 22"),
    ("after line 13 comes `x`", "report refused 9 at line 14"),
    ("line 4 is `t 1 3`", "no 1 at line 4"),
    ("line 2 is `tickets 2 4`", "no 2 at line 2"),
    ("line 5 is `value 4 1`", "no 3 at line 5"),
    (f"line 9 is `plays {MOST_TEXT} 11 1`", "no 9 at line 9"),
    ("line 10 is `m 1 2 1`", "no 6 at line 9"),
    ("line 9 is `plays 3 10 1`", "no 6 at line 9"),
    ("line 8 is `water 4 3 resources`", "no 6 at line 8"),
    ("line 8 is `cover 1 2 0`", "no 6 at line 8"),
    ("line 11 is `upper 4 1`", "no 7 at line 11"),
    ("line 12 is `verdict gap nodes 5`", "no 8 at line 12"),
    # which of two faults of a line is told
    ("line 10 is `m 1 x`", "report refused 4 at line 10"),
    ("line 10 is `n 1`", "report refused 3 at line 10"),
    ("line 10 is `m 0 x 1`", "report refused 5 at line 10"),
    ("line 6 is `cap 2 foo x x x x`", "report refused 3 at line 6"),
    ("line 6 is `cap 2`", "report refused 4 at line 6"),
    ("line 5 is `value 0 2`", "report refused 6 at line 5"),
    ("line 5 is `value -0 1`", "report refused 5 at line 5"),
    ("line 5 is `value 11  3`", "report refused 4 at line 5"),
    ("line 5 is `value 11 `", "report refused 5 at line 5"),
    ("line 7 is empty", "report refused 3 at line 7"),
    ("line 13 is `end of it`", "report refused 4 at line 13"),
    ("after line 13 comes ``", "report refused 9 at line 14"),
    ("line 3 is `t 2 1 1`", "report refused 7 at line 4"),
    # verdicts
    ("line 12 is `verdict`", "report refused 4 at line 12"),
    ("line 12 is `verdict gap`", "report refused 4 at line 12"),
    ("line 12 is `verdict maybe`", "report refused 3 at line 12"),
    ("line 12 is `verdict optimal 1`", "report refused 4 at line 12"),
    ("line 12 is `verdict gap nodes 0`", "report refused 6 at line 12"),
    ("line 12 is `verdict gap pivots 1 1 2 1`", "report refused 4 at line 12"),
    ("line 12 is `verdict gap pivots 1 1 -2 1 1 1`", "report refused 6 at line 12"),
    ("line 12 is `verdict gap pivots 1 1 x 1 1 1`", "report refused 5 at line 12"),
    ("line 12 is `verdict gap pivots 1 1 9 1`", "report refused 4 at line 12"),
    ("line 12 is `verdict gap pivots 1 1 0`", "report refused 6 at line 12"),
    ("line 12 is `verdict gap looks 1 0 1 1 1`", "no 8 at line 12"),
    ("line 12 is `verdict gap looks 18446744073709551616 0 1 1 1`", "report refused 6 at line 12"),
    ("line 12 is `verdict gap wide 5 power 1 1 0 1 1 1`", "report refused 3 at line 12"),
    ("line 12 is `verdict gap wide 8 sum 1 1 0 1 1 1`", "report refused 6 at line 12"),
    ("line 12 is `verdict gap wide 5 less 1 -1 0 1 1 1`", "no 8 at line 12"),
    # tests that fail in more than one place
    ("line 2 is `tickets 2 6`; line 3 is `t 4 1`; line 4 is `t 2 2`", "no 2 at line 2"),
    (f"line 3 is `t {MOST} 1`", "no 9 at line 2"),
    (f"line 2 is `tickets 2 {2**126 + 1}`; line 3 is `t {2**126} 1`", "no 9 at line 5"),
    ("line 6 is `cap 2 plain 4`, `split 1 2`", "no 4 at line 6"),
    ("line 7 is `plays 1 2 0`", "no 5 at line 6"),
    ("line 6 is `split 2 2`", "no 5 at line 6"),
    ("line 6 is `water 4 3 resources`; lines 7 to 10 are left out", "no 5 at line 6"),
    ("line 6 is `open`; lines 7 to 10 are left out", "no 5 at line 6"),
    ("line 8 is `split 2 1`, `open`, `open`", "no 5 at line 8"),
    ("line 10 is `m 1 3 1`", "no 6 at line 9"),
    ("line 10 is `m 2 1 1`", "no 6 at line 9"),
    ("line 8 is `plays 1 0 0`", "no 6 at line 8"),
    ("line 8 is `open`; line 11 is `upper 4 1`; line 12 is `verdict gap nodes 1`", "yes gap 11 3 4 1"),
    # the size sum is 12 + 2 * v
    (f"line 10 is `m 1 1 {MOST}`", "no 9 at line 9"),
    (f"line 10 is `m 1 1 {2**126 - 6}`", "no 9 at line 9"),
    (f"line 10 is `m 1 1 {2**126 - 7}`", "no 6 at line 9"),
]
SPENT_CASES = [
    ("as it is", "yes gap 2 1 4 1"),
    ("line 10 is `verdict optimal`", "no 8 at line 10"),
    ("line 7 is `plays 1 3 0`", "yes gap 2 1 4 1"),
    ("line 7 is `open`", "yes gap 2 1 4 1"),
    ("line 9 is `upper 2 1`", "no 7 at line 9"),
    (f"line 7 is `plays 1 {MOST} 0`", "no 7 at line 9"),
]
NESTED_CASES = [
    ("as it is", "yes optimal 11 3"),
    ("line 19 is `m 1 1 1`", "no 6 at line 18"),
    ("cut after line 13", "report refused 2 at line 14"),
    ("after line 22 comes `more`", "report refused 9 at line 23"),
    ("line 6 is `cap 2 proved 3 2`", "no 4 at line 6"),
    ("line 6 is `cap 2 proved 3 2`; line 9 is `plays 1 3 0`", "no 6 at line 9"),
    ("line 6 is `cap 2 proved 4 1`; line 9 is left out", "no 4 at line 6"),
    ("line 6 is `cap 2 plain 4`; lines 7 to 9 are left out", "yes optimal 11 3"),
    ("lines 6 to 9 are left out", "no 4 at line 6"),
    ("line 8 is `m 1 2 1`", "no 6 at line 7"),
    ("line 14 is `open`; line 15 is left out", "yes optimal 11 3"),
    ("line 16 is `open`; line 17 is left out", "no 7 at line 19"),
    ("line 14 is `water 1 1 resources`; line 15 is left out", "no 6 at line 14"),
    ("line 13 is `split 1 2`", "no 5 at line 13"),
]
ONE_WORKED_CASES = [
    ("as it is", "yes gap 3 1 4 1"),
    ("line 5 is left out", "no 4 at line 5"),
    ("line 5 is `cap 2 plain 3`", "no 4 at line 5"),
    ("line 5 is `cap 1 plain 4`", "no 4 at line 5"),
    (f"line 8 is `plays 1 {MOST} 0`", "no 9 at line 8"),
]
COVERED_CASES = [
    ("as it is", "yes optimal 1 1"),
    ("line 8 is `c 3 1`", "no 6 at line 7"),
    ("line 8 is `c 4 2`", "no 6 at line 7"),
    ("line 8 is `c 0 2`", "report refused 6 at line 8"),
]
# the rows are those of the two resources, of the three targets twice, and of the two actions that are not fixed
SHARED_CASES = [
    ("as it is", "yes optimal -1 3"),
    ("line 9 is `cover 3 5 6`; line 15 is left out", "no 6 at line 9"),
    ("line 9 is `cover 3 5 8`; after line 16 comes `c 11 1`", "no 6 at line 9"),
    ("line 17 is `cover 3 4 7`", "no 6 at line 17"),
    ("line 18 is `c 1 2`", "no 6 at line 17"),
]
PAIRS_CASES = [
    ("as it is", "yes optimal -1 2"),
    ("line 10 is `plays 2 3 1`; line 12 is left out", "no 6 at line 10"),
    ("line 3 is `t 1 0`", "no 3 at line 5"),
    ("line 4 is `t 1 3`", "no 1 at line 4"),
]
LEVEL_CASES = [
    ("as it is", "yes optimal 2 3"),
    ("line 6 is `water 1 1 resources`", "no 6 at line 6"),
    ("line 6 is `water 4 3 target 3`", "no 6 at line 6"),
    ("line 6 is `water 0 1 target 2`", "no 7 at line 7"),
    ("line 6 is `water 0 1 target 2`; line 7 is `upper 2 1`; line 8 is `verdict gap nodes 1`", "yes gap 2 3 2 1"),
    ("line 6 is `split 1 2`, `open`, `open`, `open`", "no 5 at line 6"),
    ("line 6 is `open`", "no 5 at line 6"),
    ("line 4 is `t 1 3`", "no 1 at line 4"),
]
# three types, a plain cap and a proved one, a closed base and below it an open one
THREE_TYPES = """version = 1
form = "matrix"
rows = ["A", "B"]

[[type]]
name = "thief"
prior = 1
actions = ["x", "y"]
leader = [[2, 4], [1, 3]]
follower = [[1, 0], [0, 2]]

[[type]]
name = "spy"
prior = 2
actions = ["x", "y"]
leader = [[2, 4], [1, 3]]
follower = [[0, 1], [2, 0]]

[[type]]
name = "guest"
prior = 1
actions = ["x", "y"]
leader = [[2, 4], [1, 3]]
follower = [[1, 0], [1, 0]]
"""
DEEP = """patrol-report 1
tickets 2 3
t 2 1
t 1 2
value 19 6
cap 2 plain 4
cap 3 proved 2 2
plays 1 2 0
plays 1 0 1
m 3 1 4
split 1 2
open
plays 1 2 0
split 2 2
plays 3 11 1
m 1 1 1
plays 1 8 0
split 3 2
open
plays 3 38 1
m 1 1 4
plays 1 0 1
m 3 1 16
upper 19 6
verdict optimal
end
"""
DEEP_CASES = [
    ("as it is", "yes optimal 19 6"),
    ("line 22 is `open`; line 23 is left out; line 24 is `upper 41 12`; line 25 is `verdict gap nodes 1`", "yes gap 19 6 41 12"),
    ("line 19 is `plays 3 33 1`, `m 1 1 3`; line 22 is `open`; line 23 is left out; line 24 is `upper 13 4`; line 25 is `verdict gap nodes 1`", "yes gap 19 6 13 4"),
    ("line 7 is `cap 3 proved 4 2`; line 17 is `open`; line 24 is `upper 47 12`; line 25 is `verdict gap nodes 1`", "yes gap 19 6 47 12"),
    ("line 7 is `cap 3 proved 1 2`; line 10 is `m 3 1 3`", "no 6 at line 9"),
    ("line 7 is `cap 3 proved 1 2`", "no 4 at line 7"),
    ("line 16 is `m 2 1 1`", "no 6 at line 15"),
    ("line 20 is `plays 3 37 1`", "no 6 at line 20"),
    ("line 23 is `m 3 1 15`", "no 6 at line 22"),
]
# two types, with facts of the coverage table in a cap, at a base and at nodes
TWO_TARGETS = """version = 1
form = "security"
patrols = 1
targets = ["a", "b"]

[[type]]
name = "thief"
prior = 1
payoffs = [[1, -1, 0, 1], [1, -1, 0, 1]]

[[type]]
name = "spy"
prior = 2
payoffs = [[1, -1, 0, 1], [1, -1, 0, 1]]
"""
COVERED_TWICE = """patrol-report 1
tickets 2 2
t 1 1
t 1 2
value 0 1
cap 2 proved 0 2
cover 1 4 4
c 1 2
c 2 2
c 3 2
c 6 2
cover 1 4 4
c 1 2
c 2 2
c 3 2
c 6 2
split 1 2
open
split 2 2
cover 1 2 4
c 1 1
c 2 1
c 3 1
c 6 1
cover 1 6 5
c 1 3
c 2 3
c 3 3
c 6 1
c 7 2
cover 1 6 4
c 1 3
c 2 3
c 3 3
c 7 1
plays 1 2 1
m 1 1 1
upper 0 1
verdict optimal
end
"""
COVERED_TWICE_CASES = [
    ("as it is", "yes optimal 0 1"),
    ("line 25 is `cover 1 6 4`; line 29 is `c 6 3`; line 30 is left out", "yes optimal 0 1"),
    ("line 7 is `cover 1 3 4`", "no 6 at line 7"),
    ("line 11 is `c 7 2`", "no 6 at line 7"),
    ("line 24 is `c 5 1`", "no 6 at line 20"),
    ("line 30 is `c 7 1`", "no 6 at line 25"),
    ("line 35 is `c 6 1`", "no 6 at line 31"),
]
SHOWN = [
    (LEVELS, LEVEL, "value 2/3\nupper 2/3\ntickets 3\ntarget gate 2\ntarget hall 1\ntype thief attacks gate\n"),
    (INSPECTION, SMALL, "value 11/3\nupper 11/3\ntickets 3\nrow A 2\nrow B 1\ntype first attacks y\n"),
    (INSPECTION, SPENT, "value 2/1\nupper 4/1\ntickets 1\nrow A 1\nrow B 0\ntype first attacks x\n"),
]
WORKED = [
    (INSPECTION, SMALL, SMALL_CASES),
    (INSPECTION, SPENT, SPENT_CASES),
    (INSPECTION, NESTED, [("as it is", "no 4 at line 6")]),
    (TWO_TYPES, NESTED, NESTED_CASES),
    (TWO_TYPES, NESTED, [("no bytes", "report refused 2 at line 1")]),
    (TWO_TYPES, ONE_WORKED, ONE_WORKED_CASES),
    (THREE_TYPES, DEEP, DEEP_CASES),
    (ONE_TARGET, COVERED, COVERED_CASES),
    (ONE_TARGET, COVERED, [("line 4 is `value 2 1`", "no 3 at line 4"), ("cut after line 7", "report refused 2 at line 8")]),
    (TWO_TARGETS, COVERED_TWICE, COVERED_TWICE_CASES),
    (NEIGHBOURS, SHARED, SHARED_CASES),
    (IN_A_ROW, PAIRS, PAIRS_CASES),
    (LEVELS, LEVEL, LEVEL_CASES),
]


def quoted(texts):
    """The texts that stand between backquotes."""
    return re.findall(r"`([^`]*)`", texts)


def exchange(lines, i, j):
    lines[i], lines[j] = lines[j], lines[i]


def leave_out(lines, first, last):
    for i in range(int(first) - 1, int(last)):
        lines[i] = []


def put(lines, n, texts):
    lines[int(n) - 1] = quoted(texts)


def put_after(lines, n, texts):
    lines[int(n) - 1] = lines[int(n) - 1] + quoted(texts)


def put_many(lines, n, times, texts):
    lines[int(n) - 1 :] = [quoted(texts) * int(times)]


def cut_after(lines, n):
    del lines[int(n) :]


# edits in words; each item of `lines` holds the lines that stand where one line of the report stood
EDITS = {
    r"as it is|the last newline is missing": lambda lines: None,
    r"no bytes": list.clear,
    r"cut after line (\d+)": cut_after,
    r"line (\d+) is empty": lambda lines, n: put(lines, n, "``"),
    r"line (\d+) is left out": lambda lines, n: leave_out(lines, n, n),
    r"lines (\d+) to (\d+) are left out": leave_out,
    r"lines (\d+) and (\d+) are exchanged": lambda lines, n, m: exchange(lines, int(n) - 1, int(m) - 1),
    r"line (\d+) is (`.*`)": put,
    r"after line (\d+) comes (`.*`)": put_after,
    r"from line (\d+) on (\d+) times (`.*`)": put_many,
}


def edited(report, how):
    """A report after edits in words, which name the lines of the report as it was."""
    lines = [[line] for line in report.splitlines()]
    for clause in how.split("; "):
        found = [(run, match) for form, run in EDITS.items() if (match := re.fullmatch(form, clause))]
        if len(found) != 1:
            raise ValueError(f"no such edit: {clause}")
        run, match = found[0]
        run(lines, *match.groups())
    text = "".join(line + "\n" for item in lines for line in item)
    return text[:-1] if how == "the last newline is missing" else text


def fault_of_case(game, report, how, expected):
    """How the answer to an edited report differs from what is expected, or nothing."""
    status, out, err = answer(Game(game), edited(report, how).encode())
    right = {"yes optimal": 0, "yes gap": 10}.get(re.match("yes [a-z]+|", expected)[0], 7)
    if status == right and (out or err) == expected + "\n" and bool(out) == (status in (0, 10)):
        return None
    return f"failed: {how}: {status}, {(out + err).strip()}, where {expected} is expected"


def blocks_of(document):
    """The game and the report in the two code blocks below each heading `The NAME report`, and the examples of the tables, as (name, edit, answer)."""
    reports = {}
    for name, body in re.findall(r"^#+ The ([a-z-]+) report\n(.*?)(?=^#+ |\Z)", document, re.M | re.S):
        blocks = re.findall(r"^```[a-z]*\n(.*?)^```", body, re.M | re.S)
        reports[name] = next(it for it in blocks if it.startswith("version")), next(it for it in blocks if it.startswith("patrol-report"))
    rows = re.findall(r"^\|.*\| (?:of the ([a-z-]+) report: )?([^|]*) \| `((?:yes|no|report refused)[^`|]*)` \|$", document, re.M)
    return reports, [(name or "small", how, expected) for name, how, expected in rows]


def self_test():
    """Compares the checker with the answers worked out by hand, and with those of docs/REPORT.md."""
    cases = [(game, report, how, expected) for game, report, rows in WORKED for how, expected in rows]
    with open(PAGE, encoding="utf-8") as file:
        reports, examples = blocks_of(file.read())
    cases += [(*reports[name], how, expected) for name, how, expected in examples]
    faults = [it for it in (fault_of_case(*case) for case in cases) if it]
    faults += [f"failed: show: {report}" for game, report, shown in SHOWN if answer(Game(game), report.encode(), "show") != (0, shown, "")]
    for fault in faults:
        print(fault)
    print(f"{len(cases) + len(SHOWN)} worked cases, {len(examples)} of them in docs/REPORT.md, {len(faults)} failed")
    return 1 if faults else 0
