#!/usr/bin/env python3
"""Says which key, row and rule of a game file is refused, and on which line of the file it stands.

    tools/explain.py GAME          prints what is wrong with the file, or that nothing is
    tools/explain.py --self-test   tries it on one file or more for each reason

`patrol` tells a refused game by a reason and a place, as `game refused 9 at type 1`. This script reads the file in the same order
(docs/GAME-FILE.md) and says more: `line 9: type 1, payoffs of target 2, number 3 is 1073741825: it must be from -1073741824 to 1073741824`.
It shares no code with the program. It ends with status 0 where the file is a game file, with 6 where it is refused, and with 4 where it can't be read.
"""
import re
import sys
import tomllib

NAME = re.compile(r"[A-Za-z0-9_-]{1,64}")
PAYOFF = 2**30
WORD = 2**63
LIMITS = {"targets": 200, "rows": 4096, "schedule": 500, "resource": 32, "type": 8, "actions": 64, "members": 200}
KINDS = {int: "a whole number", str: "a text in quotes", list: "an array", dict: "a table"}


class Refused(Exception):
    """A broken rule: its reason, its place as the program tells it, the path to it in the document, and what to say of it."""

    def __init__(self, reason, place, path, says):
        super().__init__(says)
        self.reason, self.place, self.path, self.says = reason, place, path, says


# ---- finding lines


def skip_string(text, at):
    """The place behind the string that begins here."""
    quote = text[at]
    if text.startswith(quote * 3, at):
        end = text.find(quote * 3, at + 3)
        while quote == '"' and end > 0 and text[end - 1] == "\\":
            end = text.find(quote * 3, end + 1)
        return len(text) if end < 0 else end + 3
    at += 1
    while at < len(text) and text[at] not in (quote, "\n"):
        at += 2 if quote == '"' and text[at] == "\\" else 1
    return at + 1


def skip_blank(text, at):
    """The place behind blanks, newlines and comments."""
    while at < len(text) and (text[at].isspace() or text[at] == "#"):
        if text[at] == "#":
            end = text.find("\n", at)
            at = len(text) if end < 0 else end
        else:
            at += 1
    return at


def skip_value(text, at):
    """The place behind the value that begins here, and the places of its items where it is an array."""
    at = skip_blank(text, at)
    items = []
    if at < len(text) and text[at] in "[{":
        closing = {"[": "]", "{": "}"}[text[at]]
        at += 1
        while True:
            at = skip_blank(text, at)
            if at >= len(text):
                return at, items
            if text[at] == closing:
                return at + 1, items
            if text[at] == ",":
                at += 1
                continue
            items.append(at)
            if closing == "}":
                while at < len(text) and text[at] not in "=}\n":
                    at = skip_string(text, at) if text[at] in "\"'" else at + 1
                at += 1
            at, _ = skip_value(text, at)
    if at < len(text) and text[at] in "\"'":
        return skip_string(text, at), items
    while at < len(text) and text[at] not in ",]}\n#":
        at += 1
    return at, items


def places_of(text):
    """For each key (table, number of the table, key) the place of its value, and for each table the place of its header."""
    found, table, counts = {}, (), {}
    at = 0
    while at < len(text):
        at = skip_blank(text, at)
        if at >= len(text):
            break
        header = re.compile(r"\[\[?\s*([^\]\n]*?)\s*\]\]?").match(text, at)
        if header:
            name = header.group(1).strip("\"'")
            counts[name] = counts.get(name, -1) + 1
            table = (name, counts[name])
            found[table] = at
            at = header.end()
            continue
        key = re.compile(r"\s*(\"[^\"\n]*\"|'[^'\n]*'|[A-Za-z0-9_-]+)[^=\n]*=").match(text, at)
        if not key:
            at = (text.find("\n", at) + 1) or len(text)
            continue
        found[table + (key.group(1).strip("\"'"),)] = at
        found[table + (key.group(1).strip("\"'"), "=")] = key.end()
        at, _ = skip_value(text, key.end())
    return found


def line_of(text, path):
    """The line, from 1, on which the end of a path stands, as far as it is found."""
    found = places_of(text)
    best, rest = None, ()
    for cut in range(len(path), 0, -1):
        if path[:cut] in found:
            best, rest = found[path[:cut]], path[cut:]
            value = found.get(path[:cut] + ("=",))
            break
    if best is None:
        best = found.get(path + (0,)) if len(path) == 1 else None  # a table where an array of tables is due: its header
        return None if best is None else text.count("\n", 0, best) + 1
    for number in rest:
        if value is None or not isinstance(number, int):
            break
        _, items = skip_value(text, value)
        if number >= len(items):
            break
        best = value = items[number]
    return text.count("\n", 0, best) + 1


# ---- the rules, in the order of reading


def kind_of(value):
    return "true or false" if isinstance(value, bool) else KINDS.get(type(value), "a float or a date")


def need_kind(value, kind, place, path, what):
    if type(value) is not kind:
        header = f", which `[[{path[0]}]]` begins" if kind is list and type(value) is dict else ""
        raise Refused(4, place, path, f"{what} is {kind_of(value)}: it must be {KINDS[kind]}{header}")


def need_keys(table, keys, place, path, what):
    for key in keys:
        if key not in table:
            raise Refused(3, place, path, f"{what} has no key `{key}`")


def no_other_keys(table, keys, place, path, what, why=""):
    for key in sorted(table, key=lambda it: it.encode()):
        if key not in keys:
            raise Refused(5, place, path + (key,), f"{what} has the key `{key}`, which it can't have{why}: the keys are {', '.join(keys)}")


def need_range(value, low, high, place, path, what):
    if not low <= value <= high:
        raise Refused(9, place, path, f"{what} is {value}: it must be from {low} to {high}")


def need_items(values, most, place, path, what, why=""):
    if not values:
        raise Refused(6, place, path, f"{what} is empty: it needs at least one item")
    if len(values) > most:
        raise Refused(10, place, path + (most,), f"{what} has {len(values)} items: at most {most} are allowed{why}")


def need_name(value, seen, place, path, what):
    need_kind(value, str, place, path, what)
    if not NAME.fullmatch(value):
        raise Refused(9, place, path, f"{what} is {value!r}: a name has 1 to 64 ASCII letters, digits, `_` and `-`")
    if value in seen:
        raise Refused(8, place, path, f"{what} is {value!r}, which stands in this list already")
    seen.add(value)


def need_members(table, key, known, most, place, path, what, known_as):
    values = table[key]
    path = path + (key,)
    need_kind(values, list, place, path, f"{what}, `{key}`,")
    need_items(values, most, place, path, f"{what}, `{key}`,")
    seen = set()
    for at, value in enumerate(values):
        said = f"{what}, item {at + 1} of `{key}`,"
        need_kind(value, str, place, path + (at,), said)
        if value not in known:
            raise Refused(7, place, path + (at,), f"{said} is {value!r}: there is no {known_as} of this name")
        if value in seen:
            raise Refused(8, place, path + (at,), f"{said} is {value!r}, which stands in this list already")
        seen.add(value)


def read_goals(file, key, most, why):
    need_kind(file[key], list, "document", (key,), f"`{key}`")
    need_items(file[key], most, "document", (key,), f"`{key}`", why)
    seen = set()
    word = key[:-1]
    for at, value in enumerate(file[key]):
        need_name(value, seen, f"{word} {at + 1}", (key, at), f"{word} {at + 1}")
    return file[key]


def read_lists(file, key, member_key, known, known_as):
    """The names of the schedules or resources."""
    need_kind(file[key], list, "document", (key,), f"`{key}`")
    if len(file[key]) > LIMITS[key]:
        raise Refused(10, "document", (key, LIMITS[key]), f"there are {len(file[key])} tables `{key}`: at most {LIMITS[key]} are allowed")
    seen = set()
    for at, table in enumerate(file[key]):
        place = what = f"{key} {at + 1}"
        path = (key, at)
        need_kind(table, dict, place, path, what)
        no_other_keys(table, ["name", member_key], place, path, what)
        need_keys(table, ["name", member_key], place, path, what)
        need_name(table["name"], seen, place, path + ("name",), f"the name of {what}")
        need_members(table, member_key, known, LIMITS["members"] if key == "schedule" else LIMITS["schedule"], place, path, what, known_as)
    return seen


def read_table(rows, names, width, widths, place, path, what, rows_as):
    """One array for each of the names, each with so many whole numbers."""
    need_kind(rows, list, place, path, what)
    if len(rows) != len(names):
        raise Refused(9, place, path, f"{what} has {len(rows)} rows: it needs one for each of the {len(names)} {rows_as}s")
    for at, row in enumerate(rows):
        said = f"{what} of {rows_as} {at + 1} ({names[at]})"
        need_kind(row, list, place, path + (at,), said)
        if len(row) != width:
            raise Refused(9, place, path + (at,), f"{said} has {len(row)} numbers: it needs {widths}")
        for column, value in enumerate(row):
            need_kind(value, int, place, path + (at, column), f"{said}, number {column + 1},")
            need_range(value, -PAYOFF, PAYOFF, place, path + (at, column), f"{said}, number {column + 1},")


def read_type(table, at, is_matrix, goals, scaled, seen):
    place = what = f"type {at + 1}"
    path = ("type", at)
    keys = ["name", "prior", "actions", "leader", "follower"] if is_matrix else ["name", "prior", "payoffs"]
    need_kind(table, dict, place, path, what)
    no_other_keys(table, keys, place, path, what, f" in {'matrix' if is_matrix else 'security'} form")
    need_keys(table, keys, place, path, what)
    need_name(table["name"], seen, place, path + ("name",), f"the name of {what}")
    need_kind(table["prior"], int, place, path + ("prior",), f"the prior of {what}")
    if scaled and table["prior"] != 1:
        raise Refused(9, place, path + ("prior",), f"the prior of {what} is {table['prior']}: with `scale` it must be 1")
    need_range(table["prior"], 1, 2**20, place, path + ("prior",), f"the prior of {what}")
    if not is_matrix:
        four = "four: defender covered, defender uncovered, attacker covered, attacker uncovered"
        read_table(table["payoffs"], goals, 4, four, place, path + ("payoffs",), f"{what}, payoffs", "target")
        return
    need_kind(table["actions"], list, place, path + ("actions",), f"{what}, `actions`,")
    need_items(table["actions"], LIMITS["actions"], place, path + ("actions",), f"{what}, `actions`,")
    names = set()
    for number, value in enumerate(table["actions"]):
        need_name(value, names, place, path + ("actions", number), f"{what}, action {number + 1}")
    width = len(table["actions"])
    for key in ("leader", "follower"):
        read_table(table[key], goals, width, f"{width}, one for each action", place, path + (key,), f"{what}, {key}", "row")


def read_scale(file, goals):
    """Where a scale is declared, each target has gaps that fit it."""
    for at, (dc, du, ac, au) in enumerate(file["type"][0]["payoffs"]):
        path = ("type", 0, "payoffs", at)
        said = f"target {at + 1} ({goals[at]})"
        if dc <= du:
            raise Refused(11, "type 1", path, f"{said}: covering must help the defender, who gets {dc} covered and {du} uncovered (needed for `scale`)")
        if au <= ac:
            raise Refused(11, "type 1", path, f"{said}: covering must hurt the attacker, who gets {ac} covered and {au} uncovered (needed for `scale`)")
        if file["scale"] % (au - ac):
            raise Refused(11, "type 1", path, f"{said}: the attacker's gap {au} - {ac} = {au - ac} doesn't divide the scale {file['scale']}")


def read_security(file):
    scaled, patrolled = "scale" in file, "patrols" in file
    why = ", or 10,000 with `scale`"
    goals = read_goals(file, "targets", 10000 if scaled else LIMITS["targets"], "" if scaled else why)
    if scaled:
        need_kind(file["scale"], int, "document", ("scale",), "`scale`")
        need_range(file["scale"], 1, 2**32, "document", ("scale",), "`scale`")
    if patrolled:
        need_kind(file["patrols"], int, "document", ("patrols",), "`patrols`")
        need_range(file["patrols"], 0, 200 if scaled else 32, "document", ("patrols",), "`patrols`")
    else:
        schedules = read_lists(file, "schedule", "targets", set(goals), "target")
        read_lists(file, "resource", "schedules", schedules, "schedule")
    return goals, scaled


def read(file):
    need_keys(file, ["version"], "document", (), "the file")
    need_kind(file["version"], int, "document", ("version",), "`version`")
    if file["version"] != 1:
        raise Refused(2, "document", ("version",), f"`version` is {file['version']}: it must be 1")
    need_keys(file, ["form"], "document", (), "the file")
    need_kind(file["form"], str, "document", ("form",), "`form`")
    if file["form"] not in ("security", "matrix"):
        raise Refused(9, "document", ("form",), f"`form` is {file['form']!r}: it must be \"security\" or \"matrix\"")
    is_matrix = file["form"] == "matrix"
    if is_matrix:
        keys = needed = ["version", "form", "rows", "type"]
        why = " in matrix form"
    elif "patrols" in file:
        keys, why = ["version", "form", "targets", "scale", "patrols", "type"], " beside `patrols`"
        needed = ["targets", "type"]
    else:
        keys, why = ["version", "form", "targets", "scale", "patrols", "schedule", "resource", "type"], ""
        needed = ["targets"] + (["patrols"] if "scale" in file else ["schedule", "resource"]) + ["type"]
    no_other_keys(file, keys, "document", (), "the file", why)
    because = " (`scale` needs it)" if "scale" in file and "patrols" not in file else ""
    for key in needed:
        if key not in file:
            raise Refused(3, "document", (), f"the file has no key `{key}`{because if key == 'patrols' else ''}")
    goals, scaled = (read_goals(file, "rows", LIMITS["rows"], ""), False) if is_matrix else read_security(file)
    need_kind(file["type"], list, "document", ("type",), "`type`")
    need_items(file["type"], 1 if scaled else LIMITS["type"], "document", ("type",), "`type`", " with `scale`" if scaled else "")
    seen = set()
    for at, table in enumerate(file["type"]):
        read_type(table, at, is_matrix, goals, scaled, seen)
    if scaled:
        read_scale(file, goals)
    elif (rows := program_rows(file, is_matrix, goals)) > 1536:
        raise Refused(10, "document", ("type",), f"the game's largest linear program has {rows} rows: at most 1536 are allowed (fewer targets, types or resources)")


def program_rows(file, is_matrix, goals):
    if is_matrix:
        return 1 + sum(len(it["actions"]) - 1 for it in file["type"])
    resources = file["patrols"] if "patrols" in file else len(file["resource"])
    return 1 + resources + 2 * len(goals) + len(file["type"]) * (len(goals) - 1)


def whole(value):
    """Refuses integers that 64 bits don't hold, as the program's reader of TOML does."""
    if isinstance(value, dict):
        value = list(value.values())
    if isinstance(value, list):
        for it in value:
            whole(it)
    elif type(value) is int and not -WORD <= value < WORD:
        raise Refused(1, "document", (), f"the number {value} doesn't fit 64 bits, so the file is no TOML")


def explain(data):
    """The refusal of the bytes of a game file, with its line, or nothing."""
    text = ""
    try:
        if len(data) > 4194304:
            return Refused(0, "document", (), f"the file has {len(data)} bytes: at most 4194304 are allowed (`game too long`)"), None
        text = data.decode("utf-8-sig").replace("\r\n", "\n")
        file = tomllib.loads(text)
        whole(file)
        read(file)
    except UnicodeDecodeError as fault:
        return Refused(1, "document", (), f"byte {fault.start + 1} is no UTF-8, so the file is no TOML"), data.count(b"\n", 0, fault.start) + 1
    except tomllib.TOMLDecodeError as fault:
        line = re.search(r"line (\d+)", str(fault))
        return Refused(1, "document", (), f"not TOML: {fault}"), int(line.group(1)) if line else None
    except Refused as fault:
        return fault, line_of(text, fault.path)
    return None, None


def told(fault, line):
    where = f"line {line}: " if line else ""
    return f"game refused {fault.reason} at {fault.place}\n{where}{fault.says}"


# ---- its own cases

PLAIN = """version = 1
form = "security"
scale = 4
patrols = 1
targets = ["gate", "hall"]

[[type]]
name = "thief"
prior = 1
payoffs = [
  [2, -2, 0, 4],   # gate
  [1, -1, 0, 2],   # hall
]
"""
LISTED = """version = 1
form = "security"
targets = ["a", "b"]

[[schedule]]
name = "both"
targets = ["a", "b"]

[[resource]]
name = "one"
schedules = ["both"]

[[type]]
name = "thief"
prior = 1
payoffs = [[0, -1, 0, 1], [0, -1, 0, 1]]
"""
TABLES = """version = 1
form = "matrix"
rows = ["A", "B"]

[[type]]
name = "first"
prior = 1
actions = ["x", "y"]
leader = [[2, 4], [1, 3]]
follower = [[1, 0], [0, 2]]
"""
# the file, what is changed in it, the reason, the place, the line and a word of what is said
CASES = [
    (PLAIN, "scale = 4", "scale = ", 1, "document", 3, "not TOML"),
    (PLAIN, "[2, -2, 0, 4]", "[2, -2, 0, 9223372036854775808]", 1, "document", None, "64 bits"),
    (PLAIN, "version = 1", "version = 2", 2, "document", 1, "version"),
    (PLAIN, "version = 1\n", "", 3, "document", None, "version"),
    (PLAIN, "patrols = 1\n", "", 3, "document", None, "`scale` needs it"),
    (PLAIN, "prior = 1\n", "", 3, "type 1", 7, "prior"),
    (PLAIN, "patrols = 1", 'patrols = "one"', 4, "document", 4, "text in quotes"),
    (PLAIN, "[1, -1, 0, 2]", "[1, -1, 0.5, 2]", 4, "type 1", 12, "number 3"),
    (PLAIN, "[[type]]", "[type]", 4, "document", 7, "`[[type]]` begins"),
    (PLAIN, "patrols = 1", 'patrols = 1\ncolour = "red"', 5, "document", 5, "colour"),
    (PLAIN, "patrols = 1", "patrols = 1\nschedule = []", 5, "document", 5, "beside `patrols`"),
    (TABLES, "follower = [[1, 0], [0, 2]]", "follower = [[1, 0], [0, 2]]\npayoffs = []", 5, "type 1", 11, "matrix form"),
    (PLAIN, '["gate", "hall"]', "[]", 6, "document", 5, "empty"),
    (LISTED, 'targets = ["a", "b"]\n\n[[resource]]', 'targets = ["a", "c"]\n\n[[resource]]', 7, "schedule 1", 7, "'c'"),
    (LISTED, 'schedules = ["both"]', 'schedules = ["all"]', 7, "resource 1", 11, "'all'"),
    (PLAIN, '["gate", "hall"]', '["gate", "gate"]', 8, "target 2", 5, "already"),
    (LISTED, 'schedules = ["both"]', 'schedules = ["both", "both"]', 8, "resource 1", 11, "item 2"),
    (PLAIN, "[1, -1, 0, 2]", "[1, -1, 0, 1073741825]", 9, "type 1", 12, "1073741825"),
    (PLAIN, "[1, -1, 0, 2]", "[1, -1, 0, 2, 3]", 9, "type 1", 12, "5 numbers"),
    (PLAIN, "prior = 1", "prior = 0", 9, "type 1", 9, "prior"),
    (PLAIN, '"hall"]', '"the hall"]', 9, "target 2", 5, "ASCII"),
    (PLAIN, '"hall"]', '"h\u00e4ll"]', 9, "target 2", 5, "ASCII"),
    (PLAIN, '"security"', '"security-game"', 9, "document", 2, "matrix"),
    (PLAIN, "  [1, -1, 0, 2],   # hall\n", "", 9, "type 1", 10, "2 targets"),
    (TABLES, "[1, 3]]", "[1, 3, 5]]", 9, "type 1", 9, "row 2 (B)"),
    (PLAIN, "[[type]]", '[[type]]\nname = "other"\nprior = 1\npayoffs = []\n\n[[type]]', 10, "document", 12, "with `scale`"),
    (LISTED, '["a", "b"]\n\n[[sch', "[" + ", ".join(f'"t{it}"' for it in range(201)) + ']\n\n[[sch', 10, "document", 3, "201 items"),
    (PLAIN, "scale = 4", "scale = 6", 11, "type 1", 11, "doesn't divide"),
    (PLAIN, "[1, -1, 0, 2]", "[-1, -1, 0, 2]", 11, "type 1", 12, "help the defender"),
    (PLAIN, "[1, -1, 0, 2]", "[1, -1, 2, 2]", 11, "type 1", 12, "hurt the attacker"),
]


def self_test():
    failed = 0
    for text, old, new, reason, place, line, word in CASES:
        assert text.count(old) == 1, old
        fault, found = explain(text.replace(old, new).encode())
        if fault is None or (fault.reason, fault.place, found) != (reason, place, line) or word not in fault.says:
            failed += 1
            print(f"failed: {new!r}: expected {reason} at {place}, line {line}, {word!r}; got", "nothing" if fault is None else told(fault, found))
    for text in (PLAIN, LISTED, TABLES):
        if explain(text.encode())[0] or explain(text.replace("\n", "\r\n").encode("utf-8-sig"))[0]:
            failed += 1
            print("failed: a game file is refused")
    print(f"{len(CASES) + 6} cases, {failed} failed")
    return 1 if failed else 0


def main():
    if sys.argv[1:] == ["--self-test"]:
        return self_test()
    if len(sys.argv) != 2:
        print(__doc__.split("\n\n")[1], file=sys.stderr)
        return 2
    try:
        with open(sys.argv[1], "rb") as file:
            data = file.read()
    except OSError as fault:
        print(f"{sys.argv[1]}: {fault.strerror}", file=sys.stderr)
        return 4
    fault, line = explain(data)
    print("this is a game file" if fault is None else told(fault, line))
    return 0 if fault is None else 6


if __name__ == "__main__":
    sys.exit(main())
