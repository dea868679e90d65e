#!/usr/bin/env python3
"""random_queries.py PROGRAM [CASES] [SEED]: random scripts, whose replies are compared with those of this evaluator.

Each case makes five small tables, deletes and updates some of their objects, packs one, and asks a query. The evaluator
here shares nothing with the program: it works on lists of Python's own numbers. Prints each script whose replies differ,
and at last how many cases there were, how many of them were to be refused as too wide, and how many differed."""
import datetime
import random
import subprocess
import sys
import tempfile
from dataclasses import dataclass
from fractions import Fraction
from functools import cmp_to_key
from pathlib import Path

COUNT, AMOUNT, DAY, TEXT = "CADT"
TABLES = {
    "region": {"regionkey": COUNT, "name": TEXT, "comment": TEXT},
    "nation": {"nationkey": COUNT, "name": TEXT, "regionkey": COUNT, "comment": TEXT},
    "supplier": {"suppkey": COUNT, "name": TEXT, "address": TEXT, "nationkey": COUNT, "phone": TEXT, "acctbal": AMOUNT, "comment": TEXT},
    "customer": {"custkey": COUNT, "name": TEXT, "address": TEXT, "nationkey": COUNT, "phone": TEXT, "acctbal": AMOUNT, "mktsegment": TEXT, "comment": TEXT},
    "orders": {"orderkey": COUNT, "custkey": COUNT, "orderstatus": TEXT, "totalprice": AMOUNT, "orderdate": DAY, "orderpriority": TEXT, "clerk": TEXT, "shippriority": COUNT, "comment": TEXT},
}
# the reference of a table, the table that it leads to, and the column that has its key
REFERENCES = {"nation": ("region", "region", "regionkey"), "supplier": ("nation", "nation", "nationkey"), "customer": ("nation", "nation", "nationkey"), "orders": ("customer", "customer", "custkey")}
ROWS = {"region": 5, "nation": 20, "supplier": 40, "customer": 90, "orders": 200}
UNITS_MAX, SIZE_LIMIT, SUM_LIMIT, SCALE_MAX = 10**12 - 1, 2**96, 2**68, 18
EPOCH = datetime.date(1970, 1, 1)
FIRST_DAY, LAST_DAY = -719528, 2932896
COMPARE = {"=": lambda c: c == 0, "<>": lambda c: c != 0, "<": lambda c: c < 0, "<=": lambda c: c <= 0, ">": lambda c: c > 0, ">=": lambda c: c >= 0}


@dataclass(frozen=True)
class Number:
    units: int
    scale: int

    def at(self, scale):
        return self.units * 10 ** (scale - self.scale)

    def __str__(self):
        if self.scale == 0:
            return str(self.units)
        digits = str(abs(self.units)).rjust(self.scale + 1, "0")
        return ("-" if self.units < 0 else "") + digits[: -self.scale] + "." + digits[-self.scale :]


@dataclass(frozen=True)
class Day:
    number: int

    def __str__(self):
        return (EPOCH + datetime.timedelta(days=self.number)).isoformat()


def order(one, other):
    """Below, at or above 0, as one value is less than, equal to or greater than the other; none is least."""
    if one is None or other is None:
        return (one is not None) - (other is not None)
    if isinstance(one, Number):
        scale = max(one.scale, other.scale)
        one, other = one.at(scale), other.at(scale)
    elif isinstance(one, Day):
        one, other = one.number, other.number
    else:
        one, other = one.encode(), other.encode()
    return (one > other) - (one < other)


def shown(value):
    return "none" if value is None else str(value)


# ---- tables


class Thing:
    """An object: its fields, the object that it refers to, and whether it is there."""

    def __init__(self, fields, behind):
        self.fields, self.behind, self.there = fields, behind, True

    def read(self, path):
        """The value of a path, or None where it comes to no object."""
        thing = self
        for _ in path[:-1]:
            thing = thing.behind
            if thing is None or not thing.there:
                return None
        return thing.fields[path[-1]]


def random_field(kind, place, column):
    if column.endswith("key"):
        return Number(place, 0)
    if kind == COUNT:
        return Number(random.choice([0, 1, 2, 7, 10**12 - 1]), 0)
    if kind == AMOUNT:
        return Number(random.choice([0, 1, -1, random.randint(-99999, 99999), 10**12 - 1]), 2)
    if kind == DAY:
        return Day(random.randint(8000, 9000))
    # the status of an order has room for one byte
    return random.choice(["", "A", "B"] if column == "orderstatus" else ["", "A", "B", "AB", "ab", "Zürich"])


def random_tables():
    things = {}
    for table, columns in TABLES.items():
        keys = {}
        if table in REFERENCES:
            _, other, key = REFERENCES[table]
            keys = {thing.fields[key].units: thing for thing in things[other]}
        things[table] = []
        for place in range(ROWS[table]):
            fields = {column: random_field(kind, place, column) for column, kind in columns.items()}
            behind = None
            if keys:
                # one key more than there are leads nowhere
                fields[REFERENCES[table][2]] = Number(random.randrange(len(keys) + 1), 0)
                behind = keys.get(fields[REFERENCES[table][2]].units)
            things[table].append(Thing(fields, behind))
    return things


def paths_of(table):
    found = [((column,), kind) for column, kind in TABLES[table].items()]
    if table in REFERENCES:
        reference, other, _ = REFERENCES[table]
        found += [((reference,) + path, kind) for path, kind in paths_of(other)]
    return found


# ---- expressions and conditions, as text, with a function of an object


@dataclass
class Expr:
    text: str
    value: object
    scale: int
    bound: int
    wide: bool = False
    paths: tuple = ()


def random_expr(paths, depth):
    if depth == 0 or random.random() < 0.3:
        if random.random() < 0.75:
            path, kind = random.choice([found for found in paths if found[1] in (COUNT, AMOUNT)])
            return Expr(".".join(path), lambda thing: thing.read(path), 2 if kind == AMOUNT else 0, UNITS_MAX, paths=(path,))
        number = Number(random.randint(0, 10**4), random.randint(0, 2))
        return Expr(str(number), lambda thing: number, number.scale, number.units)
    mark = random.choice(["+", "-", "*", "minus"])
    if mark == "minus":
        of = random_expr(paths, depth - 1)
        return Expr(f"-({of.text})", lambda thing: Number(-of.value(thing).units, of.scale), of.scale, of.bound, of.wide, of.paths)
    one, other = random_expr(paths, depth - 1), random_expr(paths, depth - 1)
    if mark == "*":
        scale, bound = one.scale + other.scale, one.bound * other.bound
        value = lambda thing: Number(one.value(thing).units * other.value(thing).units, scale)
    else:
        scale = max(one.scale, other.scale)
        bound = Number(one.bound, one.scale).at(scale) + Number(other.bound, other.scale).at(scale)
        sign = 1 if mark == "+" else -1
        value = lambda thing: Number(one.value(thing).at(scale) + sign * other.value(thing).at(scale), scale)
    wide = one.wide or other.wide or bound >= SIZE_LIMIT or scale > SCALE_MAX
    return Expr(f"({one.text} {mark} {other.text})", value, scale, bound, wide, one.paths + other.paths)


@dataclass
class Cond:
    text: str
    holds: object
    wide: bool = False
    paths: tuple = ()


def is_wide_beside(one, other):
    scale = max(one.scale, other.scale)
    return one.wide or other.wide or any(Number(side.bound, side.scale).at(scale) >= SIZE_LIMIT for side in (one, other))


def random_cond(paths, things, depth):
    if depth > 0 and random.random() < 0.5:
        one = random_cond(paths, things, depth - 1)
        mark = random.choice(["and", "or", "not"])
        if mark == "not":
            return Cond(f"not [{one.text}]", lambda thing: not one.holds(thing), one.wide, one.paths)
        other = random_cond(paths, things, depth - 1)
        both = (lambda a, b: a and b) if mark == "and" else (lambda a, b: a or b)
        return Cond(f"[{one.text}] {mark} [{other.text}]", lambda thing: both(one.holds(thing), other.holds(thing)), one.wide or other.wide, one.paths + other.paths)
    mark = random.choice(list(COMPARE))
    others = [path for path, kind in paths if kind in (DAY, TEXT)]
    if random.random() < 0.4:
        path = random.choice(others)
        value = random.choice(things).read(path) or (Day(8500) if dict(paths)[path] == DAY else "A")
        text = str(value) if isinstance(value, Day) else f"'{value}'"
        return Cond(f"{'.'.join(path)} {mark} {text}", lambda thing: COMPARE[mark](order(thing.read(path), value)), paths=(path,))
    one, other, last = (random_expr(paths, 1) for _ in range(3))
    if random.random() < 0.3:
        holds = lambda thing: order(one.value(thing), other.value(thing)) >= 0 and order(one.value(thing), last.value(thing)) <= 0
        wide = is_wide_beside(one, other) or is_wide_beside(one, last)
        return Cond(f"{one.text} between {other.text} and {last.text}", holds, wide, one.paths + other.paths + last.paths)
    return Cond(f"{one.text} {mark} {other.text}", lambda thing: COMPARE[mark](order(one.value(thing), other.value(thing))), is_wide_beside(one, other), one.paths + other.paths)


def rows_of(things, paths):
    """The objects that are there, and whose paths all come to an object."""
    return [thing for thing in things if thing.there and all(thing.read(path) is not None for path in paths)]


# ---- queries


def nearest(total, scale, count, to):
    """A total of this scale, divided by a count, rounded half away from zero."""
    exact = Fraction(total * 10 ** (to - scale), count)
    size = (2 * abs(exact.numerator) + exact.denominator) // (2 * exact.denominator)
    return Number(size if exact >= 0 else -size, to)


def shown_of(call, of, group):
    if call == "count":
        return Number(len(group), 0)
    values = [of.value(thing) for thing in group]
    if call in ("min", "max"):
        return (min if call == "min" else max)(values, key=cmp_to_key(order), default=None)
    units = sorted(value.units for value in values)
    if call == "sum":
        return Number(sum(units), of.scale)
    if call == "distinct":
        return Number(len(set(units)), 0)
    if not units:
        return None
    if call == "avg":
        return nearest(sum(units), of.scale, len(units), max(of.scale, 2))
    if call == "median":
        return Number(units[(len(units) - 1) // 2], of.scale)
    return Number(units[-1] - units[0], of.scale)


def random_item(paths):
    call = random.choice(["count", "sum", "avg", "min", "max", "distinct", "median", "range"])
    if call == "count":
        return call, None, "count()", False
    if call in ("min", "max") and random.random() < 0.5:
        path, _ = random.choice(paths)
        of = Expr(".".join(path), lambda thing: thing.read(path), 0, 0, paths=(path,))
    else:
        of = random_expr(paths, 2)
    wide = of.wide or call in ("sum", "avg") and of.bound >= SUM_LIMIT
    return call, of, f"{'fold ' if call in ('distinct', 'median', 'range') else ''}{call}({of.text})", wide


def random_query(tables):
    """A query, and the lines of its answer, or None where it is too wide."""
    table = random.choice(list(TABLES))
    paths = paths_of(table)
    cond = random_cond(paths, tables[table], 2) if random.random() < 0.7 else None
    by = [path for path, _ in random.sample(paths, random.choice([0, 0, 1, 2]))]
    items = [random_item(paths) for _ in range(random.randint(1, 4))]
    labels = [f"x{place}" if random.random() < 0.6 else "" for place in range(len(items))]
    columns = [".".join(path) for path in by] + labels
    keys = [(columns.index(column), random.random() < 0.5) for column in random.sample(columns, random.randint(0, min(2, len(columns)))) if column]
    first = random.choice([None, None, 0, 1, 3])
    text = f"query from {table}" + (f" where {cond.text}" if cond else "") + (" by " + ", ".join(columns[: len(by)]) if by else "")
    text += " show " + ", ".join(item[2] + (f" as {label}" if label else "") for item, label in zip(items, labels))
    text += (" sort " + ", ".join(columns[place] + (" desc" if down else "") for place, down in keys) if keys else "") + (f" first {first}" if first is not None else "")
    if cond and cond.wide or any(wide for *_, wide in items):
        return text, None
    used = by + [path for part in ([cond] if cond else []) + [of for _, of, *_ in items if of] for path in part.paths]
    groups = {} if by else {(): []}
    for thing in rows_of(tables[table], used):
        if cond is None or cond.holds(thing):
            groups.setdefault(tuple(thing.read(path) for path in by), []).append(thing)
    answer = [list(key) + [shown_of(call, of, group) for call, of, *_ in items] for key, group in groups.items()]

    def compare(one, other):
        for place, down in keys:
            found = order(one[place], other[place])
            if found:
                return -found if down else found
        return next((found for found in map(order, one, other) if found), 0)

    answer = sorted(answer, key=cmp_to_key(compare))[:first]
    return text, [f"rows {len(answer)}"] + ["|".join(map(shown, row)) for row in answer]


# ---- edits


def random_edit(tables):
    """A delete, an update or a packing, which is done to the tables, and its reply; None where it would be refused."""
    table = random.choice(list(TABLES))
    paths = paths_of(table)
    if random.random() < 0.2:
        count = len(rows_of(tables[table], ()))
        return f"compact {table}", f"packed {table} objects {count} blocks {-(-count // 64)}"
    cond = random_cond(paths, tables[table], 1)
    if cond.wide:
        return None
    if random.random() < 0.4:
        gone = [thing for thing in rows_of(tables[table], cond.paths) if cond.holds(thing)]
        for thing in gone:
            thing.there = False
        return f"delete {table} where {cond.text}", f"deleted {len(gone)}"
    column, kind = random.choice([(column, kind) for column, kind in TABLES[table].items() if kind != TEXT])
    if kind == DAY:
        days = random.randint(-800000, 3000000)
        of = Expr(f"{column} {'-' if days < 0 else '+'} {abs(days)}", lambda thing: Day(thing.read((column,)).number + days), 0, 0, paths=((column,),))
        fits = lambda value: FIRST_DAY <= value.number <= LAST_DAY
    else:
        of, scale = random_expr(paths, 1), 2 if kind == AMOUNT else 0
        if of.scale > scale or of.wide or Number(of.bound, of.scale).at(scale) >= SIZE_LIMIT:
            return None
        raw = of.value
        of.value = lambda thing: Number(raw(thing).at(scale), scale)
        fits = lambda value: (-UNITS_MAX if kind == AMOUNT else 0) <= value.units <= UNITS_MAX
    met = [(thing, of.value(thing)) for thing in rows_of(tables[table], cond.paths + of.paths) if cond.holds(thing)]
    written = [(thing, value) for thing, value in met if fits(value)]
    for thing, value in written:
        thing.fields[column] = value
    return f"update {table} set {column} = {of.text} where {cond.text}", f"updated {len(written)} skipped {len(met) - len(written)}"


def random_case(folder):
    """A script, and its replies, or None where it is to be refused at its last line."""
    tables = random_tables()
    script, replies = [], []
    for table, things in tables.items():
        lines = ["".join(str(value) + "|" for value in thing.fields.values()) for thing in things]
        (folder / f"{table}.tbl").write_text("\n".join(lines) + "\n")
        script.insert(0, f"room {table} {max(64, len(things))}")
        script.append(f"load {table} {table}.tbl")
        replies.append(f"loaded {table} {len(things)}")
    for edit in filter(None, (random_edit(tables) for _ in range(random.randint(0, 3)))):
        script.append(edit[0])
        replies.append(edit[1])
    query, answer = random_query(tables)
    script.append(query)
    return script, None if answer is None else replies + answer


def main():
    program = Path(sys.argv[1]).resolve()
    cases = int(sys.argv[2]) if len(sys.argv) > 2 else 1000
    random.seed(int(sys.argv[3]) if len(sys.argv) > 3 else 1)
    wide = differ = 0
    with tempfile.TemporaryDirectory() as name:
        for _ in range(cases):
            script, replies = random_case(Path(name))
            if any(len(line.encode()) > 1024 for line in script):
                continue
            run = subprocess.run([program, "run"], input="\n".join(script).encode() + b"\n", capture_output=True, cwd=name)
            wide += replies is None
            want = (2, "") if replies is None else (0, "\n".join(replies) + "\n")
            if (run.returncode, run.stdout.decode()) != want:
                differ += 1
                print("\n".join(script), f"got {run.returncode}:", run.stdout.decode(), f"wanted {want[0]}:", want[1], sep="\n")
    print(f"cases {cases}, too wide {wide}, different {differ}")
    sys.exit(differ > 0)


if __name__ == "__main__":
    main()
