# Single constructs, each measured by a script with it less the same script without it; with the same in plain Python, and
# in numpy or pandas where these are installed.

import random
from typing import Any, Callable, NamedTuple

try:
    import numpy
except ModuleNotFoundError:
    numpy = None
try:
    import pandas
except ModuleNotFoundError:
    pandas = None

ELEMENTS = 2**20
ROWS = 2 * 10**5
TURNS = 10**5
SEED = 20261202


class Construct(NamedTuple):
    """A construct: its script before it, itself, what the script prints, and how often it does the same."""
    name: str
    count: int
    before: str
    lines: str
    # What is printed at the end, with and without the construct.
    print: str
    tables: Callable[[], dict[str, list[tuple[int, int]]]]
    # The data of the peers, and what they do with it.
    data: Callable[[], Any]
    python: Callable[[Any], Any]
    peer_data: Callable[[], Any] | None
    peer: Callable[[Any], Any] | None
    # The most instructions each, and the most KiB of the whole run.
    bar: int
    most_kib: int | None


def no_tables():
    return {}


def numbers():
    return list(range(1, ELEMENTS + 1))


def array():
    return numpy.arange(1, ELEMENTS + 1)


# An array of the numbers from 1 on, and what is done with it.
def of_array(name, line, python, peer, bar):
    before = f"x = collect(1:{ELEMENTS})\n"
    return Construct(name, ELEMENTS, before, f"z = {line}\n", "println(sum(x))\n", no_tables, numbers, python,
                     array if numpy else None, peer, bar, None)


def python_stencil(x):
    padded = [0, *x, 0]
    return [padded[i] + padded[i + 1] + padded[i + 2] for i in range(len(x))]


def numpy_stencil(x):
    padded = numpy.concatenate(([0], x, [0]))
    return padded[:-2] + padded[1:-1] + padded[2:]


# Turns of a loop, in a script of so many variables.
def turns(variables):
    before = "".join(f"v{k} = {k}\n" for k in range(variables - 1))
    loop = f"i = 0\nwhile i < {TURNS}\ni = i + 1\nend\n"
    return Construct(f"turn, {variables} vars", TURNS, before, loop, "println(1)\n", no_tables, lambda: TURNS,
                     python_turns, None, None, 500, None)


def python_turns(count):
    i = 0
    while i < count:
        i = i + 1
    return i


# Rows with a key of its own for each, in no order; or with one of so many keys.
def drawn_rows(keys):
    drawn = random.Random(SEED)
    if keys is None:
        return [(key * 1000003 - 2**40, drawn.randrange(100)) for key in drawn.sample(range(ROWS), ROWS)]
    return [(drawn.randrange(keys), drawn.randrange(100)) for _ in range(ROWS)]


def frame_of(rows):
    return pandas.DataFrame(rows, columns=["k", "v"])


# What is done with a frame of drawn rows, and with another one of the same keys.
def of_rows(name, keys, line, python, peer, bar, most_kib):
    before = 't = read_csv("t.csv", :k, :v)\nu = read_csv("u.csv", :k, :w)\n'
    rows = drawn_rows(keys)
    tables = {"t.csv": [("k", "v"), *rows], "u.csv": [("k", "w"), *reversed(rows)] if keys is None else [("k", "w")]}
    return Construct(name, ROWS, before, f"z = {line}\n", "println(1)\n", lambda: tables, lambda: rows, python,
                     (lambda: frame_of(rows)) if pandas else None, peer, bar, most_kib)


def python_aggregate(rows):
    groups = {}
    for key, value in rows:
        entry = groups.setdefault(key, [0, 0])
        entry[0] += value
        entry[1] += 1
    return groups


def python_join(rows):
    places = {}
    for key, value in reversed(rows):
        places.setdefault(key, []).append(value)
    return [(key, value, other) for key, value in rows for other in places.get(key, ())]


def constructs():
    return (
        Construct("x .+ y", ELEMENTS, f"x = collect(1:{ELEMENTS})\ny = fill(2, {ELEMENTS})\n", "z = x .+ y\n", "println(sum(x))\n",
                  no_tables, lambda: (numbers(), [2] * ELEMENTS), lambda two: [p + q for p, q in zip(*two)],
                  (lambda: (array(), numpy.full(ELEMENTS, 2))) if numpy else None, lambda two: two[0] + two[1], 12, None),
        of_array("map p * 3 + 1", "map(p -> p * 3 + 1, x)", lambda x: [p * 3 + 1 for p in x], lambda x: x * 3 + 1, 20),
        of_array("map p > 2 && p < 9", "map(p -> p > 2 && p < 9, x)", lambda x: [p > 2 and p < 9 for p in x], lambda x: (x > 2) & (x < 9), 40),
        of_array("stencil of 3", "stencil(p -> p[-1] + p[0] + p[1], x)", python_stencil, numpy_stencil, 30),
        turns(1),
        turns(3000),
        of_rows("aggregate", None, "aggregate(t, :k, s = sum(:v), n = count())", python_aggregate,
                lambda f: f.groupby("k", sort=False).agg(s=("v", "sum"), n=("v", "count")), 500, 60 * 1024),
        of_rows("join", None, "join(t, u, :k)", python_join, lambda f: f.merge(f.iloc[::-1], on="k"), 450, 80 * 1024),
        of_rows("sort, 100 keys", 100, "sort(t, :k)", sorted, lambda f: f.sort_values(["k", "v"], kind="stable"), 700, None),
    )
