# The scripts whose check is measured: many lines of one form, near the most bytes that a script may have.

import itertools
import string
from typing import Callable, NamedTuple

MOST_BYTES = 65536
NAME_BYTES = string.ascii_letters + string.digits + "_"
NESTED = 60
WIDEST = 1024


class Shape(NamedTuple):
    """A form of script, how many of its lines make it whole, and its text of so many lines."""
    name: str
    lines: int
    text: Callable[[int], str]


# Names of this length; none is a word of the language, since they begin with a capital letter.
def names(count, length=2):
    made = map("".join, itertools.product(string.ascii_uppercase, *[NAME_BYTES] * (length - 1)))
    return list(itertools.islice(made, count))


# A line that gives a variable a frame of these columns.
def frame(variable, columns):
    return f'{variable}=read_csv("t",:{",:".join(columns)})\n'


# Frames of 511 columns, joined: each join has 1,021.
def joins(count):
    columns = names(1020)
    return frame("a", ["k", *columns[:510]]) + frame("b", ["k", *columns[510:]]) + "j=join(a,b,:k)\n" * count


# A frame of the most columns, assigned to its own variable.
def frames_read(count):
    return frame("d", names(WIDEST)) + "d=d\n" * count


# The last column of a frame of the most columns.
def columns_read(count):
    columns = names(WIDEST)
    return frame("d", columns) + f"x=d.{columns[-1]}\n" * count


# Frames of the most columns, each made of named arrays.
def columns_named(count):
    return "v=fill(1,1)\n" + f"d=DataFrame({','.join(f'{name}=v' for name in names(WIDEST))})\n" * count


# Variables, each read once.
def variables_read(count):
    made = names(count, 3)
    return "".join(f"{name}=1\n" for name in made) + "".join(f"println({name})\n" for name in made)


# An `if` for each of so many variables, which both branches assign.
def branches(count):
    made = names(count, 3)
    return "t=true\n" + "".join(f"{name}=1\n" for name in made) + \
        "".join(f"if t\n{name}=1\nelse\n{name}=2\nend\n" for name in made)


# Variables, each read inside of many `if`s.
def nested(count):
    made = names(count, 3)
    return "t=true\n" + "".join(f"{name}=1\n" for name in made) + "if t\n" * NESTED + \
        "".join(f"println({name})\n" for name in made) + "end\n" * NESTED


# Each statement reads what the one before it assigns.
def chain(count):
    letters = string.ascii_lowercase
    return "a=1\n" + "".join(f"{letters[(place + 1) % 26]}={letters[place % 26]}\n" for place in range(count))


SHAPES = (
    Shape("joins", 3800, joins),
    Shape("frames read", 15000, frames_read),
    Shape("columns read", 8500, columns_read),
    Shape("columns named", 12, columns_named),
    Shape("variables read", 3400, variables_read),
    Shape("branches", 2000, branches),
    Shape("nested", 3000, nested),
    Shape("chain", 12000, chain),
)
