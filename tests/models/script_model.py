"""Parts of scripts with what they do. It shares no code with the compiler or the machine.

A script is made of `Node`s. A node has its source text and a Python function that does the same. So the expected output of a
script is computed next to its text, and no parser is needed. Expressions have types, so that a script can only fault by an
overflow, a division by zero, an index out of bounds, or `throw`. What can fault has a mark in the text, which `unmarked` takes
away: so the place of a fault is known too.
"""
import dataclasses
import itertools
import re
import typing

from models import script_floats
from models.script_floats import float_text, mixed

LEAST, GREATEST = -(1 << 63), (1 << 63) - 1
STEPS, TEXT = 20_000, 2_000

# The precedence of each operator, as the Rhai Book lists them. Operands of one that isn't higher are put into brackets.
LEVELS = {"<<": 210, ">>": 210, "**": 190, "*": 180, "/": 180, "%": 180, "+": 150, "-": 150}
LEVELS |= {"<": 130, "<=": 130, ">": 130, ">=": 130, "in": 110, "!in": 110, "==": 90, "!=": 90}
LEVELS |= {"&&": 60, "&": 60, "||": 30, "|": 30, "^": 30}
ATOM, POSTFIX, PREFIX, OPEN = 999, 900, 250, 0


class Fault(Exception):
    """An error of the run: `kind` is `overflow`, `zero`, `bounds` or `thrown`, and `mark` says where it is."""

    def __init__(self, kind, value=None, mark=None):
        super().__init__(kind)
        self.kind, self.value, self.mark = kind, value, mark


class Leave(Exception):
    """`break`, `continue` or `return`."""

    def __init__(self, how, value=None):
        super().__init__(how)
        self.how, self.value = how, value


class TooMuch(Exception):
    """The script is too slow or its texts too long for a test."""


MARK = re.compile("\x01(\\d+)\x02")
numbers = itertools.count()


def new_mark():
    """A number, and the mark with this number, which stands before the sign or word that a fault is reported at."""
    number = next(numbers)
    return number, f"\x01{number}\x02"


def unmarked(text):
    """The text without marks, and for each mark its line and column."""
    places, parts, line, column, done = {}, [], 1, 1, 0
    for found in MARK.finditer(text):
        part = text[done : found.start()]
        line, column = line + part.count("\n"), len(part) - part.rfind("\n") if "\n" in part else column + len(part)
        places[int(found[1])] = (line, column)
        parts.append(part)
        done = found.end()
    return "".join(parts) + text[done:], places


def at(mark, does, *given):
    """What a function returns. Its fault is at the mark."""
    try:
        return does(*given)
    except Fault as fault:
        fault.mark = mark
        raise


@dataclasses.dataclass
class Cell:
    """A variable. Closures share it."""

    value: object


@dataclasses.dataclass
class Env:
    """Variables by name, the innermost first, and what the script has printed."""

    run: "Run"
    name: str = ""
    cell: typing.Optional[Cell] = None
    outer: typing.Optional["Env"] = None

    def bind(self, name, value):
        return Env(self.run, name, Cell(value), self)

    def cell_of(self, name):
        env = self
        while env.name != name:
            env = env.outer
        return env.cell


class Run:
    """A run of a script: its output and how many steps it took."""

    def __init__(self):
        self.lines, self.steps = [], 0

    def step(self):
        self.steps += 1
        if self.steps > STEPS:
            raise TooMuch


@dataclasses.dataclass
class Node:
    """A part of a script: its text, how tightly it binds, and what it does.

    A statement returns its `Env`, an expression its value.
    """

    text: str
    run: typing.Callable
    level: int = ATOM

    def inside(self, level):
        """The text as an operand of what binds as tightly as `level`."""
        return self.text if self.level > level else f"({self.text})"


def shown(value, is_inside=False):
    """A value as `print` shows it."""
    if value is True or value is False:
        return "true" if value else "false"
    if isinstance(value, float):
        return float_text(value)
    if isinstance(value, str):
        return '"' + value.replace("\\", "\\\\").replace('"', '\\"') + '"' if is_inside else value
    if isinstance(value, list):
        return "[" + ", ".join(shown(item, True) for item in value) + "]"
    if isinstance(value, dict):
        return "#{" + ", ".join(f'"{name}": {shown(value[name], True)}' for name in sorted(value)) + "}"
    return str(value)


def copied(value):
    if isinstance(value, list):
        return [copied(item) for item in value]
    return dict(value) if isinstance(value, dict) else value


def checked(number):
    if not LEAST <= number <= GREATEST:
        raise Fault("overflow")
    return number


def truncated(number):
    """The integer that is left of a float without its fraction."""
    if not -(2.0**63) <= number < 2.0**63:
        raise Fault("overflow")
    return int(number)


def wrapped(number):
    return (number + (1 << 63)) % (1 << 64) - (1 << 63)


def short(text):
    if len(text) > TEXT:
        raise TooMuch
    return text


def divided(x, y):
    if y == 0:
        raise Fault("zero")
    return checked(abs(x) // abs(y) * (1 if (x < 0) == (y < 0) else -1))


def remainder(x, y):
    divided(x, y)
    return abs(x) % abs(y) * (-1 if x < 0 else 1)


CALCULATED = {
    "+": lambda x, y: checked(x + y),
    "-": lambda x, y: checked(x - y),
    "*": lambda x, y: checked(x * y),
    "/": divided,
    "%": remainder,
    "**": lambda x, y: checked(x**y),
    "<<": lambda x, y: wrapped(x << y),
    ">>": lambda x, y: x >> y,
    "&": lambda x, y: x & y,
    "|": lambda x, y: x | y,
    "^": lambda x, y: x ^ y,
    **script_floats.COMPARISONS,
    "in": lambda x, y: x in y,
    "!in": lambda x, y: x not in y,
}


CALCULATED |= {operator: mixed(operator, CALCULATED[operator]) for operator in script_floats.CALCULATED}


def place_of(items, index):
    """The place of an index, which counts from the end below 0."""
    if not -len(items) <= index < len(items):
        raise Fault("bounds")
    return index % len(items)


def operation(operator, left, right):
    """A binary operation. Both operands are computed, the left one first."""
    level = LEVELS[operator]
    # Operators of one level are done from left to right, except `**`.
    is_to_right = operator == "**"
    first, second = left.inside(level if is_to_right else level - 1), right.inside(level - 1 if is_to_right else level)
    mark, sign = new_mark()

    def run(env):
        env.run.step()
        x = left.run(env)
        y = right.run(env)
        return at(mark, CALCULATED[operator], x, y)

    return Node(f"{first} {sign}{operator} {second}", run, level)


def early(operator, left, right):
    """`&&` or `||`, which stops early."""
    level = LEVELS[operator]

    def run(env):
        env.run.step()
        x = left.run(env)
        return right.run(env) if x == (operator == "&&") else x

    return Node(f"{left.inside(level - 1)} {operator} {right.inside(level)}", run, level)


def literal(value):
    if isinstance(value, (int, float)) and value is not True and value is not False and value < 0:
        return Node(shown(value), lambda env: value, PREFIX)
    return Node(shown(value, True), lambda env: copied(value))


def variable(name):
    return Node(name, lambda env: copied(env.cell_of(name).value))


def sequence(statements):
    """What statements do one after the other, each with the variables of those before it."""

    def run(env):
        for statement in statements:
            env.run.step()
            env = statement.run(env)
        return env

    return run


def indented(statements):
    return "".join("".join(f"    {line}\n" for line in statement.text.splitlines()) for statement in statements)


def block(statements):
    """A block of statements. Its variables end with it."""
    run = sequence(statements)

    def run_block(env):
        run(env)
        return env

    return Node("{\n" + indented(statements) + "}", run_block)


def valued(statements, value):
    """A block whose value is that of an expression at its end."""
    run = sequence(statements)
    return Node("{\n" + indented([*statements, value]) + "}", lambda env: value.run(run(env)), OPEN)


def ended(node):
    """An expression or an assignment as a statement."""

    def run(env):
        node.run(env)
        return env

    return Node(node.text + ";", run)
