"""Floats of scripts: their texts, and what operators and functions do with them, as IEEE 754 says."""
import decimal
import math

# Between these a number is written without an exponent.
LEAST_PLAIN, MOST_PLAIN = 1e-7, 1e13


def float_text(number):
    """A float as `print` shows it: the fewest digits that only it has."""
    size = abs(number)
    if math.isnan(number):
        return "NaN"
    if size == 0:
        return "0.0"
    if math.isinf(number):
        return "inf" if number > 0 else "-inf"
    exact = decimal.Decimal(repr(number)).normalize()
    if LEAST_PLAIN <= size <= MOST_PLAIN:
        text = format(exact, "f")
        return text if "." in text else text + ".0"
    sign, digits, exponent = exact.as_tuple()
    first, rest = str(digits[0]), "".join(map(str, digits[1:]))
    return f"{'-' if sign else ''}{first}{'.' if rest else ''}{rest}e{exponent + len(rest)}"


def divided(x, y):
    if y:
        return x / y
    if x == 0 or math.isnan(x):
        return math.nan
    return math.copysign(math.inf, x) * math.copysign(1.0, y)


def remainder(x, y):
    """What is left of a division; it has the sign of the dividend."""
    if y == 0 or math.isinf(x) or math.isnan(x) or math.isnan(y):
        return math.nan
    return math.fmod(x, y)


def whole(rounding):
    """A function that rounds a float to a whole one, which keeps infinities, NaN and the sign of a zero."""
    return lambda x: math.copysign(float(rounding(x)), x) if math.isfinite(x) else x


def half_away(x):
    """The nearest whole number, of two the one that is farther from zero."""
    rest = abs(x) - math.floor(abs(x))
    return math.copysign(math.floor(abs(x)) + (rest >= 0.5), x)


# Comparisons of any numbers.
COMPARISONS = {
    "<": lambda x, y: x < y,
    "<=": lambda x, y: x <= y,
    ">": lambda x, y: x > y,
    ">=": lambda x, y: x >= y,
    "==": lambda x, y: x == y,
    "!=": lambda x, y: x != y,
}

CALCULATED = {
    "+": lambda x, y: x + y,
    "-": lambda x, y: x - y,
    "*": lambda x, y: x * y,
    "/": divided,
    "%": remainder,
    **COMPARISONS,
}

# Functions of one float whose result is a float.
FUNCTIONS = {
    "floor": whole(math.floor),
    "ceiling": whole(math.ceil),
    "round": whole(half_away),
    "int": whole(math.trunc),
    "abs": abs,
    "sqrt": lambda x: math.sqrt(x) if x >= 0 else x if x == 0 or math.isnan(x) else math.nan,
    "to_float": lambda x: x,
}

# Functions of one float whose result is a truth value.
TESTS = {"is_nan": math.isnan, "is_finite": math.isfinite, "is_infinite": math.isinf, "is_zero": lambda x: x == 0}


def mixed(operator, of_integers):
    """An operator, by which integers become floats if the other operand is one."""

    def does(x, y):
        if isinstance(x, float) or isinstance(y, float):
            return CALCULATED[operator](float(x), float(y))
        return of_integers(x, y)

    return does
