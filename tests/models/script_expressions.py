"""Makes random expressions of scripts, of the parts in script_model.py."""
import dataclasses

from models.script_floats import FUNCTIONS, TESTS
from models.script_model import GREATEST, OPEN, POSTFIX, PREFIX, Env, Leave, Node, at, checked, copied, early, literal, new_mark
from models.script_model import operation, place_of, short, shown, truncated, unmarked, valued, variable

LETTERS = "abé "
NAMES = ["a", "b", "c"]


@dataclasses.dataclass
class Variable:
    name: str
    kind: str
    # Whether it is a constant or the counter of a loop, which nothing may assign.
    is_fixed: bool = False
    # A loop's variable isn't captured, since the Book doesn't say whether rounds share it.
    is_captured: bool = True


@dataclasses.dataclass
class Function:
    name: str
    kinds: list
    kind: str
    body: object


class Expressions:
    """Makes expressions at random, of the variables and functions that are known."""

    def __init__(self, chance):
        self.chance = chance
        self.variables, self.functions, self.methods, self.constants = [], [], [], []
        self.count, self.loops, self.is_function, self.uses_apply = 0, 0, False, False

    # Names and variables.

    def new_name(self, start="v"):
        self.count += 1
        return f"{start}{self.count}"

    def visible(self, *kinds, assigned=False):
        """The variables of these kinds that no other one hides."""
        found, seen = [], set()
        for known in reversed(self.variables):
            if known.name not in seen and known.kind in kinds and not (assigned and known.is_fixed):
                found.append(known)
            seen.add(known.name)
        return found

    def pick(self, *kinds, assigned=False):
        found = self.visible(*kinds, assigned=assigned)
        return self.chance.choice(found) if found else None

    def declared_name(self, kind):
        """A name for a variable, sometimes one that hides another."""
        shadowed = self.visible("int", "bool", "text", "list", assigned=True)
        if shadowed and self.chance.random() < 0.1:
            name = self.chance.choice(shadowed).name
            if name != "this":
                return name
        return self.new_name()

    def inner(self, make, added=()):
        """What is made inside of a block, where these variables are known too."""
        known = len(self.variables)
        self.variables += added
        made = make()
        del self.variables[known:]
        return made

    # Expressions.

    def expr(self, kind, depth):
        makers = {"int": self.integer, "float": self.float, "bool": self.truth, "text": self.text, "list": self.items, "map": self.map}
        known = self.pick(kind)
        if known and self.chance.random() < (0.35 if depth else 0.7):
            return variable(known.name)
        if depth and self.chance.random() < 0.12:
            return self.chance.choice([self.conditional, self.switched, self.valued_block])(kind, depth - 1)
        return makers[kind](depth)

    def integer(self, depth):
        if depth <= 0:
            large = self.chance.choice([GREATEST, -GREATEST, 1 << 40, 5])
            return literal(self.chance.choice([0, 1, 2, 3, 7, 10, -1, -5, self.chance.randrange(1000), large]))
        ways = [self.arithmetic] * 5 + [self.negated, self.length, self.item, self.property, self.called, self.applied]
        ways += [self.named_number, self.extreme, self.truncated]
        return self.chance.choice(ways)(depth - 1)

    def arithmetic(self, depth):
        operator = self.chance.choice(["+", "-", "*", "/", "%", "+", "-", "&", "|", "^", "**", "<<", ">>"])
        left, right = self.expr("int", depth), self.expr("int", depth)
        if operator in ("**", "<<", ">>"):
            right = literal(self.chance.randrange(5))
        elif operator in ("/", "%") and self.chance.random() < 0.9:
            right = literal(self.chance.choice([1, 2, 3, 7, -2, -5]))
        return operation(operator, left, right)

    def float(self, depth):
        if depth <= 0:
            return literal(self.chance.choice([0.0, 0.5, 1.0, 1.5, 2.25, 3.0, 0.1, -0.75, -2.0, 1e-5, 123.456, 1e10, 1.5e300]))
        ways = [self.float_arithmetic] * 4 + [self.float_negated, self.float_function, self.converted, self.summed]
        return self.chance.choice(ways)(depth - 1)

    def float_arithmetic(self, depth):
        """An operation of two floats, or of a float and an integer."""
        left, right = self.expr("float", depth), self.expr(self.chance.choice(["float", "float", "int"]), depth)
        if self.chance.random() < 0.3:
            left, right = right, left
        return operation(self.chance.choice("+-*/%"), left, right)

    def float_negated(self, depth):
        x = self.expr("float", depth)
        text = x.inside(PREFIX - 1)
        return Node(f"-({x.text})" if text.startswith("-") else f"-{text}", lambda env: -x.run(env), PREFIX)

    def float_function(self, depth):
        x, name = self.expr("float", depth), self.chance.choice(list(FUNCTIONS))
        return Node(f"{x.inside(POSTFIX - 1)}.{name}()", lambda env: FUNCTIONS[name](x.run(env)), POSTFIX)

    def converted(self, depth):
        x = self.expr("int", depth)
        return Node(f"{x.inside(POSTFIX - 1)}.to_float()", lambda env: float(x.run(env)), POSTFIX)

    def truncated(self, depth):
        """The integer that is left of a float, if it has one."""
        x, (mark, sign) = self.expr("float", depth), new_mark()
        return Node(f"{x.inside(POSTFIX - 1)}.{sign}to_int()", lambda env: at(mark, truncated, x.run(env)), POSTFIX)

    def summed(self, depth):
        """What a closure of two parameters makes of the items of an array, one after the other."""
        items, start, sum_, item = self.made_items(depth), self.expr("float", 0), self.new_name("s"), self.new_name("x")
        captured = [known for known in self.variables if known.is_captured]
        added = [Variable(sum_, "float", is_fixed=True), Variable(item, "int", is_fixed=True)]
        body = self.apart(captured + added, lambda: self.expr("float", depth))

        def run(env):
            found, value = items.run(env), start.run(env)
            for each in found:
                value = body.run(env.bind(sum_, value).bind(item, each))
            return value

        return Node(f"{items.inside(POSTFIX - 1)}.reduce(|{sum_}, {item}| {body.inside(1)}, {start.text})", run, POSTFIX)

    def negated(self, depth):
        x = self.expr("int", depth)
        text, (mark, sign) = x.inside(PREFIX - 1), new_mark()
        text = f"({x.text})" if unmarked(text)[0].startswith("-") else text

        def run(env):
            value = x.run(env)
            return at(mark, checked, -value)

        return Node(f"{sign}-{text}", run, PREFIX)

    def length(self, depth):
        x = self.expr(self.chance.choice(["text", "list"]), depth)
        call = self.chance.choice([".len()", ".len"])
        return Node(x.inside(POSTFIX - 1) + call, lambda env: len(x.run(env)), POSTFIX)

    def item(self, depth):
        items, index = self.expr("list", depth), self.expr("int", 0)
        if self.chance.random() < 0.9:
            # Three items are added, so that the index is one of the array's.
            added = [self.expr("int", depth - 1) for _ in range(3)]
            last = Node(f"[{', '.join(item.text for item in added)}]", lambda env: [item.run(env) for item in added])
            items, index = self.sum_of(items, last), literal(self.chance.randrange(-3, 3))
        mark, sign = new_mark()

        def run(env):
            found = items.run(env)
            place = index.run(env)
            return found[at(mark, place_of, found, place)]

        return Node(f"{items.inside(POSTFIX - 1)}[{sign}{index.text}]", run, POSTFIX)

    def property(self, depth):
        x, name = self.expr("map", depth), self.chance.choice(NAMES)
        text = self.chance.choice([f".{name}", f'["{name}"]', f"?.{name}"])
        return Node(x.inside(POSTFIX - 1) + text, lambda env: x.run(env)[name], POSTFIX)

    def extreme(self, depth):
        x, y, name = self.expr("int", depth), self.expr("int", depth), self.chance.choice(["min", "max"])

        def run(env):
            first = x.run(env)
            second = y.run(env)
            return min(first, second) if name == "min" else max(first, second)

        return Node(f"{name}({x.text}, {y.text})", run)

    def named_number(self, depth):
        """A constant of the top level."""
        if not self.constants:
            return self.integer(0)
        name, value = self.chance.choice(self.constants)
        return Node(f"global::{name}" if self.is_function else name, lambda env: value)

    def called(self, depth, kind="int"):
        fitting = [function for function in self.functions if function.kind == kind]
        if not fitting:
            return self.expr(kind, 0)
        function = self.chance.choice(fitting)
        arguments = [self.expr(each, depth) for each in function.kinds]
        if function.name.startswith("r"):
            arguments[0] = literal(self.chance.randrange(5))

        def run(env):
            values = [argument.run(env) for argument in arguments]
            return invoke(env, function, values)

        return Node(f"{function.name}({', '.join(argument.text for argument in arguments)})", run)

    def applied(self, depth, kind="pure"):
        """A call of a closure."""
        known = self.pick(kind)
        if not known:
            return self.expr("int", 0)
        x, name = self.expr("int", depth), known.name
        form = self.chance.choice(["call", "call", "curry", "apply"])
        self.uses_apply |= form == "apply"
        texts = {"call": f"{name}.call({x.text})", "curry": f"{name}.curry({x.text}).call()"}
        texts["apply"] = f"apply({name}, {x.text})"

        def run(env):
            env.run.step()
            return env.cell_of(name).value(env.run, x.run(env))

        return Node(texts[form], run, POSTFIX)

    def truth(self, depth):
        if depth <= 0:
            return literal(self.chance.random() < 0.5)
        ways = [self.comparison] * 3 + [self.logical] * 2 + [self.denied, self.containing, self.float_test]
        return self.chance.choice(ways)(depth - 1)

    def float_test(self, depth):
        x, name = self.expr("float", depth), self.chance.choice(list(TESTS))
        return Node(f"{x.inside(POSTFIX - 1)}.{name}()", lambda env: TESTS[name](x.run(env)), POSTFIX)

    def comparison(self, depth):
        operator = self.chance.choice(["<", "<=", ">", ">=", "==", "!="])
        kind = self.chance.choice(["int", "int", "float", "text"] + ["list"] * (operator in ("==", "!=")))
        other = self.chance.choice(["int", "float"]) if kind == "float" else kind
        return operation(operator, self.expr(kind, depth), self.expr(other, depth))

    def logical(self, depth):
        operator = self.chance.choice(["&&", "||", "&", "|", "^"])
        make = early if len(operator) == 2 else operation
        return make(operator, self.expr("bool", depth), self.expr("bool", depth))

    def denied(self, depth):
        x = self.expr("bool", depth)
        return Node(f"!{x.inside(PREFIX - 1)}", lambda env: not x.run(env), PREFIX)

    def containing(self, depth):
        operator, kind = self.chance.choice(["in", "!in"]), self.chance.choice(["int", "text", "name"])
        if kind == "name":
            return operation(operator, literal(self.chance.choice([*NAMES, "z"])), self.expr("map", depth))
        return operation(operator, self.expr(kind, depth), self.expr("list" if kind == "int" else "text", depth))

    def text(self, depth):
        if depth <= 0:
            return literal("".join(self.chance.choice(LETTERS) for _ in range(self.chance.randrange(4))))
        return self.chance.choice([self.joined, self.joined, self.interpolated, self.raised, self.cut])(depth - 1)

    def joined(self, depth):
        x, y = self.expr("text", depth), self.expr(self.chance.choice(["text", "int", "float", "bool", "list"]), depth)
        character = self.pick("char")
        if character and self.chance.random() < 0.4:
            y = variable(character.name)
        if self.chance.random() < 0.2:
            x, y = y, x

        def run(env):
            first = x.run(env)
            return short(shown(first) + shown(y.run(env)))

        return Node(f"{x.inside(149)} + {y.inside(150)}", run, 150)

    def interpolated(self, depth):
        kinds = [self.chance.choice(["text", "int", "float", "bool", "list", "map"]) for _ in range(self.chance.randrange(1, 3))]
        parts = [self.expr(kind, depth) for kind in kinds]

        def run(env):
            return short("".join(f"<{shown(part.run(env))}>" for part in parts))

        return Node("`" + "".join(f"<${{{part.text}}}>" for part in parts) + "`", run)

    def raised(self, depth):
        x = self.expr("text", depth)
        return Node(f"{x.inside(POSTFIX - 1)}.to_upper()", lambda env: x.run(env).upper(), POSTFIX)

    def cut(self, depth):
        x, start, count = self.expr("text", depth), self.chance.randrange(3), self.chance.randrange(4)
        return Node(f"{x.inside(POSTFIX - 1)}.sub_string({start}, {count})", lambda env: x.run(env)[start : start + count], POSTFIX)

    def items(self, depth):
        if depth > 0 and self.chance.random() < 0.3:
            return self.chance.choice([self.mapped, self.filtered, self.together])(depth - 1)
        found = [self.expr("int", depth - 1) for _ in range(self.chance.randrange(4))]
        return Node(f"[{', '.join(item.text for item in found)}]", lambda env: [item.run(env) for item in found])

    def together(self, depth):
        return self.sum_of(self.expr("list", depth), self.expr("list", depth))

    @staticmethod
    def sum_of(x, y):
        """The sum of two arrays."""

        def run(env):
            first = x.run(env)
            return short(first + y.run(env))

        return Node(f"{x.inside(149)} + {y.inside(150)}", run, 150)

    def made_items(self, depth):
        """An array that isn't a variable's: a closure mustn't use the variable on which it is called."""
        x = self.expr("list", depth)
        return self.sum_of(x, literal([])) if x.text.isidentifier() else x

    def mapped(self, depth):
        x, closure = self.made_items(depth), self.closure_of("int", depth)
        return Node(f"{x.inside(POSTFIX - 1)}.map({closure.text})", lambda env: self.over(env, x, closure), POSTFIX)

    def filtered(self, depth):
        x, closure = self.made_items(depth), self.closure_of("bool", depth)

        def run(env):
            found = x.run(env)
            call = closure.run(env)
            return [item for item in found if call(env.run, item)]

        return Node(f"{x.inside(POSTFIX - 1)}.filter({closure.text})", run, POSTFIX)

    @staticmethod
    def over(env, items, closure):
        found = items.run(env)
        call = closure.run(env)
        return [call(env.run, item) for item in found]

    def map(self, depth):
        found = [(name, self.expr("int", depth - 1)) for name in NAMES]
        text = ", ".join(f"{name}: {value.text}" for name, value in found)
        return Node(f"#{{ {text} }}", lambda env: {name: value.run(env) for name, value in found})

    def conditional(self, kind, depth):
        condition, first, second = self.expr("bool", depth), self.valued_block(kind, depth), self.valued_block(kind, depth)

        def run(env):
            return (first if condition.run(env) else second).run(env)

        return Node(f"if {condition.inside(OPEN)} {first.text} else {second.text}", run, OPEN)

    def switched(self, kind, depth):
        subject, guard = self.expr("int", depth), self.expr("bool", depth)
        values = [self.expr(kind, depth) for _ in range(4)]
        low = self.chance.randrange(4, 8)
        arms = [f"0 | 1 => {values[0].text}", f"2 if {guard.inside(OPEN)} => {values[1].text}"]
        arms += [f"{low}..20 => {values[2].text}", f"_ => {values[3].text}"]
        text = f"switch {subject.inside(OPEN)} {{ {', '.join(arms)} }}"

        def run(env):
            x = subject.run(env)
            if x in (0, 1):
                return values[0].run(env)
            if x == 2 and guard.run(env):
                return values[1].run(env)
            return values[2 if low <= x < 20 else 3].run(env)

        return Node(text, run, OPEN)

    def valued(self, kind, depth):
        statements = [self.declaration(0)] if self.chance.random() < 0.3 else []
        return valued(statements, self.expr(kind, depth))

    def valued_block(self, kind, depth):
        return self.inner(lambda: self.valued(kind, depth))

    def closure_of(self, kind, depth):
        """A closure of one integer that changes nothing outside."""
        name = self.new_name("x")
        captured = [known for known in self.variables if known.is_captured]
        body = self.apart(captured + [Variable(name, "int", is_fixed=True)], lambda: self.expr(kind, depth))
        text = f"|{name}| {body.inside(1)}" if self.chance.random() < 0.7 else f"|{name}| {{ {body.text} }}"
        return Node(text, lambda env: lambda run, value: body.run(dataclasses.replace(env, run=run).bind(name, value)), OPEN)

    def apart(self, variables, make):
        """What is made where these variables alone are known, and no loop is left."""
        kept, loops = self.variables, self.loops
        self.variables, self.loops = list(variables), 0
        made = make()
        self.variables, self.loops = kept, loops
        return made


def invoke(env, function, values):
    """Calls a function of the script."""
    env.run.step()
    names, body, value = function.body
    inside = Env(env.run)
    for name, given in zip(names, values):
        inside = inside.bind(name, copied(given))
    try:
        return value.run(body(inside))
    except Leave as leave:
        return leave.value


def act(env, method, this, argument):
    """The value that a method of the script assigns to `this`."""
    env.run.step()
    parameter, value = method.body
    return value.run(Env(env.run).bind("this", this).bind(parameter, argument))
