"""Makes random scripts, each with what it prints and how it ends, of the expressions in script_expressions.py."""
import random
import re

from models.script_expressions import NAMES, Expressions, Function, Variable, act, invoke
from models.script_model import CALCULATED, OPEN, Env, Fault, Leave, Node, Run, TooMuch, at, block, checked, ended, indented
from models.script_model import new_mark, place_of, sequence, short, shown, unmarked


class Maker(Expressions):
    """Makes a script at random."""

    # Statements.

    def statement(self, depth):
        plain = [self.declaration] * 3 + [self.assignment] * 4 + [self.printed] * 6
        plain += [self.changed_items, self.changed_text, self.changed_map, self.closure, self.counting, self.effect, self.method]
        nested = [self.branch, self.branch, self.while_loop, self.for_loop, self.endless, self.caught, self.scope, self.do_loop]
        leaving = [self.left] * (self.loops > 0) + [self.returned] * self.is_function
        leaving += [self.thrown] * (self.chance.random() < 0.2)
        if leaving and self.chance.random() < 0.1:
            return self.chance.choice(leaving)(depth)
        return self.chance.choice(nested if depth > 0 and self.chance.random() < 0.35 else plain)(depth)

    def statements(self, depth, most=4):
        return [self.statement(depth) for _ in range(self.chance.randrange(1, most + 1))]

    def block(self, depth, added=()):
        return self.inner(lambda: block(self.statements(depth)), added)

    def declaration(self, depth):
        kind = self.chance.choice(["int", "int", "int", "float", "bool", "text", "list", "map"])
        value, name = self.expr(kind, 2), self.declared_name(kind)
        is_fixed = self.chance.random() < 0.1 and not name.startswith("K")
        self.variables.append(Variable(name, kind, is_fixed))
        return Node(f"{'const' if is_fixed else 'let'} {name} = {value.text};", lambda env: env.bind(name, value.run(env)))

    def assignment(self, depth):
        known = self.pick("int", "float", "bool", "text", "list", assigned=True)
        if not known:
            return self.declaration(depth)
        value, name, (mark, sign) = self.expr(known.kind, 3), known.name, new_mark()
        operators = {"int": "+-*/%&|^", "float": "+-*/%", "text": "+", "list": "+", "bool": "&|^"}[known.kind]
        if self.chance.random() < 0.5:
            return Node(f"{name} = {value.text};", self.assigning(name, lambda old, new: new, value, mark))
        operator = self.chance.choice(operators)
        does = CALCULATED[operator] if known.kind in ("int", "float", "bool") else (lambda old, new: short(old + new))
        return Node(f"{name} {sign}{operator}= {value.text};", self.assigning(name, does, value, mark))

    @staticmethod
    def assigning(name, does, value, mark):
        def run(env):
            new = value.run(env)
            cell = env.cell_of(name)
            cell.value = at(mark, does, cell.value, new)
            return env

        return run

    def printed(self, depth):
        value = self.expr(self.chance.choice(["int", "float", "bool", "text", "list", "map"]), 3)

        def run(env):
            env.run.lines += short(shown(value.run(env))).split("\n")
            return env

        return Node(f"print({value.text});", run)

    def changed_items(self, depth):
        known = self.pick("list", assigned=True)
        if not known:
            return self.declaration(depth)
        value, name, index = self.expr("int", 2), known.name, self.chance.randrange(-2, 3)
        way = self.chance.choice(["push", "push", "pop", "set", "add", "insert", "reverse", "sort", "truncate"])
        # Most items are only assigned where they are there.
        is_guarded = way in ("set", "add") and self.chance.random() < 0.9
        (item, at_item), (sum_, at_sum) = new_mark(), new_mark()
        texts = {"push": f".push({value.text})", "set": f"[{at_item}{index}] = {value.text}"}
        texts |= {"add": f"[{at_item}{index}] {at_sum}+= {value.text}", "insert": f".insert(0, {value.text})", "truncate": ".truncate(3)"}

        def run(env):
            items = env.cell_of(name).value
            if is_guarded and len(items) <= 2:
                return env
            new = value.run(env) if way in ("push", "set", "add", "insert") else None
            items = env.cell_of(name).value
            change_items(items, way, index, new, (item, sum_))
            short(items)
            return env

        text = f"{name}{texts.get(way, f'.{way}()')};"
        return Node(f"if {name}.len() > 2 {{ {text} }}" if is_guarded else text, run)

    def changed_text(self, depth):
        known = self.pick("text", assigned=True)
        if not known:
            return self.declaration(depth)
        value, name = self.expr("text", 1), known.name
        changes = {
            f".append({value.text})": lambda old, new: short(old + new),
            ".make_upper()": lambda old, new: old.upper(),
            ".trim()": lambda old, new: old.strip(),
            ".truncate(5)": lambda old, new: old[:5],
            ".crop(1)": lambda old, new: old[1:],
            '.replace("b", "ab")': lambda old, new: short(old.replace("b", "ab")),
        }
        call = self.chance.choice(list(changes))
        is_append = call.startswith(".append")

        def run(env):
            new = value.run(env) if is_append else ""
            cell = env.cell_of(name)
            cell.value = changes[call](cell.value, new)
            return env

        return Node(f"{name}{call};", run)

    def changed_map(self, depth):
        known = self.pick("map", assigned=True)
        if not known:
            return self.declaration(depth)
        value, name, key = self.expr("int", 2), known.name, self.chance.choice(NAMES)
        is_sum, (mark, sign) = self.chance.random() < 0.5, new_mark()
        place = self.chance.choice([f".{key}", f'["{key}"]'])

        def run(env):
            new = value.run(env)
            entries = env.cell_of(name).value
            entries[key] = at(mark, checked, entries[key] + new) if is_sum else new
            return env

        return Node(f"{name}{place} {sign + '+=' if is_sum else '='} {value.text};", run)

    def closure(self, depth):
        made, name = self.closure_of("int", 2), self.new_name("f")
        self.variables.append(Variable(name, "pure", is_fixed=True))
        return Node(f"let {name} = {made.text};", lambda env: env.bind(name, made.run(env)))

    def counting(self, depth):
        """A closure that changes a variable that it captures. It is called in statements of its own alone."""
        numbers = [known for known in self.visible("int", assigned=True) if known.is_captured and known.name != "this"]
        if not numbers:
            return self.declaration(depth)
        changed, name, x = self.chance.choice(numbers).name, self.new_name("g"), self.new_name("x")
        self.variables.append(Variable(name, "counting", is_fixed=True))
        mark, sign = new_mark()

        def made(env):
            def call(run, value):
                cell = env.cell_of(changed)
                cell.value = at(mark, checked, cell.value + value)
                return cell.value

            return env.bind(name, call)

        return Node(f"let {name} = |{x}| {{ {changed} {sign}+= {x}; {changed} }};", made)

    def effect(self, depth):
        return ended(self.applied(2, "counting")) if self.pick("counting") else self.printed(depth)

    def method(self, depth):
        """A call of one of the script's methods on a variable, an item or an entry."""
        kinds = ["int", "map"] + ["list"] * (self.chance.random() < 0.1)
        known = self.pick(*kinds, assigned=True)
        if not known or not self.methods or known.name == "this":
            return self.assignment(depth)
        method, argument = self.chance.choice(self.methods), self.expr("int", 2)
        index, key = self.chance.randrange(2), self.chance.choice(NAMES)
        mark, sign = new_mark()
        part = {"int": "", "list": f"[{sign}{index}]", "map": f".{key}"}[known.kind]

        def run(env):
            value = argument.run(env)
            cell = env.cell_of(known.name)
            if known.kind == "int":
                cell.value = act(env, method, cell.value, value)
            elif known.kind == "list":
                cell.value[index] = act(env, method, cell.value[at(mark, place_of, cell.value, index)], value)
            else:
                cell.value[key] = act(env, method, cell.value[key], value)
            return env

        return Node(f"{known.name}{part}.{method.name}({argument.text});", run)

    def branch(self, depth):
        condition, first = self.expr("bool", 2), self.block(depth - 1)
        if self.chance.random() < 0.5:
            second, other = None, ""
        else:
            second = self.chance.choice([self.block, self.branch])(depth - 1) if depth > 1 else self.block(depth - 1)
            other = f" else {second.text}"

        def run(env):
            chosen = first if condition.run(env) else second
            if chosen:
                chosen.run(env)
            return env

        return Node(f"if {condition.inside(OPEN)} {first.text}{other}", run)

    def body(self, depth, added=()):
        self.loops += 1
        made = self.block(depth - 1, added)
        self.loops -= 1
        return made

    def while_loop(self, depth):
        name, count = self.new_name("w"), self.chance.randrange(4)
        body = self.body(depth, [Variable(name, "int", is_fixed=True)])
        text = f"let {name} = {count};\nwhile {name} > 0 {{\n    {name} -= 1;\n{body.text[2:]}"
        self.variables.append(Variable(name, "int", is_fixed=True))

        def run(env):
            env = env.bind(name, count)
            cell = env.cell
            while cell.value > 0:
                cell.value -= 1
                if turned(body, env):
                    break
            return env

        return Node(text, run)

    def do_loop(self, depth):
        name, count, word = self.new_name("d"), self.chance.randrange(3), self.chance.choice(["while", "until"])
        body = self.body(depth, [Variable(name, "int", is_fixed=True)])
        condition = f"{name} < {count}" if word == "while" else f"{name} >= {count}"
        text = f"let {name} = 0;\ndo {{\n    {name} += 1;\n{body.text[2:]} {word} {condition};"
        self.variables.append(Variable(name, "int", is_fixed=True))

        def run(env):
            env = env.bind(name, 0)
            cell = env.cell
            while True:
                cell.value += 1
                if turned(body, env) or cell.value >= count:
                    return env

        return Node(text, run)

    def endless(self, depth):
        """A loop that a `break` with a value ends."""
        name, found, count, value = self.new_name("n"), self.new_name(), self.chance.randrange(1, 4), self.expr("int", 1)
        body = self.body(depth, [Variable(name, "int", is_fixed=True)])
        text = f"let {name} = 0;\nlet {found} = loop {{\n    {name} += 1;\n"
        text += f"    if {name} > {count} {{ break {value.inside(OPEN)}; }}\n"
        # A `break` of the body gives the loop unit, which the type of the variable doesn't allow.
        is_left = re.search(r"\bbreak;", body.text)
        text = text.replace(f"let {found} = ", "") if is_left else text
        self.variables.append(Variable(name, "int", is_fixed=True))
        if not is_left:
            self.variables.append(Variable(found, "int"))

        def run(env):
            env = env.bind(name, 0)
            cell = env.cell
            while True:
                env.run.step()
                cell.value += 1
                if cell.value > count:
                    last = value.run(env)
                    return env if is_left else env.bind(found, last)
                if turned(body, env):
                    return env

        return Node(text + body.text[2:] + ("" if is_left else ";"), run)

    def for_loop(self, depth):
        name, counter = self.new_name("i"), self.new_name("k") if self.chance.random() < 0.3 else None
        way = self.chance.choice(["range", "inclusive", "list", "text"])
        low, high = self.chance.randrange(-1, 3), self.chance.randrange(0, 4)
        items = self.expr("text" if way == "text" else "list", 1)
        added = [Variable(name, "char" if way == "text" else "int", is_fixed=True, is_captured=False)]
        added += [Variable(counter, "int", is_fixed=True, is_captured=False)] if counter else []
        body = self.body(depth, added)
        over = {"range": f"{low}..{high}", "inclusive": f"{low}..={high}", "list": items.inside(1), "text": items.inside(1)}[way]
        head = f"({name}, {counter})" if counter else name

        def run(env):
            found = items.run(env) if way in ("list", "text") else range(low, high + (way == "inclusive"))
            for count, item in enumerate(list(found)):
                inside = env.bind(name, item)
                if turned(body, inside.bind(counter, count) if counter else inside):
                    break
            return env

        return Node(f"for {head} in {over} {body.text}", run)

    def scope(self, depth):
        return self.block(depth - 1)

    def left(self, depth):
        condition, how = self.expr("bool", 1), self.chance.choice(["break", "continue"])

        def run(env):
            if condition.run(env):
                raise Leave(how)
            return env

        return Node(f"if {condition.inside(OPEN)} {{ {how}; }}", run)

    def returned(self, depth):
        condition, value = self.expr("bool", 1), self.expr("int", 1)

        def run(env):
            if condition.run(env):
                raise Leave("return", value.run(env))
            return env

        return Node(f"if {condition.inside(OPEN)} {{ return {value.inside(OPEN)}; }}", run)

    def thrown(self, depth):
        condition, value, (mark, sign) = self.expr("bool", 1), self.expr("int", 1), new_mark()

        def run(env):
            if condition.run(env):
                raise Fault("thrown", value.run(env), mark)
            return env

        return Node(f"if {condition.inside(OPEN)} {{ {sign}throw {value.inside(OPEN)}; }}", run)

    def caught(self, depth):
        tried, name, again = self.block(depth - 1), self.new_name("e"), self.chance.random() < 0.1
        end, (mark, sign) = self.block(depth - 1), new_mark()
        lines = [f'if type_of({name}) == "i64" {{ print({name}); }} else {{ print("fault"); }}']
        lines += [f'if type_of({name}) == "i64" {{ {sign}throw {name}; }}'] * again

        def run(env):
            try:
                tried.run(env)
            except Fault as fault:
                env.run.lines.append(str(fault.value) if fault.kind == "thrown" else "fault")
                if again and fault.kind == "thrown":
                    raise Fault("thrown", fault.value, mark) from fault
                end.run(env)
            return env

        text = "".join(f"    {line}\n" for line in lines)
        return Node(f"try {tried.text} catch ({name}) {{\n{text}{end.text[2:]}", run)

    # The script.

    def function(self):
        """A function that sees its parameters alone. One whose name begins with `r` calls itself with a smaller first argument."""
        is_recursive, kind = self.chance.random() < 0.4, self.chance.choice(["int", "int", "float", "text", "bool"])
        kinds = [self.chance.choice(["int", "float", "text", "list"]) for _ in range(self.chance.randrange(1, 4))]
        if is_recursive:
            kinds[0], kind = "int", "int"
        names = [self.new_name("p") for _ in kinds]
        function = Function(self.new_name("r" if is_recursive else "q"), kinds, kind, None)
        parameters = [Variable(name, each, is_fixed=is_recursive and name == names[0]) for name, each in zip(names, kinds)]
        self.is_function = True
        parts = self.apart(parameters, lambda: self.function_body(function, names))
        self.is_function = False
        function.body = (names, sequence(parts[:-1]), parts[-1])
        self.functions.append(function)
        return f"fn {function.name}({', '.join(names)}) {{\n{indented(parts)}}}"

    def function_body(self, function, names):
        """The statements of a function, and the expression at its end."""
        returns, base = self.returned, self.expr("int", 0)
        if function.kind != "int":
            # `returned` returns an integer.
            self.is_function, self.returned = True, self.printed
        statements = self.statements(1, 3)
        self.returned = returns
        value = self.expr(function.kind, 2)
        if not function.name.startswith("r"):
            return [*statements, value]
        first, rest, (mark, sign) = names[0], [self.expr(kind, 1) for kind in function.kinds[1:]], new_mark()
        call = f"{function.name}({', '.join([f'{first} - 1', *(each.text for each in rest)])})"

        def run(env):
            left = value.run(env)
            arguments = [env.cell_of(first).value - 1, *(each.run(env) for each in rest)]
            right = invoke(env, function, arguments)
            return at(mark, checked, left + right)

        def stop(env):
            if env.cell_of(first).value <= 0:
                raise Leave("return", base.run(env))
            return env

        # The sum may be more than 64 bits after some calls, which is a fault of the script's.
        ends = Node(f"if {first} <= 0 {{ return {base.inside(OPEN)}; }}", stop)
        return [ends, *statements, Node(f"{value.inside(149)} {sign}+ {call}", run, 150)]

    def make_method(self):
        """A method that changes an integer."""
        name, parameter = self.new_name("m"), self.new_name("p")
        self.is_function = True
        variables = [Variable("this", "int", is_captured=False), Variable(parameter, "int")]
        value = self.apart(variables, lambda: self.expr("int", 2))
        self.is_function = False
        self.methods.append(Function(name, ["int"], "int", (parameter, value)))
        return f"fn {name}({parameter}) {{ this = {value.text}; }}"

    def script(self):
        """A script's text, and what does the same."""
        head = []
        for _ in range(self.chance.randrange(3)):
            self.constants.append((self.new_name("K"), self.chance.randrange(100)))
            head.append(f"const {self.constants[-1][0]} = {self.constants[-1][1]};")
        functions = [self.function() for _ in range(self.chance.randrange(4))]
        functions += [self.make_method() for _ in range(self.chance.randrange(3))]
        statements = [self.declaration(2) for _ in range(3)]
        statements += [self.statement(3) for _ in range(self.chance.randrange(3, 12))]
        rest = [statement.text for statement in statements] + ["print(\"end\");"]
        if self.uses_apply:
            functions.append("fn apply(f, x) { f.call(x) }")
        parts = head + functions + rest if self.chance.random() < 0.5 else head + rest + functions
        return "\n".join(parts) + "\n", sequence(statements)


def change_items(items, way, index, value, marks):
    """Changes an array in place. The marks are those of the index and of the sum."""
    if way in ("set", "add"):
        place = at(marks[0], place_of, items, index)
        items[place] = value if way == "set" else at(marks[1], checked, items[place] + value)
    elif way == "push":
        items.append(value)
    elif way == "insert":
        items.insert(0, value)
    elif way == "pop":
        del items[-1:]
    elif way == "truncate":
        del items[3:]
    else:
        getattr(items, way)()


def turned(body, env):
    """Runs the body of a loop once, and says whether it ended with `break`."""
    env.run.step()
    try:
        body.run(env)
    except Leave as leave:
        if leave.how == "return":
            raise
        return leave.how == "break"
    return False


def made(seed):
    """A script that isn't too slow, its output, and its fault, if it ends with one, with its line and column."""
    chance = random.Random(seed)
    while True:
        text, does = Maker(chance).script()
        text, places = unmarked(text)
        run = Run()
        try:
            does(Env(run))
            return text, [*run.lines, "end"], None
        except Fault as fault:
            fault.place = places[fault.mark]
            return text, run.lines, fault
        except TooMuch:
            continue
