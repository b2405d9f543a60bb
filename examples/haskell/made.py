"""Makes programs of the subset of Haskell that `gib from-haskell` takes, by numbers. Each ends on each input: a function calls itself on parts of its
first argument alone, and others that stand before it; and no tree is used twice, so that nothing grows past bounds.
"""

import random
import re

INT, BOOL = ("Int",), ("Bool",)
NUMBERS = (0, 1, 2, 3, 5, 7, 10, -1, -2, -9, 100, 4611686018427387904, 9223372036854775807, -9223372036854775808)


def listed(kind):
    return ("[]", kind)


def shown(kind, inside=False):
    """A type as Haskell writes it."""
    name, given = kind[0], kind[1:]
    if name == "[]":
        return f"[{shown(given[0])}]"
    if name == ",":
        return f"({', '.join(map(shown, given))})"
    text = " ".join([name, *(shown(part, True) for part in given)])
    return f"({text})" if inside and given else text


def is_scalar(kind):
    return kind in (INT, BOOL)


class Variable:
    def __init__(self, name, kind, smaller=False):
        self.name, self.kind, self.smaller, self.used = name, kind, smaller, False


class Function:
    def __init__(self, name, parameters, result):
        self.name, self.parameters, self.result = name, parameters, result


class Made:
    """A program that is being made."""

    def __init__(self, number):
        self.chance = random.Random(f"program {number}")
        self.number, self.count = number, 0
        self.datas, self.functions, self.lines = {}, [], []

    def name(self, stem="v"):
        self.count += 1
        return f"{stem}{self.count}" + ("'" if self.chance.random() < 0.1 else "")

    # -- types ---------------------------------------------------------------------------------------------------------------------

    def declare(self):
        for place in range(self.chance.randint(1, 3)):
            name = f"T{place}"
            variables = ["a"] if self.chance.random() < 0.3 else []
            own = (name, *((var,) for var in variables))
            made = []
            for con in range(self.chance.randint(1, 4)):
                made.append((f"C{place}_{con}", [self.field(own, variables, con > 0) for _ in range(self.chance.randint(0, 3))]))
            self.datas[name] = (variables, made)
            head = " ".join([name, *variables])
            body = "\n  | ".join(" ".join([con, *(shown(kind, True) for kind in fields)]) for con, fields in made)
            self.lines += [f"data {head}", f"  = {body}", ""]

    def field(self, own, variables, recursive):
        roll = self.chance.random()
        if recursive and roll < 0.45:
            return own
        if variables and roll < 0.6:
            return (variables[0],)
        if roll < 0.8 or not self.datas:
            return INT
        if roll < 0.86:
            return BOOL
        return self.type(1)

    def type(self, levels=2):
        """Some type without variables."""
        roll = self.chance.random()
        if roll < 0.3 or levels == 0:
            return INT
        if roll < 0.38:
            return BOOL
        if roll < 0.5:
            return listed(self.type(levels - 1))
        if roll < 0.58:
            return (",", self.type(levels - 1), self.type(levels - 1))
        if roll < 0.63:
            return ("Maybe", self.type(levels - 1))
        name = self.chance.choice(list(self.datas))
        return (name, *(self.type(levels - 1) for _ in self.datas[name][0]))

    def constructors(self, kind):
        name, given = kind[0], kind[1:]
        if name == "[]":
            return [("[]", []), (":", [given[0], kind])]
        if name == ",":
            return [(",", list(given))]
        if name == "Maybe":
            return [("Nothing", []), ("Just", [given[0]])]
        variables, made = self.datas[name]
        known = dict(zip(variables, given))

        def put(part):
            return known.get(part[0], part) if len(part) == 1 else (part[0], *map(put, part[1:]))

        return [(con, [put(part) for part in fields]) for con, fields in made]

    # -- patterns ------------------------------------------------------------------------------------------------------------------

    def pattern(self, kind, depth, smaller=False):
        """A pattern for a type, and the variables that it binds. `smaller` says that what it binds is a part of a first argument."""
        roll = self.chance.random()
        if roll < 0.12:
            return "_", []
        if depth == 0 or roll < 0.4 or kind == INT and roll < 0.8:
            var = Variable(self.name(), kind, smaller)
            return var.name, [var]
        if kind == INT:
            number = self.chance.choice(NUMBERS[:9])
            return f"({number})" if number < 0 else str(number), []
        if kind == BOOL:
            return self.chance.choice(("True", "False")), []
        return self.opened(kind, depth)

    def opened(self, kind, depth):
        con, fields = self.chance.choice(self.constructors(kind))
        parts = [self.pattern(field, depth - 1, True) for field in fields]
        return self.joined(con, [text for text, _ in parts]), [var for _, several in parts for var in several]

    def joined(self, con, parts):
        if con == ",":
            return f"({', '.join(parts)})"
        if con == ":":
            return f"({parts[0]} : {parts[1]})"
        return f"({' '.join([con, *parts])})" if parts else con

    # -- functions -----------------------------------------------------------------------------------------------------------------

    def function(self, place, first=None):
        parameters = [first or self.type()] + [self.type(1) for _ in range(self.chance.randint(0, 2))]
        function = Function(f"f{place}" + ("'" if self.chance.random() < 0.1 else ""), parameters, self.type())
        self.lines.append(f"{function.name} :: {' -> '.join(map(shown, [*parameters, function.result]))}")
        for _ in range(self.chance.randint(0, 4)):
            self.equation(function, False)
        self.equation(function, True)
        self.lines.append("")
        self.functions.append(function)

    def equation(self, function, last):
        texts, scope = [], []
        for place, kind in enumerate(function.parameters):
            if last:
                var = Variable(self.name(), kind)
                text, several = var.name, [var]
            elif place == 0 and not is_scalar(kind):
                text, several = self.opened(kind, 2)
            else:
                text, several = self.pattern(kind, 1 + (self.chance.random() < 0.3))
                for var in several:
                    var.smaller = False
            texts.append(text)
            scope += several
        head = " ".join([function.name, *texts])
        bindings = self.wheres(function, scope)
        self.rhs(function, head, scope, last, bindings)

    def wheres(self, function, scope):
        """Values that are named behind an equation, some of them by both sides of a par."""
        lines = []
        parts = [var for var in scope if var.smaller and var.kind == function.parameters[0]]
        if len(parts) >= 2 and self.chance.random() < 0.5:
            calls = [self.recursive(function, scope, var) for var in parts[:2]]
            names = [Variable(self.name(), function.result) for _ in calls]
            lines.append(f"({names[0].name}, {names[1].name}) = " + self.chance.choice(("par ({}) ({})", "({}) .||. ({})")).format(*calls))
            scope += names
        for _ in range(self.chance.choice((0, 0, 1, 1, 2))):
            kind = self.type(1)
            text = self.expr(kind, scope, 2, function)
            var = Variable(self.name("w"), kind)
            lines.append(f"{var.name} = {text} :: {shown(kind)}")
            scope.append(var)
        self.chance.shuffle(lines)
        return lines

    def recursive(self, function, scope, var):
        var.used = True
        return " ".join([function.name, var.name, *(self.atom(kind, scope, 1, function) for kind in function.parameters[1:])])

    def rhs(self, function, head, scope, last, bindings):
        lines = []
        divisor = self.guarded_division(scope)
        guards = self.chance.choice((0, 0, 1, 2)) if not divisor else 1
        if guards == 0 and last or guards == 0 and self.chance.random() < 0.6:
            lines.append(f"{head} = {self.expr(function.result, scope, 3, function)}")
        else:
            lines.append(head)
            state = [var.used for var in scope]
            ends = []
            tests = ([f"{divisor[0]} == 0"] if divisor else []) + [self.expr(BOOL, scope, 2, None) for _ in range(max(1, guards) - bool(divisor))]
            # What fails all guards comes to the next equation.
            closed = last or self.chance.random() < 0.5
            if divisor:
                bindings = [*bindings, f"{divisor[1]} = ({self.chance.choice(NUMBERS)}) `quot` {divisor[0]}"]
            for count, test in enumerate(tests + ["otherwise"] * closed):
                for var, used in zip(scope, state):
                    var.used = used
                if divisor and count == 1:
                    scope.append(Variable(divisor[1], INT))
                    state.append(False)
                lines.append(f"  | {test} = {self.expr(function.result, scope, 2, function)}")
                ends.append([var.used for var in scope])
        if bindings:
            lines.append("  where")
            lines += ["    " + line for line in bindings]
        self.lines += lines

    def guarded_division(self, scope):
        """A number that is divided by where it is not 0, and the name of what comes."""
        numbers = [var for var in scope if var.kind == INT and var.name.startswith("v")]
        if numbers and self.chance.random() < 0.15:
            return self.chance.choice(numbers).name, self.name("d")
        return None

    # -- expressions ---------------------------------------------------------------------------------------------------------------

    def atom(self, kind, scope, fuel, function):
        text = self.expr(kind, scope, fuel, function)
        return text if text.replace("'", "").replace("_", "").isalnum() or text[0] == "(" and closes(text) or text == "[]" else f"({text})"

    def expr(self, kind, scope, fuel, function):
        """An expression of a type. Without a function it calls none."""
        several = [var for var in scope if var.kind == kind and (is_scalar(kind) or not var.used)]
        roll = self.chance.random()
        if several and (roll < 0.35 or fuel <= 0):
            var = self.chance.choice(several)
            var.used = True
            return var.name
        if fuel > 0 and function:
            if roll < 0.5:
                called = self.called(kind, scope, fuel, function)
                if called:
                    return called
            if roll < 0.58:
                return f"if {self.expr(BOOL, scope, fuel - 1, None)} then {self.split(kind, scope, fuel, function)}"
            if roll < 0.66:
                return self.cased(kind, scope, fuel, function)
            if roll < 0.72:
                return self.let(kind, scope, fuel, function)
        if kind == INT:
            return self.number_expr(scope, fuel, function)
        if kind == BOOL:
            return self.truth(scope, fuel, function)
        return self.make(kind, scope, fuel, function)

    def split(self, kind, scope, fuel, function):
        """Two ways, each of which may use what the other one does."""
        state = [var.used for var in scope]
        yes = self.expr(kind, scope, fuel - 1, function)
        ends = [var.used for var in scope]
        for var, used in zip(scope, state):
            var.used = used
        no = self.expr(kind, scope, fuel - 1, function)
        for var, used in zip(scope, ends):
            var.used = var.used or used
        return f"{yes} else {no}"

    def called(self, kind, scope, fuel, function):
        parts = [var for var in scope if function.result == kind and var.smaller and var.kind == function.parameters[0] and not var.used]
        if parts:
            return self.recursive(function, scope, self.chance.choice(parts))
        others = [other for other in self.functions if other.result == kind]
        if not others:
            return None
        other = self.chance.choice(others)
        return " ".join([other.name, *(self.atom(part, scope, fuel - 1, function) for part in other.parameters)])

    def cased(self, kind, scope, fuel, function):
        subject = self.type(1)
        text = self.expr(subject, scope, fuel - 1, function)
        state = [var.used for var in scope]
        ends, arms = [], []
        for last in [False] * self.chance.randint(0, 2) + [True]:
            for var, used in zip(scope, state):
                var.used = used
            pat, bound = ("_", []) if last and self.chance.random() < 0.5 else self.pattern(subject, 2) if not last else self.irrefutable(subject)
            for var in bound:
                var.smaller = False
            arms.append(f"{pat} -> {self.expr(kind, scope + bound, fuel - 1, function)}")
            ends.append([var.used for var in scope])
        for place, var in enumerate(scope):
            var.used = any(end[place] for end in ends)
        return f"(case {text} :: {shown(subject)} of {{ {'; '.join(arms)} }})"

    def irrefutable(self, kind):
        if kind[0] == ",":
            parts = [self.irrefutable(part) for part in kind[1:]]
            return f"({', '.join(text for text, _ in parts)})", [var for _, bound in parts for var in bound]
        var = Variable(self.name(), kind)
        return var.name, [var]

    def let(self, kind, scope, fuel, function):
        subject = self.type(1)
        text = self.expr(subject, scope, fuel - 1, function)
        pat, bound = self.irrefutable(subject)
        bindings = [f"{pat} = {text} :: {shown(subject)}"]
        if self.chance.random() < 0.2:
            other = Variable(self.name(), INT)
            bindings = [f"{pat} = spawn ({text} :: {shown(subject)})", f"{other.name} = {self.expr(INT, scope, fuel - 1, function)} :: Int", "_ = sync"]
            bound = [*bound, other]
        inner = self.expr(kind, scope + bound, fuel - 1, function)
        return f"(let {{ {'; '.join(bindings)} }} in {inner})"

    def number_expr(self, scope, fuel, function):
        roll = self.chance.random()
        if fuel <= 0 or roll < 0.2:
            number = self.chance.choice(NUMBERS)
            return f"({number})" if number < 0 else str(number)
        sides = self.anchored([self.atom(INT, scope, fuel - 1, function) for _ in range(2)])
        if roll < 0.6:
            return f" {self.chance.choice('+-*')} ".join(sides)
        if roll < 0.75:
            # What is odd is not 0.
            return f"{sides[0]} `{self.chance.choice(('quot', 'rem', 'div', 'mod'))}` (2 * {sides[1]} + 1)"
        if roll < 0.85:
            return f"{self.chance.choice(('max', 'min'))} {sides[0]} {sides[1]}"
        if roll < 0.9:
            return f"{self.chance.choice(('abs', 'negate', 'signum'))} ({sides[0]} :: Int)"
        return f"{sides[0]} {self.chance.choice('+-*')} {sides[1]} {self.chance.choice('+-*')} {self.atom(INT, scope, 0, function)}"

    def anchored(self, sides):
        """Two numbers, one of which says that they are Int: Haskell takes others for Integers."""
        if any(re.fullmatch(r"[vwdx][0-9]+'?", side) for side in sides):
            return sides
        return [f"({sides[0]} :: Int)", sides[1]]

    def truth(self, scope, fuel, function):
        roll = self.chance.random()
        if fuel <= 0 or roll < 0.15:
            return self.chance.choice(("True", "False"))
        if roll < 0.65:
            sides = self.anchored([self.atom(INT, scope, fuel - 1, function) for _ in range(2)])
            return f" {self.chance.choice(('<', '<=', '>', '>=', '==', '/='))} ".join(sides)
        if roll < 0.75:
            return f"{self.chance.choice(('even', 'odd'))} ({self.atom(INT, scope, fuel - 1, function)} :: Int)"
        if roll < 0.85:
            return f"not {self.atom(BOOL, scope, fuel - 1, function)}"
        return f" {self.chance.choice(('&&', '||'))} ".join(self.atom(BOOL, scope, fuel - 1, function) for _ in range(2))

    def make(self, kind, scope, fuel, function):
        several = self.constructors(kind)
        if fuel <= 0:
            several = several[:1]
        con, fields = self.chance.choice(several)
        if con == ":" and self.chance.random() < 0.3:
            return f"[{', '.join(self.expr(fields[0], scope, fuel - 1, function) for _ in range(self.chance.randint(1, 3)))}]"
        parts = [self.atom(field, scope, fuel - 1, function) for field in fields]
        return self.joined(con, parts) if con in (",", ":") else " ".join([con, *parts])

    def text(self):
        self.declare()
        count = self.chance.randint(1, 5)
        for place in range(count):
            self.function(place)
        recursive = [(name, *(INT for _ in variables)) for name, (variables, _) in self.datas.items()]
        self.function(count, self.chance.choice(recursive))
        last = self.functions[-1]
        parameters = last.parameters
        kind = parameters[0] if len(parameters) == 1 else (",", *parameters)
        names = [f"x{place}" for place in range(len(parameters))]
        pattern = names[0] if len(names) == 1 else f"({', '.join(names)})"
        self.lines += [f"gibbon_main :: {shown(kind)} -> {shown(last.result)}", f"gibbon_main {pattern} = {' '.join([last.name, *names])}", ""]
        return "\n".join([f"module Made{self.number} where", "", "import Gibbon.Prelude", "", *self.lines])


def closes(text):
    """Whether the parenthesis at the front of a text closes at its end."""
    depth = 0
    for place, letter in enumerate(text):
        depth += (letter in "([{") - (letter in ")]}")
        if depth == 0:
            return place == len(text) - 1
    return False


def made_program(number):
    return Made(number).text()


if __name__ == "__main__":
    import sys

    print(made_program(int(sys.argv[1])), end="")
