"""Random well-typed programs, for random_calls.py: their texts, the arguments of their roles, and the examples."""
import os

INTS = [0, 1, -1, 2, 3, 4, 5, 7, 16, 100, 255, 256, 1000, 65_536, 2**31, -(2**31), 2**63 - 1, -(2**63), 2**63 - 2]
TEXTS = ['""', '"a"', '"b"', '"ab"', '"é"', '"\\n\\t"', '"\\x00\\x7f"', '"# \\" \\\\"', '"' + "x" * 40 + '"']
# fst and snd of a pair, what an auth holds
STEPS = {"pair": [("fst", 1), ("snd", 2)], "auth": [("unauth", 1)]}


def pair(first, second):
    return ("pair", first, second)


def auth(inner):
    return ("auth", inner)


def type_text(ty):
    """A basic or named type is its name; the others are tuples."""
    if isinstance(ty, str):
        return ty
    if ty[0] == "auth":
        return "auth " + type_text(ty[1])
    return f"({type_text(ty[1])}, {type_text(ty[2])})"


class Function:
    def __init__(self, kind, name, parameters, result):
        self.kind, self.name, self.parameters, self.result = kind, name, parameters, result
        self.body = None

    def text(self):
        parameters = ", ".join(f"{name}: {type_text(ty)}" for name, ty in self.parameters)
        return f"{self.kind} {self.name}({parameters}): {type_text(self.result)} = {self.body};"


class Program:
    """A random program. Of each named type there are a function that makes values, one that counts and opens all that a value has, and one
    that changes one part; roles that call these for the state, and roles with random bodies."""

    def __init__(self, rng):
        self.rng = rng
        self.types = {}  # name -> [(constructor, fields)]
        self.functions = []
        self.left = 0  # how many expressions may still be written of a body
        self.declare_types()
        self.state = self.state_type()
        self.declare_functions()
        self.write_bodies()

    # types

    def declare_types(self):
        for number in range(self.rng.randint(1, 3)):
            self.declare_type(f"plain{number}", False)
        for number in range(self.rng.randint(1, 3)):
            self.declare_type(f"tree{number}", True)

    def declare_type(self, name, with_auth):
        """The first constructor has fields of earlier types alone, so each type has a value."""
        earlier = [other for other in self.types if with_auth or not self.has_auth(other)]
        self.types[name] = constructors = []
        for number in range(self.rng.randint(2, 4)):
            names = earlier if number == 0 else [*earlier, name, name]
            fields = [self.random_type(1, names, with_auth) for _ in range(self.rng.randint(0, 1 if number == 0 else 3))]
            if number == 1:
                fields.append(auth(name) if with_auth else name)
            constructors.append((f"{name.capitalize()}{'ABCD'[number]}", fields))

    def random_type(self, depth, names, with_auth):
        kinds = ["unit", "bool", "int", "int", "text", *names]
        if depth > 0:
            kinds += ["pair"] + ["auth"] * (3 if with_auth else 0)
        kind = self.rng.choice(kinds)
        if kind == "pair":
            return pair(self.random_type(depth - 1, names, with_auth), self.random_type(depth - 1, names, with_auth))
        if kind == "auth":
            return auth(self.random_type(depth - 1, names, with_auth))
        return kind

    def has_auth(self, ty, seen=()):
        if isinstance(ty, tuple):
            return ty[0] == "auth" or any(self.has_auth(part, seen) for part in ty[1:])
        if ty not in self.types or ty in seen:
            return False
        return any(self.has_auth(field, (*seen, ty)) for _, fields in self.types[ty] for field in fields)

    def state_type(self):
        trees = [name for name in self.types if name.startswith("tree")]
        state = auth(self.rng.choice(trees))
        for _ in range(self.rng.randint(0, 2)):
            other = self.random_type(1, trees, True)
            state = self.rng.choice([pair(state, other), pair(other, state), pair(state, state), auth(state)])
        return state

    # declarations

    def declare_functions(self):
        for name in self.types:
            self.declare("fun", f"make_{name}", [("n", "int"), ("x", "int")], name)
            self.declare("fun", f"count_{name}", [("n", "int"), ("v", name)], "int")
            self.declare("fun", f"change_{name}", [("n", "int"), ("x", "int"), ("v", name)], name)
        for number in range(self.rng.randint(0, 2)):
            parameters = [("n", "int"), ("y", self.any_type()), ("z", self.any_type())]
            self.declare("fun", f"random{number}", parameters, self.any_type())
        plain = lambda: self.random_type(1, [name for name in self.types if not self.has_auth(name)], False)
        self.declare("init", "make", [("x", "int")], self.state)
        self.declare("init", "other", [("x", plain())], self.state)
        self.declare("query", "count", [("s", self.state), ("x", "int")], "int")
        self.declare("query", "part", [("s", self.state), ("x", plain())], self.any_type())
        self.declare("query", "twice", [("s", self.state), ("x", "int")], pair("int", "int"))
        self.declare("update", "change", [("s", self.state), ("x", "int")], pair(self.state, "int"))
        self.declare("update", "turn", [("s", self.state), ("x", plain())], pair(self.state, self.any_type()))

    def declare(self, kind, name, parameters, result):
        self.functions.append(Function(kind, name, parameters, result))

    def any_type(self):
        return self.random_type(2, list(self.types), True)

    def write_bodies(self):
        for function in self.functions:
            what, _, name = function.name.partition("_")
            if name in self.types:
                function.body = getattr(self, what)(name)
            elif function.name == "make":
                function.body = f"let n = rem(x, 7) in {self.made(self.state, 'x')}"
            elif function.name == "count":
                function.body = f"let n = x in {self.counted(self.state, 's')}"
            elif function.name == "twice":
                counted = self.counted(self.state, "s")
                function.body = f"let n = 20 in ({counted}, if lt(x, 9) then {counted} else x)"
            elif function.name == "change":
                changed = self.changed(self.state, "s")
                function.body = f"let n = 20 in ({changed}, {self.counted(self.state, 's') if self.rng.random() < 0.5 else 'x'})"
            else:
                function.body = self.random_body(function)

    # values that are made, counted and changed by their types

    def make(self, name):
        constructors = self.types[name]
        values = [self.constructed(tag, [self.made(field, f"add(x, {self.rng.randint(0, 2)})") for field in fields]) for tag, fields in constructors]
        body = values[-1]
        for number, value in reversed(list(enumerate(values[:-1]))):
            body = f"if eq(rem(x, {len(values)}), {number}) then {value} else {body}"
        return f"if le(n, 0) then {self.leaf(name)} else let x = div(add(mul(x, 7), 3), 2) in {body}"

    def constructed(self, tag, fields):
        return f"{tag}({', '.join(fields)})" if fields else tag

    def made(self, ty, x):
        if ty in self.types:
            return f"make_{ty}(sub(n, 1), {x})"
        if isinstance(ty, tuple):
            if ty[0] == "auth":
                return f"auth({self.made(ty[1], x)})"
            return f"({self.made(ty[1], x)}, {self.made(ty[2], self.rng.choice([x, f'sub({x}, 1)']))})"
        other = self.rng.choice(['"a"', '"bc"'])
        return {"unit": "()", "bool": f"lt(rem({x}, 3), 1)", "int": x, "text": f"if lt({x}, 9) then {other} else cat({other}, {other})"}[ty]

    def count(self, name):
        def total(tag, fields, names):
            sum_of = "1"
            for field, ty in zip(names, fields):
                sum_of = f"add({self.counted(ty, field)}, {sum_of})"
            return sum_of

        return f"if le(n, 0) then 0 else match v with {self.arms(name, total)} end"

    def arms(self, name, body):
        """An arm for each constructor of a type, with what `body` gives for its tag, the types of its fields and their names."""
        arms = []
        for tag, fields in self.types[name]:
            names = [f"a{number}" for number in range(len(fields))]
            arms.append(f"| {self.constructed(tag, names)} -> {body(tag, fields, names)}")
        return " ".join(arms)

    def counted(self, ty, value):
        if ty in self.types:
            return f"count_{ty}(sub(n, 1), {value})"
        if isinstance(ty, tuple):
            if ty[0] == "auth":
                return f"let w = unauth({value}) in {self.counted(ty[1], 'w')}"
            return f"let w = {value} in let u = {self.counted(ty[1], 'fst(w)')} in add(u, {self.counted(ty[2], 'snd(w)')})"
        return {"unit": "1", "bool": f"if {value} then 2 else 3", "int": f"rem({value}, 1000)", "text": f"len({value})"}[ty]

    def change(self, name):
        def altered(tag, fields, names):
            values = list(names)
            if names:
                place = self.rng.randrange(len(names))
                values[place] = self.changed(fields[place], names[place])
            return self.constructed(tag, values)

        arms = self.arms(name, altered)
        made = self.made(name, "x")
        return f"if le(n, 0) then v else if eq(rem(x, 7), n) then {made} else match v with {arms} end"

    def changed(self, ty, value):
        if ty in self.types:
            return f"change_{ty}(sub(n, 1), x, {value})"
        if isinstance(ty, tuple):
            if ty[0] == "auth":
                return f"auth({self.changed(ty[1], f'unauth({value})')})"
            if self.rng.random() < 0.5:
                return f"({self.changed(ty[1], f'fst({value})')}, snd({value}))"
            return f"(fst({value}), {self.changed(ty[2], f'snd({value})')})"
        return {"unit": value, "bool": f"not({value})", "int": f"add({value}, x)", "text": f"cat({value}, \"z\")"}[ty]

    # random expressions

    def random_body(self, function):
        """A part of a parameter, of a role the state, is bound first, so that states are opened; a function without calls left ends."""
        self.left = 60
        scope = list(function.parameters)
        text, ty = self.walk(scope[max(0, len(scope) - 2)])
        body = self.formed_or_taken(function.result, [*scope, ("w", ty)], 6)
        body = f"let w = {text} in {body}"
        return f"if le(n, 0) then {self.leaf(function.result)} else {body}" if function.kind == "fun" else body

    def walk(self, local):
        """A part of a local, and its type."""
        text, ty = local
        while isinstance(ty, tuple) and self.rng.random() < 0.8:
            step, place = self.rng.choice(STEPS[ty[0]])
            text, ty = f"{step}({text})", ty[place]
        return text, ty

    def leaf(self, ty):
        if ty in self.types:
            tag, fields = self.types[ty][0]
            return self.constructed(tag, [self.leaf(field) for field in fields])
        if isinstance(ty, tuple):
            if ty[0] == "auth":
                return f"auth({self.leaf(ty[1])})"
            return f"({self.leaf(ty[1])}, {self.leaf(ty[2])})"
        return self.literal(ty)

    def literal(self, ty, depth=3):
        """A literal of a type without auth."""
        if ty in self.types:
            tag, fields = self.rng.choice(self.types[ty]) if depth > 0 else self.types[ty][0]
            return self.constructed(tag, [self.literal(field, depth - 1) for field in fields])
        if isinstance(ty, tuple):
            return f"({self.literal(ty[1], depth)}, {self.literal(ty[2], depth)})"
        if ty == "int":
            return str(self.rng.choice(INTS) if self.rng.random() < 0.5 else self.rng.randint(-20, 20))
        return self.rng.choice({"unit": ["()"], "bool": ["true", "false"], "text": TEXTS}[ty])

    def visible(self, scope):
        return list(dict(scope).items())

    def path(self, ty, scope):
        """A part of a local that has this type; none where none was met."""
        for _ in range(12):
            text, at = self.walk(self.rng.choice(self.visible(scope)))
            if at == ty:
                return text
        return None

    def expression(self, ty, scope, depth):
        self.left -= 1
        if depth <= 0 or self.left <= 0 or self.rng.random() < 0.25:
            return self.path(ty, scope) or self.leaf(ty)
        return self.formed_or_taken(ty, scope, depth)

    def formed_or_taken(self, ty, scope, depth):
        part = lambda other, more=(): self.expression(other, [*scope, *more], depth - 1)
        choice = self.rng.randrange(10)
        if choice == 0:
            bound = self.any_type()
            name = self.rng.choice(["a", "b", "c", "s", "x"])
            return f"let {name} = {part(bound)} in {part(ty, [(name, bound)])}"
        if choice == 1:
            return f"if {part('bool')} then {part(ty)} else {part(ty)}"
        if choice == 2:
            return self.matched(ty, part)
        if choice == 3:
            return self.taken(ty, part)
        if choice == 4:
            return self.called(ty, part, scope)
        return self.formed(ty, part)

    def matched(self, ty, part):
        name = self.rng.choice(list(self.types))
        arms = []
        for tag, fields in self.types[name]:
            names = [f"{self.rng.choice('abcs')}{number}" for number in range(len(fields))]
            arms.append(f"| {self.constructed(tag, names)} -> {part(ty, list(zip(names, fields)))}")
        return f"match {part(name)} with {' '.join(arms)} end"

    def taken(self, ty, part):
        other = self.any_type()
        return self.rng.choice([
            lambda: f"fst({part(pair(ty, other))})",
            lambda: f"snd({part(pair(other, ty))})",
            lambda: f"unauth({part(auth(ty))})",
        ])()

    def called(self, ty, part, scope):
        fitting = [function for function in self.functions if function.result == ty]
        if not fitting:
            return self.formed(ty, part)
        function = self.rng.choice(fitting)
        arguments = [part(other) for _, other in function.parameters]
        if function.kind == "fun":
            arguments[0] = "sub(n, 1)" if dict(scope).get("n") == "int" else str(self.rng.randint(0, 6))
        return f"{function.name}({', '.join(arguments)})"

    def formed(self, ty, part):
        if ty in self.types:
            tag, fields = self.rng.choice(self.types[ty])
            return self.constructed(tag, [part(field) for field in fields])
        if isinstance(ty, tuple):
            return f"auth({part(ty[1])})" if ty[0] == "auth" else f"({part(ty[1])}, {part(ty[2])})"
        if ty == "int":
            word = self.rng.choice(["add", "add", "sub", "mul", "div", "rem", "len"])
            return f"len({part('text')})" if word == "len" else f"{word}({part('int')}, {part('int')})"
        if ty == "bool":
            word = self.rng.choice(["eq", "lt", "le", "teq", "tlt", "not"])
            if word == "not":
                return f"not({part('bool')})"
            of = "text" if word[0] == "t" else "int"
            return f"{word}({part(of)}, {part(of)})"
        return f"cat({part('text')}, {part('text')})" if ty == "text" else "()"

    # what random_calls.py asks for

    def text(self):
        types = [f"type {name} = {' | '.join(self.constructed(tag, [type_text(field) for field in fields]) for tag, fields in constructors)};"
                 for name, constructors in self.types.items()]
        lines = [*types, f"state {type_text(self.state)};", *(function.text() for function in self.functions)]
        return "\n".join(lines) + "\n"

    def argument(self, role):
        """A random literal of what a role takes."""
        if role == "make" or self.rng.random() < 0.3 and role in ("count", "twice", "change"):
            return str(self.rng.randint(0, 60))
        function = next(function for function in self.functions if function.name == role)
        return self.literal(function.parameters[-1][1])

    def roles(self, kind):
        return [function.name for function in self.functions if function.kind == kind]


class Example:
    """A program of the library or of examples/, with arguments of its roles among which keys and places come again."""

    ROLES = {
        "bst": (["empty"], ["get"], ["put", "put"]),
        "merkle": (["make"], ["get"], ["put"]),
        "log": (["start"], ["size", "entry"], ["append", "append"]),
    }

    FOLDERS = {"log": "examples"}

    def __init__(self, rng, root):
        self.rng = rng
        self.name = rng.choice(sorted(self.ROLES))
        with open(os.path.join(root, self.FOLDERS.get(self.name, "crates/library_files/data"), self.name + ".lam"), encoding="utf-8") as file:
            self.program = file.read()

    def text(self):
        return self.program

    def roles(self, kind):
        return self.ROLES[self.name][["init", "query", "update"].index(kind)]

    def argument(self, role):
        few = lambda: str(self.rng.randint(-1, 9))
        if role in ("empty", "start", "size"):
            return "()"
        if role == "append":
            return self.rng.choice(TEXTS)
        if role == "make":
            return f"({self.rng.randint(0, 30)}, {few()})"
        return few() if role in ("get", "entry") else f"({few()}, {few()})"
