"""Random kernels without static faults: every form of statement and value, with loops that end soon."""

EDGES = ("9223372036854775807", "4611686018427387904", "3037000500", "1000000")
SIGNS = ("==", "!=", "<", "<=", ">", ">=")
WIDTHS = (1, 1, 2, 2, 3)


class RandomParam:
    def __init__(self, name, kind, access, width):
        self.name = name
        self.kind = kind
        self.access = access
        self.width = width

    def reads(self):
        return self.access != "wo"

    def writes(self):
        return self.access in ("wo", "rw")

    def text(self):
        if self.kind == "int":
            return f"{self.name}: int"
        return f"{self.name}: {self.access} {self.kind}" + (f" by {self.width}" if self.width else "")


class RandomKernel:
    """A kernel in the making. A calm one rarely traps. A bold one has names where they mostly don't fit."""

    def __init__(self, random, name, parallel, bold=False):
        self.random = random
        self.bold = bold
        self.name = name
        self.parallel = parallel
        self.calm = random.random() < 0.6
        count = random.choice((0, 1, 2, 2, 3, 3, 4, 4, 5, 6))
        self.params = [self.random_param(f"p{number}") for number in range(count)]
        self.declared = 0
        self.locals = []
        self.loops = []
        self.counters = set()
        self.begun = []
        self.body = self.block(3)

    def text(self):
        word = "parallel" if self.parallel else "job"
        return f"{word} {self.name}({', '.join(param.text() for param in self.params)}) {self.body}"

    def random_param(self, name):
        kind = self.random.choice(("int", "array", "array", "array", "list", "ref", "ref", "map", "stream"))
        access = self.random.choice(("ro", "wo") if kind == "stream" else ("ro", "wo", "rw", "rw"))
        if self.parallel and kind in ("list", "ref", "map") and self.random.random() < 0.8:
            access = "ro"
        width = None
        if kind == "array" and access != "ro" and self.parallel and self.random.random() < 0.3:
            width = self.random.choice(WIDTHS)
        return RandomParam(name, kind, access, width)

    def is_bold(self, share=0.02):
        return self.bold and self.random.random() < share

    def of_kind(self, kinds, reads=False, writes=False):
        if self.is_bold(0.01):
            return self.params
        if self.is_bold(0.04):
            reads = writes = False
        return [
            param for param in self.params
            if param.kind in kinds and (not reads or param.reads()) and (not writes or param.writes())
        ]

    # STATEMENTS

    def block(self, depth):
        locals_outside, loops_outside = list(self.locals), list(self.loops)
        count = self.random.choice((0, 1, 1, 2, 2, 3, 4)) if depth < 3 else self.random.choice((1, 2, 3, 4, 5))
        statements = [self.statement(depth) for _ in range(count)]
        self.locals, self.loops = locals_outside, loops_outside
        between = self.random.choice((" ", " ", "\n    ", " # a comment }\n "))
        return "{" + between + between.join(statements) + between + "}"

    def statement(self, depth):
        forms = [self.variable, self.assignment, *[self.storing] * 4, *[self.changing] * 3]
        if depth:
            forms += [self.beginning, self.branching, self.looping, self.looping, self.counting]
        return self.random.choice(forms)(depth)

    def fresh_name(self, letter):
        self.declared += 1
        return f"{letter}{self.declared}"

    def variable(self, _):
        if self.declared >= 60:
            return self.assignment(0)
        value, name = self.expression(), self.fresh_name("v")
        if self.is_bold():
            name = self.random.choice(self.locals + self.loops + [name])
        self.locals.append(name)
        return f"var {name} = {value};"

    def assigned(self):
        """The names that may stand before `=`, but for those that count the turns of a loop."""
        return [name for name in self.locals if name not in self.counters]

    def assignment(self, depth):
        names = self.assigned() + [param.name for param in self.of_kind(("ref",), writes=True)] * 2
        if not names:
            return self.variable(depth) if self.declared < 60 else "if 0 { }"
        return f"{self.random.choice(names)} = {self.expression()};"

    def storing(self, depth):
        params = self.of_kind(("array", "list", "map"), writes=True)
        if not params:
            return self.assignment(depth)
        param = self.random.choice(params)
        return f"{param.name}[{self.place(param)}] = {self.expression()};"

    def changing(self, depth):
        """A change of a list or a map, or of a stream's begun index."""
        texts = []
        for param in self.of_kind(("list", "map"), writes=True):
            texts.append(f"clear({param.name});")
            if param.kind == "list":
                texts += [f"add({param.name}, {self.expression()});"] * 3
                texts.append(f"remove({param.name}, {self.place(param)});")
            else:
                texts.append(f"add({param.name}, {self.key()}, {self.expression()});")
                texts += self.effects(param)
        for name in self.begun:
            texts += [f"write({name}, {self.expression()});"] * 4
        if self.is_bold():
            texts.append(f"write({self.random.choice(self.params).name}, 1);" if self.params else "")
        return self.random.choice(texts) if texts else self.storing(depth)

    def effects(self, param):
        if param.access != "rw" or not self.assigned():
            return []
        name = self.random.choice(self.assigned())
        return [f"{name} = try_add({param.name}, {self.key()}, {self.expression()});",
                f"{name} = remove({param.name}, {self.key()});"]

    def beginning(self, depth):
        params = self.of_kind(("stream",), writes=True)
        params = [param for param in params if param.name not in self.begun or self.is_bold(0.5)]
        if not params:
            return self.changing(depth)
        param = self.random.choice(params)
        place = self.place(param)
        self.begun.append(param.name)
        block = self.block(depth - 1)
        self.begun.pop()
        return f"begin {param.name}[{place}] {block}"

    def branching(self, depth):
        text = f"if {self.expression()} {self.block(depth - 1)}"
        return text + (f" else {self.block(depth - 1)}" if self.random.random() < 0.4 else "")

    def looping(self, depth):
        if self.declared >= 60:
            return self.assignment(0)
        first, end = self.bounds()
        name = self.fresh_name("k")
        self.loops.append(name)
        block = self.block(depth - 1)
        self.loops.remove(name)
        return f"for {name} in {first}..{end} {block}"

    def bounds(self):
        measured = self.of_kind(("array", "stream")) + self.of_kind(("list",), reads=True)
        if measured and not self.loops and self.random.random() < 0.6:
            return "0", f"len({self.random.choice(measured).name})"
        if self.random.random() < 0.5:
            return str(self.random.randrange(3)), str(self.random.randrange(6))
        return f"({self.expression(1)}) % 3", f"({self.expression(1)}) % 5"

    def counting(self, depth):
        """A `while` that ends: nothing else assigns the local that it counts."""
        if self.declared >= 60:
            return self.assignment(0)
        name = self.fresh_name("w")
        self.locals.append(name)
        self.counters.add(name)
        block = self.block(depth - 1)
        return f"var {name} = 0; while {name} < {self.random.randrange(5)} {{ {name} = {name} + 1; if 1 {block} }}"

    # VALUES

    def expression(self, depth=3):
        return " || ".join(self.conjunction(depth) for _ in range(self.more(0.05)))

    def more(self, chance):
        """How many parts a chain has."""
        count = 1
        while self.random.random() < chance and count < 4:
            count += 1
        return count

    def conjunction(self, depth):
        return " && ".join(self.comparison(depth) for _ in range(self.more(0.05)))

    def comparison(self, depth):
        left = self.sum(depth)
        return f"{left} {self.random.choice(SIGNS)} {self.sum(depth)}" if self.random.random() < 0.15 else left

    def sum(self, depth):
        text = self.term(depth)
        for _ in range(self.more(0.3) - 1):
            text += self.random.choice((" + ", " - ")) + self.term(depth)
        return text

    def term(self, depth):
        text = self.unary(depth)
        for _ in range(self.more(0.2) - 1):
            operator = self.random.choice("*/%")
            exact = self.calm or operator != "*" and self.random.random() < 0.7
            text += f" {operator} " + (str(self.random.randrange(1, 9)) if exact else self.unary(depth))
        return text

    def unary(self, depth):
        return (self.random.choice("-!") if self.random.random() < 0.1 else "") + self.atom(depth)

    def atom(self, depth):
        atoms = [self.number, self.number, self.named, self.named, self.named]
        if depth:
            atoms += [self.got, self.got, self.got, self.measured, self.asked, self.parenthesis]
        return self.random.choice(atoms)(depth)

    def number(self, _):
        if not self.calm and self.random.random() < 0.05:
            return self.random.choice(EDGES)
        return str(self.random.choice((0, 1, 1, 2, 3, 5, 7, 10, self.random.randrange(1000))))

    def named(self, depth):
        names = self.locals + self.loops * 2 + [param.name for param in self.of_kind(("int",))]
        names += [param.name for param in self.of_kind(("ref",), reads=True)]
        names += ["index"] * 2 if self.parallel or self.is_bold() else []
        names += [f"{letter}{self.declared}" for letter in "vk"] if self.is_bold() else []
        return self.random.choice(names) if names else self.number(depth)

    def got(self, depth):
        params = self.of_kind(("array", "list", "map"), reads=True)
        if not params:
            return self.named(depth)
        param = self.random.choice(params)
        return f"{param.name}[{self.place(param)}]"

    def measured(self, depth):
        params = self.of_kind(("array", "stream")) + self.of_kind(("list", "map"), reads=True)
        return f"len({self.random.choice(params).name})" if params else self.number(depth)

    def asked(self, depth):
        """A question to a map or a stream."""
        params = self.of_kind(("map", "stream"), reads=True)
        if not params:
            return self.got(depth)
        param = self.random.choice(params)
        if param.kind == "map":
            return f"has({param.name}, {self.key()})"
        count = f"count({param.name}, {self.place(param)})"
        return self.random.choice((count, f"at({param.name}, {self.place(param)}, {self.random.randrange(3)})"))

    def parenthesis(self, depth):
        return f"({self.expression(depth - 1)})"

    def key(self):
        return self.random.choice((str(self.random.randrange(5)), self.named(0), self.expression(1)))

    def place(self, param):
        """A place that is mostly there, and mostly the index's own."""
        if param.kind == "map":
            return self.key()
        if not self.calm and self.random.random() < 0.1:
            return self.expression(1)
        if self.parallel and (param.writes() or not self.loops) and self.random.random() < 0.85:
            return f"index * {param.width} + {self.random.randrange(param.width)}" if param.width else "index"
        if self.loops and self.random.random() < 0.8:
            return self.random.choice(self.loops)
        return str(0 if self.calm else self.random.choice((0, 0, 0, 1, 1, 2, 3)))
