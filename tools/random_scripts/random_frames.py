"""Random statements without static faults, over the names that the script has made so far."""
from known_kernels import KnownKernel
from random_kernels import SIGNS, RandomKernel

LETTERS = {
    "array": "a", "slice": "s", "view": "v", "list": "l", "reference": "r", "map": "m", "stream": "t", "handle": "h",
}
CONTAINERS = ("array", "list", "reference", "map", "stream")
NAMED = CONTAINERS + ("slice", "view")
FITTING = {"array": ("array", "slice", "view"), "list": ("list",), "ref": ("reference",), "map": ("map",),
           "stream": ("stream",)}
EDGES = (2**63 - 1, -(2**63), 2**62)
MOST_PRINTED = 2000


class RandomFrame:
    """A script in the making. The more care it takes, the fewer of its statements are refused.

    A bold one has names, numbers and clauses where they mostly don't fit, and so mostly a static fault.
    """

    def __init__(self, random, columns=(), bold=False):
        self.random = random
        self.bold = bold
        self.columns = columns
        self.care = random.random()
        self.kinds = {}
        self.sizes = {}
        self.made = None
        self.containers = {}
        self.ended = set()
        self.temps = set()
        self.kernels = []
        self.lines = []

    def script(self):
        if self.chance(0.08):
            self.lines.append(f"array filler {1_048_576 - self.random.randrange(2000)}")
        for _ in range(self.random.randrange(1, 5)):
            self.add_kernel()
        for _ in range(self.random.choice((5, 10, 20, 20, 40, 120))):
            if self.random.random() < 0.03:
                self.add_kernel()
            self.lines += self.statement(0, False)
        self.lines += self.farewell()
        return "\n".join(self.lines) + self.random.choice(("\n", "\n", "\n", ""))

    def add_kernel(self):
        name = f"k{len(self.kernels)}"
        if self.chance(0.4):
            kernel = KnownKernel(self.random, name)
        else:
            kernel = RandomKernel(self.random, name, self.chance(0.6), self.bold)
        self.kernels.append(kernel)
        self.lines.append(kernel.text())

    def farewell(self):
        """What has become of each container."""
        lines = []
        for name, kind in self.kinds.items():
            if kind in NAMED and self.sizes.get(name, 0) <= MOST_PRINTED and self.random.random() < 0.7:
                lines += [f"complete auto {name}"] * (self.random.random() < 0.9) + [f"print {name}"]
        return lines

    def statement(self, depth, in_when):
        """The lines of one more statement."""
        forms = [
            (self.making, 6), (self.slicing, 2), (self.viewing, 2), (self.copying, 1), (self.setting, 3),
            (self.adding, 4), (self.removing, 3), (self.putting, 2), (self.clearing, 1), (self.resizing, 1),
            (self.scheduling, 12), (self.combining, 1), (self.completing, 4), (self.disposing, 1), (self.printing, 5),
            (self.passing, 1),
        ]
        if depth < 3:
            forms.append((self.repeating, 1))
            if not in_when or self.is_bold():
                forms.append((self.testing, 1))
        form = self.random.choices([form for form, _ in forms], [weight for _, weight in forms])[0]
        if form in (self.repeating, self.testing):
            return form(depth, in_when)
        return form()

    # NAMES AND NUMBERS

    def chance(self, share):
        return self.random.random() < share

    def is_bold(self):
        return self.bold and self.chance(0.03)

    def number(self):
        if self.chance(0.03):
            return self.random.choice(EDGES)
        return self.random.choice((0, 1, 2, 3, -1, self.random.randrange(-50, 100)))

    def size(self):
        if self.chance(0.02):
            return self.random.choice((4096, 60_000, 1_048_576, self.random.randrange(2000)))
        return self.random.choice((0, 1, 2, 3, 4, 5, 6, 8, self.random.randrange(1, 80)))

    def name_for(self, kind, size=0):
        """A name to make, old or new."""
        old = self.of_kinds((kind,))
        number = sum(other == kind for other in self.kinds.values())
        name = self.random.choice(old) if old and self.chance(0.3) else f"{LETTERS[kind]}{number}"
        self.made = (name, kind, size)
        return name

    def of_kinds(self, kinds):
        return [name for name, kind in self.kinds.items() if kind in kinds]

    def used(self, kinds, lines):
        """A name of one of these kinds; where there is none, one is made first."""
        names = self.living(self.of_kinds(kinds))
        if self.is_bold():
            return self.random.choice([*self.kinds, "unknown"])
        if not names or self.chance(0.05):
            lines += self.make(kinds[0])
            names = self.of_kinds(kinds) or ["unknown"]
        return self.random.choice(names)

    def accessed(self, kinds, lines):
        """The same, and with care nothing is pending on it."""
        name = self.used(kinds, lines)
        if self.chance(self.care * 0.8):
            lines.append(f"complete auto {name}")
        return name

    def line(self, lines, text):
        """One more line. The name that it makes is known after it."""
        if self.made:
            name, kind, size = self.made
            self.kinds[name], self.sizes[name], self.made = kind, size, None
        self.note(text.split())
        return lines + [text]

    def note(self, words):
        """Keeps which container each name stands for, and which ones have ended, as far as no statement is refused."""
        form, names = words[0] if words else "", words[1:]
        if form in ("slice", "view", "copy"):
            self.containers[names[0]] = self.containers.get(names[1])
        elif form in CONTAINERS + ("column",):
            self.containers[names[0]] = " ".join(words)
            self.ended.discard(" ".join(words))
            if "temp" in words:
                self.temps.add(" ".join(words))
        elif form == "dispose":
            self.ended.add(self.containers.get(names[names[0] == "auto"], "none"))
        elif form == "frame":
            self.ended |= self.temps

    def living(self, names):
        living = [name for name in names if self.containers.get(name) not in self.ended]
        return names if self.chance(0.1) else living

    def handles(self):
        names = self.of_kinds(("handle",))
        return " ".join(self.random.choice(names) for _ in range(self.random.choice((1, 1, 2, 3)))) if names else ""

    # MAKING

    def life(self):
        return self.random.choice(("", "", "", "", " persistent", " temp" if self.chance(0.4) else "", " tempjob"))

    def making(self):
        return self.make(self.random.choice(CONTAINERS + ("array",)))

    def make(self, kind):
        if kind == "array" and self.columns and self.chance(0.4):
            name = self.name_for(kind, 4)
            return self.line([], f"column {name} \"{self.random.choice(self.columns)}\"{self.life()}")
        if kind == "slice":
            return self.slicing()
        if kind == "view":
            return self.viewing()
        if kind == "handle":
            return self.line([], f"combine {self.name_for('handle')}")
        return self.line([], getattr(self, "make_" + kind)())

    def make_array(self):
        size = self.size()
        name = self.name_for("array", size)
        if size <= MOST_PRINTED and self.chance(0.6):
            return f"array {name} {size}{self.life()}" + self.values(size)
        return f"array {name} {size}{self.life()}"

    def values(self, size):
        return " = " + " ".join(str(self.number()) for _ in range(size)) if size else ""

    def make_list(self):
        size = self.size()
        return f"list {self.name_for('list', size)} {size}{self.life()}"

    def make_map(self):
        size = min(self.size(), 4096)
        return f"map {self.name_for('map', size)} {size}{self.life()}"

    def make_stream(self):
        size, room = min(self.size(), 65_536), self.random.choice((0, 1, 2, 3, 4))
        return f"stream {self.name_for('stream', size)} {size} {room}{self.life()}"

    def make_reference(self):
        value = f" = {self.number()}" if self.chance(0.6) else ""
        return f"reference {self.name_for('reference')}{self.life()}{value}"

    def slicing(self):
        lines = []
        of = self.used(("array", "slice"), lines)
        length = self.sizes.get(of, 0)
        start = self.random.randrange(min(3, length + 1))
        size = max(0, length - start + self.random.choice((0, 0, 0, -1, -2)) + self.chance(0.05))
        return self.line(lines, f"slice {self.name_for('slice', size)} {of} {start} {size}")

    def viewing(self):
        lines = []
        of = self.used(("list",), lines)
        return self.line(lines, f"view {self.name_for('view', self.sizes.get(of, 0))} {of}")

    def copying(self):
        lines = []
        of = self.used(NAMED, lines)
        return self.line(lines, f"copy {self.name_for(self.kinds.get(of, 'array'), self.sizes.get(of, 0))} {of}")

    # CHANGES

    def place(self, name):
        if self.chance(0.1):
            return self.random.choice((-1, self.sizes.get(name, 0), 10**9, 2**63 - 1))
        return self.random.randrange(max(1, min(self.sizes.get(name, 0), 4)))

    def setting(self):
        lines = []
        name = self.accessed(self.random.choice((("array", "slice", "view", "list"), ("reference",))), lines)
        if self.kinds.get(name) == "reference":
            return self.line(lines, f"set {name} = {self.number()}")
        return self.line(lines, f"set {name} {self.place(name)} = {self.number()}")

    def adding(self):
        lines = []
        name = self.accessed(self.random.choice((("list",), ("list",), ("map",))), lines)
        for _ in range(self.random.choice((1, 1, 2, 3, 4))):
            number = f" {self.number()}" if self.kinds.get(name) == "map" else ""
            lines = self.line(lines, f"add {name} {self.number()}{number}")
        return lines

    def putting(self):
        lines = []
        return self.line(lines, f"put {self.accessed(('map',), lines)} {self.number()} {self.number()}")

    def removing(self):
        lines = []
        name = self.accessed(("list", "map"), lines)
        return self.line(lines, f"remove {name} {self.number() if self.kinds.get(name) == 'map' else self.place(name)}")

    def clearing(self):
        lines = []
        return self.line(lines, f"clear {self.accessed(('list', 'map', 'stream'), lines)}")

    def resizing(self):
        lines = []
        name = self.accessed(("list",), lines)
        if self.chance(0.2):
            lines = self.line(lines, f"view {self.name_for('view')} {name}")
            view = lines[-1].split()[1]
            return lines + [f"setcapacity {name} {self.random.choice((0, 1_048_576))}", f"print {view}"]
        self.sizes[name] = max(0, self.sizes.get(name, 0) + self.random.choice((-1, 0, 1, 3, 10)))
        return self.line(lines, f"setcapacity {name} {self.sizes[name]}")

    # JOBS

    def scheduling(self):
        lines = []
        kernel = self.random.choice(self.kernels)
        defer = self.used(("list",), lines) if kernel.parallel and self.chance(0.3) else None
        args = self.arguments(kernel, defer, lines)
        auto = " auto" if self.chance(0.2 + 0.5 * self.care) else ""
        tail = self.length(kernel, args, defer) + self.waived(kernel)
        handles = self.handles() if self.chance(0.5) else ""
        tail += f" after {handles}" if handles else ""
        return self.line(lines, f"schedule{auto} {self.name_for('handle')} {kernel.name}({', '.join(args)}){tail}")

    def arguments(self, kernel, defer, lines):
        args = []
        for param in kernel.params[self.is_bold() :]:
            if param.kind == "int" or self.is_bold():
                args.append(str(self.number()))
            elif param.kind == "array" and defer and self.chance(0.4):
                args.append(defer)
            else:
                args.append(self.argument(kernel, param, args, lines))
        return args

    def argument(self, kernel, param, args, lines):
        """Mostly a name that isn't among the arguments yet."""
        name = self.used(FITTING[param.kind], lines)
        for _ in range(6):
            if (name not in args or self.chance(0.05)) and self.is_quick(kernel, name):
                return name
            lines += self.make(FITTING[param.kind][0])
            name = self.used(FITTING[param.kind], lines)
        return name

    def is_quick(self, kernel, name):
        """A loop over a large container would take the model long."""
        return self.sizes.get(name, 0) <= 100 or "for" not in kernel.body

    def length(self, kernel, args, defer):
        batch = self.random.choice((1, 1, 2, 3, 16, 64, 1_048_576))
        if defer:
            return f" defer {defer} {batch}"
        if kernel.parallel == self.is_bold():
            return ""
        fitted = [arg for param, arg in zip(kernel.params, args) if param.kind in ("array", "stream")]
        sizes = [self.sizes.get(name, 0) for name in fitted]
        length = min([100] + sizes) if self.chance(0.8) else self.random.choice((0, 1, 2, 5, 9))
        return f" {length + self.chance(0.1)} {batch}"

    def waived(self, kernel):
        names = [param.name for param in kernel.params if param.kind == "array" and param.writes()]
        if self.is_bold():
            names = [param.name for param in kernel.params]
        elif not kernel.parallel or not self.chance(0.25):
            names = []
        if not names:
            return ""
        return " waive " + " ".join(self.random.choice(names) for _ in range(self.random.choice((1, 1, 2))))

    def combining(self):
        handles = self.handles() if self.chance(0.9) else ""
        return self.line([], " ".join(["combine", self.name_for("handle"), *handles.split()]))

    def completing(self):
        lines = []
        if self.chance(0.4):
            return self.line(lines, f"complete auto {self.used(NAMED, lines)}")
        return self.line(lines, f"complete {self.used(('handle',), lines)}")

    def disposing(self):
        lines = []
        name = self.used(CONTAINERS, lines)
        form = self.random.choice(("plain", "after", "auto"))
        if form == "plain":
            lines += [f"complete auto {name}"] * self.chance(self.care)
            return self.line(lines, f"dispose {name}")
        if form == "auto":
            return self.line(lines, f"dispose auto {name} as {self.name_for('handle')}")
        self.used(("handle",), lines)
        return self.line(lines, f"dispose {name} after {self.handles()} as {self.name_for('handle')}")

    def printing(self):
        lines = []
        names = [name for name in self.living(self.of_kinds(NAMED)) if self.sizes[name] <= MOST_PRINTED]
        if not names:
            return self.making()
        name = self.random.choice(names)
        lines += [f"complete auto {name}"] * self.chance(self.care * 0.8)
        return self.line(lines, f"print {name}")

    def passing(self):
        return self.line([], self.random.choice(("frame", "frame", "flush", "", "# a comment")))

    # BLOCKS

    def repeating(self, depth, in_when):
        lines = [f"repeat {self.random.choice((1, 2, 2, 3, 4, 5))} {{"]
        return self.block(lines, depth, in_when)

    def testing(self, depth, _):
        lines = []
        name = self.used(("reference",), lines)
        for used in self.of_kinds(NAMED) if self.chance(0.3 + 0.7 * self.care) else []:
            lines.append(f"complete auto {used}")
        lines.append(f"when {name} {self.random.choice(SIGNS)} {self.number()} {{")
        return self.block(lines, depth, True)

    def block(self, lines, depth, in_when):
        for _ in range(self.random.choice((0, 1, 2, 3, 4))):
            lines += self.statement(depth + 1, in_when)
        return lines + ["}"]
