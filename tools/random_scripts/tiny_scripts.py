"""Tiny scripts with few names, each put anywhere: so each form meets each kind, and a fault stands nearly alone."""

KINDS = ("array", "array", "list", "ref", "map", "stream")
NAMES = ("p", "q", "r", "v", "k")
VALUES = ("1",) * 12 + ("N", "N[0]", "len(N)", "has(N, 1)", "count(N, 0)", "at(N, 0, 1)", "index", "-N", "N + N[1]")
STATEMENTS = (
    "var N = E;", "N = E;", "N = E;", "N[E] = E;", "add(N, E);", "add(N, E, E);", "remove(N, E);", "clear(N);",
    "write(N, E);", "begin N[E] { S }", "begin N[E] { write(M, E); S }", "begin N[E] { begin M[E] { S } }",
    "if E { S } else { S }",
    "for N in E..E { S }", "while E { S }", "N = try_add(N, E, E);", "N = remove(N, E);",
    "var v = 0; v = remove(N, E);", "var v = 0; v = try_add(N, E, E);", "if 1 { var v = E; } v = E;", "if len(N) { }",
)
MADE = ("a", "a", "a", "b", "b", "b", "h", "h", "unknown")
LINES = (
    "array N 2", "array N 2 = 1 2", "array N D tempjob", "column N \"c\"", "list N D", "map N D temp", "stream N D D",
    "reference N = 5", "slice N N D D", "view N N", "copy N N", "copy N N", "set N D = 1", "set N = 1", "add N 1",
    "add N 1 2", "put N 1 2", "remove N 0", "clear N", "setcapacity N D", "combine N N", "combine N", "complete N",
    "complete auto N", "dispose N", "dispose N after N as N", "dispose auto N as N", "print N", "repeat D {\nL\n}",
    "when N == 1 {\nL\nL\n}", "when N == 1 {\nwhen M == 1 {\nL\n}\n}", "schedule h f(N) waive p",
    "schedule h g(N) 1 1 waive p",
    "schedule h g(N) D D waive p after h h", "schedule h f(N) after h", "schedule h f(N) D D", "schedule h g(M)",
    "schedule N K(N)", "schedule auto N K(N)", "schedule N K(N, N) D D", "schedule N K(N) D D waive N",
    "schedule N K(N) defer N D", "schedule N K(N, N) defer N D after N", "schedule N K(3)", "schedule N K(N) after N N",
    "schedule N K()", "schedule N K(N) defer N D waive p",
)


class TinyScript:
    def __init__(self, random):
        self.random = random
        self.names = NAMES
        self.last = NAMES[0]

    def kernel(self, name):
        """A kernel with a few parameters and statements. Its names may be taken, unknown or out of scope."""
        params = self.random.sample(NAMES, self.random.randrange(1, 4))
        self.names = params * 4 + ["v", "k", "unknown"]
        params += params[: self.random.random() < 0.03]
        head = f"{self.random.choice(('job', 'parallel'))} {name}({', '.join(map(self.param, params))})"
        return f"{head} {{ {self.filled(' '.join('S' * self.random.choice((1, 1, 2))), 2)} }}"

    def param(self, name):
        if self.random.random() < 0.15:
            return f"{name}: int"
        by = f" by {self.random.choice((1, 2))}" if self.random.random() < 0.05 else ""
        kind = self.random.choice(KINDS)
        access = self.random.choice(("ro", "wo") if kind == "stream" else ("ro", "wo", "rw", "rw"))
        return f"{name}: {access} {kind}{by if kind == 'array' else ''}"

    def filled(self, text, depth):
        """The text with each S a statement, each E a value, each N a name, and each M the last name again."""
        written = []
        for letter in text:
            if letter == "S":
                written.append(self.filled(self.random.choice(STATEMENTS), depth - 1) if depth else "")
            elif letter == "E":
                written.append(self.filled(self.random.choice(VALUES), 0))
            elif letter == "N":
                self.last = self.random.choice(self.names)
                written.append(self.last)
            elif letter == "M":
                written.append(self.last)
            else:
                written.append(letter)
        return "".join(written)

    def lines(self, text, depth):
        """The text with each L a line, each N a name, each M the last one, each D a number and each K a kernel."""
        written = []
        for letter in text:
            if letter == "L":
                written.append(self.lines(self.random.choice(LINES), depth - 1) if depth else "flush")
            elif letter == "N":
                self.last = self.random.choice(MADE)
                written.append(self.last)
            elif letter == "M":
                written.append(self.last)
            elif letter == "D":
                written.append(str(self.random.choice((0, 1, 1, 2, 2, 3))))
            elif letter == "K":
                written.append(self.random.choice(("f", "f", "f", "g", "g", "g", "unknown")))
            else:
                written.append(letter)
        return "".join(written)

    def script(self):
        if self.random.random() < 0.5:
            return self.kernel("f") + "\n"
        kernels = ["job f(p: rw array) { p[0] = 1; }", "parallel g(p: rw array) { p[index] = index; }"]
        if self.random.random() < 0.5:
            kernels = [self.kernel("f"), kernels[1]]
        made = ("array # 2", "list # 2", "reference #", "map # 2", "stream # 1 1", "combine #")
        first = [self.random.choice(made).replace("#", name) for name in "ab"] + ["combine h"]
        return "\n".join([*kernels, *first, self.lines("\n".join("L" * self.random.choice((1, 1, 2, 3))), 2)]) + "\n"
