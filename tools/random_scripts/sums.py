"""Scripts that compute with numbers of every size: the least, the greatest, and those beside powers of two."""

OPERATORS = ("+", "-", "*", "/", "%", "==", "!=", "<", "<=", ">", ">=", "&&", "||")
LEAST, MOST = -(2**63), 2**63 - 1
COUNT = 40


def number(random):
    form = random.randrange(4)
    if form == 0:
        return random.randrange(-9, 10)
    if form == 1:
        return random.choice((LEAST, LEAST + 1, MOST, MOST - 1))
    size = 2 ** random.randrange(64)
    near = random.choice((-1, 1)) * (size + random.randrange(-2, 3) if form == 2 else random.randrange(size))
    return max(LEAST, min(MOST, near))


def constant(random):
    """A number as a value of a kernel, which has no negative ones of its own."""
    value = number(random)
    if value == LEAST:
        return f"(-{MOST} - 1)"
    return f"(-{-value})" if value < 0 else str(value)


def sum_script(random):
    """Each index computes once with two operands, so that one trap hides no other."""
    kernels, lines = [], []
    for name in "xz":
        lines.append(f"array {name} {COUNT} = " + " ".join(str(number(random)) for _ in range(COUNT)))
    for place in range(random.randrange(1, 8)):
        kernels.append(f"parallel k{place}(x: ro array, z: ro array, y: wo array, c: int) {{ {body(random)} }}")
        lines += [f"array y{place} {COUNT}", f"schedule h k{place}(x, z, y{place}, {number(random)}) {COUNT} 8"]
        lines += ["complete h", f"print y{place}"]
    return "\n".join(kernels + lines) + "\n"


def body(random):
    value = f"{operand(random)} {random.choice(OPERATORS)} {operand(random)}"
    if random.random() < 0.3:
        value = f"({value}) {random.choice(OPERATORS)} ({operand(random)} {random.choice(OPERATORS)} {operand(random)})"
    if random.random() < 0.2:
        value = f"{random.choice('-!')}({value})"
    if random.random() < 0.3:
        turns = f"for k in 0..8 {{ s = s {random.choice('+-')} x[k] {random.choice('/%')} {operand(random)}; }}"
        return f"var s = x[index]; {turns} y[index] = s; y[index] = {value};"
    return f"y[index] = {value};"


def operand(random):
    return random.choice(("x[index]", "x[index]", "z[index]", "z[index]", "c", "-x[index]", "index", constant(random)))
