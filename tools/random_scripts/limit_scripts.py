"""Scripts at a limit of the language and one past it."""
import limits


def limit_script(random):
    return random.choice(SCRIPTS)(random, random.choice((0, 0, 1)))


def numbered(count, text):
    return [text.replace("#", str(number)) for number in range(count)]


def script(*lines):
    return "\n".join(lines) + "\n"


def value_nodes(count):
    """A value of so many nodes, whose depth is small."""
    if count <= 2:
        return "-1"[-count:]
    left = (count - 1) // 2
    return f"({value_nodes(left)} + {value_nodes(count - 1 - left)})"


def value_depth(depth, form):
    """A value of this depth: a chain to the left, a row of signs, or indexes in each other."""
    if form == "chain":
        return " + ".join(["1"] * depth)
    if form == "signs":
        return "-" * (depth - 1) + "1"
    return "p0[" * (depth - 1) + "0" + "]" * (depth - 1)


# TEXTS OF KERNELS


def kernels(random, past):
    count = limits.KERNELS + past
    return script(*numbered(count, "job k#() { }"), "schedule h k0()", "schedule h k255()")


def params(random, past):
    count = limits.PARAMS + past
    return script(f"job k({', '.join(numbered(count, 'p#: int'))}) {{ }}", f"schedule h k({', '.join('1' * count)})")


def local_names(random, past):
    """Locals of closed blocks count."""
    count = limits.LOCALS + past
    forms = ("var v# = 2;", "for v# in 0..1 { }", "if 1 { var v# = 1; }")
    text = " ".join(random.choice(forms).replace("#", str(number)) for number in range(count))
    return script(f"job k() {{ {text} }}", "schedule h k()")


def nodes(random, past):
    """A statement and a value: so many nodes together."""
    return script(f"job k() {{ var x = {value_nodes(limits.NODES - 1 + past)}; }}", "schedule h k()")


def depth(random, past):
    level = limits.DEPTH + past
    if random.random() < 0.3:
        return script("job k() {" + "if 1 {" * (level - 2) + "var x = 1;" + "}" * (level - 1), "schedule h k()")
    value = value_depth(level - 1, random.choice(("chain", "signs", "indexes")))
    return script(f"job k(p0: ro array) {{ var x = {value}; }}", "array a 3", "schedule h k(a)")


def kernel_numbers(random, past):
    number = limits.MOST + past
    return script(f"job k(r: wo ref) {{ r = {number}; }}", "reference r", "schedule h k(r)", "complete h", "print r")


def widths(random, past):
    width = random.choice((limits.WIDTH + past, 1 - past))
    return script(f"parallel k(a: wo array by {width}) {{ a[index * {width}] = 1; }}", "array a 2048",
                  "schedule h k(a) 2 1", "complete h", "print a")


def names(random, past):
    name = "n" * (limits.NAME_BYTES + past)
    return random.choice((
        script(f"job {name}() {{ }}"), script(f"job k({name}: int) {{ }}"), script(f"job k() {{ var {name} = 1; }}"),
        script(f"job k() {{ for {name} in 0..1 {{ }} }}"), script(f"array {name} 1", f"print {name}"),
        script("list l 1", f"dispose auto l as {name}", f"complete {name}"), script(f"combine {name}"),
        script("list l 1", f"copy {name} l", f"print {name}"), script("list l 1", f"view {name} l", f"print {name}"),
    ))


def guards(random, past):
    """What a deferred kernel leaves room for."""
    form = random.choice(("params", "nodes", "depth"))
    params, body = "", ""
    if form == "params":
        params = ", ".join(numbered(limits.PARAMS - limits.GUARD_PARAMS + past, "p#: int"))
    elif form == "nodes":
        body = f"var x = {value_nodes(limits.NODES - limits.GUARD_NODES - 1 + past)};"
    else:
        level = limits.DEPTH - limits.GUARD_DEPTH - 1 + past
        body = f"var x = {value_depth(level, random.choice(('chain', 'signs')))};"
    args = ", ".join("1" for _ in params.split()[::2])
    return script(f"parallel k({params}) {{ {body} }}", "list l 2", "add l 1", f"schedule h k({args}) defer l 1")


# NUMBERS OF STATEMENTS


def sizes(random, past):
    return random.choice((
        script(f"array a {limits.PLACES + past}"), script(f"list l {limits.PLACES - 1 + past}"),
        script(f"list l {limits.PLACES + past}"), script(f"map m {limits.MAP_CAPACITY + past}", "print m"),
        script(f"stream s {limits.STREAM_INDEXES + past} 0"),
        script(f"stream s 2 {limits.STREAM_ROOM + past}", "print s"),
        script("array a 3", f"slice s a 0 {limits.PLACES + past}"),
        script("array a 3", f"slice s a {limits.PLACES + past} 0"),
        script("list l 0", f"setcapacity l {limits.PLACES + past}"),
        script(f"reference r = -{limits.MOST + 1 + past}", "print r"),
        script(f"reference r = {limits.MOST + past}", "print r"),
        script("array a 1", f"set a {limits.MOST + past} = 1"), script(f"array a {limits.PLACES + past} = 1"),
    ))


def lengths(random, past):
    long = limits.PLACES + past if random.random() < 0.1 or past else 100
    length, batch = random.choice(((long, 9), (1, limits.BATCH + past), (9, 1 - past), (0, 1)))
    return script("parallel k() { }", f"schedule h k() {length} {batch}")


def blocks(random, past):
    heads = [f"repeat {random.choice((1, 1, 2))} {{" for _ in range(limits.OPEN_BLOCKS + past)]
    if random.random() < 0.5:
        heads[random.randrange(len(heads))] = "when r == 0 {"
    return script("reference r", *heads, "set r = 1", *["}"] * len(heads), "print r")


def repeats(random, past):
    count = random.choice((limits.REPEATS + past, 1 - past, 10**30))
    return script(f"repeat {count} {{", random.choice(("", "flush")), "}", "flush" if past else "")


def statements(random, past):
    count = limits.STATEMENTS + past
    inner = random.choice((1, 2, 4, 16, 256))
    body = [f"repeat {count // inner} {{", *["flush"] * inner, "}"] + ["flush"] * (count % inner)
    if random.random() < 0.3:
        return script("reference r", "when r == 1 {", f"repeat {count - 2} {{", "flush", "}", "}")
    return script(*body)


def whens(random, past):
    count = limits.WHENS + past
    if random.random() < 0.5:
        return script("reference r", f"repeat {count} {{", "when r == 0 {", "}", "}")
    nested = [f"repeat {limits.WHENS // 2} {{", "repeat 2 {", "when r == 1 {", "print r", "}", "}", "}"]
    return script("reference r", *nested, *["when r == 0 {", "print r", "}"] * past)


def jobs(random, past):
    """With a `when` the schedules of the text count, else those that are accepted."""
    when = random.choice(([], ["when r == 1 {", "schedule auto h k(r)", "}"]))
    count = limits.JOBS + past - bool(when)
    refused = random.choice(([], ["schedule h k(gone)"]))
    return script("job k(r: rw ref) { r = r + 1; }", "reference r", "reference gone", "dispose gone", *when, *refused,
                  f"repeat {count} {{", "schedule auto h k(r)", "}", "complete auto r", "print r")


def created_words(random, past):
    """Eight times all live words, and one more; refused makings count where the script has a `when`."""
    makes = random.choice((("array a 1048576",), ("array a 1048575", "reference b", "dispose b"), ("list a 1048575",)))
    when = ["reference r", "when r == 1 {", "}", "dispose r", "array last 1048575", "dispose last"]
    more = random.choice(("reference c", "array c 1", "list c 0", "map c 0", "array c 0", "stream c 1 0"))
    refused = random.choice(([], [], ["slice s gone 0 1", "array x 1048576", "array y 1"]))
    tests = random.random() < 0.5
    turns = [f"repeat {8 - tests} {{", *makes, "dispose a", "}"]
    return script("array gone 0", "dispose gone", *when[: 6 * tests], *refused, *turns, *[more] * past)


def live_words(random, past):
    """Containers of each kind that together have all words, or one more."""
    left, lines = limits.LIVE_WORDS + past, []
    for number in range(random.randrange(1, 5)):
        kind = random.choice(("array", "list", "map", "stream", "reference"))
        size = random.randrange(0, 1000)
        words = {"array": size, "list": size + 1, "map": 25, "stream": 3 * size, "reference": 1}[kind]
        text = {"array": f" {size}", "list": f" {size}", "map": " 3", "stream": f" {size} 2", "reference": ""}[kind]
        lines.append(f"{kind} c{number}{text}")
        left -= words
    lines.append(f"list big {left - 1}")
    random.shuffle(lines)
    held = ["job k(a: ro list) { }", "schedule h k(big)", "dispose big after h as d", "reference late", "print late",
            "complete d", "reference late", "print late"]
    then = random.choice(([], held, ["setcapacity big 1"], ["frame"]))
    return script("reference gone", "dispose gone", *lines, *then, "array more 1", "print more")


def steps(random, past):
    """A body that spends all its steps, or one more, and then stores."""
    deferred = random.random() < 0.4
    spent = limits.STEPS - (limits.GUARD_STEPS if deferred else 0) + past
    if random.random() < 0.5:
        text = f"for k in 0..{spent - 3} {{ }} a[0] = 1;"
    else:
        turns, more = divmod(spent - 4, 2)
        text = f"var v = 0; while v < {turns} {{ v = v + 1; }}" + " v = 1;" * more + " a[0] = 1;"
    word, tail = ("parallel", " defer l 1") if deferred else ("job", "")
    return script(f"{word} k(a: wo array) {{ {text} }}", "list l 1", "add l 1", "array a 1", f"schedule h k(a){tail}",
                  "complete h", "print a")


def deep_text(random, past):
    """Deep texts need no deep stack, whether they have faults or not."""
    count = random.choice((100, 5_000))
    most = count - past
    texts = ("(" * count + "1" + ")" * count, "-" * count + "1", "(" * count + "1" + ")" * most, "1 + (" * count)
    return script(f"job k(t: wo ref) {{ t = {random.choice(texts)}; }}", "reference t", "schedule h k(t)", "print t")


SCRIPTS = (
    kernels, params, local_names, nodes, depth, kernel_numbers, widths, names, guards, sizes, lengths, blocks, repeats,
    statements, whens, jobs, created_words, live_words, steps, deep_text,
)
