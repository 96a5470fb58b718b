"""The rows that are theorems, crates/ast_rows/proofs/Rows*.antt, as the texts that the files of rows have.

A theorem has no text: its kernels are named, and its lines have the numbers that they would have behind some others.
So the kernels that it uses are written before its lines, in the order of their names, and the line numbers in what it
prints are moved by as many. A theorem whose `repeat` is written out can't be told as a text, and none is given.
"""
import collections
import glob
import os
import re

from worked_rows import ROOT, Row, read


def unescaped(text):
    return text.replace('\\"', '"').replace("\\n", "\n")


# the table that `prices` stands for in crates/ast_rows/proofs/RowsContainers.antt
PRICES = "item,price\n1,250\n2,-30\n3,80\n"
SIGNS = {"Eq": "==", "Ne": "!=", "Lt": "<", "Le": "<=", "Gt": ">", "Ge": ">="}
LIVES = {"Persistent": "", "Temp": " temp", "TempJob": " tempjob"}

KERNEL = re.compile(r"^-- ((?:job|parallel) (\w+)\((.*?)\) \{.*\})$", re.MULTILINE)
THEOREM = re.compile(r"^(\w+) : Gives (.*?)\n(?=unfolding|\w+ = )", re.MULTILINE | re.DOTALL)
ABBREVIATION = re.compile(r"^abbrev pub (\w+) : List .*\n\1 = (.*?)\n(?=\n|$)", re.MULTILINE | re.DOTALL)
TOKEN = re.compile(r'"(?:[^"\\]|\\.)*"|\d+|[\w.]+|∷|\+\+|\[\]|[()]')


def theorems():
    """The name of each, and its row where it can be told as a text."""
    kernels = {name: (text, re.findall(r"(\w+):", params))
               for text, name, params in KERNEL.findall(read("crates/ast_rows/proofs/Kernels.antt"))}
    for path in sorted(glob.glob(f"{ROOT}/crates/ast_rows/proofs/Rows*.antt")):
        text = read(os.path.relpath(path, ROOT))
        words = {name: value for name, (value, _) in
                 ((name, expression(TOKEN.findall(body), WORDS)) for name, body in ABBREVIATION.findall(text))}
        found = THEOREM.findall(text)
        assert len(found) == text.count(" : Gives "), f"a row of {path} isn't read"
        for name, body in found:
            (_, lines, table, output, status), _ = arguments(TOKEN.findall(body), {**WORDS, **words})
            if all(former < line for (former, _), (line, _) in zip(lines, lines[1:])):
                script, moved = written(lines, kernels)
                yield name, Row(f"rows/{name}", script, table, status, moved_lines(output, moved))
            else:
                yield name, None


def written(lines, kernels):
    """The text of a row, and by how many its lines are moved."""
    used = sorted({kernel for _, said in lines for kernel in re.findall(r"schedule (?:auto )?\w+ (\w+)\(", said.text)})
    moved = len(used) - (lines[0][0] - 1 if lines else 0)
    texts, ends = {}, []
    for line, said in lines:
        texts[line + moved] = re.sub(r" waive( \d+)+", lambda found: waived(found[0], said.text, kernels), said.text)
        ends = [left - 1 for left in ends]
        if said.block:
            ends.append(said.block)
        for _ in range(ends.count(0)):
            texts[line + moved + 1] = "}"
        ends = [left for left in ends if left]
    rest = [texts.get(line, "") for line in range(len(used) + 1, max(texts, default=0) + 1)]
    return "".join(line + "\n" for line in [kernels[name][0] for name in used] + rest), moved


def waived(clause, statement, kernels):
    """Parameters after `waive` by their names; a theorem has their numbers."""
    params = kernels[re.search(r"(\w+)\(", statement)[1]][1]
    return " waive " + " ".join(params[int(number)] for number in clause.split()[1:])


def moved_lines(output, moved):
    def by(found):
        return found[1] + str(int(found[2]) + moved)

    return re.sub(r"(made on line )(\d+)", by, re.sub(r"(?m)^(refused |overdue )(\d+)", by, output))


# A statement as it is written, and of a `when` how many statements its block has.
Said = collections.namedtuple("Said", "text block", defaults=(0,))


def arguments(tokens, words):
    """The values that stand one after another, up to a closing parenthesis or an infix, and the tokens after them."""
    values = []
    while tokens and tokens[0] not in (")", "∷", "++"):
        token, tokens = tokens[0], tokens[1:]
        if token == "(":
            value, tokens = expression(tokens, words)
            tokens = tokens[1:]
        elif token == "[]":
            value = []
        elif token[0] == '"':
            value = unescaped(token[1:-1])
        else:
            value = int(token) if token.isdigit() else words[token]
        values.append(value)
    return values, tokens


def expression(tokens, words):
    """The value of what tokens begin with, and the tokens after it."""
    values, tokens = arguments(tokens, words)
    value = values[0](*values[1:]) if callable(values[0]) else values[0]
    if tokens and tokens[0] in ("∷", "++"):
        rest, after = expression(tokens[1:], words)
        return ([value] + rest if tokens[0] == "∷" else value + rest), after
    return value, tokens


def numbers(values):
    return " ".join(str(value) for value in values)


def array_of(life, name, values):
    return Said(f"array {name} {len(values)}{life} = {numbers(values)}")


def schedule(handle, kernel, args, options):
    text = f"{handle} {kernel}({', '.join(args + [str(n) for n in options.get('numbers', [])])})"
    if "cut" in options:
        text += f" {numbers(options['cut'])}"
    if "defer" in options:
        text += f" defer {numbers(options['defer'])}"
    if "waive" in options:
        text += f" waive {numbers(options['waive'])}"
    if "after" in options:
        text += f" after {numbers(options['after'])}"
    return text


# The words of crates/ast_rows/proofs/Script.antt.
WORDS = {
    "no_table": None,
    "prices": PRICES,
    "pos": lambda n: n,
    "negsuc": lambda n: -n - 1,
    **{f"Sign.{name}": sign for name, sign in SIGNS.items()},
    **{f"Life.{name}": life for name, life in LIVES.items()},
    "lines": lambda line, said: list(enumerate(said, line)),
    "array": lambda x, n: Said(f"array {x} {n}"),
    "array_for": lambda life, x, n: Said(f"array {x} {n}{life}"),
    "array_of": lambda x, values: array_of("", x, values),
    "array_of_for": array_of,
    "fills": lambda x, life, values: array_of(life, x, values),
    "column": lambda x, name: Said(f'column {x} "{name}"'),
    "list": lambda x, cap: Said(f"list {x} {cap}"),
    "reference": lambda x: Said(f"reference {x}"),
    "reference_of": lambda x, n: Said(f"reference {x} = {n}"),
    "map_": lambda x, cap: Said(f"map {x} {cap}"),
    "stream": lambda x, count, room: Said(f"stream {x} {count} {room}"),
    "slice": lambda x, of, start, length: Said(f"slice {x} {of} {start} {length}"),
    "view": lambda x, of: Said(f"view {x} {of}"),
    "copy": lambda x, of: Said(f"copy {x} {of}"),
    "set": lambda x, i, n: Said(f"set {x} {i} = {n}"),
    "set_to": lambda x, n: Said(f"set {x} = {n}"),
    "add": lambda x, n: Said(f"add {x} {n}"),
    "add_pair": lambda x, key, n: Said(f"add {x} {key} {n}"),
    "put": lambda x, key, n: Said(f"put {x} {key} {n}"),
    "remove": lambda x, n: Said(f"remove {x} {n}"),
    "clear": lambda x: Said(f"clear {x}"),
    "setcapacity": lambda x, n: Said(f"setcapacity {x} {n}"),
    "print": lambda x: Said(f"print {x}"),
    "plain": {},
    "after": lambda handles, options: {**options, "after": handles},
    "cut": lambda n, batch, options: {**options, "cut": (n, batch)},
    "defer": lambda l, batch, options: {**options, "defer": (l, batch)},
    "waive": lambda params, options: {**options, "waive": params},
    "numbers": lambda values, options: {**options, "numbers": values},
    "schedule": lambda *said: Said("schedule " + schedule(*said)),
    "schedule_auto": lambda *said: Said("schedule auto " + schedule(*said)),
    "combine": lambda h, handles: Said(" ".join(["combine", h, *handles])),
    "complete": lambda h: Said(f"complete {h}"),
    "complete_auto": lambda x: Said(f"complete auto {x}"),
    "dispose": lambda x: Said(f"dispose {x}"),
    "dispose_after": lambda x, handles, d: Said(f"dispose {x} after {' '.join(handles)} as {d}"),
    "dispose_auto": lambda x, d: Said(f"dispose auto {x} as {d}"),
    "frame": Said("frame"),
    "when": lambda x, sign, n, count: Said(f"when {x} {sign} {n} {{", count),
}
