"""The words of the command, the order of its work, and what each step that refuses answers."""
import re

import limits
from depth import depth_text
from faults import StaticFault
from generator import gen_script
from jobs import LimitPassed
from meaning import Frame
from reading import SyntaxFault
from script_faults import TooLong, read_script
from script_syntax import parse
from table import TableFault, read_table
from tokens import tokens_of
from trees import Kernel

USAGE = (
    b"usage: frame_run [--workers N] [--depth] SCRIPT [TABLE]"
    b" or frame_run [--workers N] [--depth] --gen NUMBER --jobs K"
)
OPTIONS = (b"--workers", b"--gen", b"--jobs")
REFUSED, TRAPPED = 1, 5
OF_WORDS, OF_SCRIPT, OF_TABLE, OF_FILE, OF_LIMIT = 2, 3, 4, 6, 9


class Answer(Exception):
    """A step that refuses: the status, and the line that is printed."""

    def __init__(self, status, line):
        self.status = status
        self.line = line


def frame_run(words):
    """The status and the bytes that the command answers for these words."""
    try:
        command = read_words(words)
        status, lines = run(command)
        return status, "".join(line + "\n" for line in lines).encode()
    except Answer as answer:
        return answer.status, answer.line + b"\n"


def read_words(words):
    options, positionals, waiting = {}, [], list(words)
    while waiting:
        word = waiting.pop(0)
        name, equals, value = word.partition(b"=")
        if word == b"--depth":
            add_option(options, word, word)
        elif word in OPTIONS:
            add_option(options, word, waiting.pop(0) if waiting else None)
        elif equals and name in OPTIONS:
            add_option(options, name, value)
        else:
            positionals.append(word)
    command = {
        "depth": b"--depth" in options,
        "workers": number_in(options, b"--workers", 1, limits.WORKERS, 4),
        "number": number_in(options, b"--gen", 0, limits.GEN_NUMBER, None),
        "jobs": number_in(options, b"--jobs", 1, limits.GEN_JOBS, None),
        "files": positionals,
    }
    check_words(words, command)
    return command


def add_option(options, name, value):
    if name in options or value is None:
        raise Answer(OF_WORDS, USAGE)
    options[name] = value


def number_in(options, name, least, most, absent):
    if name not in options:
        return absent
    if not re.fullmatch(rb"[0-9]{1,20}", options[name]) or not least <= int(options[name]) <= most:
        raise Answer(OF_WORDS, USAGE)
    return int(options[name])


def check_words(words, command):
    files, generates = command["files"], command["number"] is not None
    fits = (
        len(files) <= 2
        and all(file and not file.startswith(b"-") for file in files)
        and bool(files) != generates
        and generates == (command["jobs"] is not None)
        and all(is_text(word) for word in words)
    )
    if not fits:
        raise Answer(OF_WORDS, USAGE)


def is_text(word):
    try:
        word.decode()
    except UnicodeDecodeError:
        return False
    return True


def run(command):
    files = command["files"]
    if files:
        source = read_file(files[0], limits.SCRIPT_BYTES, b"script")
    else:
        source = gen_script(command["number"], command["jobs"])
    kernels, statements = loaded(source)
    columns = table_of(files[1]) if len(files) == 2 else {}
    check_columns(statements, columns)
    if command["depth"]:
        check_tests(statements)
    frame = Frame(kernels, statements, columns)
    try:
        frame.run()
    except LimitPassed as limit:
        raise Answer(OF_LIMIT, b"limit: " + limit.what.encode())
    if command["depth"]:
        return 0, depth_text(frame.jobs, command["workers"])
    return TRAPPED if frame.traps else REFUSED if frame.refused else 0, frame.lines


def read_file(name, most, what):
    try:
        with open(name, "rb") as file:
            source = file.read()
    except OSError:
        raise Answer(OF_FILE, b"cannot read " + what)
    if len(source) > most:
        raise Answer(OF_LIMIT, b"limit: " + what + b" size")
    return source


def loaded(source):
    """The kernels of a script, and its statements with repeats written out."""
    try:
        items = parse(tokens_of(source))
        statements = read_script(items)
    except SyntaxFault as fault:
        raise Answer(OF_SCRIPT, b"script refused line %d: syntax" % fault.line)
    except StaticFault as fault:
        raise Answer(OF_SCRIPT, b"script refused line %d: %s" % (fault.line, fault.kind.encode()))
    except TooLong:
        raise Answer(OF_LIMIT, b"limit: statements")
    return [item for item in items if isinstance(item, Kernel)], statements


def table_of(name):
    try:
        return read_table(read_file(name, limits.TABLE_BYTES, b"table"))
    except TableFault as fault:
        raise Answer(OF_TABLE, fault.text)


def check_columns(statements, columns):
    for statement in statements:
        if statement.form == "column" and statement.text.text[1:-1] not in columns:
            raise Answer(OF_TABLE, b"table refused: no column " + statement.text.text[1:-1])


def check_tests(statements):
    """A frame with a `when` has no one depth."""
    for statement in statements:
        if statement.form == "when":
            raise Answer(OF_SCRIPT, b"script refused line %d: limit" % statement.token.line)
