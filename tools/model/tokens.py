"""The tokens of a script, from left to right, the longest first."""
import re
from typing import NamedTuple

MARK = b"\xef\xbb\xbf"
RESERVED = frozenset(
    b"job parallel ro wo rw int array list ref map stream var if else for in while begin write add remove clear try_add"
    b" len has count at index by column reference slice view copy set put setcapacity schedule waive after combine"
    b" complete dispose as print flush repeat when auto defer frame temp tempjob persistent".split()
)
PATTERN = re.compile(
    rb"(?P<blank>[ \t\r]+|#[^\n]*)|(?P<Line>\n)|(?P<Name>[A-Za-z_][A-Za-z0-9_]*)|(?P<Number>[0-9]+)"
    rb'|(?P<Text>"[ !#-~]+")'
    rb"|(?P<symbol>[=!<>]=|&&|\|\||\.\.|[{}()\[\],;:=<>+*/%!-])|(?P<Bad>.)",
    re.DOTALL,
)


class Token(NamedTuple):
    """Its kind is Name, Number, Text, Line, End or Bad, or is the reserved word or symbol itself."""

    kind: str
    text: bytes
    line: int
    place: int


def tokens_of(source):
    tokens, line = [], 1
    for found in PATTERN.finditer(source, len(MARK) if source.startswith(MARK) else 0):
        kind, text = found.lastgroup, found.group()
        if kind == "blank":
            continue
        if kind == "symbol" or kind == "Name" and text in RESERVED:
            kind = text.decode()
        tokens.append(Token(kind, text, line, len(tokens)))
        if kind == "Line":
            line += 1
    tokens.append(Token("End", b"", line, len(tokens)))
    return tokens


def value_of(number):
    """The value of a Number. One of more than 20 digits passes every limit, whatever it is."""
    digits = number.text.lstrip(b"0")
    return int(digits or b"0") if len(digits) <= 20 else 10**20
