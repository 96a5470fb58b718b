"""What a text is read to: kernels and statements whose names aren't looked up yet."""
from dataclasses import dataclass, field

from tokens import Token, value_of


@dataclass
class Node:
    """A statement, an operator or an atom of a kernel: its names, what it computes with, and its blocks."""

    form: str
    token: Token
    names: list = field(default_factory=list)
    nodes: list = field(default_factory=list)
    blocks: list = field(default_factory=list)


@dataclass
class Param:
    name: Token
    access: str
    kind: str
    kind_token: Token
    by: Token = None
    width: Token = None


@dataclass
class Kernel:
    parallel: bool
    name: Token
    params: list
    body: list


class Statement:
    """A statement of the main thread: its form, its first token, and the parts that its form has."""

    def __init__(self, form, token, **parts):
        self.form = form
        self.token = token
        self.__dict__.update(parts)


class Signed:
    def __init__(self, token, number):
        self.token = token
        self.value = -value_of(number) if token.kind == "-" else value_of(number)
