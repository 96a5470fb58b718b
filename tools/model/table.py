"""Tables: records with commas and double quotes, a first one with the names of columns, and whole numbers after it."""
import re

import limits
from tokens import MARK

NUMBER = re.compile(rb" *(-?)([0-9]+) *")
LINE_ENDS = b"\r\n"


class TableFault(Exception):
    def __init__(self, text):
        self.text = text


def read_table(source):
    """The columns by name. The first of two columns with one name counts."""
    records = iter(records_of(source))
    names = next(records, None)
    if names is None:
        raise TableFault(b"table refused: empty")
    columns = [[] for _ in names]
    for row, record in enumerate(records, 2):
        if len(record) != len(names):
            raise TableFault(b"table refused row %d: unequal row" % row)
        numbers = [number_of(entry) for entry in record]
        if None in numbers:
            raise TableFault(b"table refused row %d: not a number" % row)
        for column, number in zip(columns, numbers):
            column.append(number)
    by_name = {}
    for name, column in zip(names, columns):
        by_name.setdefault(name, column)
    return by_name


def number_of(entry):
    found = NUMBER.fullmatch(entry)
    if not found:
        return None
    digits = found[2].lstrip(b"0") or b"0"
    number = int(digits) if len(digits) <= 20 else 10**20
    number = -number if found[1] else number
    return number if limits.LEAST <= number <= limits.MOST else None


def records_of(source):
    """The records of a text. Lines without a byte are none; a carriage return or a line feed ends a line."""
    at = len(MARK) if source.startswith(MARK) else 0
    while at < len(source):
        if source[at] in LINE_ENDS:
            at += 1
            continue
        record, at = record_at(source, at)
        yield record


def record_at(source, at):
    """The record that begins here, and where it has ended."""
    record = []
    while True:
        entry, at = field_at(source, at)
        record.append(entry)
        if at == len(source) or source[at] in LINE_ENDS:
            return record, at
        at += 1


def field_at(source, at):
    """The field that begins here, and the place after it. Quotes count at its beginning alone."""
    entry = bytearray()
    if source[at : at + 1] == b'"':
        at += 1
        while at < len(source):
            if source[at : at + 2] == b'""':
                entry += b'"'
                at += 2
            elif source[at : at + 1] == b'"':
                at += 1
                break
            else:
                entry.append(source[at])
                at += 1
    while at < len(source) and source[at] not in b",\r\n":
        entry.append(source[at])
        at += 1
    return bytes(entry), at
