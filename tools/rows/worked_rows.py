"""Worked scripts with what they give, as files: those of rows and of examples.

NAME.frame is a script, NAME.csv its table where it has one, and NAME.out what it prints. rows/NAME.status is the exit
status; that of an example is seen in what it prints.
"""
import collections
import os

ROOT = os.path.dirname(os.path.dirname(os.path.dirname(os.path.abspath(__file__))))
PARTS = (".frame", ".out", ".status")

Row = collections.namedtuple("Row", "name script table status output")


def read(path):
    with open(f"{ROOT}/{path}", encoding="utf-8") as file:
        return file.read()


def names_in(folder):
    return sorted(file.removesuffix(".frame") for file in os.listdir(f"{ROOT}/{folder}") if file.endswith(".frame"))


def row_at(path, status):
    table = read(f"{path}.csv") if os.path.exists(f"{ROOT}/{path}.csv") else None
    return Row(path, read(f"{path}.frame"), table, status, read(f"{path}.out"))


def worked_row(name):
    return row_at(f"rows/{name}", int(read(f"rows/{name}.status")))


def worked_rows():
    return map(worked_row, names_in("rows"))


def examples():
    for name in names_in("examples"):
        yield row_at(f"examples/{name}", status_of(read(f"examples/{name}.out")))


def status_of(output):
    """The status of a run that printed this, where it was read and planned."""
    lines = output.split("\n")
    if any(line.startswith("traps ") for line in lines):
        return 5
    return 1 if any(line.startswith("refused ") for line in lines) else 0


def files_of(row):
    """The words of the command that name a row's files."""
    return [f"{ROOT}/{row.name}{part}" for part in (".frame", ".csv") if part == ".frame" or row.table is not None]


def faults():
    """What is wrong with the names of the files in rows."""
    files = set(os.listdir(f"{ROOT}/rows")) - {"tables"}
    names = {name for name, _ in map(os.path.splitext, files)}
    for name in sorted(names):
        yield from (f"rows/{name}{part} is missing" for part in PARTS if name + part not in files)
        files -= {name + part for part in (*PARTS, ".csv")}
    yield from (f"rows/{name} is no part of a row" for name in sorted(files))
