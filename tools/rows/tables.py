"""The modules of crates/worked_rows: the rows that tests run, as Rattle's constants, in the layout of `rt fmt`."""
from worked_rows import read, worked_row

SOURCES = "crates/worked_rows/src"
MADE = "// Made by tools/rows/write of rows/tables and of the files in rows that it names: change those."
MOST = 100
# a backslash at the end of a line goes on with the next line's first word
GOES_ON = "\\\n" + " " * 12


def tables():
    """The subject of each table, what it shows, and the names of its rows."""
    found = []
    for line in read("rows/tables").split("\n"):
        subject, colon, shows = line.partition(": ")
        if colon and not line.startswith("#"):
            found.append((subject, shows, []))
        elif line and not line.startswith("#"):
            found[-1][2].append(line)
    return found


def modules():
    """The path and the text of each module."""
    for subject, shows, names in tables():
        rows = "".join(row_text(name, worked_row(name)) for name in names)
        head = f"{MADE}\n\nuse crate::Row;\n\n/// {shows}\n"
        yield f"{SOURCES}/{subject}.rt", f"{head}pub const {subject.upper()}: &[Row] = &[\n{rows}];\n"


def row_text(name, row):
    fields = {"name": one_line(name), "script": as_it_reads(row.script), "status": row.status, "output": one_line(row.output)}
    if len(fields["output"]) > MOST - 20:
        fields["output"] = as_it_reads(row.output)
    return "    Row {\n" + "".join(f"        {field}: {value},\n" for field, value in fields.items()) + "    },\n"


def escaped(text):
    return text.replace("\\", "\\\\").replace('"', '\\"')


def one_line(text):
    return '"' + escaped(text).replace("\n", "\\n") + '"'


def as_it_reads(text):
    """A string with the lines of the text, of which long ones are cut."""
    return '"' + "\n".join(cut(escaped(line)) for line in text.split("\n")) + '"'


def cut(line):
    if len(line) <= MOST:
        return line
    at = (line.rfind("; ", 0, MOST) + 1 or line.rindex(" ", 0, MOST)) + 1
    return line[:at] + GOES_ON + cut(line[at:])
