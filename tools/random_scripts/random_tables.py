"""Random tables, most of which are accepted."""

NAMES = (b"a", b"b", b"price", b"x y", b" a", b"p" * 256)
NUMBERS = (b"0", b"-0", b"007", b"9223372036854775807", b"-9223372036854775808")
NO_NUMBERS = (b"", b"x", b"+1", b"1.5", b"- 1", b"--1", b"1 2", b"\t1", b"9223372036854775808", b"-9223372036854775809",
              b"\xff", b"1" * 30, b"-", b" ")


def random_table(random):
    """The names of a table's columns, which are among `NAMES`, and its bytes."""
    width = random.choice((1, 1, 2, 2, 3, 4))
    faulty = random.random() < 0.3
    end = random.choice((b"\n", b"\n", b"\r\n", b"\r"))
    names = [random.choice(NAMES) for _ in range(width)]
    records = [[quoted(random, name) for name in names]]
    for _ in range(random.choice((0, 1, 2, 3, 5, 9))):
        count = width + (random.choice((-1, 1)) if faulty and random.random() < 0.1 else 0)
        records.append([entry(random, faulty) for _ in range(count)])
    lines = [b",".join(record) for record in records]
    if random.random() < 0.2:
        lines.insert(random.randrange(len(lines) + 1), random.choice((b"", b"", b" ", b'""', b'"')))
    table = end.join(lines) + random.choice((end, end, b""))
    if random.random() < 0.05:
        table = b""
    return names, (b"\xef\xbb\xbf" if random.random() < 0.1 else b"") + table


def entry(random, faulty):
    if faulty and random.random() < 0.1:
        return quoted(random, random.choice(NO_NUMBERS))
    if random.random() < 0.1:
        return quoted(random, random.choice(NUMBERS))
    spaces = [b" " * random.choice((0, 0, 0, 1, 2)) for _ in range(2)]
    return quoted(random, spaces[0] + str(random.randrange(-100, 100)).encode() + spaces[1])


def quoted(random, text):
    """The field, sometimes between quotes, and rarely with a quote too many."""
    if random.random() < 0.03:
        return random.choice((text + b'"', b'"' + text, b'"' + text + b'"x', b'"' + text + b'""'))
    return b'"' + text + b'"' if random.random() < 0.15 else text
