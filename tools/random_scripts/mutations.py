"""Small changes of a script's text: of its bytes, of its tokens, and of what its names and numbers are."""
from tokens import RESERVED, tokens_of

SYMBOLS = b"{ } ( ) [ ] , ; : = == != < <= > >= + - * / % ! && || ..".split()
WORDS = sorted(RESERVED)
NUMBERS = (
    b"0", b"1", b"64", b"65", b"1024", b"1025", b"4096", b"4097", b"65536", b"65537", b"1048576", b"1048577", b"007",
    b"9223372036854775807", b"9223372036854775808", b"18446744073709551616", b"99999999999999999999999",
)
ODD_BYTES = (b"\x00", b"\x7f", b"\x80", b"\xff", b'"', b"#", b"\r", b"\t", b"&", b"|", b".", b"'", b"\n", b" ")
EXCHANGED = (
    (b"ro", b"wo", b"rw"), (b"array", b"list", b"ref", b"map", b"stream", b"int"), (b"job", b"parallel"), (b"0", b"1"),
    (b"try_add", b"remove"), (b"len", b"has", b"count", b"at"), (b"add", b"remove", b"write", b"clear", b"put"),
    (b"slice", b"view", b"copy"), (b"array", b"list", b"map", b"stream", b"reference"), (b"repeat", b"when"),
    (b"complete", b"dispose", b"print"), (b"after", b"waive"), (b"temp", b"tempjob", b"persistent"), (b"if", b"while"),
)
EXCHANGEABLE = frozenset(word for words in EXCHANGED for word in words)


def change_bytes(random, source):
    for _ in range(random.choice((1, 1, 2, 3))):
        at = random.randrange(len(source) + 1)
        other = random.choice(ODD_BYTES) if random.random() < 0.5 else bytes([random.randrange(256)])
        source = source[:at] + random.choice((other, other, b"")) + source[at + random.randrange(2) :]
    return source if random.random() < 0.9 else source[: random.randrange(len(source) + 1)]


def change_tokens(random, source):
    texts = texts_of(source)
    for _ in range(random.choice((1, 1, 1, 2))):
        at = random.randrange(len(texts))
        change = random.choice(("drop", "double", "swap", "replace", "insert"))
        if change == "drop":
            del texts[at : at + 1]
        elif change == "double":
            texts.insert(at, texts[at])
        elif change == "swap":
            texts[at : at + 2] = texts[at : at + 2][::-1]
        else:
            texts[at : at + (change == "replace")] = [random_token(random, texts)]
        texts = texts or [b"\n"]
    return joined(texts)


def texts_of(source):
    return [token.text for token in tokens_of(source)[:-1]] or [b"\n"]


def joined(texts):
    return b" ".join(texts).replace(b" \n ", b"\n")


def random_token(random, texts):
    return random.choice((random.choice(SYMBOLS), random.choice(WORDS), random.choice(texts), random.choice(NUMBERS)))


def change_meaning(random, source):
    """Mostly keeps the grammar: exchanges names, kinds, accesses and numbers, or moves a line."""
    texts = texts_of(source)
    for _ in range(random.choice((1, 1, 2, 3))):
        if random.random() < 0.15:
            texts = texts_of(move_line(random, joined(texts)))
        else:
            places = [at for at, text in enumerate(texts) if text in EXCHANGEABLE]
            at = random.choice(places if places and random.random() < 0.4 else range(len(texts)))
            texts[at] = exchanged(random, texts[at], texts)
    return joined(texts)


def exchanged(random, text, texts):
    if text.isdigit():
        return random.choice(NUMBERS)
    if text[:1].isalpha() and text not in RESERVED:
        names = [name for name in texts if name[:1].isalpha() and name not in RESERVED]
        return random.choice((random.choice(names), random.choice(names), b"unknown", b"n" * random.choice((64, 65))))
    sets = [words for words in EXCHANGED if text in words]
    return random.choice(random.choice(sets)) if sets else text


def move_line(random, source):
    lines = source.split(b"\n")
    line = lines.pop(random.randrange(len(lines)))
    lines.insert(random.randrange(len(lines) + 1), line)
    return b"\n".join(lines)
