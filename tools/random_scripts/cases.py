"""What each seed tests: a script with its table, or words of the command."""
import random as chances

from limit_scripts import limit_script
from mutations import change_bytes, change_meaning, change_tokens
from random_frames import RandomFrame
from random_tables import NAMES, random_table
from sums import sum_script
from tiny_scripts import TinyScript

# Of a thousand cases.
SHARES = {
    "frame": 480, "sums": 40, "tiny": 130, "bold": 60, "meaning": 70, "tokens": 70, "bytes": 40, "table": 70,
    "limit": 20, "words": 18, "generated": 2,
}
WORDS = (
    b"--workers", b"--depth", b"--gen", b"--jobs", b"1", b"2", b"64", b"65", b"0", b"", b"-", b"--", b"-1", b"+1",
    b"1 ", b"x", b"007", b"4000", b"4001", b"2147483647", b"2147483648", b"1" * 20, b"0" * 20 + b"1", b"0" * 19 + b"1",
    b"\xff", b"--help", b"--workers=4", b"--workers=", b"--workers=65", b"--workers=0x1", b"--depth=", b"--gen=1",
    b"--gen=", b"--jobs=1", b"--jobs=", b"--gen=2147483648", b"--jobs=0", b"--jobs=4001", b"--workers==1",
    b"-workers", b"--worker", b"missing", b".",
)


class Case:
    """Where `words` is None the script is run at several numbers of workers, also with its depth report.

    A smaller case is part of one that differs.
    """

    def __init__(self, kind, script=b"", table=None, words=None, is_smaller=False):
        self.kind = kind
        self.script = script
        self.table = table
        self.words = words
        self.is_smaller = is_smaller


def case_of(seed, only=None):
    """The case of a seed, of one kind alone where one is named."""
    random = chances.Random(seed)
    kind = only or random.choices(list(SHARES), list(SHARES.values()))[0]
    if kind == "words":
        return Case(kind, words=random_words(random))
    if kind == "generated":
        return Case(kind, words=[b"--gen", b"%d" % random.randrange(2**31), b"--jobs", b"%d" % random.randrange(1, 20)])
    if kind == "limit":
        return Case(kind, limit_script(random).encode())
    if kind == "sums":
        return Case(kind, sum_script(random).encode())
    if kind == "tiny":
        return Case(kind, TinyScript(random).script().encode())
    columns, table = (), None
    if kind == "table" or random.random() < 0.1:
        names, table = random_table(random)
        columns = [name.decode() for name in (names if random.random() < 0.9 else NAMES)]
        table = table if random.random() < 0.95 else None
    script = RandomFrame(random, columns, kind == "bold").script().encode()
    change = {"meaning": change_meaning, "tokens": change_tokens, "bytes": change_bytes}.get(kind)
    return Case(kind, change(random, script) if change else dressed(random, script), table)


def dressed(random, script):
    """The script, sometimes with what stands between tokens and means nothing."""
    if random.random() < 0.8:
        return script
    mark = random.choice((b"", b"\xef\xbb\xbf"))
    end = random.choice((b"\n", b"\r\n", b" \t\r \n", b"# \xff\x00 job f() {\n"))
    return mark + script.replace(b"\n", end)


def random_words(random):
    """Mostly a few words, among them `SCRIPT` and `TABLE`, for which files are put."""
    words = [random.choice(WORDS) for _ in range(random.choice((0, 0, 1, 1, 2, 3)))]
    for name in (b"SCRIPT", b"TABLE"):
        if random.random() < 0.6:
            words.insert(random.randrange(len(words) + 1), name)
    if random.random() < 0.2:
        words = [b"--gen", b"1", b"--jobs", b"1", *words]
    return words
