"""The faults of a file's names, kinds and numbers: the first token that has one decides, and there the first kind."""

UNKNOWN_NAME, DUPLICATE_NAME, KIND_MISMATCH, READ_OF_WRITE_ONLY, WRITE_OF_READ_ONLY, LIMIT = range(2, 8)
TEXTS = {
    UNKNOWN_NAME: "unknown name",
    DUPLICATE_NAME: "duplicate name",
    KIND_MISMATCH: "kind mismatch",
    READ_OF_WRITE_ONLY: "read of write-only",
    WRITE_OF_READ_ONLY: "write of read-only",
    LIMIT: "limit",
}


class StaticFault(Exception):
    def __init__(self, line, kind):
        self.line = line
        self.kind = TEXTS[kind]


class Faults:
    """The faults of one kernel or of one statement."""

    def __init__(self):
        self.found = []

    def add(self, token, kind):
        self.found.append((token.place, kind, token.line))

    def add_if(self, holds, token, kind):
        if holds:
            self.add(token, kind)

    def raise_first(self):
        if self.found:
            _, kind, line = min(self.found)
            raise StaticFault(line, kind)
