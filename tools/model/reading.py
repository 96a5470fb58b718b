"""Reads tokens one after another, with one in view."""


class SyntaxFault(Exception):
    def __init__(self, line):
        self.line = line


def without_stack(call):
    """Runs a generator that yields the generators which it calls: so deep texts need no deep stack."""
    calls, answer = [call], None
    while calls:
        try:
            called = calls[-1].send(answer)
        except StopIteration as end:
            calls.pop()
            answer = end.value
        else:
            calls.append(called)
            answer = None
    return answer


class TokenReader:
    def __init__(self, source_tokens):
        self.tokens = source_tokens
        self.at = 0
        self.in_kernel = False

    def peek(self):
        while self.in_kernel and self.tokens[self.at].kind == "Line":
            self.at += 1
        return self.tokens[self.at].kind

    def take(self, *kinds):
        if self.peek() not in kinds:
            raise self.fault()
        self.at += 1
        return self.tokens[self.at - 1]

    def take_if(self, *kinds):
        return self.take(*kinds) if self.peek() in kinds else None

    def fault(self):
        return SyntaxFault(self.tokens[self.at].line)

    def take_names(self):
        """At least one name."""
        names = [self.take("Name")]
        while self.peek() == "Name":
            names.append(self.take("Name"))
        return names

    def separated(self, part):
        """Parts between parentheses, with commas."""
        parts = []
        self.take("(")
        if self.peek() != ")":
            parts.append(part())
            while self.take_if(","):
                parts.append(part())
        self.take(")")
        return parts
