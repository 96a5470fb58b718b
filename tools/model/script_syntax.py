"""Reads files by the grammar.

The text is read from left to right with one token in view, so the token at which reading stops is the first that no
file goes on with.
"""
from kernel_syntax import SIGNS, KernelReader
from reading import without_stack
from trees import Signed, Statement

LIVES = ("temp", "tempjob", "persistent")


def parse(source_tokens):
    """The kernels and statements of a file, in its order."""
    return Parser(source_tokens).file()


class Parser(KernelReader):
    # FILES

    def file(self):
        items = []
        while self.peek() != "End":
            if self.take_if("Line"):
                continue
            items.append(self.kernel() if self.peek() in ("job", "parallel") else without_stack(self.statement()))
            if self.peek() != "End":
                self.take("Line")
        return items

    def lines(self):
        """The lines of a block of statements, between its braces."""
        statements = []
        self.take("{")
        self.take("Line")
        while not self.take_if("}"):
            if self.take_if("Line"):
                continue
            statements.append((yield self.statement()))
            self.take("Line")
        return statements

    # STATEMENTS

    def statement(self):
        token = self.tokens[self.at]
        reader = getattr(self, "read_" + token.kind, None) if token.kind.isalpha() else None
        if reader is None:
            raise self.fault()
        self.at += 1
        read = reader(token)
        return read if isinstance(read, Statement) else (yield read)

    def signed(self):
        first = self.take("-", "Number")
        return Signed(first, first if first.kind == "Number" else self.take("Number"))

    def signed_if(self):
        return self.signed() if self.peek() in ("-", "Number") else None

    def life(self):
        word = self.take_if(*LIVES)
        return word.kind if word else "persistent"

    def read_array(self, token):
        made, length, life = self.take("Name"), self.take("Number"), self.life()
        values = None
        if self.take_if("="):
            values = [self.signed()]
            while self.peek() in ("-", "Number"):
                values.append(self.signed())
        return Statement("array", token, made=made, length=length, life=life, values=values)

    def read_column(self, token):
        return Statement("column", token, made=self.take("Name"), text=self.take("Text"), life=self.life())

    def read_list(self, token):
        return Statement("list", token, made=self.take("Name"), capacity=self.take("Number"), life=self.life())

    def read_map(self, token):
        return Statement("map", token, made=self.take("Name"), capacity=self.take("Number"), life=self.life())

    def read_stream(self, token):
        made, count, room = self.take("Name"), self.take("Number"), self.take("Number")
        return Statement("stream", token, made=made, count=count, room=room, life=self.life())

    def read_reference(self, token):
        made, life = self.take("Name"), self.life()
        return Statement("reference", token, made=made, life=life, value=self.signed() if self.take_if("=") else None)

    def read_slice(self, token):
        made, of, start = self.take("Name"), self.take("Name"), self.take("Number")
        return Statement("slice", token, made=made, of=of, start=start, length=self.take("Number"))

    def read_view(self, token):
        return Statement("view", token, made=self.take("Name"), of=self.take("Name"))

    def read_copy(self, token):
        return Statement("copy", token, made=self.take("Name"), of=self.take("Name"))

    def read_set(self, token):
        name, at = self.take("Name"), self.signed_if()
        self.take("=")
        return Statement("set", token, name=name, at=at, value=self.signed())

    def read_add(self, token):
        return Statement("add", token, name=self.take("Name"), first=self.signed(), second=self.signed_if())

    def read_put(self, token):
        return Statement("put", token, name=self.take("Name"), key=self.signed(), value=self.signed())

    def read_remove(self, token):
        return Statement("remove", token, name=self.take("Name"), at=self.signed())

    def read_clear(self, token):
        return Statement("clear", token, name=self.take("Name"))

    def read_setcapacity(self, token):
        return Statement("setcapacity", token, name=self.take("Name"), capacity=self.take("Number"))

    def read_schedule(self, token):
        auto = self.take_if("auto") is not None
        made, kernel = self.take("Name"), self.take("Name")
        args = self.separated(lambda: self.take_if("Name") or self.signed())
        length = batch = defer = None
        if self.peek() == "Number":
            length, batch = self.take("Number"), self.take("Number")
        elif self.take_if("defer"):
            defer, batch = self.take("Name"), self.take("Number")
        waive = self.take_names() if self.take_if("waive") else []
        after = self.take_names() if self.take_if("after") else []
        return Statement("schedule", token, auto=auto, made=made, kernel=kernel, args=args, length=length, batch=batch,
                         defer=defer, waive=waive, after=after)

    def read_combine(self, token):
        made, of = self.take("Name"), []
        while self.peek() == "Name":
            of.append(self.take("Name"))
        return Statement("combine", token, made=made, of=of)

    def read_complete(self, token):
        form = "complete_auto" if self.take_if("auto") else "complete"
        return Statement(form, token, name=self.take("Name"))

    def read_dispose(self, token):
        if self.take_if("auto"):
            name, _ = self.take("Name"), self.take("as")
            return Statement("dispose_auto", token, name=name, made=self.take("Name"))
        name, after, made = self.take("Name"), [], None
        if self.take_if("after"):
            after, _, made = self.take_names(), self.take("as"), self.take("Name")
        return Statement("dispose", token, name=name, after=after, made=made)

    def read_print(self, token):
        return Statement("print", token, name=self.take("Name"))

    def read_flush(self, token):
        return Statement("flush", token)

    def read_frame(self, token):
        return Statement("frame", token)

    def read_repeat(self, token):
        count = self.take("Number")
        return Statement("repeat", token, count=count, body=(yield self.lines()))

    def read_when(self, token):
        name, sign, bound = self.take("Name"), self.take(*SIGNS), self.signed()
        return Statement("when", token, name=name, sign=sign.kind, bound=bound, body=(yield self.lines()))
