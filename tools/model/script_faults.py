"""The static faults of statements, and the statements with repeats written out."""
import limits
from faults import KIND_MISMATCH, LIMIT, UNKNOWN_NAME, Faults
from kernel_faults import check_kernel, check_length
from reading import without_stack
from tokens import value_of
from trees import Kernel

PARTS = ("array", "slice", "view")
CONTAINERS = ("array", "list", "reference", "map", "stream")
NAMED = CONTAINERS + ("slice", "view")
PARAM_TAKES = {"array": PARTS, "list": ("list",), "ref": ("reference",), "map": ("map",), "stream": ("stream",)}

# Which kinds a statement takes at its one name, where that doesn't depend on more.
TAKES = {
    "put": ("map",), "remove": ("list", "map"), "clear": ("list", "map", "stream"), "setcapacity": ("list",),
    "complete": ("handle",), "complete_auto": NAMED, "dispose": CONTAINERS, "dispose_auto": CONTAINERS, "print": NAMED,
    "when": ("reference",),
}
# The kind of the name that a statement makes.
MAKES = {form: form for form in CONTAINERS + ("slice", "view")} | {
    "column": "array", "schedule": "handle", "combine": "handle", "dispose": "handle", "dispose_auto": "handle",
}
# The Numbers of a statement and their limits. The least is 0, but for a batch and a count of repeats.
NUMBERS = {
    "array": {"length": limits.PLACES}, "list": {"capacity": limits.PLACES}, "map": {"capacity": limits.MAP_CAPACITY},
    "stream": {"count": limits.STREAM_INDEXES, "room": limits.STREAM_ROOM},
    "slice": {"start": limits.PLACES, "length": limits.PLACES}, "setcapacity": {"capacity": limits.PLACES},
    "schedule": {"length": limits.PLACES, "batch": limits.BATCH}, "repeat": {"count": limits.REPEATS},
}
SIGNED = ("value", "at", "first", "second", "key", "bound")


class TooLong(Exception):
    """The statements with repeats written out are too many."""


def read_script(items):
    """Checks a file's items in their order; gives its statements with repeats written out."""
    check = ScriptCheck()
    for item in items:
        if isinstance(item, Kernel):
            check.kernel(item)
        else:
            without_stack(check.statement(item, ()))
    statements = [item for item in items if not isinstance(item, Kernel)]
    if written(statements, 1) > limits.STATEMENTS or written(statements, 0) > limits.WHENS:
        raise TooLong
    return list(write_out(statements))


def written(statements, other):
    """How many statements these are with repeats written out, where one that is no `when` counts as `other`."""
    count = 0
    for statement in statements:
        if statement.form == "repeat":
            count += value_of(statement.count) * written(statement.body, other)
        elif statement.form == "when":
            count += 1 + written(statement.body, other)
        else:
            count += other
    return count


def write_out(statements):
    for statement in statements:
        if statement.form == "repeat":
            copy = list(write_out(statement.body))
            for _ in range(value_of(statement.count) if copy else 0):
                yield from copy
        else:
            yield statement
            if statement.form == "when":
                block = list(write_out(statement.body))
                statement.passes = len(block)
                yield from block


class ScriptCheck:
    def __init__(self):
        self.kernels = {}
        self.kinds = {}
        self.faults = Faults()

    def kernel(self, kernel):
        check_kernel(kernel, list(self.kernels.values()), self.faults)
        self.faults.raise_first()
        self.kernels[kernel.name.text] = kernel

    def statement(self, statement, outer):
        """Checks a statement inside blocks of these forms."""
        if statement.form in ("repeat", "when"):
            self.check_block(statement, outer)
        getattr(self, "check_" + statement.form, self.check_plain)(statement)
        self.check_numbers(statement)
        made = getattr(statement, "made", None)
        if made:
            self.check_made(made, self.made_kind(statement))
        self.faults.raise_first()
        if made:
            self.kinds[made.text] = self.made_kind(statement)
        for inner in getattr(statement, "body", ()):
            yield self.statement(inner, outer + (statement.form,))

    # WHAT MOST STATEMENTS SHARE

    def check_block(self, statement, outer):
        nested = statement.form == "when" and "when" in outer
        self.faults.add_if(len(outer) >= limits.OPEN_BLOCKS or nested, statement.token, LIMIT)

    def check_numbers(self, statement):
        for part, most in NUMBERS.get(statement.form, {}).items():
            number = getattr(statement, part)
            if number:
                least = 1 if part == "batch" or statement.form == "repeat" else 0
                self.faults.add_if(not least <= value_of(number) <= most, number, LIMIT)
        for part in SIGNED:
            signed = getattr(statement, part, None)
            if signed:
                self.check_signed(signed)

    def check_signed(self, signed):
        self.faults.add_if(not limits.LEAST <= signed.value <= limits.MOST, signed.token, LIMIT)

    def made_kind(self, statement):
        return self.kinds.get(statement.of.text) if statement.form == "copy" else MAKES[statement.form]

    def check_made(self, made, kind):
        """A name that is made again has the same kind. A copy of an unknown name has its fault there, and no kind."""
        check_length(made, self.faults)
        known = self.kinds.get(made.text)
        self.faults.add_if(kind is not None and known not in (None, kind), made, KIND_MISMATCH)

    def check_used(self, name, kinds):
        kind = self.kinds.get(name.text)
        if kind is None:
            self.faults.add(name, UNKNOWN_NAME)
        else:
            self.faults.add_if(kind not in kinds, name, KIND_MISMATCH)

    # EACH FORM

    def check_plain(self, statement):
        if statement.form in TAKES:
            self.check_used(statement.name, TAKES[statement.form])

    def check_array(self, statement):
        if statement.values is not None:
            differs = len(statement.values) != value_of(statement.length)
            self.faults.add_if(differs, statement.length, KIND_MISMATCH)
            for value in statement.values:
                self.check_signed(value)

    def check_column(self, statement):
        self.faults.add_if(len(statement.text.text) - 2 > limits.COLUMN_BYTES, statement.text, LIMIT)

    def check_slice(self, statement):
        self.check_used(statement.of, ("array", "slice"))

    def check_view(self, statement):
        self.check_used(statement.of, ("list",))

    def check_copy(self, statement):
        self.check_used(statement.of, NAMED)

    def check_set(self, statement):
        self.check_used(statement.name, PARTS + ("list",) if statement.at else ("reference",))

    def check_add(self, statement):
        self.check_used(statement.name, ("map",) if statement.second else ("list",))

    def check_combine(self, statement):
        for name in statement.of:
            self.check_used(name, ("handle",))

    def check_dispose(self, statement):
        self.check_plain(statement)
        for name in statement.after:
            self.check_used(name, ("handle",))

    # SCHEDULES

    def check_schedule(self, statement):
        kernel = self.kernels.get(statement.kernel.text)
        if kernel is None:
            self.faults.add(statement.kernel, UNKNOWN_NAME)
            return
        self.check_kernel_name(statement, kernel)
        for param, arg in zip(kernel.params, statement.args):
            self.check_arg(param, arg, statement.defer)
        if statement.defer:
            self.check_used(statement.defer, ("list",))
        for name in statement.waive:
            self.check_waived(name, kernel)
        for name in statement.after:
            self.check_used(name, ("handle",))

    def check_kernel_name(self, statement, kernel):
        has_length = bool(statement.length or statement.defer)
        fits = len(statement.args) == len(kernel.params) and has_length == kernel.parallel
        self.faults.add_if(not fits, statement.kernel, KIND_MISMATCH)
        if statement.defer:
            too_large = (
                len(kernel.params) + limits.GUARD_PARAMS > limits.PARAMS
                or kernel.node_count + limits.GUARD_NODES > limits.NODES
                or kernel.depth + limits.GUARD_DEPTH > limits.DEPTH
            )
            self.faults.add_if(too_large, statement.kernel, LIMIT)

    def check_arg(self, param, arg, defer):
        if param.kind == "int":
            self.check_int(arg)
        elif not hasattr(arg, "text"):
            self.faults.add(arg.token, KIND_MISMATCH)
        elif not (param.kind == "array" and defer and arg.text == defer.text and arg.text in self.kinds):
            self.check_used(arg, PARAM_TAKES[param.kind])

    def check_int(self, arg):
        if hasattr(arg, "text"):
            self.check_used(arg, ())
        else:
            self.check_signed(arg)

    def check_waived(self, name, kernel):
        param = next((param for param in kernel.params if param.name.text == name.text), None)
        if param is None:
            self.faults.add(name, UNKNOWN_NAME)
        else:
            waivable = kernel.parallel and param.kind == "array" and param.access != "ro"
            self.faults.add_if(not waivable, name, KIND_MISMATCH)
