"""The static faults of a kernel: names in scope, what each form takes, and limits."""
import limits
from faults import DUPLICATE_NAME, KIND_MISMATCH, LIMIT, READ_OF_WRITE_ONLY, UNKNOWN_NAME, WRITE_OF_READ_ONLY
from reading import without_stack
from tokens import value_of

# What a name of a form may be, and whether it reads and writes it. Locals and numbers have no access.
DEMANDS = {
    "value": (("local", "loop", "int", "ref"), True, False),
    "assign": (("local", "ref"), False, True),
    "get": (("array", "list", "map"), True, False),
    "set": (("array", "list", "map"), False, True),
    "has": (("map",), True, False),
    "count": (("stream",), True, False),
    "at": (("stream",), True, False),
    "remove": (("list",), False, True),
    "clear": (("list", "map"), False, True),
    "begin": (("stream",), False, True),
    "write": (("stream",), False, True),
}
ADDED_TO_LIST, ADDED_TO_MAP = (("list",), False, True), (("map",), False, True)
EFFECT_ON_MAP = (("map",), True, True)
MEASURED, MEASURED_READING = ("array", "stream"), ("list", "map")


def check_kernel(kernel, earlier, faults):
    """Adds the kernel's faults behind earlier kernels. The kernel then knows its number of nodes and their depth."""
    faults.add_if(any(kernel.name.text == other.name.text for other in earlier), kernel.name, DUPLICATE_NAME)
    faults.add_if(len(earlier) == limits.KERNELS, kernel.name, LIMIT)
    check_length(kernel.name, faults)
    check_params(kernel, faults)
    without_stack(BodyCheck(kernel, faults).block(kernel.body))
    check_nodes(kernel, faults)


def check_length(name, faults):
    faults.add_if(len(name.text) > limits.NAME_BYTES, name, LIMIT)


def check_params(kernel, faults):
    for number, param in enumerate(kernel.params):
        earlier = kernel.params[:number]
        faults.add_if(any(param.name.text == other.name.text for other in earlier), param.name, DUPLICATE_NAME)
        faults.add_if(number == limits.PARAMS, param.name, LIMIT)
        check_length(param.name, faults)
        faults.add_if(param.kind == "stream" and param.access == "rw", param.kind_token, KIND_MISMATCH)
        if param.by:
            faults.add_if(not kernel.parallel or param.access == "ro", param.by, KIND_MISMATCH)
            faults.add_if(not 1 <= value_of(param.width) <= limits.WIDTH, param.width, LIMIT)


def nodes_under(nodes):
    """All nodes of these and under them, each with its depth."""
    waiting = [(node, 1) for node in nodes]
    while waiting:
        node, depth = waiting.pop()
        yield node, depth
        waiting.extend((inner, depth + 1) for inner in node.nodes)
        waiting.extend((inner, depth + 1) for block in node.blocks for inner in block)


def check_nodes(kernel, faults):
    nodes = sorted(((node.token, depth) for node, depth in nodes_under(kernel.body)), key=lambda pair: pair[0].place)
    kernel.node_count = len(nodes)
    kernel.depth = max((depth for _, depth in nodes), default=0)
    for token, depth in nodes:
        faults.add_if(depth > limits.DEPTH, token, LIMIT)
    if len(nodes) > limits.NODES:
        faults.add(nodes[limits.NODES][0], LIMIT)


class BodyCheck:
    """Walks a body in the order of its tokens, with the locals in scope."""

    def __init__(self, kernel, faults):
        self.kernel = kernel
        self.faults = faults
        self.params = {}
        for param in kernel.params:
            self.params.setdefault(param.name.text, param)
        self.locals = {}
        self.declared = 0
        self.begun = []

    def block(self, nodes):
        outer = dict(self.locals)
        for node in nodes:
            yield self.statement(node)
        self.locals = outer

    def statement(self, node):
        for value in node.nodes:
            self.expression(value)
        if node.form == "var":
            self.declare(node.names[0], "local")
        elif node.form == "for":
            outer = dict(self.locals)
            self.declare(node.names[0], "loop")
            yield self.block(node.blocks[0])
            self.locals = outer
        elif node.form == "begin":
            yield self.begin(node)
        else:
            self.names(node)
            for block in node.blocks:
                yield self.block(block)

    def declare(self, name, kind):
        self.declared += 1
        taken = name.text in self.params or name.text in self.locals
        self.faults.add_if(taken, name, DUPLICATE_NAME)
        self.faults.add_if(self.declared == limits.LOCALS + 1, name, LIMIT)
        check_length(name, self.faults)
        self.locals[name.text] = kind

    def begin(self, node):
        name = node.names[0]
        self.demand(name, DEMANDS["begin"])
        self.faults.add_if(name.text in self.begun, name, KIND_MISMATCH)
        self.begun.append(name.text)
        yield self.block(node.blocks[0])
        self.begun.pop()

    def names(self, node):
        """The names of a statement that declares none."""
        if node.form in ("assign", "try_add", "try_remove"):
            self.assigned(node)
        elif node.form == "add":
            self.demand(node.names[0], ADDED_TO_LIST if len(node.nodes) == 1 else ADDED_TO_MAP)
        elif node.names:
            self.demand(node.names[0], DEMANDS[node.form])
        if node.form == "write":
            self.faults.add_if(node.names[0].text not in self.begun, node.names[0], KIND_MISMATCH)

    def assigned(self, node):
        target = node.names[0]
        if self.kind_of(target) in ("int", "loop"):
            self.faults.add(target, WRITE_OF_READ_ONLY)
        elif node.form == "assign":
            self.demand(target, DEMANDS["assign"])
        else:
            self.demand(target, (("local",), False, True))
        if node.form != "assign":
            self.demand(node.names[1], EFFECT_ON_MAP)

    def expression(self, value):
        for node, _ in nodes_under([value]):
            if node.form == "index":
                self.faults.add_if(not self.kernel.parallel, node.token, UNKNOWN_NAME)
            elif node.form == "Number":
                self.faults.add_if(value_of(node.token) > limits.MOST, node.token, LIMIT)
            elif node.form == "len":
                reads = self.kind_of(node.names[0]) in MEASURED_READING
                self.demand(node.names[0], (MEASURED + MEASURED_READING, reads, False))
            elif node.names:
                self.demand(node.names[0], DEMANDS[node.form])

    def kind_of(self, name):
        param = self.params.get(name.text)
        return param.kind if param else self.locals.get(name.text)

    def demand(self, name, demanded):
        kinds, reads, writes = demanded
        kind = self.kind_of(name)
        if kind is None:
            self.faults.add(name, UNKNOWN_NAME)
        elif kind not in kinds:
            self.faults.add(name, KIND_MISMATCH)
        elif name.text in self.params and kind != "int":
            access = self.params[name.text].access
            self.faults.add_if(reads and access == "wo", name, READ_OF_WRITE_ONLY)
            self.faults.add_if(writes and access == "ro", name, WRITE_OF_READ_ONLY)
