"""Reads kernels by the grammar. Line ends mean nothing in them."""
from reading import TokenReader, without_stack
from trees import Kernel, Node, Param

CONTAINERS = ("array", "list", "ref", "map", "stream")
SIGNS = ("==", "!=", "<", "<=", ">", ">=")
LEVELS = {"||": 1, "&&": 2, **dict.fromkeys(SIGNS, 3), "+": 4, "-": 4, "*": 5, "/": 5, "%": 5}
COMPARISON = 3
TIGHTEST = 6


class KernelReader(TokenReader):
    # KERNELS

    def kernel(self):
        self.in_kernel = True
        word, name = self.take("job", "parallel"), self.take("Name")
        params = self.separated(self.param)
        kernel = Kernel(word.kind == "parallel", name, params, without_stack(self.block()))
        self.in_kernel = False
        return kernel

    def param(self):
        name, _ = self.take("Name"), self.take(":")
        word = self.take("int", "ro", "wo", "rw")
        if word.kind == "int":
            return Param(name, "ro", "int", word)
        kind = self.take(*CONTAINERS)
        param = Param(name, word.kind, kind.kind, kind)
        if kind.kind == "array" and self.peek() == "by":
            param.by, param.width = self.take("by"), self.take("Number")
        return param

    def block(self):
        nodes = []
        self.take("{")
        while not self.take_if("}"):
            nodes.append((yield self.node()))
        return nodes

    def node(self):
        token = self.take("var", "Name", "add", "remove", "clear", "write", "begin", "if", "for", "while")
        if token.kind in ("begin", "if", "for", "while"):
            return (yield getattr(self, "node_" + token.kind)(token))
        if token.kind == "var":
            name, _ = self.take("Name"), self.take("=")
            node = Node("var", token, [name], [(yield self.expression())])
        elif token.kind == "Name":
            node = yield self.assignment(token)
        elif token.kind == "clear":
            self.take("(")
            node = Node("clear", token, [self.take("Name")])
            self.take(")")
        else:
            most = 2 if token.kind == "add" else 1
            node = yield self.call(Node(token.kind, token), 1, most)
        self.take(";")
        return node

    def call(self, node, least, most):
        """`(`, a name, so many values at least and at most, `)`."""
        self.take("(")
        node.names.append(self.take("Name"))
        while len(node.nodes) < least or len(node.nodes) < most and self.peek() == ",":
            self.take(",")
            node.nodes.append((yield self.expression()))
        self.take(")")
        return node

    def assignment(self, name):
        if self.take_if("["):
            place = yield self.expression()
            self.take("]")
            self.take("=")
            return Node("set", name, [name], [place, (yield self.expression())])
        self.take("=")
        effect = self.take_if("try_add", "remove")
        if effect is None:
            return Node("assign", name, [name], [(yield self.expression())])
        form, values = ("try_add", 2) if effect.kind == "try_add" else ("try_remove", 1)
        return (yield self.call(Node(form, name, [name]), values, values))

    def node_begin(self, token):
        name, _ = self.take("Name"), self.take("[")
        place = yield self.expression()
        self.take("]")
        return Node("begin", token, [name], [place], [(yield self.block())])

    def node_if(self, token):
        node = Node("if", token, [], [(yield self.expression())], [(yield self.block())])
        if self.take_if("else"):
            node.blocks.append((yield self.block()))
        return node

    def node_for(self, token):
        name, _ = self.take("Name"), self.take("in")
        first = yield self.expression()
        self.take("..")
        return Node("for", token, [name], [first, (yield self.expression())], [(yield self.block())])

    def node_while(self, token):
        return Node("while", token, [], [(yield self.expression())], [(yield self.block())])

    # VALUES

    def expression(self, least=1):
        """A value whose operators outside of parentheses bind at least so tightly. A comparison takes no third side."""
        left, most = (yield self.operand()), TIGHTEST
        while least <= LEVELS.get(self.peek(), 0) <= most:
            operator = self.take(self.peek())
            level = LEVELS[operator.kind]
            left = Node(operator.kind, operator, [], [left, (yield self.expression(level + 1))])
            most = level - 1 if level == COMPARISON else level
        return left

    def operand(self):
        token = self.take("-", "!", "Number", "index", "Name", "(", "len", "has", "count", "at")
        if token.kind in ("-", "!"):
            return Node("negate" if token.kind == "-" else "!", token, [], [(yield self.operand())])
        if token.kind == "(":
            inner = yield self.expression()
            self.take(")")
            return inner
        if token.kind in ("Number", "index"):
            return Node(token.kind, token)
        if token.kind == "Name":
            if not self.take_if("["):
                return Node("value", token, [token])
            place = yield self.expression()
            self.take("]")
            return Node("get", token, [token], [place])
        values = {"len": 0, "has": 1, "count": 1, "at": 2}[token.kind]
        return (yield self.call(Node(token.kind, token), values, values))
