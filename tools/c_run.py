"""Evaluates a text by docs/LANGUAGE.md, and tells more of a blame than `secomp meaning` does. It is a second
evaluation, written for the tools; a test compares it with the program's. Nothing here is proved."""
import sys
import threading

from c_expressions import Node
from c_memory import NULL, Blame, Block, Zones, free, load, moved, store
from c_types import decayed, is_null, is_pointer, whole
from c_words import before, between, is_true, of_pointers, signed
from command import Refused

DEEPEST, STACK = 120_000, 512 * 2 ** 20


class Stop(Exception):
    """The run goes no further."""


class Leave(Exception):
    """A statement leads elsewhere: break, continue or return, with its value."""

    def __init__(self, kind, value=None):
        super().__init__(kind)
        self.kind, self.value = kind, value


class Frame:
    """An open call."""

    def __init__(self, part, function, line):
        self.part, self.function, self.line, self.variables = part, function, line, {}


class Evaluation:
    """A run of a program whose text has no faults."""

    def __init__(self, program, inputs, turns=1_000_000, events=1024):
        self.program, self.inputs, self.turns, self.left = program, list(inputs), turns, events
        self.events, self.frames, self.zones, self.globals, self.taken = [], [], Zones(), {}, 0
        self.stop, self.blame, self.blamed_line, self.inner = "", None, 0, []
        for part in program.parts:
            self.globals[part.name] = {node.name: self.begin_global(part, node) for node in part.tree.globals}

    # memory

    def cells(self, part, of):
        """How many cells a type takes."""
        if isinstance(of, tuple):
            return self.cells(part, of[0]) * of[1]
        if of.startswith("struct ") and not is_pointer(of):
            return sum(self.cells(part, member) for member in part.checker.structs[of[len("struct "):]].values())
        return 1

    def offset(self, part, of, name):
        """Where a member of a struct begins."""
        before_it = 0
        for member, its in part.checker.structs[of[len("struct "):]].items():
            if member == name:
                return before_it
            before_it += self.cells(part, its)
        raise Refused(f"no member {name}")

    def zeros(self, part, of):
        if isinstance(of, tuple):
            return self.zeros(part, of[0]) * of[1]
        if of.startswith("struct ") and not is_pointer(of):
            members = part.checker.structs[of[len("struct "):]].values()
            return [cell for member in members for cell in self.zeros(part, member)]
        return [NULL if is_pointer(of) else 0]

    def begin_global(self, part, node):
        of = part.checker.globals[node.name]
        cells = self.zeros(part, of)
        if node.init and not is_pointer(node.type):
            cells[:len(node.init)] = [value % 2 ** 32 for value in node.init]
        return Block(part.name, node.name, cells, node.line)

    # runs

    def run(self):
        """Evaluates the program, on a stack of its own, as calls may be nested deeply."""
        limit = sys.getrecursionlimit()
        size = threading.stack_size(STACK)
        sys.setrecursionlimit(DEEPEST)
        thread = threading.Thread(target=self.guarded)
        thread.start()
        thread.join()
        threading.stack_size(size)
        sys.setrecursionlimit(limit)
        if self.stop == "deep":
            raise Refused("calls are nested too deeply for this tool")
        return self

    def guarded(self):
        try:
            self.whole()
        except RecursionError:
            self.stop = "deep"

    def whole(self):
        part = next(part for part in self.program.parts if "main" in part.checker.functions)
        try:
            value = self.enter(part, part.checker.functions["main"], [], 0)
            self.events.append(f"end {part.name} {signed(value)}")
            self.stop = "stop ended"
        except Stop:
            pass
        except Blame as blame:
            self.blame = blame
            self.stop = f"stop blamed {self.frames[-1].part.name} {blame.cause} {self.blamed_line}"

    def emit(self, text):
        self.events.append(text)
        self.left -= 1
        if self.left <= 0:
            self.stop = "stop events"
            raise Stop

    def turn(self):
        if self.turns <= 0:
            self.stop = "stop turns"
            raise Stop
        self.turns -= 1

    def enter(self, part, function, values, line):
        """Runs a function with these values."""
        frame = Frame(part, function, line)
        self.frames.append(frame)
        for (name, _, token), value in zip(function.params, values):
            frame.variables[name] = Block(part.name, name, [value], token.line, function.name)
        for local in function.locals:
            of = whole(local.type, local.length)
            frame.variables[local.name] = Block(part.name, local.name, [None] * self.cells(part, of), local.line,
                                                function.name)
        value = self.body(frame, function)
        for block in frame.variables.values():
            block.ended = function.close
        self.frames.pop()
        return value

    def body(self, frame, function):
        for local in function.locals:
            if local.init is not None:
                self.blamed_line = local.line
                value = self.as_type(frame, local.init, local.type)
                store((frame.variables[local.name], 0), value)
        try:
            self.statements(frame, function.body)
        except Leave as leave:
            return leave.value
        if function.result == "void":
            return None
        if function.name == "main":
            return 0
        self.blamed_line = function.close
        raise Blame("NoReturn", f"{function.name} ends without return")

    # statements

    def statements(self, frame, nodes):
        for node in nodes:
            self.blamed_line = node.line
            getattr(self, f"do_{node.kind}")(frame, node)

    def do_empty(self, frame, node):
        pass

    def do_break(self, frame, node):
        raise Leave("break")

    def do_continue(self, frame, node):
        raise Leave("continue")

    def do_return(self, frame, node):
        if node.call:
            raise Leave("return", self.call(frame, node.call, node.line))
        raise Leave("return", None if node.value is None else self.as_type(frame, node.value, frame.function.result))

    def do_if(self, frame, node):
        self.statements(frame, node.then if is_true(self.value(frame, node.cond)) else node.other)

    def do_while(self, frame, node):
        self.rounds(frame, node, node.cond, None)

    def do_for(self, frame, node):
        if node.first:
            self.statements(frame, [node.first])
        self.rounds(frame, node, node.cond, node.next)

    def rounds(self, frame, node, cond, after):
        while True:
            self.blamed_line = node.line
            if cond is not None and not is_true(self.value(frame, cond)):
                return
            self.turn()
            try:
                self.statements(frame, node.body)
            except Leave as leave:
                if leave.kind == "break":
                    return
                if leave.kind == "return":
                    raise
            if after is not None:
                self.statements(frame, [after])

    def do_assign(self, frame, node):
        value = self.as_type(frame, node.value, decayed(node.place.type))
        store(self.place(frame, node.place), value)

    def do_update(self, frame, node):
        if not hasattr(node, "sum"):
            one = Node("literal", node, value=1, unsigned=False, type="int")
            node.sum = Node("binary", node, op=node.op, left=node.place, right=node.value or one, type=None)
        value = self.value(frame, node.sum)
        store(self.place(frame, node.place), value)

    def do_assign_call(self, frame, node):
        value = self.call(frame, node.call, node.line)
        self.blamed_line = node.line
        store(self.place(frame, node.place), value)

    def do_call(self, frame, node):
        self.call(frame, node.call, node.line)

    def do_malloc(self, frame, node):
        count = 1 if node.count is None else self.value(frame, node.count)
        words = count * self.cells(frame.part, node.of)
        made = self.zones.allocate(frame.part.name, words, node.line, frame.function.name)
        store(self.place(frame, node.place), made)

    def do_free(self, frame, node):
        free(NULL if is_null(node.value) else self.value(frame, node.value), node.line)

    # calls

    def call(self, frame, node, line):
        checker, name = frame.part.checker, node.name
        own = checker.functions.get(name)
        head = own or checker.prototypes[name]
        values = [self.as_type(frame, value, of) for value, (_, of, _) in zip(node.args, head.params)]
        if own:
            self.turn()
            return self.enter(frame.part, own, values, line)
        owner = checker.imports[name].names[0]
        if owner == "Env":
            return self.environment(frame.part.name, name, values)
        return self.cross(frame.part, self.program.part(owner), name, values, line)

    def environment(self, comp, name, values):
        if name == "output":
            self.emit(f"out {comp} {signed(values[0])}")
            return None
        value = self.inputs[self.taken] % 2 ** 32 if self.taken < len(self.inputs) else 0
        self.taken += 1
        self.emit(f"in {comp} {signed(value)}")
        return value

    def cross(self, caller, callee, name, values, line):
        self.turn()
        words = "".join(f" {signed(value)}" for value in values)
        self.emit(f"call {caller.name} {callee.name} {name}{words}")
        function = callee.checker.functions[name]
        value = self.enter(callee, function, values, line)
        self.emit(f"ret {callee.name} {caller.name}" + (f" {signed(value)}" if function.result != "void" else ""))
        return value

    # expressions

    def as_type(self, frame, node, of):
        return NULL if is_pointer(of) and is_null(node) else self.value(frame, node)

    def value(self, frame, node):
        """The value of an expression; that of an array is a pointer to its first element."""
        if node.kind == "literal":
            return node.value
        if node.kind == "sizeof":
            return 4 * self.cells(frame.part, node.of) % 2 ** 32
        if node.kind == "binary":
            return self.binary(frame, node)
        if node.kind == "unary" and node.op == "&":
            return self.place(frame, node.of)
        if node.kind == "unary" and node.op != "*":
            return before(node.op, node.of.type == "unsigned", self.value(frame, node.of))
        place = self.place(frame, node)
        return place if isinstance(node.type, tuple) else load(place, is_pointer(node.type))

    def binary(self, frame, node):
        op, left, right = node.op, decayed(node.left.type), decayed(node.right.type)
        first = self.as_type(frame, node.left, right) if op in ("==", "!=") else self.value(frame, node.left)
        if op in ("&&", "||") and is_true(first) == (op == "||"):
            return int(op == "||")
        second = self.as_type(frame, node.right, left) if op in ("==", "!=") else self.value(frame, node.right)
        if op in ("&&", "||"):
            return int(is_true(second))
        if is_pointer(left) and (is_pointer(right) or second is NULL) or first is NULL and is_pointer(right):
            return of_pointers(op, self.cells(frame.part, (left if is_pointer(left) else right)[:-1]), first, second)
        if is_pointer(left):
            return self.stepped(frame, left, first, second, right, -1 if op == "-" else 1)
        if is_pointer(right):
            return self.stepped(frame, right, second, first, left, 1)
        is_unsigned = left == "unsigned" if op in ("<<", ">>") else "unsigned" in (left, right)
        return between(op, is_unsigned, first, second)

    def stepped(self, frame, of, place, by, index_type, sign):
        """The place some elements after a pointer of this type."""
        count = by if index_type == "unsigned" else signed(by)
        return moved(place, sign * count * self.cells(frame.part, of[:-1]))

    def place(self, frame, node):
        if node.kind == "variable":
            block = frame.variables.get(node.name) or self.globals[frame.part.name][node.name]
            return block, 0
        if node.kind == "index":
            return self.index(frame, node)
        if node.kind == "member":
            return moved(self.place(frame, node.base), self.offset(frame.part, node.base.type, node.name))
        if node.kind == "arrow":
            return moved(self.value(frame, node.base), self.offset(frame.part, decayed(node.base.type)[:-1], node.name))
        return self.value(frame, node.of)

    def index(self, frame, node):
        base = self.value(frame, node.base)
        by = self.value(frame, node.index)
        of = node.base.type
        place = self.stepped(frame, decayed(of), base, by, node.index.type, 1)
        if isinstance(of, tuple) and node.base.kind in ("member", "arrow"):
            count = by if node.index.type == "unsigned" else signed(by)
            if not 0 <= count < of[1]:
                self.inner.append((len(self.events), frame.part, node.line, node.base.name, count, of[1], place[0]))
        return place
