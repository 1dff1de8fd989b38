"""switch and goto.

A switch whose cases stand in its own block is a choice of a number and a loop of one round: `if (k <= 2) { .. }` are
its parts in order, so that control falls from one into the next. A function with a goto, or with a case inside another
statement, is taken apart into blocks, and a loop performs the block of a state until the function returns.
"""
from pycparser import c_ast

from .common import Refused
from .ctypes import promoted
from .statements import Target
from .values import number

JUMPS = (c_ast.Goto, c_ast.Label)
LOOPS = (c_ast.While, c_ast.DoWhile, c_ast.For)
CASES = (c_ast.Case, c_ast.Default)


def children(node):
    return [it for _, it in node.children()]


def cases_of(node):
    """The cases that belong to this switch, wherever they stand."""
    found = []
    for it in children(node):
        if isinstance(it, CASES):
            found.append(it)
        if not isinstance(it, c_ast.Switch):
            found += cases_of(it)
    return found


def within(node, kinds, but=()):
    return any(isinstance(it, kinds) or not isinstance(it, but) and within(it, kinds, but) for it in children(node))


class Jumps:
    """A part of the translator of a function's body."""

    def parts_of(self, node):
        """The cases of a switch, each with its statements, in order: `case 1: case 2: f();` is one part of two
        labels. None where a case stands inside another statement."""
        block = node.stmt.block_items or [] if isinstance(node.stmt, c_ast.Compound) else [node.stmt]
        parts, labels = [], 0
        for it in block:
            fresh = True
            while isinstance(it, CASES):
                if fresh:
                    parts.append(([], []))
                parts[-1][0].append(it)
                labels += 1
                rest = list(it.stmts or [])
                inner = [at for at, under in enumerate(rest) if isinstance(under, CASES)]
                if inner and inner[0] == 0 and len(rest) == 1:
                    it, fresh = rest[0], False
                    continue
                for under in rest:
                    if isinstance(under, CASES):
                        parts.append(([], []))
                        self.unfold(under, parts)
                        labels += len(parts[-1][0])
                    else:
                        parts[-1][1].append(under)
                it = None
            if it is not None:
                if not parts:
                    if isinstance(it, (c_ast.Decl, c_ast.DeclList)):
                        parts.append(([], [it]))
                    continue
                parts[-1][1].append(it)
        return parts if labels == len(cases_of(node)) else None

    def unfold(self, node, parts):
        while isinstance(node, CASES):
            parts[-1][0].append(node)
            rest = list(node.stmts or [])
            node = rest[0] if len(rest) == 1 and isinstance(rest[0], CASES) else None
            if node is None:
                parts[-1][1].extend(rest)

    def chooser(self, node, value, parts, chosen):
        """Statements that put the number of the part that control enters into `chosen`."""
        self.emit(f"{chosen.text} = {len(parts)};")
        kind = promoted(value.type)
        tests, default = [], None
        for at, (labels, _) in enumerate(parts):
            for label in labels:
                if isinstance(label, c_ast.Default):
                    default = at
                else:
                    const = self.word(label.expr)
                    if const.const is None:
                        raise Refused(label.coord, "a case that is no constant")
                    tests.append((self.operate("==", value, self.convert(const, kind, label.coord), label.coord), at))
        if default is not None:
            self.lines[-1] = self.line(f"{chosen.text} = {default};")
        last = None
        for test, at in tests:
            if at == default:
                continue
            if last is not None and last[1] == at:
                self.lines[-1] = ("if", f"{self.lines[-1][1]} || {test.text}", *self.lines[-1][2:])
            else:
                self.lines.append(("if", test.text, [self.line(f"{chosen.text} = {at};")], [], self.coord))
            last = test, at

    def do_Switch(self, node):
        parts = self.parts_of(node)
        if parts is None:
            raise Refused(node.coord, "a case inside another statement")
        value = self.word(node.cond)
        if value.const is not None:
            value = self.save(value)
        value = self.save(value) if not value.is_stable() else value
        chosen = self.temporary("int")
        self.chooser(node, value, parts, chosen)
        again = self.temporary("int") if within(node, c_ast.Continue, LOOPS) else None
        target = Target(False, again)
        if again:
            self.emit(f"{again.text} = 0;")
        self.targets.append(target)
        self.open_scope()
        with self.captured() as inside:
            for at, (labels, statements) in enumerate(parts):
                with self.captured() as lines:
                    for it in statements:
                        self.run(it)
                if lines:
                    coord = labels[0].coord if labels else self.coord
                    inside.append(("if", f"{chosen.text} <= {at}", lines, [], coord))
        self.close_scope()
        self.targets.pop()
        self.lines.append(("loop", "while (1)", [*inside, self.line("break;")], self.coord))
        if target.continued:
            with self.captured() as lines:
                self.continue_from(len(self.targets) - 1)
            self.lines.append(("if", again.text, lines, [], self.coord))

    # Functions with jumps of other kinds

    def needs_machine(self, body):
        if within(body, JUMPS):
            return True
        return self.has_inner_cases(body)

    def has_inner_cases(self, node):
        for it in children(node):
            if isinstance(it, c_ast.Switch) and self.parts_of(it) is None or self.has_inner_cases(it):
                return True
        return False

    def has_labels(self, node):
        return within(node, c_ast.Label) or within(node, CASES, c_ast.Switch)

    def is_irregular(self, node):
        """Whether control goes into or out of a statement otherwise than at its ends, or by a return."""
        if isinstance(node, (*JUMPS, *CASES, c_ast.Break, c_ast.Continue)):
            return True
        if within(node, JUMPS) or self.has_inner_cases(node) or isinstance(node, c_ast.Switch) and \
                self.parts_of(node) is None:
            return True
        if isinstance(node, LOOPS):
            return within(node, CASES, c_ast.Switch)
        if isinstance(node, c_ast.Switch):
            return within(node, c_ast.Continue, LOOPS)
        return self.escapes(node)

    def escapes(self, node):
        """Whether a break or a continue of an outer statement, or a case of an outer switch, stands inside."""
        return within(node, c_ast.Break, (*LOOPS, c_ast.Switch)) or within(node, c_ast.Continue, LOOPS) or \
            within(node, CASES, c_ast.Switch)

    def perform_machine(self, body):
        self.machine = Machine(self)
        self.machine.flat(body)
        self.machine.finish()


class Machine:
    """The blocks of a function, and which one is being written."""

    def __init__(self, body):
        self.body = body
        self.state = body.names.take("state")
        body.locals.append(("int", self.state, None))
        self.blocks, self.labels, self.targets = [[]], {}, []
        body.lines = self.blocks[0]

    def block(self):
        self.blocks.append([])
        return len(self.blocks) - 1

    def go(self, block, coord=None):
        self.body.lines.append(("line", f"{self.state} = {block};", coord or self.body.coord))

    def enter(self, block):
        self.body.lines = self.blocks[block]

    def label(self, name):
        return self.labels.setdefault(name, self.block() if name not in self.labels else None)

    def branch(self, condition, yes, no):
        body = self.body
        if condition.const is not None:
            self.go(yes if condition.const else no)
        else:
            body.lines.append(("if", condition.text, [body.line(f"{self.state} = {yes};")],
                               [body.line(f"{self.state} = {no};")], body.coord))

    def flat(self, node):
        """Writes a statement into the blocks. What is regular stays as it is."""
        if node is None:
            return
        body = self.body
        if not body.is_irregular(node):
            machine, body.machine = body.machine, None
            body.perform(node)
            body.machine = machine
            return
        before, body.coord = body.coord, node.coord or body.coord
        getattr(self, "flat_" + type(node).__name__, self.refuse)(node)
        body.coord = before

    def refuse(self, node):
        raise Refused(node.coord, f"a jump out of {type(node).__name__}")

    def flat_Compound(self, node):
        self.body.open_scope()
        for it in node.block_items or ():
            self.flat(it)
        self.body.close_scope()

    def flat_Label(self, node):
        block = self.label(node.name)
        self.go(block)
        self.enter(block)
        self.flat(node.stmt)

    def flat_Goto(self, node):
        self.go(self.label(node.name))
        self.enter(self.block())

    def flat_Case(self, node):
        block = self.cases[id(node)]
        self.go(block)
        self.enter(block)
        for it in node.stmts or ():
            self.flat(it)

    flat_Default = flat_Case

    def flat_Break(self, node):
        self.go(self.targets[-1][0])
        self.enter(self.block())

    def flat_Continue(self, node):
        self.go(next(it[1] for it in reversed(self.targets) if it[1] is not None))
        self.enter(self.block())

    def test(self, node, yes, no):
        with self.body.statement(node.coord):
            self.branch(self.body.truth(self.body.word(node)), yes, no)

    def flat_If(self, node):
        yes, no, after = self.block(), self.block(), self.block()
        self.test(node.cond, yes, no)
        for block, part in ((yes, node.iftrue), (no, node.iffalse)):
            self.enter(block)
            self.flat(part)
            self.go(after)
        self.enter(after)

    def loop(self, condition, statement, step, tests_first):
        test, inside, next_round, after = self.block(), self.block(), self.block(), self.block()
        self.go(test if tests_first else inside)
        self.enter(test)
        if condition is None:
            self.go(inside)
        else:
            self.test(condition, inside, after)
        self.enter(inside)
        self.targets.append((after, next_round))
        self.flat(statement)
        self.targets.pop()
        self.go(next_round)
        self.enter(next_round)
        if step is not None:
            with self.body.statement(step.coord):
                self.body.effect(step)
        self.go(test)
        self.enter(after)

    def flat_While(self, node):
        self.loop(node.cond, node.stmt, None, True)

    def flat_DoWhile(self, node):
        self.loop(node.cond, node.stmt, None, False)

    def flat_For(self, node):
        self.body.open_scope()
        if isinstance(node.init, c_ast.DeclList):
            self.body.perform(node.init)
        elif node.init is not None:
            with self.body.statement(node.coord):
                self.body.effect(node.init)
        self.loop(node.cond, node.stmt, node.next, True)
        self.body.close_scope()

    def flat_Switch(self, node):
        body, cases, after = self.body, cases_of(node), self.block()
        blocks = [self.block() for _ in cases]
        self.cases = {**getattr(self, "cases", {}), **{id(it): block for it, block in zip(cases, blocks)}}
        with body.statement(node.coord):
            value = body.save(body.word(node.cond))
            self.go(next((block for it, block in zip(cases, blocks) if isinstance(it, c_ast.Default)), after))
            for it, block in zip(cases, blocks):
                if isinstance(it, c_ast.Case):
                    const = body.convert(body.word(it.expr), promoted(value.type), it.coord)
                    test = body.operate("==", value, const, it.coord)
                    body.lines.append(("if", test.text, [body.line(f"{self.state} = {block};")], [], it.coord))
        self.enter(self.block())
        self.targets.append((after, None))
        self.flat(node.stmt)
        self.targets.pop()
        self.go(after)
        self.enter(after)

    def finish(self):
        """Writes the loop over the blocks that can be reached."""
        body = self.body
        body.finish_last()
        reached, waiting = {0}, [0]
        while waiting:
            for block in self.successors(self.blocks[waiting.pop()]):
                if block not in reached:
                    reached.add(block)
                    waiting.append(block)
        order = sorted(reached)
        body.lines = body.prologue
        body.emit(f"{self.state} = 0;")
        body.lines.append(("loop", "while (1)", self.tree(order), body.coord))

    def successors(self, lines):
        found = []
        for it in lines:
            if it[0] == "line":
                if it[1].startswith(f"{self.state} = "):
                    found.append(int(it[1][len(self.state) + 3:-1]))
            elif it[0] == "if":
                found += self.successors(it[2]) + self.successors(it[3])
        return found

    def tree(self, order):
        if len(order) == 1:
            return self.blocks[order[0]]
        half = len(order) // 2
        return [("if", f"{self.state} < {order[half]}", self.tree(order[:half]), self.tree(order[half:]),
                 self.body.coord)]
