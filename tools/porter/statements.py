"""Structured statements of one function's body."""
from pycparser import c_ast

from .common import Refused
from .ctypes import Void, known
from .values import Place


class Target:
    """Where break and continue lead: a loop, or a switch that is written as a loop of one round."""

    def __init__(self, is_loop, again=None):
        self.is_loop, self.again, self.continued = is_loop, again, False


class Statements:
    """A part of the translator of a function's body."""

    def run(self, node):
        if node is None:
            return
        if self.machine is not None and self.is_irregular(node):
            raise Refused(node.coord, "a jump that the porter doesn't see through")
        self.perform(node)

    def perform(self, node):
        method = getattr(self, "do_" + type(node).__name__, None)
        if method is None:
            with self.statement(node.coord):
                self.effect(node)
        elif type(node).__name__ in ("Compound", "Case", "Default", "Label"):
            method(node)
        else:
            with self.statement(node.coord):
                method(node)

    def body(self, node):
        """The lines of a statement, apart."""
        with self.captured() as lines:
            self.run(node)
        return lines

    def do_Compound(self, node):
        self.open_scope()
        for it in node.block_items or ():
            self.run(it)
        self.close_scope()

    def do_DeclList(self, node):
        for it in node.decls:
            self.declare(it)

    def do_Decl(self, node):
        self.declare(node)

    def do_Typedef(self, node):
        self.scope_typedef(node)

    def do_EmptyStatement(self, node):
        pass

    def do_Pragma(self, node):
        pass

    def do_StaticAssert(self, node):
        if self.word(node.cond).const in (0, None):
            raise Refused(node.coord, "a static assertion that fails")

    def do_Label(self, node):
        self.run(node.stmt)

    def do_If(self, node):
        condition = self.truth(self.word(node.cond))
        if condition.const is not None and not self.has_labels(node):
            self.run(node.iftrue if condition.const else node.iffalse)
            return
        yes, no = self.body(node.iftrue), self.body(node.iffalse)
        self.lines.append(("if", condition.text, yes, no, self.coord))

    def do_Return(self, node):
        self.returned(node.expr, node.coord)

    def returned(self, expression, coord):
        result = known(self.function.type.result)
        if expression is None:
            if not isinstance(result, Void):
                self.lines.append(("line", "return 0;" if not result.is_struct else "return;", self.coord))
            else:
                self.emit("return;")
            return
        if isinstance(result, Void):
            self.effect(expression)
            self.emit("return;")
            return
        value = self.value(expression)
        if result.is_struct:
            if not isinstance(value, Place):
                raise Refused(coord, "a result of another type")
            self.store(Place(f"*{self.result_name}", 11, result), value, coord)
            self.emit("return;")
            return
        if isinstance(value, Place):
            raise Refused(coord, "a result of another type")
        value = self.convert(value, result, coord)
        if result.is_wide:
            value = self.kept(value)
            self.emit(f"{self.unit.high_result()} = {value.high.text};")
            self.emit(f"return {value.low.text};")
            return
        last = self.lines[-1] if self.lines else None
        if value.fresh and last and last[0] == "line" and last[1].startswith(f"{value.text} = ") and \
                "malloc(" not in last[1]:
            self.lines[-1] = (last[0], "return " + last[1][len(value.text) + 3:], last[2])
        else:
            self.emit(f"return {value.text};")

    # Loops

    def looped(self, node):
        self.targets.append(Target(True))
        with self.captured() as lines:
            self.run(node)
        return lines, self.targets.pop().continued

    def tested(self, node):
        """The statements before a loop's condition, and its text, or none where it is always true."""
        if node is None:
            return [], None
        with self.captured() as lines:
            condition = self.truth(self.word(node))
        if condition.const is not None and condition.const:
            return lines, None
        return lines, condition

    def leave_unless(self, condition):
        return ("if", self.negation(condition).text, [self.line("break;")], [], self.coord)

    def do_While(self, node):
        before, condition = self.tested(node.cond)
        lines, _ = self.looped(node.stmt)
        self.while_loop(before, condition, lines)

    def while_loop(self, before, condition, lines):
        if not before:
            self.lines.append(("loop", f"while ({condition.text if condition else '1'})", lines, self.coord))
            return
        test = [self.leave_unless(condition)] if condition else []
        self.lines.append(("loop", "while (1)", [*before, *test, *lines], self.coord))

    def do_DoWhile(self, node):
        lines, continued = self.looped(node.stmt)
        before, condition = self.tested(node.cond)
        if condition is not None and condition.const == 0 and not before and not continued and \
                not self.breaks(lines):
            self.lines.extend(lines)
            return
        test = [self.leave_unless(condition)] if condition else []
        if not continued:
            self.lines.append(("loop", "while (1)", [*lines, *before, *test], self.coord))
            return
        first = self.temporary("int", is_new=True)
        self.emit(f"{first.text} = 1;")
        check = ("if", f"{first.text} == 0", [*before, *test], [], self.coord)
        self.lines.append(("loop", "while (1)", [check, self.line(f"{first.text} = 0;"), *lines], self.coord))

    def breaks(self, lines):
        for it in lines:
            if it[0] == "line" and it[1] == "break;":
                return True
            if it[0] == "if" and (self.breaks(it[2]) or self.breaks(it[3])):
                return True
        return False

    def do_For(self, node):
        self.open_scope()
        if node.init is not None:
            if isinstance(node.init, c_ast.DeclList):
                self.do_DeclList(node.init)
            else:
                self.effect(node.init)
        before, condition = self.tested(node.cond)
        lines, continued = self.looped(node.stmt)
        with self.captured() as after:
            if node.next is not None:
                self.effect(node.next)
        test = [self.leave_unless(condition)] if condition else []
        head = condition.text if condition else ""
        if not before and len(after) == 1 and after[0][0] == "line":
            step = after[0][1][:-1]
            self.lines.append(("loop", f"for (; {head}; {step})", lines, self.coord))
        elif not continued or not after:
            self.while_loop(before, condition, [*lines, *after])
        else:
            first = self.temporary("int", is_new=True)
            self.emit(f"{first.text} = 1;")
            check = ("if", first.text, [self.line(f"{first.text} = 0;")], after, self.coord)
            self.lines.append(("loop", "while (1)", [check, *before, *test, *lines], self.coord))
        self.close_scope()

    def do_Break(self, node):
        if not self.targets:
            raise Refused(node.coord, "a break outside of loops")
        self.emit("break;")

    def do_Continue(self, node):
        """Out of a switch first, where one is between, by its flag."""
        self.continue_from(len(self.targets) - 1)

    def continue_from(self, at):
        if at < 0:
            raise Refused(self.coord, "a continue outside of loops")
        target = self.targets[at]
        if target.is_loop:
            target.continued = True
            self.emit("continue;")
            return
        target.continued = True
        self.emit(f"{target.again.text} = 1;")
        self.emit("break;")
