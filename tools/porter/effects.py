"""Statements that expressions are taken apart into: temporaries, stores, assignments."""
import re
from contextlib import contextmanager

from pycparser import c_ast

from .common import Refused
from .ctypes import INT, UNSIGNED, Void, is_function_pointer, known, target_of, target_of_value
from .values import ATOM, POSTFIX, PREFIX, Place, Value, number


class Effects:
    """A part of the translator of a function's body."""

    def line(self, text):
        return ("line", text, self.coord)

    def emit(self, text):
        self.lines.append(self.line(text))

    @contextmanager
    def captured(self, into=None):
        """Collects statements apart."""
        before, self.lines = self.lines, [] if into is None else into
        try:
            yield self.lines
        finally:
            self.lines = before

    # Temporaries

    def temporary(self, spelling, is_new=False):
        """A variable that no other part of the statement uses. Those of a statement are free after it. One that lives
        through statements that have been translated already has to be new."""
        free = self.free.setdefault(spelling, [])
        if free and not is_new:
            name = free.pop()
        else:
            name = self.names.take({"int": "t", "unsigned int": "u"}.get(spelling, "q"))
            self.locals.append((spelling, name, None))
        self.used.append((spelling, name))
        made = Value(name, ATOM, UNSIGNED if spelling.startswith("unsigned") else INT,
                     {"int": "s", "unsigned int": "u"}.get(spelling, "p"))
        made.fresh = True
        return made

    @contextmanager
    def statement(self, coord):
        """Within it temporaries are taken; after it they are free again."""
        mark, before, self.coord = len(self.used), self.coord, coord or self.coord
        yield
        self.coord = before
        for spelling, name in self.used[mark:]:
            self.free[spelling].append(name)
        del self.used[mark:]

    def temporary_of(self, kind):
        """A temporary that can hold a value of this type."""
        kind = known(kind)
        if kind.is_wide:
            made = Value("?", ATOM, kind)
            made.low, made.high = self.temporary("unsigned int"), self.temporary("unsigned int")
        else:
            made = self.temporary(target_of_value(kind))
            made.type = kind
            if is_function_pointer(kind):
                made.sign = "s"
            if kind.is_integer and kind.size < 4:
                made.span = kind.least, kind.most
        made.fresh = True
        return made

    def fill_temporary(self, made, value):
        if made.low:
            high = value.high
            if not high.is_stable():
                high = self.save(high, "unsigned int")
            self.emit(f"{made.low.text} = {value.low.text};")
            self.emit(f"{made.high.text} = {high.text};")
        else:
            self.emit(f"{made.text} = {value.text};")

    def save(self, value, spelling=None):
        """A copy of a value that later statements don't change."""
        if isinstance(value, Place):
            return value
        kind = known(value.type)
        if value.low or kind.is_wide:
            made = self.temporary_of(kind)
            self.fill_temporary(made, value)
            return made
        if isinstance(kind, Void):
            return value
        if spelling is None:
            spelling = {"u": "unsigned int", "s": "int"}.get(value.sign) or target_of(kind)
        made = self.temporary(spelling)
        self.emit(f"{made.text} = {value.text};")
        made.type, made.span, made.array = value.type, value.span, value.array
        made.made = value.made
        return made

    # Stores

    def store(self, place, value, coord):
        """Stores a value that has been converted to the place's type."""
        kind = known(place.type)
        if kind.is_struct:
            self.copy_struct(place, value, kind, coord)
        elif kind.is_wide:
            low, high = value.low, value.high
            if not high.is_stable():
                high = self.save(high, "unsigned int")
            self.emit(f"{place.at(POSTFIX)}.low = {low.text};")
            self.emit(f"{place.at(POSTFIX)}.high = {high.text};")
        elif kind.is_integer:
            bits = place.width if place.width is not None else kind.bits
            if not kind.is_bool or place.width is not None and not kind.is_bool:
                value = self.low_bits(value, bits)
            self.put(place, value)
        elif kind.is_pointer:
            self.put(place, value)
        else:
            raise Refused(coord, f"an assignment to {kind!r}")

    def put(self, place, value):
        """Writes `place = text`; where the text is a temporary that the last line made, that line stores instead."""
        last = self.lines[-1] if self.lines else None
        if value.fresh and last and last[0] == "line" and last[1].startswith(f"{value.text} = ") and \
                not re.search(rf"\b{value.text}\b", place.text):
            self.lines[-1] = (last[0], place.text + last[1][len(value.text):], last[2])
            return
        self.emit(f"{place.text} = {value.text};")

    def copy_struct(self, place, source, kind, coord):
        """Member by member; an array by a loop."""
        if source.text == place.text:
            return
        self.unit.wants_complete(kind, coord)
        helper = self.unit.copier(kind)
        self.emit(f"{helper}({self.pointer_text(place)}, {self.pointer_text(source)});")

    def pointer_text(self, place):
        if place.level == PREFIX and place.text.startswith("*"):
            return place.text[1:].strip()
        return f"&{place.at(PREFIX)}"

    # Assignments

    def assign(self, node, wanted):
        place = self.place(node.lvalue)
        kind = known(place.type)
        if kind.is_array:
            raise Refused(node.coord, "an assignment to an array")
        if node.op != "=":
            return self.assign_result(place, node.op[:-1], node.rvalue, node.coord, wanted)
        value = self.value(node.rvalue)
        if isinstance(value, Place) and kind.is_struct and known(value.type) is kind:
            self.store(place, value, node.coord)
            return place
        if isinstance(value, Place):
            raise Refused(node.coord, f"an assignment of {value.type!r} to {kind!r}")
        value = self.convert(value, kind, node.coord)
        return self.stored(place, value, node.coord, wanted)

    def stored(self, place, value, coord, wanted):
        if not wanted:
            self.store(place, value, coord)
            return None
        if place.width is not None and known(place.type).bits > place.width and value.const is None:
            value = self.narrowed(value, place.width, known(place.type).signed)
        elif place.width is not None and value.const is not None:
            kind = known(place.type)
            mask = (1 << place.width) - 1
            const = value.const & mask
            if kind.signed and not kind.is_bool and const >> place.width - 1:
                const -= mask + 1
            value = number(const, kind)
        if not value.is_stable():
            value = self.save(value)
        kept = self.copy_of(value)
        kept.fresh = False
        self.store(place, kept, coord)
        return value

    def assign_result(self, place, sign, node, coord, wanted):
        """`op=`: the place is evaluated once, since its effects are taken out already."""
        kind = known(place.type)
        with self.captured() as lines:
            value = self.word(node)
        self.lines.extend(lines)
        old = self.load(place)
        result = self.convert(self.operate(sign, old, value, coord), kind, coord)
        return self.stored(place, result, coord, wanted)

    def step(self, node, wanted):
        """++ and --, before and after."""
        place = self.place(node.expr)
        kind = known(place.type)
        sign = node.op[-1]
        old = self.load(place)
        if isinstance(old, Place):
            raise Refused(node.coord, f"{node.op} of {kind!r}")
        after = node.op.startswith("p")
        if wanted and after and not old.is_stable():
            old = self.save(old)
        one = number(1, INT)
        new = self.convert(self.operate(sign, old, one, node.coord), kind, node.coord)
        result = self.stored(place, new, node.coord, wanted and not after)
        return old if after else result

    def effect(self, node):
        """An expression whose value nobody uses."""
        if isinstance(node, c_ast.Assignment):
            self.assign(node, wanted=False)
        elif isinstance(node, c_ast.UnaryOp) and node.op in ("++", "--", "p++", "p--"):
            self.step(node, wanted=False)
        elif isinstance(node, c_ast.FuncCall):
            self.call(node, wanted=False)
        elif isinstance(node, c_ast.ExprList):
            for it in node.exprs:
                self.effect(it)
        elif isinstance(node, c_ast.Cast) and isinstance(known(self.type_of(node.to_type)), Void):
            self.effect(node.expr)
        elif isinstance(node, c_ast.TernaryOp):
            self.choose_effect(node, node.cond, node.iftrue, node.iffalse)
        elif isinstance(node, c_ast.BinaryOp) and node.op == "&&":
            self.choose_effect(node, node.left, node.right, None)
        elif isinstance(node, c_ast.BinaryOp) and node.op == "||":
            self.choose_effect(node, node.left, None, node.right)
        else:
            self.operand(node)

    def choose_effect(self, node, condition, yes, no):
        condition = self.truth(self.word(condition))
        branches = []
        for it in (yes, no):
            with self.captured() as lines:
                if it is not None and (condition.const is None or bool(condition.const) == (it is yes)):
                    self.effect(it)
            branches.append(lines)
        if condition.const is not None:
            self.lines.extend(branches[0] if condition.const else branches[1])
        elif branches[0] or branches[1]:
            self.lines.append(("if", condition.text, *branches, self.coord))
