"""The typed translation of expressions. Effects are written as statements before the one that is translated; what is
left is a text without effects."""
from pycparser import c_ast

from .arithmetic import Arithmetic
from .common import Refused
from .constants import constant, string_values
from .ctypes import (CHAR, INT, UNSIGNED, Array, Function, Pointer, Void, common, is_function_pointer, known,
                     promoted, size_of)
from .values import ATOM, POSTFIX, PREFIX, Place, Value, number, prefix
from .wide import Wide


class Expressions(Arithmetic, Wide):
    """A part of the translator of a function's body."""

    def value(self, node):
        """The value of an expression; of a structure its place."""
        found = self.operand(node)
        return self.load(found) if isinstance(found, Place) else found

    def operand(self, node):
        """A place, or a value where the expression is none."""
        method = getattr(self, "see_" + type(node).__name__, None)
        if method is None:
            raise Refused(node.coord, f"{type(node).__name__} in an expression")
        return method(node)

    def word(self, node):
        """A value that is a number or a pointer."""
        found = self.value(node)
        if isinstance(found, Place):
            raise Refused(node.coord, f"{known(found.type)!r} where a number or a pointer is wanted")
        return found

    def place(self, node):
        found = self.operand(node)
        if not isinstance(found, Place) or isinstance(known(found.type), Function):
            raise Refused(node.coord, "no place that can be assigned")
        return found

    def ordered(self, first, *nodes):
        """Values of expressions from left to right; one is saved where a later one has effects."""
        values = [first] if isinstance(first, Value) else [self.word(first)]
        for node in nodes:
            with self.captured() as lines:
                value = self.word(node)
            if lines:
                values = [it if it.is_stable() else self.save(it) for it in values]
            self.lines.extend(lines)
            values.append(value)
        return values

    # Leaves

    def see_ID(self, node):
        entity = self.find(node.name, node.coord)
        kind = entity.kind
        if kind == "constant":
            return number(entity.value, entity.type)
        if kind == "function":
            return Place(entity.name, ATOM, entity.type)
        if kind != "variable":
            raise Refused(node.coord, f"{node.name} in an expression")
        if entity.owner is not None and entity.owner is not self.function:
            raise Refused(node.coord, f"{node.name}, a local of another function")
        self.unit.uses(entity, node.coord)
        return Place(entity.target, ATOM, entity.type, entity.sign)

    def see_Constant(self, node):
        if node.type == "string":
            values = string_values(node.value, node.coord)
            name = self.unit.string(values)
            made = Value(name, ATOM, Pointer(CHAR), "p")
            made.array, made.is_fixed = Array(CHAR, len(values)), True
            return made
        value, kind = constant(node)
        return number(value, kind)

    # Places

    def see_ArrayRef(self, node):
        base, index = self.ordered(node.name, node.subscript)
        if known(base.type).is_integer:
            base, index = index, base
        return self.element(base, index, node.coord)

    def element(self, base, index, coord):
        kind = known(base.type)
        if not kind.is_pointer or is_function_pointer(kind):
            raise Refused(coord, f"an index of {kind!r}")
        inner = known(kind.to)
        if isinstance(inner, Void):
            raise Refused(coord, "a void that is read or written")
        if inner.is_array:
            moved = self.move_pointer("+", base, index, coord)
            return Place(moved.text, moved.level, inner)
        if index.low:
            index = index.low
        base = self.save(base) if base.const == 0 else base
        if base.reaches is not None and index.const == 0:
            return base.reaches
        return Place(f"{base.at(POSTFIX)}[{index.text}]", POSTFIX, inner)

    def see_StructRef(self, node):
        if node.type == "->":
            base = self.word(node.name)
            kind = known(base.type)
            struct = known(kind.to) if kind.is_pointer else kind
            base = self.save(base) if base.const == 0 else base
            text = f"{base.at(POSTFIX)}->"
            if base.reaches is not None:
                text = f"{base.reaches.at(POSTFIX)}."
        else:
            base = self.value(node.name)
            struct, text = known(base.type), None
            if isinstance(base, Place):
                text = f"{base.at(POSTFIX)}."
                if base.text.startswith("*") and base.level == PREFIX:
                    inner = base.text[1:].strip()
                    text = f"{inner}->" if inner.replace("_", "a").isalnum() else text
        if not struct.is_struct or text is None:
            raise Refused(node.coord, f"a member of {struct!r}")
        member = struct.member(node.field.name)
        if member is None:
            raise Refused(node.coord, f"{struct!r} has no known member {node.field.name}")
        target = self.unit.sees(struct, member, node.coord) if struct.is_union else member.target
        made = Place(text + target, POSTFIX, member.type, "s", member.width)
        size_of(struct, node.coord)
        if member.offset == 0 and member.width is None:
            made.base = base if node.type == "->" else getattr(base, "base", None)
        return made

    def dereferenced(self, value, coord):
        kind = known(value.type)
        if not kind.is_pointer:
            raise Refused(coord, f"* of {kind!r}")
        inner = known(kind.to)
        if isinstance(inner, Function):
            return value
        if isinstance(inner, Void):
            raise Refused(coord, "a void that is read or written")
        if inner.is_array:
            return Place(value.text, value.level, inner)
        if value.reaches is not None:
            return value.reaches
        value = self.save(value) if value.const == 0 else value
        return Place(f"*{value.at(PREFIX)}", PREFIX, inner)

    def address(self, node):
        if isinstance(node, c_ast.UnaryOp) and node.op == "*":
            return self.word(node.expr)
        found = self.operand(node)
        if not isinstance(found, Place):
            if known(found.type).is_pointer and found.array:
                made = self.copy_of(found)
                made.type = self.pointer_to(found.array)
                return made
            raise Refused(node.coord, "& of what is no place")
        kind = known(found.type)
        if found.width is not None:
            raise Refused(node.coord, "& of a bit field")
        if isinstance(kind, Function):
            return self.function_number(found, node.coord)
        if kind.is_array:
            made = Value(found.text, found.level, self.pointer_to(kind), "p")
            made.array, made.base = kind, found.base
            return made
        made = Value(f"&{found.at(PREFIX)}", PREFIX, self.pointer_to(kind), "p")
        made.reaches, made.is_fixed, made.base = found, found.text.isidentifier(), found.base
        return made

    def pointer_to(self, kind):
        return Pointer(kind)

    # Operators

    def see_UnaryOp(self, node):
        if node.op in ("++", "--", "p++", "p--"):
            return self.step(node, wanted=True)
        if node.op == "sizeof":
            return number(self.size_of_node(node.expr), UNSIGNED)
        if node.op == "&":
            return self.address(node.expr)
        value = self.word(node.expr)
        if node.op == "*":
            return self.dereferenced(value, node.coord)
        if node.op == "!":
            return self.negation(value)
        kind = known(value.type)
        if not kind.is_integer:
            raise Refused(node.coord, f"{node.op} of {kind!r}")
        return self.operate_unary(node.op, value, promoted(kind))

    def operate_unary(self, sign, value, kind):
        if value.const is not None:
            if sign != "-" or value.const != kind.least or not kind.signed:
                const = {"-": -value.const, "~": ~value.const, "+": value.const}[sign]
                return number(const, kind)
        if kind.is_wide:
            value = self.convert_integer(value, kind)
            return {"-": self.negated_wide, "~": self.inverted_wide, "+": lambda it, _: it}[sign](value, kind)
        value = self.convert_integer(value, kind)
        if sign == "+":
            return value
        if sign == "~":
            return prefix("~", value, kind, value.sign)
        if kind.signed:
            return prefix("-", self.as_signed(value), kind, "s")
        return self.operate_words("-", number(0, kind), value, kind)

    def size_of_node(self, node):
        if isinstance(node, c_ast.Typename):
            return size_of(self.type_of(node), node.coord)
        with self.captured():
            found = self.operand(node)
        kind = getattr(found, "array", None) or found.type
        if isinstance(found, Place) and found.width is not None:
            raise Refused(node.coord, "sizeof of a bit field")
        return size_of(kind, node.coord)

    def see_BinaryOp(self, node):
        if node.op in ("&&", "||"):
            return self.joined(node)
        one, other = self.ordered(node.left, node.right)
        return self.operate(node.op, self.decayed(one, node), self.decayed(other, node), node.coord)

    def decayed(self, value, node):
        return value

    def joined(self, node):
        """&& and ||. Where the right operand has effects it is written under an if."""
        left = self.truth(self.word(node.left))
        if left.const is not None:
            if bool(left.const) == (node.op == "||"):
                return number(int(node.op == "||"), INT)
            return self.zero_or_one(self.word(node.right))
        with self.captured() as lines:
            right = self.truth(self.word(node.right))
        level = 1 if node.op == "||" else 2
        if not lines:
            return Value(f"{left.at(level)} {node.op} {right.at(level + 1)}", level, INT, "s", span=(0, 1))
        result = self.temporary("int")
        with self.captured() as inside:
            self.lines.extend(lines)
            self.emit(f"{result.text} = {self.zero_or_one(right).text};")
        fixed = [self.line(f"{result.text} = {int(node.op == '||')};")]
        branches = (inside, fixed) if node.op == "&&" else (fixed, inside)
        self.lines.append(("if", left.text, *branches, self.coord))
        result.span = (0, 1)
        return result

    def see_TernaryOp(self, node):
        condition = self.truth(self.word(node.cond))
        if condition.const is not None:
            return self.chosen(node, condition.const)
        with self.captured() as yes:
            one = self.value(node.iftrue)
        with self.captured() as no:
            other = self.value(node.iffalse)
        kind = self.common_of(one, other, node.coord)
        if isinstance(kind, Void):
            self.lines.append(("if", condition.text, yes, no, self.coord))
            return Value("0", ATOM, kind)
        if kind.is_struct:
            result = self.temporary(f"struct {kind.group.target} *")
            for lines, it in ((yes, one), (no, other)):
                lines.append(self.line(f"{result.text} = &{it.at(PREFIX)};"))
            made = Place(f"*{result.text}", PREFIX, kind)
        else:
            made = self.temporary_of(kind)
            for lines, it in ((yes, one), (no, other)):
                with self.captured(lines):
                    self.fill_temporary(made, self.convert(it, kind, node.coord))
        self.lines.append(("if", condition.text, yes, no, self.coord))
        return made

    def chosen(self, node, yes):
        """The branch that a constant condition chooses, in the type of both."""
        value = self.value(node.iftrue if yes else node.iffalse)
        try:
            with self.captured():
                other = self.value(node.iffalse if yes else node.iftrue)
            kind = self.common_of(value, other, node.coord)
        except Refused:
            return value
        return value if isinstance(kind, Void) else self.convert(value, kind, node.coord)

    def common_of(self, one, other, coord):
        """The type of `?:` (C11 6.5.15)."""
        a, b = known(one.type), known(other.type)
        if a.is_integer and b.is_integer:
            return common(a, b)
        if a.is_pointer and (b.is_pointer and not isinstance(known(a.to), Void) or getattr(other, "const", 1) == 0):
            return a
        if b.is_pointer and (a.is_pointer or getattr(one, "const", 1) == 0):
            return b
        if a is b or isinstance(a, Void) and isinstance(b, Void):
            return a
        if isinstance(a, Void) or isinstance(b, Void):
            return a if isinstance(a, Void) else b
        raise Refused(coord, f"?: of {a!r} and {b!r}")

    def see_ExprList(self, node):
        for it in node.exprs[:-1]:
            self.effect(it)
        return self.value(node.exprs[-1])

    def see_Cast(self, node):
        kind = known(self.type_of(node.to_type))
        if isinstance(kind, Void):
            self.effect(node.expr)
            return Value("0", ATOM, kind)
        value = self.value(node.expr)
        if isinstance(value, Place):
            if known(value.type) is kind:
                return value
            raise Refused(node.coord, f"a cast of {value.type!r} to {kind!r}")
        made = self.convert(value, kind, node.coord, explicit=True)
        if made is value and value.type is not kind:
            made = self.copy_of(value)
            made.type = kind
        return made

    def see_CompoundLiteral(self, node):
        kind = known(self.type_of(node.type))
        if kind.is_array and kind.count is None:
            kind = self.completed(kind, node.init)
        place = self.local_place("literal", kind)
        self.initialise(place, kind, node.init)
        return place

    def see_Assignment(self, node):
        return self.assign(node, wanted=True)

    def see_FuncCall(self, node):
        return self.call(node, wanted=True)
