"""Initialisers: which scalar of a variable gets which expression (C11 6.7.9)."""
from pycparser import c_ast

from .common import Refused
from .constants import string_values
from .ctypes import base_of, known
from .values import POSTFIX, Place


def leaves_of(kind):
    """How many scalars a value of this type has."""
    kind = known(kind)
    if kind.is_array:
        return kind.count * leaves_of(kind.of)
    if kind.is_struct:
        return sum(leaves_of(it.type) for it in kind.kept())
    return 1


def leaf_place(place, kind, index):
    """The place of the scalar of this index, and its type."""
    kind = known(kind)
    if kind.is_array:
        base, count = base_of(kind)
        each = leaves_of(base)
        inner = Place(f"{place.at(POSTFIX)}[{index // each}]", POSTFIX, base)
        return leaf_place(inner, base, index % each)
    if kind.is_struct:
        for it in kind.kept():
            if it.name:
                count = leaves_of(it.type)
                if index < count:
                    return leaf_place(Place(f"{place.at(POSTFIX)}.{it.target}", POSTFIX, it.type, "s", it.width),
                                      it.type, index)
                index -= count
    return place


def is_string(node, kind):
    kind = known(kind)
    return kind.is_array and known(kind.of).is_integer and known(kind.of).size == 1 and \
        isinstance(node, c_ast.Constant) and node.type == "string"


class Fill:
    """Fills a table from the index of a scalar to its expression, a byte, or a structure that is copied."""

    def __init__(self, translator):
        self.translator, self.table = translator, {}

    def whole(self, kind, node, base):
        """One object of this type from its own initialiser."""
        kind = known(kind)
        if isinstance(node, c_ast.InitList) and kind.is_array and len(node.exprs) == 1 and \
                is_string(node.exprs[0], kind):
            node = node.exprs[0]
        if is_string(node, kind):
            values = string_values(node.value, node.coord)[:kind.count]
            for at in range(kind.count):
                self.table[base + at] = values[at] if at < len(values) else 0
        elif isinstance(node, c_ast.InitList):
            if kind.is_array or kind.is_struct:
                for at in range(base, base + leaves_of(kind)) if len(self.table) else ():
                    self.table.pop(at, None)
                self.items(kind, list(node.exprs), base, True)
            elif len(node.exprs) == 1:
                self.whole(kind, node.exprs[0], base)
            else:
                raise Refused(node.coord, "an initialiser of several values for one")
        elif kind.is_struct:
            if not leaves_of(kind):
                raise Refused(node.coord, "an initialiser of a structure without members")
            self.table[base] = ("struct", kind, node)
        elif kind.is_array:
            raise Refused(node.coord, "an initialiser of an array")
        else:
            self.table[base] = node

    def parts(self, kind):
        """The offsets and types of the members or elements."""
        kind = known(kind)
        if kind.is_array:
            each = leaves_of(kind.of)
            return [(at * each, kind.of, None) for at in range(kind.count)]
        found, at = [], 0
        if kind.is_union:
            self.translator.unit.sees(kind, kind.members[0], self.translator.coord)
        for it in kind.kept():
            if it.name:
                found.append((at, it.type, it.name))
                at += leaves_of(it.type)
        return found

    def items(self, kind, nodes, base, braced):
        """Members or elements one after another, from a list that may go on after them; answers with the rest."""
        kind = known(kind)
        parts, at = self.parts(kind), 0
        while nodes:
            node = nodes[0]
            if isinstance(node, c_ast.NamedInitializer):
                if not braced:
                    return nodes
                at = self.designated(kind, node, parts, base)
                nodes.pop(0)
                continue
            if at >= len(parts):
                if braced:
                    raise Refused(node.coord, "more initialisers than members or elements")
                return nodes
            offset, inner, _ = parts[at]
            inner = known(inner)
            at += 1
            if isinstance(node, c_ast.InitList) or is_string(node, inner) or not (inner.is_array or inner.is_struct):
                self.whole(inner, nodes.pop(0), base + offset)
            elif inner.is_struct and self.is_struct_value(node, inner):
                self.whole(inner, nodes.pop(0), base + offset)
            else:
                left = len(nodes)
                nodes = self.items(inner, nodes, base + offset, False)
                if len(nodes) == left:
                    raise Refused(node.coord, "an initialiser that fits nothing")
            if not braced and at >= len(parts):
                return nodes
        return nodes

    def is_struct_value(self, node, kind):
        if isinstance(node, c_ast.Constant):
            return False
        translator = self.translator
        with translator.captured():
            return known(translator.operand(node).type) is kind

    def designated(self, kind, node, parts, base):
        """`.name = ..` or `[3] = ..`; answers with the part after it."""
        for depth, it in enumerate(node.name):
            if isinstance(it, c_ast.ID) and known(kind).is_struct:
                at = next((at for at, part in enumerate(parts) if part[2] == it.name), None)
            else:
                at = self.translator.constant_value(it)
            if at is None or not 0 <= at < len(parts):
                raise Refused(node.coord, "a designator of no member or element")
            if depth == 0:
                first = at + 1
            base, kind = base + parts[at][0], parts[at][1]
            parts = self.parts(kind) if depth + 1 < len(node.name) else []
        kind = known(kind)
        if (kind.is_array or kind.is_struct) and not isinstance(node.expr, c_ast.InitList) and \
                not is_string(node.expr, kind) and not (kind.is_struct and self.is_struct_value(node.expr, kind)):
            self.items(kind, [node.expr], base, False)
        else:
            self.whole(kind, node.expr, base)
        return first


class Initial:
    """A part of the translator of a function's body."""

    def count_of_list(self, of, init):
        """How many elements a list gives an array without a length."""
        least, most = 0, 1 << 16
        fill = Fill(self)
        from .ctypes import Array
        kind = Array(of, self.bound_of(init, of))
        fill.items(kind, list(init.exprs), 0, True)
        each = leaves_of(of)
        indices = list(fill.table)
        for at, it in fill.table.items():
            if isinstance(it, tuple):
                indices.append(at + leaves_of(it[1]) - 1)
        named = [self.constant_value(it.name[0]) for it in init.exprs if isinstance(it, c_ast.NamedInitializer)]
        return max([index // each + 1 for index in indices] + [at + 1 for at in named if at is not None] + [1])

    def bound_of(self, init, of):
        named = [self.constant_value(it.name[0]) or 0 for it in init.exprs if isinstance(it, c_ast.NamedInitializer)]
        return len(init.exprs) + max(named, default=0) + 1

    def initialise(self, place, kind, node):
        """Statements that give a local its value; what the list leaves out is 0."""
        kind = known(kind)
        if not (kind.is_array or kind.is_struct):
            while isinstance(node, c_ast.InitList):
                node = node.exprs[0]
            value = self.value(node)
            if isinstance(value, Place):
                raise Refused(node.coord, "an initialiser of another type")
            self.store(place, self.convert(value, kind, node.coord), node.coord)
            return
        if kind.is_struct and not isinstance(node, c_ast.InitList):
            value = self.value(node)
            if not isinstance(value, Place) or known(value.type) is not kind:
                raise Refused(node.coord, "an initialiser of another type")
            self.store(place, value, node.coord)
            return
        fill = Fill(self)
        fill.whole(kind, node, 0)
        self.fill_local(place, kind, fill.table, node.coord)

    def fill_local(self, place, kind, table, coord):
        total, base = leaves_of(kind), base_of(kind)[0]
        constants = self.constants_of(table, base) if kind.is_array and base.is_integer and not base.is_wide else None
        if constants is not None and total > 8:
            self.fill_constants(place, base, constants, total, coord)
            return
        if len(table) < total:
            self.clear(place, kind, coord)
        for index in sorted(table):
            self.fill_leaf(place, kind, index, table[index], coord)

    def clear(self, place, kind, coord):
        base, count = base_of(kind)
        pointer = place.text if kind.is_array else self.pointer_text(place)
        fill = ", 0" if base.is_integer and not base.is_wide else ""
        if kind.is_struct:
            self.unit.wants_complete(kind, coord)
        self.emit(f"{self.unit.filler(base, coord)}({pointer}, {count}u{fill});")

    def fill_leaf(self, place, kind, index, node, coord):
        inner = leaf_place(place, kind, index)
        if isinstance(node, tuple):
            inner = self.struct_place(place, kind, index, node[1])
            self.store(inner, self.value(node[2]), coord)
            return
        if isinstance(node, int):
            from .values import number
            self.store(inner, number(node, inner.type), coord)
            return
        with self.statement(node.coord):
            value = self.value(node)
            if isinstance(value, Place) and known(value.type).is_struct:
                raise Refused(node.coord, "an initialiser of another type")
            if isinstance(value, Place):
                value = self.function_number(value, node.coord)
            self.store(inner, self.convert(value, inner.type, node.coord), node.coord)

    def struct_place(self, place, kind, index, wanted):
        """The place of the structure that begins at a scalar of this index."""
        kind = known(kind)
        while kind is not wanted:
            if kind.is_array:
                base, _ = base_of(kind)
                each = leaves_of(base)
                place, kind = Place(f"{place.at(POSTFIX)}[{index // each}]", POSTFIX, base), base
                index %= each
                continue
            for it in kind.kept():
                if it.name:
                    count = leaves_of(it.type)
                    if index < count:
                        place, kind = Place(f"{place.at(POSTFIX)}.{it.target}", POSTFIX, it.type), known(it.type)
                        break
                    index -= count
        return place

    def constants_of(self, table, base):
        """The table as canonical cells where all of it is constant."""
        found = {}
        for index, node in table.items():
            if isinstance(node, int):
                found[index] = node & 255
                continue
            if isinstance(node, tuple):
                return None
            value = self.constant_value(node)
            if value is None:
                return None
            value = int(value != 0) if base.is_bool else value & (1 << base.bits) - 1
            found[index] = value - (1 << 32) if base.size == 4 and value >= 1 << 31 else value
        return found

    def fill_constants(self, place, base, constants, total, coord):
        last = max((at for at, it in constants.items() if it), default=-1)
        if last + 1 < total:
            self.clear(place, known(place.type), coord)
        if last >= 0:
            name = self.unit.table([constants.get(at, 0) for at in range(last + 1)])
            self.emit(f"{self.unit.mover(base)}({place.text}, {name}, {last + 1}u);")
