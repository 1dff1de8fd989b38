"""Calls: of functions of the section, across sections, through pointers, and of the library."""
import re

from pycparser import c_ast

from .common import MOST_PARAMETERS, Refused
from .ctypes import (CHAR, INT, LONG, UNSIGNED, Function, Pointer, Void, base_of, is_function_pointer, known, promoted,
                     size_of, target_of)
from .values import ATOM, PRODUCT, Place, Value, number
from .wide import pair

COPIES = ("memcpy", "memmove")


class Calls:
    """A part of the translator of a function's body."""

    def call(self, node, wanted):
        arguments = node.args.exprs if node.args else []
        if isinstance(node.name, c_ast.ID):
            entity = self.find_called(node.name.name, node.coord)
            if entity.kind == "builtin":
                return getattr(self, "call_" + entity.name)(node, arguments, wanted)
            if entity.kind == "function":
                return self.call_function(entity, arguments, node.coord, wanted)
        pointer = self.operand(node.name)
        if isinstance(pointer, Place) and isinstance(known(pointer.type), Function):
            return self.call_function(self.find_called(pointer.text, node.coord), arguments, node.coord, wanted)
        pointer = self.load(pointer) if isinstance(pointer, Place) else pointer
        return self.call_pointer(pointer, arguments, node.coord, wanted)

    def arguments(self, kind, nodes, coord):
        """The values of the arguments, each in its parameter's type, from left to right."""
        parameters = kind.parameters
        if kind.variadic:
            raise Refused(coord, "a call of a function with a variable number of arguments")
        if parameters is not None and len(parameters) != len(nodes):
            raise Refused(coord, f"{len(nodes)} arguments for {len(parameters)} parameters")
        values = []
        for at, node in enumerate(nodes):
            with self.captured() as lines:
                value = self.value(node)
                wanted = parameters[at] if parameters is not None else value.type
                if parameters is None and known(wanted).is_integer:
                    wanted = promoted(wanted)
                value = value if isinstance(value, Place) and known(value.type) is known(wanted) else \
                    self.convert(self.no_struct(value, node), wanted, node.coord)
            if lines:
                values = [it if isinstance(it, Place) or it.is_stable() else self.save(it) for it in values]
            self.lines.extend(lines)
            values.append(value)
        return values

    def no_struct(self, value, node):
        if isinstance(value, Place):
            raise Refused(node.coord, f"{value.type!r} as an argument of another type")
        return value

    def texts(self, values, crosses=False):
        """What stands in the parentheses: a long long is two words, a structure a pointer to it; of a narrow integer
        the bits of its cell, other than across sections."""
        found = []
        for it in values:
            kind = known(it.type)
            if isinstance(it, Place):
                self.unit.wants_complete(kind, self.coord)
                found.append(self.pointer_text(it))
            elif it.low:
                found += [it.low.text, it.high.text]
            elif kind.is_integer and kind.size < 4 and not kind.is_bool and not crosses:
                found.append(self.low_bits(it, kind.bits).text)
            else:
                found.append(it.text)
        return found

    def call_function(self, entity, nodes, coord, wanted):
        target, kind = self.unit.called(entity, coord)
        values = self.arguments(kind, nodes, coord)
        texts = self.texts(values, self.unit.is_import(entity))
        return self.finished(target, kind.result, texts, coord, wanted, entity)

    def finished(self, target, result, texts, coord, wanted, entity=None):
        """Writes the call; answers with its value."""
        result = known(result)
        place = None
        if result.is_struct:
            self.unit.wants_complete(result, coord)
            place = self.local_place("result", result)
            texts = [f"&{place.text}", *texts]
        if len(texts) > MOST_PARAMETERS:
            texts = self.beyond(entity, texts, coord)
        call = f"{target}({', '.join(texts)})"
        if isinstance(result, Void) or result.is_struct or not wanted:
            self.emit(f"{call};")
            self.after_call(entity)
            if result.is_struct:
                return place
            return Value("0", ATOM, result)
        if result.is_wide:
            low = self.temporary("unsigned int")
            self.emit(f"{low.text} = {call};")
            self.after_call(entity)
            high = self.save(Value(self.unit.high_result(), ATOM, UNSIGNED, "u"), "unsigned int")
            return pair(low, high, result)
        made = self.temporary_of(result)
        if entity is not None and self.unit.is_import(entity):
            made.span = None
        self.emit(f"{made.text} = {call};")
        self.after_call(entity)
        if entity is not None and self.unit.is_import(entity) and result.is_integer and result.size < 4:
            return self.convert_integer(Value(made.text, ATOM, INT, "s"), result)
        return made

    def beyond(self, entity, texts, coord):
        """Arguments beyond the eighth go through globals, which the callee copies at once."""
        if entity is None or self.unit.is_import(entity):
            raise Refused(coord, f"more than {MOST_PARAMETERS} arguments through a pointer or across sections")
        spellings = self.unit.spellings(entity)
        for at in range(MOST_PARAMETERS, len(texts)):
            name = self.unit.passing(entity, at, spellings[at][0])
            self.emit(f"{name} = {texts[at]};")
        return texts[:MOST_PARAMETERS]

    def function_number(self, place, coord):
        """A function as a value: its number in this section."""
        entity = self.find_called(place.text, coord)
        if entity.kind != "function":
            raise Refused(coord, f"a pointer to {place.text} of the library")
        made = Value(str(self.unit.number_of(entity, coord)), ATOM, Pointer(entity.type), "s")
        made.fresh = True
        made.span = (1, 1)
        return made

    def call_pointer(self, pointer, nodes, coord, wanted):
        kind = known(pointer.type)
        kind = known(kind.to) if kind.is_pointer else kind
        if not isinstance(kind, Function):
            raise Refused(coord, "a call of what is no function")
        if not pointer.is_stable():
            with self.captured() as lines:
                for it in nodes:
                    self.value(it)
            if lines:
                pointer = self.save(pointer)
        values = self.arguments(kind, nodes, coord)
        texts = self.texts(values)
        target = self.unit.dispatcher(kind, [it.type for it in values], coord)
        if len(texts) + known(kind.result).is_struct >= MOST_PARAMETERS:
            raise Refused(coord, "a call through a pointer with more than seven arguments")
        result = known(kind.result)
        if result.is_struct:
            raise Refused(coord, "a call through a pointer whose result is a structure")
        return self.finished(target, kind.result, [pointer.text, *texts], coord, wanted)

    # The library

    def call_port_expect(self, node, arguments, wanted):
        """gcc evaluates what is expected, too."""
        return self.convert(self.first_of(node, arguments), LONG, node.coord)

    def call_offsetof(self, node, arguments, wanted):
        return number(self.offset_in(known(self.type_of(arguments[0])), arguments[1])[0], UNSIGNED)

    def offset_in(self, kind, node):
        """Where a member or an element begins, in bytes, and its type."""
        if isinstance(node, c_ast.ArrayRef):
            before, array = self.offset_in(kind, node.name)
            index = self.constant_value(node.subscript)
            if index is None or not array.is_array:
                raise Refused(node.coord, "offsetof of an element that isn't constant")
            return before + index * size_of(array.of, node.coord), known(array.of)
        is_inner = isinstance(node, c_ast.StructRef)
        before, struct = self.offset_in(kind, node.name) if is_inner else (0, kind)
        member = struct.member((node.field if is_inner else node).name) if struct.is_struct else None
        if member is None or member.width is not None:
            raise Refused(node.coord, f"offsetof in {struct!r}")
        size_of(struct, node.coord)
        return before + member.offset, known(member.type)

    def call_port_assume_aligned(self, node, arguments, wanted):
        return self.first_of(node, arguments)

    def call_port_prefetch(self, node, arguments, wanted):
        self.first_of(node, arguments)
        return Value("0", ATOM, self.unit.void)

    def first_of(self, node, arguments):
        if not arguments:
            raise Refused(node.coord, f"{node.name.name.replace('port', '__builtin')} without arguments")
        return self.ordered(*arguments)[0]

    def call_abort(self, node, arguments, wanted):
        self.emit(f"{self.unit.helper_abort()}();")
        return Value("0", ATOM, self.unit.void)

    def call_exit(self, node, arguments, wanted):
        """Each function that may come to exit returns at once after a call that did."""
        value = self.convert(self.word(arguments[0]), INT, node.coord)
        if self.is_main():
            self.emit(f"return {value.text};")
        else:
            self.unit.exits(self.function, node.coord)
            status, exiting = self.unit.exit_variables()
            self.emit(f"{status} = {value.text};")
            self.emit(f"{exiting} = 1;")
            self.emit(self.empty_return())
        return Value("0", ATOM, self.unit.void)

    def empty_return(self):
        if self.is_main():
            return f"return {self.unit.exit_variables()[0]};"
        result = known(self.function.type.result)
        return "return;" if isinstance(result, Void) or result.is_struct else "return 0;"

    def after_call(self, entity):
        """Where a called function may have come to exit, so does this one."""
        if self.function is not None and self.unit.may_exit(self.function, entity):
            exiting = self.unit.exit_variables()[1]
            self.lines.append(("if", exiting, [self.line(self.empty_return())], [], self.coord))

    def call_malloc(self, node, arguments, wanted):
        return self.allocated(node, arguments[0], None)

    def call_calloc(self, node, arguments, wanted):
        product = c_ast.BinaryOp("*", arguments[0], arguments[1], node.coord)
        made = self.allocated(node, product, None)
        kind = known(made.made)
        helper = self.unit.filler(kind, node.coord)
        fill = ", 0" if isinstance(kind, Void) or kind.is_integer and not kind.is_wide else ""
        self.lines.append(("if", f"{made.text} != 0", [self.line(f"{helper}({made.text}, {self.counted}{fill});")], [],
                           self.coord))
        return made

    def allocated(self, node, size, _):
        """A block. What is kept in it is known by what its pointer is converted to."""
        void = self.unit.variable_type((str(node.coord), "malloc"))
        kind = known(void)
        value = self.word(size)
        count = self.count_of(value, kind, node.coord)
        self.counted = count.text
        spelling = target_of(kind)
        made = self.temporary(f"{spelling} *".replace("* *", "**"))
        product = f"{count.at(PRODUCT)} * sizeof({spelling})"
        self.emit(f"{made.text} = malloc({product});")
        made.type = Pointer(void)
        made.made = void
        return made

    def count_of(self, value, kind, coord, exact=False):
        """How many elements of this type take that many bytes."""
        if value.low:
            value = self.convert_integer(value, UNSIGNED)
        if isinstance(kind, Void):
            return value
        size = size_of(kind, coord) if not (kind.is_struct and kind.members is None) else 1
        if value.const is not None:
            if value.const % size:
                raise Refused(coord, f"{value.const} bytes, which is no whole number of {kind!r}")
            return number(value.const // size, UNSIGNED)
        value = value if value.is_stable() else self.save(value, "unsigned int")
        if size == 1:
            return value
        if kind.is_struct or exact:
            rest = Value(f"{value.text} % {size}u", PRODUCT, UNSIGNED, "u")
            self.lines.append(("if", f"{rest.text} != 0u", [self.line(f"{self.unit.helper_abort()}();")], [],
                               self.coord))
        return self.save(Value(f"{value.text} / {size}u", PRODUCT, UNSIGNED, "u"), "unsigned int")

    def call_free(self, node, arguments, wanted):
        value = self.word(arguments[0])
        if not known(value.type).is_pointer and value.const != 0:
            raise Refused(node.coord, "free of an integer")
        self.emit(f"free({value.text});")
        return Value("0", ATOM, self.unit.void)

    def call_qsort(self, node, arguments, wanted):
        """A function of the section for each type of elements, which sorts them in a heap."""
        base, count, size, compare = self.ordered(*arguments)
        kind = known(self.elements(base, node.coord))
        pointer = known(compare.type)
        order = known(pointer.to) if is_function_pointer(pointer) else None
        if order is None or order.parameters is None or len(order.parameters) != 2:
            raise Refused(node.coord, "qsort without a function of two parameters")
        for it in order.parameters:
            if not known(it).is_pointer or not self.unit.alike(known(it).to, kind):
                raise Refused(node.coord, f"qsort of {kind!r} by {known(it)!r}")
        kind = known(kind)
        if not isinstance(kind, Void) and size.const != size_of(kind, node.coord):
            raise Refused(node.coord, f"qsort of {kind!r} by another size")
        target = self.unit.dispatcher(order, [], node.coord)
        self.emit(f"{self.unit.sorter(kind, target)}({base.text}, {count.text}, {compare.text});")
        self.after_call(None)
        return Value("0", ATOM, self.unit.void)

    def elements(self, value, coord):
        kind = known(value.type)
        if not kind.is_pointer or is_function_pointer(kind):
            raise Refused(coord, "a pointer is wanted here")
        base = base_of(kind.to)[0]
        return base

    def call_memcpy(self, node, arguments, wanted, overlapping=False):
        to, source, length = self.ordered(*arguments)
        to_kind, from_kind = self.elements(to, node.coord), self.elements(source, node.coord)
        if to.const == 0 or source.const == 0 or not self.unit.alike(to_kind, from_kind):
            raise Refused(node.coord, f"a copy from {from_kind!r} to {to_kind!r}")
        kind = known(to_kind)
        if kind.is_struct:
            self.unit.wants_complete(kind, node.coord)
        to = to if to.is_stable() or not wanted else self.save(to)
        is_whole = length.const is not None and length.const % size_of(kind, node.coord) == 0 \
            if kind.is_integer else True
        if kind.is_integer and kind.size in (2, 4) and not is_whole and not overlapping and not length.low:
            self.emit(f"{self.unit.byte_mover(kind)}({to.text}, {source.text}, {length.text});")
            return to
        count = self.count_of(length, kind, node.coord, exact=True)
        self.emit(f"{self.unit.mover(kind, overlapping)}({to.text}, {source.text}, {count.text});")
        return to

    def call_memmove(self, node, arguments, wanted):
        return self.call_memcpy(node, arguments, wanted, True)

    def call_memset(self, node, arguments, wanted):
        to, byte, length = self.ordered(*arguments)
        kind = known(self.elements(to, node.coord))
        if isinstance(kind, Void) and kind is not self.unit.void:
            if self.unit.is_last:
                self.unit.alike(kind, CHAR)
                kind = CHAR
            else:
                return to
        if not (kind.is_integer and kind.size == 1 and not kind.is_bool) and byte.const is None:
            raise Refused(node.coord, f"memset of {kind!r} with a byte that isn't constant")
        to = to if to.is_stable() or not wanted else self.save(to)
        count = self.count_of(length, kind, node.coord, exact=True)
        if kind.is_integer and not kind.is_wide and not kind.is_bool:
            fill = self.low_bits(byte, 8)
            if kind.size > 1:
                fill = number((byte.const & 255) * (0x01010101 & (1 << 8 * kind.size) - 1), INT)
            self.emit(f"{self.unit.filler(kind, node.coord)}({to.text}, {count.text}, {fill.text});")
        elif byte.const != 0:
            raise Refused(node.coord, f"memset of {kind!r} with another byte than 0")
        else:
            self.emit(f"{self.unit.filler(kind, node.coord)}({to.text}, {count.text});")
        return to

    def call_memcmp(self, node, arguments, wanted):
        return self.on_bytes("port_memcmp", node, arguments, INT)

    def call_memchr(self, node, arguments, wanted):
        return self.on_bytes("port_memchr", node, arguments, None)

    def on_bytes(self, name, node, arguments, result):
        """A function of the library that looks at bytes."""
        values = self.ordered(*arguments)
        for value in values:
            if known(value.type).is_pointer:
                kind = known(self.elements(value, node.coord))
                if not self.unit.alike(kind, CHAR):
                    raise Refused(node.coord, f"{name[5:]} of {kind!r}")
        first = known(values[0].type)
        kept = result or Pointer(known(first.to))
        made = self.temporary_of(kept if result else Pointer(CHAR))
        texts = self.texts([self.convert_integer(it, UNSIGNED) if known(it.type).is_wide else it for it in values])
        self.emit(f"{made.text} = {self.unit.library_function(name)}({', '.join(texts)});")
        made.type = kept
        return made
