"""Arithmetic on translated values: conversions, operators on one word, conditions. wide.py has long long."""
from .common import Refused
from .ctypes import (BOOL, INT, UNSIGNED, Function, Void, base_of, common, is_function_pointer, known, promoted,
                     size_of, unify)
from .values import (ATOM, BIT_AND, BIT_OR, BIT_XOR, EQUAL, LESS, POSTFIX, PREFIX, PRODUCT, SHIFT, SUM, Place, Value,
                     binary, number)

LEVELS = {"|": BIT_OR, "^": BIT_XOR, "&": BIT_AND, "==": EQUAL, "!=": EQUAL, "<": LESS, ">": LESS, "<=": LESS,
          ">=": LESS, "<<": SHIFT, ">>": SHIFT, "+": SUM, "-": SUM, "*": PRODUCT, "/": PRODUCT, "%": PRODUCT}
OPPOSITE = {"==": "!=", "!=": "=="}


def quotient(a, b):
    return abs(a) // abs(b) * (1 if (a < 0) == (b < 0) else -1)


def folded(sign, a, b, kind):
    """The result of an operator on two constants, or none where C doesn't define it."""
    if sign in ("/", "%") and b == 0 or sign in ("<<", ">>") and not 0 <= b < 8 * kind.size:
        return None
    value = {"+": lambda: a + b, "-": lambda: a - b, "*": lambda: a * b, "/": lambda: quotient(a, b),
             "%": lambda: a - quotient(a, b) * b, "&": lambda: a & b, "|": lambda: a | b, "^": lambda: a ^ b,
             "<<": lambda: a << b, ">>": lambda: a >> b, "==": lambda: int(a == b), "!=": lambda: int(a != b),
             "<": lambda: int(a < b), ">": lambda: int(a > b), "<=": lambda: int(a <= b),
             ">=": lambda: int(a >= b)}[sign]()
    if kind.signed and LEVELS[sign] in (SUM, PRODUCT, SHIFT) and not kind.least <= value <= kind.most:
        return None
    return value


class Arithmetic:
    """A part of the translator of a function's body; needs `emit`, `save`, `temporary` and those of wide.py."""

    def as_unsigned(self, value):
        if value.sign == "u":
            return value
        if value.const is not None:
            return number(value.const, UNSIGNED)
        return Value(f"{value.at(SUM)} + 0u", SUM, value.type, "u", raw=value.raw, bits=value.bits, span=value.span)

    def as_signed(self, value):
        if value.sign == "s":
            return value
        if value.const is not None:
            return number(value.const, INT)
        made = self.save(value, "int")
        made.type = value.type
        return made

    def truth(self, value):
        """A value as a condition: an int or a pointer comparison that is zero or not."""
        kind = known(value.type)
        if value.const is not None:
            return number(int(value.const != 0), INT)
        if value.low:
            return binary("|", BIT_OR, value.low, value.high)
        if kind.is_pointer and not is_function_pointer(kind):
            if value.base:
                return self.truth(value.base)
            if value.array:
                return number(1, INT)
            return Value(f"{value.at(EQUAL)} != 0", EQUAL, INT, "s", span=(0, 1))
        if value.raw:
            return Value(value.raw, ATOM if value.raw.isidentifier() else POSTFIX, INT, "s")
        return value

    def negation(self, value):
        if value.const is not None:
            return number(int(value.const == 0), INT)
        value = self.truth(value)
        if value.level == EQUAL and value.text.endswith(" != 0"):
            return Value(value.text[:-5] + " == 0", EQUAL, INT, "s", span=(0, 1))
        return Value(f"!{value.at(PREFIX)}", PREFIX, INT, "s", span=(0, 1))

    def zero_or_one(self, value):
        if value.span and 0 <= value.span[0] and value.span[1] <= 1:
            return value
        value = self.truth(value)
        if value.span and 0 <= value.span[0] and value.span[1] <= 1:
            return value
        return Value(f"{value.at(EQUAL)} != 0", EQUAL, INT, "s", span=(0, 1))

    def convert(self, value, kind, coord, explicit=False):
        """The value in another type, or a refusal."""
        kind, source = known(kind), known(value.type)
        if kind.is_struct and source is kind:
            return value
        if kind.is_integer and source.is_integer:
            return self.convert_integer(value, kind)
        if kind.is_pointer:
            return self.convert_pointer(value, kind, source, coord)
        if kind is BOOL and source.is_pointer:
            made = self.zero_or_one(value)
            made.type = BOOL
            return made
        if isinstance(kind, Void):
            return value
        raise Refused(coord, f"a conversion from {source!r} to {kind!r}")

    def convert_pointer(self, value, kind, source, coord):
        if value.const == 0:
            return Value("0", ATOM, kind, "s" if is_function_pointer(kind) else "p", 0)
        if not source.is_pointer:
            raise Refused(coord, f"a conversion from {source!r} to {kind!r}")
        if value.made and isinstance(known(source.to), Void):
            base = base_of(kind.to)[0]
            if value.made.bound is None and not isinstance(base, Void):
                value.made.bind(base)
        if not unify(source.to, kind.to):
            raise Refused(coord, f"a conversion from {source!r} to {kind!r}: their cells differ")
        made = self.copy_of(value)
        made.type = kind
        if made.reaches is not None and not isinstance(known(kind.to), Void):
            made.reaches = Place(made.reaches.text, made.reaches.level, known(kind.to), made.reaches.sign)
        return made

    def copy_of(self, value):
        made = Value(value.text, value.level, value.type, value.sign, value.const, value.raw, value.bits, value.span)
        made.low, made.high, made.fresh = value.low, value.high, value.fresh
        made.reaches, made.made, made.is_fixed, made.base = value.reaches, value.made, value.is_fixed, value.base
        return made

    def convert_integer(self, value, kind):
        source = known(value.type)
        if value.const is not None:
            return number(value.const, kind)
        if kind.is_wide or source.is_wide:
            return self.convert_wide(value, kind, source)
        if kind.is_bool:
            made = self.copy_of(self.zero_or_one(value))
        elif kind.size < 4 and not (value.span and kind.least <= value.span[0] and value.span[1] <= kind.most):
            made = self.narrowed(value, kind.bits, kind.signed)
        else:
            made = self.copy_of(value)
        made.type = kind
        if kind.size == 4 and made.span and made.span[0] < 0 and not kind.signed:
            made.span = None
        if kind.size == 4 and kind.signed and not source.signed and source.size == 4:
            made.span = value.span if value.span and value.span[1] <= kind.most else None
        return made

    def narrowed(self, value, bits, signed):
        """The low bits of a value, with their sign extended where they have one."""
        mask = (1 << bits) - 1
        raw = self.low_bits(value, bits)
        if not signed:
            return raw
        return self.extended(self.as_signed(raw) if raw.sign == "u" else raw, bits)

    def low_bits(self, value, bits):
        """The canonical bits that a cell of this width keeps."""
        mask = (1 << bits) - 1
        if bits >= 32:
            return value
        if value.const is not None:
            return number(value.const & mask, INT)
        if value.low:
            value = value.low
        if value.raw and value.bits <= bits and (value.bits == bits or value.span and value.span[0] >= 0):
            return Value(value.raw, ATOM if value.raw.isidentifier() else POSTFIX, INT, "s", span=(0, mask))
        if value.span and 0 <= value.span[0] and value.span[1] <= mask:
            return value
        text = value.raw if value.raw and value.bits >= bits else None
        kept = Value(text, POSTFIX, INT, "s") if text else value
        return binary("&", BIT_AND, kept, number(mask, INT), INT, kept.sign, (0, mask))

    def extended(self, raw, bits):
        half = 1 << bits - 1
        text = f"({raw.at(BIT_XOR)} ^ {half}) - {half}"
        return Value(text, SUM, INT, "s", raw=raw.text if raw.level >= POSTFIX else None, bits=bits,
                     span=(-half, half - 1))

    def load(self, place):
        """The value that a place holds."""
        kind = known(place.type)
        if kind.is_array:
            made = Value(place.text, place.level, self.pointer_to(kind.of), "p")
            made.array, made.is_fixed, made.base = kind, place.text.isidentifier(), place.base
            return made
        if kind.is_struct:
            return place
        if isinstance(kind, Function):
            return self.function_number(place, self.coord)
        if kind.is_wide:
            made = Value("?", ATOM, kind)
            made.low = Value(f"{place.at(POSTFIX)}.low", POSTFIX, UNSIGNED, "u")
            made.high = Value(f"{place.at(POSTFIX)}.high", POSTFIX, UNSIGNED, "u")
            return made
        if kind.is_pointer:
            return Value(place.text, place.level, kind, "s" if is_function_pointer(kind) else "p")
        bits = place.width if place.width is not None else kind.bits
        if bits >= 32:
            return Value(place.text, place.level, kind, place.sign)
        type_read = INT if place.width is not None and kind.size == 4 else kind
        if kind.signed:
            made = self.extended(Value(place.text, place.level, INT, "s"), bits)
            made.raw = place.text if place.level >= POSTFIX else f"({place.text})"
            made.bits = bits
            made.type = type_read
            return made
        made = Value(place.text, place.level, type_read, "s", span=(0, (1 << bits) - 1))
        return made

    def operate(self, sign, one, other, coord):
        """A binary operator on two values, in C's types."""
        if sign in ("==", "!=", "<", ">", "<=", ">=") and (known(one.type).is_pointer or known(other.type).is_pointer):
            return self.compare_pointers(sign, one, other, coord)
        if known(one.type).is_pointer or known(other.type).is_pointer:
            return self.move_pointer(sign, one, other, coord)
        for it in (one, other):
            if not known(it.type).is_integer:
                raise Refused(coord, f"{sign} on {known(it.type)!r}")
        shifts = sign in ("<<", ">>")
        kind = promoted(one.type) if shifts else common(one.type, other.type)
        if one.const is not None and other.const is not None:
            result = folded(sign, number(one.const, kind).const, other.const if shifts else
                            number(other.const, kind).const, kind)
            if result is not None:
                return number(result, INT if LEVELS[sign] in (EQUAL, LESS) else kind)
        if kind.is_wide:
            return self.operate_wide(sign, one, other, kind, coord)
        if shifts and known(other.type).is_wide:
            other = self.convert_integer(other, INT)
        one = self.convert_integer(one, kind)
        other = other if shifts else self.convert_integer(other, kind)
        return self.operate_words(sign, one, other, kind)

    def operate_words(self, sign, one, other, kind):
        level = LEVELS[sign]
        if level in (BIT_AND, BIT_OR, BIT_XOR):
            return binary(sign, level, one, other, kind, "u" if "u" in (one.sign, other.sign) else "s",
                          self.span_of_bits(sign, one, other))
        if sign in ("<<", ">>"):
            one = self.as_signed(one) if kind.signed else self.as_unsigned(one)
            return binary(sign, level, one, other, kind, one.sign, self.span_of_shift(sign, one, other))
        if level == EQUAL:
            if kind.size == 4 and one.raw and other.raw and one.bits == other.bits:
                one = Value(one.raw, POSTFIX, INT, "s")
                other = Value(other.raw, POSTFIX, INT, "s")
            return binary(sign, level, one, other, INT, "s", (0, 1))
        if kind.signed:
            one, other = self.as_signed_pair(one, other)
        elif one.sign != "u" and other.sign != "u":
            if one.const is not None or other.const is None:
                one = self.as_unsigned(one)
            else:
                other = self.as_unsigned(other)
        if level == LESS:
            return binary(sign, level, one, other, INT, "s", (0, 1))
        return binary(sign, level, one, other, kind, "s" if kind.signed else "u", self.span_of(sign, one, other, kind))

    def as_signed_pair(self, one, other):
        if other.sign == "u" and other.const is None and not one.is_stable() and one.sign == "s":
            return one, self.as_signed(other)
        return self.as_signed(one), self.as_signed(other)

    @staticmethod
    def span_of_bits(sign, one, other):
        tops = [it.span[1] for it in (one, other) if it.span and it.span[0] >= 0]
        if sign == "&" and tops:
            return 0, min(tops)
        if len(tops) == 2:
            return 0, (1 << max(tops).bit_length()) - 1
        return None

    @staticmethod
    def span_of_shift(sign, one, other):
        if sign == ">>" and one.span and one.span[0] >= 0:
            return 0, one.span[1] >> (other.const if other.const is not None and 0 <= other.const < 32 else 0)
        return None

    @staticmethod
    def span_of(sign, one, other, kind):
        if sign in "+-*" and one.span and other.span:
            ends = [folded(sign, a, b, kind) for a in one.span for b in other.span]
            if all(it is not None and kind.least <= it <= kind.most for it in ends):
                return min(ends), max(ends)
        if sign == "%" and other.const and one.span and one.span[0] >= 0:
            return 0, abs(other.const) - 1
        if sign == "/" and other.const and other.const > 0 and one.span and one.span[0] >= 0:
            return 0, one.span[1] // other.const
        return None

    def compare_pointers(self, sign, one, other, coord):
        for this, that in ((one, other), (other, one)):
            if that.const == 0 and known(that.type).is_integer or that.const == 0 and that.text == "0":
                if this.base:
                    return self.compare_pointers(sign, this.base, number(0, INT), coord)
                if this.array or this.reaches:
                    if sign in OPPOSITE:
                        return number(int(sign == "!="), INT)
                return Value(f"{this.at(EQUAL)} {sign} 0", EQUAL, INT, "s", span=(0, 1))
        if not (known(one.type).is_pointer and known(other.type).is_pointer):
            raise Refused(coord, "a comparison of a pointer with an integer")
        if not unify(known(one.type).to, known(other.type).to):
            raise Refused(coord, f"a comparison of {one.type!r} with {other.type!r}")
        return binary(sign, LEVELS[sign], one, other, INT, "s", (0, 1))

    def move_pointer(self, sign, one, other, coord):
        """Pointer arithmetic. A pointer to an array counts its elements."""
        if sign == "+" and known(other.type).is_pointer:
            one, other = other, one
        kind = known(one.type)
        if sign not in "+-" or not kind.is_pointer or is_function_pointer(kind):
            raise Refused(coord, f"{sign} on a pointer")
        base, count = base_of(kind.to)
        if isinstance(base, Void):
            if base is self.unit.void or self.unit.is_last and not unify(base, self.unit.char):
                raise Refused(coord, "arithmetic on a void pointer")
        elif isinstance(kind.to, Void) and size_of(base, coord) != 1:
            raise Refused(coord, f"arithmetic on a void pointer to {base!r}")
        if known(other.type).is_pointer:
            if sign != "-" or not unify(kind.to, known(other.type).to):
                raise Refused(coord, f"{sign} on pointers to different types")
            made = binary("-", SUM, one, other, INT, "s")
            return made if count == 1 else binary("/", PRODUCT, made, number(count, INT), INT, "s")
        index = other.low if other.low else other
        if index.const is not None and sign == "+" and index.const * count == 0:
            return self.copy_of(one)
        if count != 1:
            index = self.operate_words("*", index, number(count, INT), INT) if index.const is None else \
                number(index.const * count, INT)
        if index.const is not None and index.const < 0:
            sign, index = "-" if sign == "+" else "+", number(-index.const, INT)
        return Value(f"{one.at(SUM)} {sign} {index.at(SUM + 1)}", SUM, kind, "p")
