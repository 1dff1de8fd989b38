"""`long long` as two words. Sums and differences are written out; products, quotients and shifts by a variable count
call the functions of library/wide.c. What overflows wraps: no blame comes of it."""
from .ctypes import INT, UNSIGNED, promoted
from .values import (AND, ATOM, BIT_AND, BIT_OR, BIT_XOR, EQUAL, LESS, OR, PREFIX, SHIFT, SUM, Value, binary, number,
                     prefix)

BITWISE = {"&": BIT_AND, "|": BIT_OR, "^": BIT_XOR}
CALLED = {"*": "multiply", "/": "divide", "%": "remainder"}


def pair(low, high, kind):
    made = Value("?", ATOM, kind)
    made.low, made.high = low, high
    made.fresh = False
    return made


class Wide:
    """A part of the translator of a function's body."""

    def convert_wide(self, value, kind, source):
        if kind.is_wide:
            if value.low:
                return pair(value.low, value.high, kind)
            return self.widened(value, kind, source)
        if kind.is_bool:
            made = binary("!=", EQUAL, binary("|", BIT_OR, value.low, value.high), number(0, INT), kind, "s", (0, 1))
            return made
        low = Value(value.low.text, value.low.level, UNSIGNED, "u", value.low.const, span=value.low.span)
        return self.convert_integer(low, kind)

    def widened(self, value, kind, source):
        """A word as a long long, by its own sign."""
        wide = promoted(source)
        if not wide.signed or value.span and value.span[0] >= 0:
            return pair(self.as_unsigned(value), number(0, UNSIGNED), kind)
        kept = value if value.is_stable() else self.save(value)
        kept = self.as_signed(kept)
        negative = binary("<", LESS, kept, number(0, INT))
        return pair(self.as_unsigned(kept), binary("-", SUM, number(0, UNSIGNED), negative, UNSIGNED, "u"), kind)

    def kept(self, value):
        """Both words in temporaries or constants, so that they can stand more than once."""
        if value.const is not None:
            return number(value.const, value.type)
        low = value.low if value.low.is_stable() else self.save(value.low, "unsigned int")
        high = value.high if value.high.is_stable() else self.save(value.high, "unsigned int")
        return pair(low, high, value.type)

    def operate_wide(self, sign, one, other, kind, coord):
        one = self.kept(self.convert_integer(one, kind))
        if sign in ("<<", ">>"):
            return self.shift_wide(sign, one, other, kind)
        other = self.kept(self.convert_integer(other, kind))
        if sign in BITWISE:
            level = BITWISE[sign]
            return pair(binary(sign, level, one.low, other.low, UNSIGNED, "u"),
                        binary(sign, level, one.high, other.high, UNSIGNED, "u"), kind)
        if sign in ("==", "!="):
            joined = "&&" if sign == "==" else "||"
            return binary(joined, AND if sign == "==" else OR, binary(sign, EQUAL, one.low, other.low),
                          binary(sign, EQUAL, one.high, other.high), INT, "s", (0, 1))
        if sign in ("<", ">", "<=", ">="):
            return self.order_wide(sign, one, other, kind)
        if sign == "+":
            low = self.save(binary("+", SUM, one.low, other.low, UNSIGNED, "u"), "unsigned int")
            carry = binary("<", LESS, low, one.low)
            return pair(low, binary("+", SUM, binary("+", SUM, one.high, other.high, UNSIGNED, "u"), carry,
                                    UNSIGNED, "u"), kind)
        if sign == "-":
            borrow = binary("<", LESS, one.low, other.low)
            return pair(binary("-", SUM, one.low, other.low, UNSIGNED, "u"),
                        binary("-", SUM, binary("-", SUM, one.high, other.high, UNSIGNED, "u"), borrow,
                               UNSIGNED, "u"), kind)
        name = "port_" + CALLED[sign] + ("_signed" if kind.signed and sign != "*" else "")
        return self.call_wide(name, [one.low, one.high, other.low, other.high], kind)

    def call_wide(self, name, words, kind):
        """A call of a function of the library whose high word stands in port_high afterwards."""
        low = self.temporary("unsigned int")
        self.emit(f"{low.text} = {self.unit.library_function(name)}({', '.join(it.text for it in words)});")
        high = self.save(Value(self.unit.library_variable("port_high"), ATOM, UNSIGNED, "u"), "unsigned int")
        return pair(low, high, kind)

    def order_wide(self, sign, one, other, kind):
        if sign in (">", "<="):
            one, other = other, one
        above = [one.high, other.high]
        if kind.signed:
            above = [number(it.const - (1 << 32) * (it.const >> 31), INT) if it.const is not None else
                     self.as_signed(it) for it in above]
        less = binary("<", LESS, *above)
        same = binary("==", EQUAL, one.high, other.high)
        low = binary("<", LESS, one.low, other.low)
        result = binary("||", OR, less, binary("&&", AND, same, low), INT, "s", (0, 1))
        if sign in ("<=", ">="):
            return Value(f"!({result.text})", PREFIX, INT, "s", span=(0, 1))
        return result

    def shift_wide(self, sign, one, count, kind):
        if count.low:
            count = Value(count.low.text, count.low.level, UNSIGNED, "u", count.low.const)
        if count.const is not None and 0 <= count.const < 64:
            return self.shift_by(sign, one, count.const, kind)
        name = "port_left" if sign == "<<" else "port_right_signed" if kind.signed else "port_right"
        return self.call_wide(name, [one.low, one.high, count], kind)

    def shift_by(self, sign, one, count, kind):
        if count == 0:
            return pair(one.low, one.high, kind)

        def moved(word, way, by):
            return binary(way, SHIFT, word, number(by, INT), UNSIGNED, word.sign) if by else word
        zero = number(0, UNSIGNED)
        if sign == "<<":
            if count >= 32:
                return pair(zero, moved(one.low, "<<", count - 32), kind)
            return pair(moved(one.low, "<<", count), binary("|", BIT_OR, moved(one.high, "<<", count),
                                                            moved(one.low, ">>", 32 - count), UNSIGNED, "u"), kind)
        top = zero
        high = one.high
        if kind.signed:
            high = self.as_signed(one.high)
            top = binary("-", SUM, zero, binary("<", LESS, high, number(0, INT)), UNSIGNED, "u")
        if count >= 32:
            return pair(self.as_unsigned(moved(high, ">>", count - 32)), top, kind)
        return pair(binary("|", BIT_OR, moved(one.low, ">>", count), moved(one.high, "<<", 32 - count), UNSIGNED, "u"),
                    self.as_unsigned(moved(high, ">>", count)), kind)

    def negated_wide(self, value, kind):
        return self.operate_wide("-", number(0, kind), value, kind, None)

    def inverted_wide(self, value, kind):
        value = self.convert_integer(value, kind)
        return pair(prefix("~", value.low, UNSIGNED, "u"), prefix("~", value.high, UNSIGNED, "u"), kind)
