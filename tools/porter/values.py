"""Values and places of a translated expression: texts of the target language without effects, with their C types.

`sign` says what the text is for the target: `s` an int, `u` an unsigned int, `p` a pointer. It may differ from the C
type, since every integer that a pointer can reach is kept in an int: `as_unsigned` and `as_signed` in arithmetic.py
mend that where it matters.
"""
from .ctypes import INT, UNSIGNED

OR, AND, BIT_OR, BIT_XOR, BIT_AND, EQUAL, LESS, SHIFT, SUM, PRODUCT, PREFIX, POSTFIX, ATOM = range(1, 14)


class Value:
    """One word, or with `low` and `high` a long long. `raw` is the text of a narrow cell that was loaded, before its
    sign was extended, and `bits` how many bits it has. `span` are the least and the greatest number that it can be."""

    def __init__(self, text, level, kind, sign="s", const=None, raw=None, bits=0, span=None):
        self.text, self.level, self.type, self.sign, self.const = text, level, kind, sign, const
        self.raw, self.bits, self.low, self.high, self.fresh = raw, bits, None, None, False
        self.array, self.reaches, self.made, self.is_fixed, self.base = None, None, None, False, None
        self.span = (const, const) if const is not None else span

    def at(self, level):
        """The text, in parentheses where it binds looser than this level."""
        return self.text if self.level >= level else f"({self.text})"

    def is_stable(self):
        """Whether no later statement can change what the text means."""
        if self.low:
            return self.low.is_stable() and self.high.is_stable()
        return self.const is not None or self.fresh or self.is_fixed


class Place:
    """What can be assigned. `sign` is that of its variable; `width` the bits of a bit field; of an array, `text` is the
    pointer to its first element. `base` is the pointer to a structure of which this is the first member."""

    def __init__(self, text, level, kind, sign="s", width=None):
        self.text, self.level, self.type, self.sign, self.width, self.base = text, level, kind, sign, width, None

    def at(self, level):
        return self.text if self.level >= level else f"({self.text})"


def number(value, kind):
    """A constant of a type, wrapped to it."""
    if kind.is_bool:
        value = int(value != 0)
    else:
        value &= (1 << 8 * kind.size) - 1
        if kind.signed and value > kind.most:
            value -= 1 << 8 * kind.size
    if kind.is_wide:
        made = Value("?", ATOM, kind, "s", value)
        made.low, made.high = number(value & 0xffffffff, UNSIGNED), number(value >> 32 & 0xffffffff, UNSIGNED)
        return made
    if kind.size == 4 and not kind.signed:
        return Value(f"{value}u", ATOM, kind, "u", value)
    if value == -(1 << 31):
        return Value("-2147483647 - 1", SUM, kind, "s", value)
    return Value(str(value), ATOM if value >= 0 else PREFIX, kind, "s", value)


def binary(sign, level, one, other, kind=INT, result="s", span=None):
    return Value(f"{one.at(level)} {sign} {other.at(level + 1)}", level, kind, result, span=span)


def prefix(sign, value, kind, result):
    text = value.at(PREFIX)
    space = " " if text[0] == sign and sign in "-&" else ""
    return Value(f"{sign}{space}{text}", PREFIX, kind, result)
