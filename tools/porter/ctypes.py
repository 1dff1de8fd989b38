"""C's types with the sizes of ILP32, and how each is kept in cells of the target language.

Every integer of at most 32 bits takes one cell, of type `int` wherever a pointer can reach it. A `long long` is a
structure of two cells. An array of arrays is one array. A pointer to a function is a number.
"""
from .common import Refused


class Type:
    is_integer = is_pointer = is_struct = is_array = is_wide = False


class Integer(Type):
    is_integer = True

    def __init__(self, name, size, signed, is_bool=False):
        self.name, self.size, self.signed, self.is_bool = name, size, signed, is_bool
        self.is_wide = size == 8
        self.bits = 1 if is_bool else 8 * size
        self.least = -(1 << self.bits - 1) if signed else 0
        self.most = (1 << self.bits - signed) - 1

    def __repr__(self):
        return self.name


CHAR, SCHAR, UCHAR = Integer("char", 1, True), Integer("signed char", 1, True), Integer("unsigned char", 1, False)
SHORT, USHORT = Integer("short", 2, True), Integer("unsigned short", 2, False)
INT, UNSIGNED = Integer("int", 4, True), Integer("unsigned int", 4, False)
LONG, ULONG = Integer("long", 4, True), Integer("unsigned long", 4, False)
WIDE, UWIDE = Integer("long long", 8, True), Integer("unsigned long long", 8, False)
BOOL = Integer("_Bool", 1, False, True)
BY_WORDS = {}
for _type, _spellings in {
        CHAR: "char", SCHAR: "char signed", UCHAR: "char unsigned",
        SHORT: "short;int short;short signed;int short signed", USHORT: "short unsigned;int short unsigned",
        INT: "int;signed;int signed", UNSIGNED: "unsigned;int unsigned",
        LONG: "long;int long;long signed;int long signed", ULONG: "long unsigned;int long unsigned",
        WIDE: "long long;int long long;long long signed;int long long signed",
        UWIDE: "long long unsigned;int long long unsigned", BOOL: "_Bool"}.items():
    for _spelling in _spellings.split(";"):
        BY_WORDS[_spelling] = _type


class Void(Type):
    """`void`. Behind a pointer it stands for one type, which is found by the pointers that are converted to it."""

    found = 0

    def __init__(self):
        self.bound = None

    def bind(self, kind):
        self.bound = kind
        Void.found += 1

    def __repr__(self):
        return repr(self.bound) if self.bound else "void"


VOID = Void()


class Pointer(Type):
    is_pointer = True
    size = 4

    def __init__(self, to):
        self.to = to

    def __repr__(self):
        return f"pointer to {self.to!r}"


class Array(Type):
    is_array = True

    def __init__(self, of, count):
        self.of, self.count = of, count

    def __repr__(self):
        return f"array of {self.of!r}"


class Function(Type):
    def __init__(self, result, parameters, variadic=False):
        self.result, self.parameters, self.variadic = result, parameters, variadic

    def __repr__(self):
        return "function"


class Member:
    def __init__(self, name, kind, width=None):
        self.name, self.type, self.width, self.target, self.offset = name, kind, width, name, 0


class Struct(Type):
    is_struct = True

    def __init__(self, tag):
        self.tag, self.members, self.defined_at, self.target, self.coord = tag, None, None, None, None
        self.group, self.is_union, self.is_packed, self.seen = self, False, False, None

    def kept(self):
        """The members that take cells: of a union the one that the program uses."""
        named = [it for it in self.members if it.name]
        return [self.seen or named[0]] if self.is_union and named else named

    def member(self, name):
        return next((it for it in self.members or () if it.name == name), None)

    def __repr__(self):
        return f"struct {self.tag}"


def known(kind):
    """The type that stands for this one: what a `void` behind a pointer was found to be."""
    while isinstance(kind, Void) and kind.bound is not None:
        kind = kind.bound
    return kind


def size_of(kind, coord):
    kind = known(kind)
    if kind.is_array:
        if kind.count is None:
            raise Refused(coord, "the size of an array without a length")
        return kind.count * size_of(kind.of, coord)
    if kind.is_struct:
        return layout(kind, coord)[0]
    if isinstance(kind, (Function, Void)):
        raise Refused(coord, f"the size of {kind!r}")
    return kind.size


def align_of(kind, coord):
    kind = known(kind)
    if kind.is_array:
        return align_of(kind.of, coord)
    return layout(kind, coord)[1] if kind.is_struct else kind.size


def layout(struct, coord):
    """Size and alignment of a structure by the rules of the RISC-V and System V ABIs; the members get offsets."""
    if struct.members is None:
        raise Refused(coord, f"the size of the incomplete {struct!r}")
    at, most = 0, 1
    if struct.is_union:
        most = 1 if struct.is_packed else max(align_of(it.type, coord) for it in struct.members)
        size = max(size_of(it.type, coord) for it in struct.members)
        return (size + most - 1) // most * most, most
    for it in struct.members:
        align = 1 if struct.is_packed else align_of(it.type, coord)
        if it.width is None:
            at = (at + 8 * align - 1) // (8 * align) * 8 * align
            it.offset = at // 8
            at += 8 * size_of(it.type, coord)
        else:
            unit = 8 * it.type.size
            if it.width == 0 or not struct.is_packed and at // unit != (at + it.width - 1) // unit:
                at = (at + unit - 1) // unit * unit
            at += it.width
        if it.name or it.width is None:
            most = max(most, align)
    return (at + 8 * most - 1) // (8 * most) * most, most


def base_of(kind):
    """The elements of an array of arrays, and how many: of any other type itself, once."""
    kind, count = known(kind), 1
    while kind.is_array:
        count *= kind.count or 1
        kind = known(kind.of)
    return kind, count


def cells_of(kind):
    """How many cells an object of this type takes."""
    kind, count = base_of(kind)
    if kind.is_struct:
        return count * sum(cells_of(it.type) for it in kind.kept()) if kind.members is not None else count
    return 2 * count if kind.is_wide else count


def target_of(kind):
    """How the target language spells the type of one element that is kept in memory."""
    kind, _ = base_of(kind)
    if kind.is_struct:
        return f"struct {kind.group.target}" if kind.members is not None else "int"
    if kind.is_wide:
        return "struct wide_word"
    if kind.is_pointer and not isinstance(known(kind.to), Function):
        return f"{target_of(kind.to)} *".replace("* *", "**")
    return "int"


def target_of_value(kind):
    """How the target language spells the type of a variable that no pointer reaches."""
    return "unsigned int" if kind.is_integer and kind.size == 4 and not kind.signed else target_of(kind)


def is_function_pointer(kind):
    return kind.is_pointer and isinstance(known(kind.to), Function)


def is_within(void, kind):
    kind = known(kind)
    while kind.is_pointer or kind.is_array:
        kind = known(kind.to if kind.is_pointer else kind.of)
    return kind is void


def unify(one, other):
    """Whether values behind these two pointers are kept alike; a `void` takes the type of the other side."""
    one, other = known(one), known(other)
    if one is other:
        return True
    for this, that in ((one, other), (other, one)):
        if isinstance(this, Void):
            if this is VOID or isinstance(that, Function):
                return False
            base, _ = base_of(that)
            if base is not this:
                if is_within(this, base):
                    return False
                this.bind(base)
            return True
    (one, _), (other, _) = base_of(one), base_of(other)
    if isinstance(one, Void) or isinstance(other, Void):
        return unify(one, other)
    if one.is_integer and other.is_integer:
        return one.size == other.size and one.is_bool == other.is_bool
    if one.is_pointer and other.is_pointer:
        if is_function_pointer(one) or is_function_pointer(other):
            return is_function_pointer(one) and is_function_pointer(other)
        return unify(one.to, other.to)
    if isinstance(one, Function) and isinstance(other, Function):
        return True
    return False


def promoted(kind):
    """The type that an operand has after the integer promotions."""
    return INT if kind.size < 4 else kind


RANKS = {"int": 1, "unsigned int": 1, "long": 2, "unsigned long": 2, "long long": 3, "unsigned long long": 3}


def common(one, other):
    """The type of an arithmetic result (C11 6.3.1.8)."""
    one, other = promoted(one), promoted(other)
    if one.name == other.name:
        return one
    if one.signed == other.signed:
        return one if RANKS[one.name] >= RANKS[other.name] else other
    plus, minus = (other, one) if one.signed else (one, other)
    if RANKS[plus.name] >= RANKS[minus.name]:
        return plus
    if minus.size > plus.size:
        return minus
    return {"int": UNSIGNED, "long": ULONG, "long long": UWIDE}[minus.name]
