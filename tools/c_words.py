"""Operators on words and pointers, by docs/LANGUAGE.md. Nothing here is proved."""
from c_memory import NULL, Blame, is_pointer_value, target

WORDS = 2 ** 32


def signed(word):
    return word - WORDS if word >= WORDS // 2 else word


def is_true(value):
    return value is not NULL and value != 0


def fitting(value, text):
    if not -WORDS // 2 <= value < WORDS // 2:
        raise Blame("Overflow", f"{text} is {value}, which doesn't fit into an int")
    return value % WORDS


def before(op, unsigned, value):
    """A unary operator on a value."""
    if op == "!":
        return int(not is_true(value))
    if op == "+":
        return value
    if op == "~":
        return WORDS - 1 - value
    return -value % WORDS if unsigned else fitting(-signed(value), f"-({signed(value)})")


def between(op, unsigned, a, b):
    """An operator between two words."""
    if op in ("|", "^", "&"):
        return {"|": a | b, "^": a ^ b, "&": a & b}[op]
    if op in ("<<", ">>"):
        return shifted(op, unsigned, a, b)
    x, y = (a, b) if unsigned else (signed(a), signed(b))
    if op in ("==", "!=", "<", ">", "<=", ">="):
        return int({"==": x == y, "!=": x != y, "<": x < y, ">": x > y, "<=": x <= y, ">=": x >= y}[op])
    if op in ("/", "%"):
        if y == 0:
            raise Blame("ZeroDivisor", f"{x} {op} 0")
        quotient = abs(x) // abs(y) * (1 if (x < 0) == (y < 0) else -1)
        # an overflowing quotient is blamed for its remainder, too
        fits = quotient % WORDS if unsigned else fitting(quotient, f"{x} / {y}")
        return fits if op == "/" else (x - quotient * y) % WORDS
    value = {"+": x + y, "-": x - y, "*": x * y}[op]
    return value % WORDS if unsigned else fitting(value, f"{x} {op} {y}")


def shifted(op, unsigned, a, b):
    if b >= 32:
        raise Blame("BadShift", f"a shift by {b}, of a word of 32 bits")
    if op == ">>":
        return (a if unsigned else signed(a)) >> b if unsigned else (signed(a) >> b) % WORDS
    if unsigned:
        return a << b & WORDS - 1
    if signed(a) < 0:
        raise Blame("Overflow", f"{signed(a)} << {b}: a negative value is shifted to the left")
    return fitting(a << b, f"{a} << {b}")


def is_same(p, q):
    if p is NULL or q is NULL:
        return p is q
    if p[0] is q[0]:
        return p[1] == q[1]
    for block, index in (p, q):
        if block.ended is not None:
            raise Blame("Dangling", "", block, index)
        if index >= len(block.cells):
            raise Blame("BadPointer", "a pointer one past the end is compared with one into another block", block,
                        index)
    return False


def of_pointers(op, cells, left, right):
    """An operator between two pointers to elements of this many cells."""
    if op in ("==", "!="):
        return int(is_same(left, right) == (op == "=="))
    for value in (left, right):
        if not is_pointer_value(value):
            target(value)
    if left[0] is not right[0]:
        raise Blame("BadPointer", "the pointers go into different blocks", right[0], right[1])
    apart = left[1] - right[1]
    if op == "-":
        if apart % cells:
            raise Blame("BadPointer", "the difference is no whole number of elements", left[0], left[1])
        return apart // cells % WORDS
    return int({"<": apart < 0, ">": apart > 0, "<=": apart <= 0, ">=": apart >= 0}[op])
