"""Constants of C: numbers, characters and strings."""
import re

from .common import Refused
from .ctypes import INT, LONG, ULONG, UNSIGNED, UWIDE, WIDE

ESCAPES = {"n": 10, "t": 9, "r": 13, "0": 0, "a": 7, "b": 8, "f": 12, "v": 11, "\\": 92, "'": 39, '"': 34, "?": 63,
           "e": 27}
PIECE = re.compile(r"\\x([0-9a-fA-F]+)|\\([0-7]{1,3})|\\(.)|([^\\])", re.S)


def bytes_of(text, coord):
    found = []
    for part in PIECE.finditer(text):
        if part.group(1):
            found.append(int(part.group(1), 16) & 255)
        elif part.group(2):
            found.append(int(part.group(2), 8) & 255)
        elif part.group(3):
            if part.group(3) not in ESCAPES:
                raise Refused(coord, f"the escape \\{part.group(3)}")
            found.append(ESCAPES[part.group(3)])
        else:
            found.append(ord(part.group(4)))
    return found


def string_values(text, coord):
    """The bytes of a string with its end; pycparser joins neighbours into one."""
    if not text.startswith('"'):
        raise Refused(coord, "a wide string")
    return [*bytes_of(text[1:-1], coord), 0]


def constant(node):
    """The value and the type of a number or a character."""
    if node.type == "char":
        if not node.value.startswith("'"):
            raise Refused(node.coord, "a wide character")
        values = bytes_of(node.value[1:-1], node.coord)
        if len(values) != 1:
            raise Refused(node.coord, "a constant of several characters")
        return values[0] - 256 * (values[0] > 127), INT
    if not node.type.endswith("int"):
        raise Refused(node.coord, f"a constant of type {node.type}")
    digits = node.value.rstrip("uUlL")
    suffix = node.value[len(digits):].lower()
    if digits.lower().startswith("0b"):
        value = int(digits, 2)
    elif digits.startswith("0") and digits.isdigit() and len(digits) > 1:
        value = int(digits, 8)
    else:
        value = int(digits, 0)
    return value, type_of_number(value, suffix, digits.startswith("0") and digits != "0", node.coord)


def type_of_number(value, suffix, is_octal_or_hex, coord):
    """C11 6.4.4.1, with a long of 32 bits."""
    order = [INT, UNSIGNED, LONG, ULONG, WIDE, UWIDE]
    if "l" in suffix:
        order = order[4:] if "ll" in suffix else order[2:]
    for kind in order:
        if "u" in suffix and kind.signed or "u" not in suffix and not kind.signed and not is_octal_or_hex:
            continue
        if value <= kind.most:
            return kind
    raise Refused(coord, "a number that fits no type")
