"""The tokens of a section, by docs/LANGUAGE.md, for the tools that read texts themselves. Nothing here is proved; what
is refused, `secomp check` says."""
import re
from collections import namedtuple

Token = namedtuple("Token", "kind text line column")
KEYWORDS = set("""auto break case char const continue default do double else enum extern float for goto if inline int
long register restrict return short signed sizeof static struct switch typedef union unsigned void volatile while
_Alignas _Alignof _Atomic _Bool _Complex _Generic _Imaginary _Noreturn _Static_assert _Thread_local malloc
free""".split())
TYPE_WORDS = {"int", "signed", "unsigned", "struct"}
MARKS = sorted("""+ - * / % << >> < > <= >= == != & ^ | && || ! ~ = += -= *= /= %= <<= >>= &= ^= |= ++ -- . -> ( ) [ ]
{ } , ;""".split(), key=len, reverse=True)
BLANKS, WORD = r"[ \t\r\v\f]+", r"[A-Za-z_]\w*"
PARTS = re.compile(rf"""(?P<blank>[ \t\n\r\v\f]+)|(?P<comment>/\*.*?\*/|//[^\n]*)
|(?P<directive>^\#pragma{BLANKS}(?:export{BLANKS}{WORD}|import{BLANKS}{WORD}{BLANKS}{WORD})[ \t\r\v\f]*$)
|(?P<number>(?:0[xX][0-9a-fA-F]+|0[0-7]*|[1-9][0-9]*)[uU]?(?![A-Za-z0-9_]))|(?P<name>[A-Za-z_][A-Za-z0-9_]*)
|(?P<mark>""" + "|".join(map(re.escape, MARKS)) + ")", re.X | re.S | re.M | re.A)


class Fault(Exception):
    """Why a text is refused: the phase, the line of the section, the column from 1, what to write instead, and the
    names that it is about."""

    def __init__(self, phase, line, column, text, names=()):
        super().__init__(text)
        self.phase, self.line, self.column, self.text, self.names = phase, line, column, text, names


def tokens(section):
    """The tokens of a section, without blanks and comments; the last one marks the end."""
    text = "\n".join(["", *section.lines[1:]])
    found, at, line, begin = [], 1, 2, 1
    while at < len(text):
        part = PARTS.match(text, at)
        if not part:
            raise Fault("lex", line, at - begin + 1, lex_reason(text[at:at + 20]))
        kind, said = part.lastgroup, part.group()
        check_token(kind, said, line, at - begin + 1)
        if kind not in ("blank", "comment"):
            found.append(Token("word" if kind == "name" and said in KEYWORDS else kind, said, line, at - begin + 1))
        if "\n" in said:
            line += said.count("\n")
            begin = at + said.rindex("\n") + 1
        at = part.end()
    found.append(Token("end", "", found[-1].line if found else line, at - begin + 1))
    return found


def check_token(kind, said, line, column):
    if kind == "name" and len(said) > 63:
        raise Fault("lex", line, column, "a name has at most 63 characters")
    if kind == "number":
        most = 4294967295 if said[-1] in "uU" or said[0] == "0" else 2147483647
        if value_of(said) > most:
            raise Fault("lex", line, column, f"{said} is too large: a decimal integer without u is at most "
                                             "2147483647, any "
                        "other at most 4294967295")


def value_of(number):
    digits = number.rstrip("uU")
    if digits[:2] in ("0x", "0X"):
        return int(digits[2:], 16)
    return int(digits, 8 if digits[0] == "0" else 10)


def lex_reason(rest):
    """What stands where no token can begin."""
    if rest[0] == "'":
        return "a character constant: write its number, as 65 for 'A'"
    if rest[0] == '"':
        return "a string: there are none; keep an array of int and fill it with numbers"
    if rest[0] == "#":
        return "no preprocessing: of directives there are #pragma compartment, export and import, in the first column"
    if rest[0] == "?":
        return "no ?: operator: write an if"
    if rest[0] == ":":
        return "no labels, no switch, no bit fields: a colon is no token"
    if re.match(r"[0-9]", rest):
        word = re.match(r"[0-9A-Za-z_.]+", rest).group()
        return f"{word} is no number of this language: suffixes are u; no binary or floating ones"
    return f"{rest[0]!r} is a character that stands in no token"
