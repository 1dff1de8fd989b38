#!/usr/bin/env python3
"""Checks that constant subexpressions cost nothing, on texts from seeds.

Each text has them in all places of expressions: in outputs, operands, conditions, indexes, arguments and results. Its
twin has for each the number that it comes to, as this tool computes it. For each text

- `meaning` isn't blamed and gives the twin's events, and `run` gives the same;
- `compile` writes the twin's image, byte for byte: so each operator on constants is gone from the code.

usage: bench/folding.py [--texts N] [--seed S] [--secomp PROGRAM] [--keep DIR]
"""
import collections
import subprocess
import sys
from concurrent.futures import ThreadPoolExecutor

sys.dont_write_bytecode = True
from outsider_texts import Draw
from seeds import arguments, keep

WORDS = 1 << 32
LEAST, MOST = -(1 << 31), (1 << 31) - 1
NUMBERS = """0 1 2 3 5 7 8 15 31 64 100 255 1000 32767 65536 2147483647 0x7f 017 0u 1u 3u 31u 2147483648u
0xffffffff""".split()
OPERATORS = "+ - * / % << >> & | ^ == != < > <= >=".split()
COMPARED = {"==": lambda a, b: a == b, "!=": lambda a, b: a != b, "<": lambda a, b: a < b, ">": lambda a, b: a > b,
            "<=": lambda a, b: a <= b, ">=": lambda a, b: a >= b}

# An expression of constants: its text, what it comes to, whether it is unsigned, and how many operators it has.
Folded = collections.namedtuple("Folded", "text value unsigned operators")


def literal(text):
    """A constant."""
    value = int(text.rstrip("u"), 16 if "x" in text else 8 if text.startswith("0") and text.strip("0u") else 10)
    return Folded(text, value, text.endswith("u") or value > MOST, 0)


def number(folded):
    """A value as text, of the same type."""
    if folded.unsigned:
        return "%du" % folded.value
    if folded.value == LEAST:
        return "(-2147483647 - 1)"
    return str(folded.value) if folded.value >= 0 else "(%d)" % folded.value


def toward_zero(left, right):
    """The quotient as C has it."""
    return abs(left) // abs(right) * (1 if (left < 0) == (right < 0) else -1)


def operated(op, left, right, unsigned):
    """What an operator gives for two values, or `None` where it is undefined."""
    if op in "/%" and right == 0:
        return None
    if op in ("<<", ">>"):
        if not 0 <= right < 32 or op == "<<" and left < 0:
            return None
        return left << right if op == "<<" else left >> right
    if op in COMPARED:
        return int(COMPARED[op](left, right))
    if op in "&|^":
        return {"&": left & right, "|": left | right, "^": left ^ right}[op]
    if op == "/":
        return toward_zero(left, right)
    if op == "%":
        quotient = toward_zero(left, right)
        return left - right * quotient if unsigned or LEAST <= quotient <= MOST else None
    return {"+": left + right, "-": left - right, "*": left * right}[op]


def binary(op, left, right):
    """Two constant expressions under an operator, or `None` where that is undefined."""
    shift = op in ("<<", ">>")
    unsigned = left.unsigned or right.unsigned and not shift
    first, second = (left.value % WORDS, right.value % WORDS) if unsigned and not shift else (left.value, right.value)
    value = operated(op, first, second, unsigned)
    if value is None or not unsigned and not LEAST <= value <= MOST:
        return None
    text = "(%s %s %s)" % (left.text, op, right.text)
    compared = op in COMPARED
    return Folded(text, value % WORDS if unsigned and not compared else value, unsigned and not compared,
                  left.operators + right.operators + 1)


def prefix(op, operand):
    """A constant expression under a prefix operator, or `None` where that is undefined."""
    value = {"-": -operand.value, "~": ~operand.value, "!": int(operand.value == 0)}[op]
    unsigned = operand.unsigned and op != "!"
    if not unsigned and not LEAST <= value <= MOST:
        return None
    return Folded("%s(%s)" % (op, operand.text), value % WORDS if unsigned else value, unsigned, operand.operators + 1)


class Maker:
    """Makes a text and its twin."""

    def __init__(self, seed):
        self.draw, self.operators = Draw(seed), 0
        self.lines, self.twin = [], []

    def constant(self, depth):
        """A defined expression of constants, with an operator at least where the depth isn't 0."""
        while depth > 0:
            left, right = self.constant(self.draw.below(depth)), self.constant(self.draw.below(depth))
            op = self.draw.pick(OPERATORS + ["-1", "~1", "!1"])
            made = prefix(op[0], left) if op.endswith("1") else binary(op, left, right)
            if made:
                return made
        return literal(self.draw.pick(NUMBERS))

    def small(self, below):
        """A constant expression that comes to a number from 0 to just below a power of two."""
        return binary("&", self.constant(1 + self.draw.below(3)), literal(str(below - 1)))

    def add(self, line, *constants):
        """Adds a line, with such expressions where it has `@`, and to the twin with their values."""
        parts = line.split("@")
        written, values = [each.text for each in constants], [number(each) for each in constants]
        for lines, words in ((self.lines, written), (self.twin, values)):
            lines.append(parts[0] + "".join(word + part for word, part in zip(words, parts[1:])))
        self.operators += sum(each.operators for each in constants)

    def statement(self):
        """A statement with a constant expression or two."""
        kind, some = self.draw.below(8), self.constant(1 + self.draw.below(4))
        if kind == 0:
            self.add("  output(@);", some)
        elif kind == 1:
            self.add("  x = (x ^ @) & @;", some, self.constant(2))
        elif kind == 2:
            self.add("  if (@) {\n    x = x ^ 1u;\n  } else {\n    x = x ^ @;\n  }", some, self.constant(2))
        elif kind == 3:
            self.add("  a[@] = @;\n  x = x ^ a[@];", self.small(8), some, self.small(8))
        elif kind == 4:
            self.add("  r = twice(@);\n  x = x ^ r;", some)
        elif kind == 5:
            self.add("  for (i = 0; i < @; i++) {\n    x = x + @;\n  }", self.small(16), some)
        elif kind == 6:
            self.add("  y = x;\n  x = y ^ @;", some)
        else:
            self.add("  y = x ^ @;", some)

    def texts(self):
        """The text and its twin."""
        self.add("#pragma compartment Main\n#pragma import Env output\n#pragma import Net mixed\nvoid output(int v);")
        self.add("int mixed(int v);\nunsigned a[8];\nint twice(int v) {\n  return (v & @) * @;\n}", self.small(256),
                 self.small(8))
        self.add("int main(void) {\n  unsigned i;\n  unsigned x = @;\n  unsigned y = 0;\n  int r;", self.constant(2))
        for _ in range(3 + self.draw.below(8)):
            self.statement()
        self.add("  r = mixed(@);\n  output(r);\n  output(x);\n  return @;\n}", self.constant(2), self.constant(2))
        self.add("#pragma compartment Net\n#pragma export mixed\nint mixed(int v) {\n  return (v ^ @) & @;\n}",
                 self.constant(3), self.constant(2))
        return "\n".join(self.lines) + "\n", "\n".join(self.twin) + "\n"


class Case:
    """A text with its twin, and what the program says of both."""

    def __init__(self, seed, program):
        maker = Maker(seed)
        self.seed, self.program = seed, program
        self.text, self.twin = maker.texts()
        self.operators = maker.operators

    def ran(self, text, *words):
        """The status and the output of a command."""
        run = subprocess.run([self.program, *words], input=text.encode(), capture_output=True, check=False)
        return run.returncode, run.stdout or run.stderr

    def check(self):
        """What is wrong."""
        meant, ran, image = self.ran(self.text, "meaning"), self.ran(self.text, "run"), self.ran(self.text, "compile")
        wrong = [] if self.operators else ["it has no operator on constants"]
        if meant[0] or not meant[1].endswith(b"stop ended\n"):
            wrong.append("meaning: " + meant[1].decode()[-80:].strip())
        wrong += [] if ran == meant else ["run gives something else"]
        wrong += [] if self.ran(self.twin, "meaning") == meant else ["the twin means something else"]
        wrong += [] if self.ran(self.twin, "compile") == image else ["the twin's image is another"]
        return wrong


def main():
    """Checks the texts of the seeds that the words name; the exit status."""
    words = arguments(__doc__, 300)
    operators, failed = 0, 0
    cases = [Case(seed, words.secomp) for seed in range(words.seed, words.seed + words.texts)]
    with ThreadPoolExecutor(2) as pool:
        for case, wrong in zip(cases, pool.map(Case.check, cases)):
            operators += case.operators
            if wrong:
                failed += 1
                print("seed %d: %s" % (case.seed, "; ".join(wrong)), flush=True)
                keep(words.keep, case)
    print("texts %d, operators on constants %d" % (words.texts, operators))
    print("%d passed, %d failed" % (words.texts - failed, failed))
    return 1 if failed else 0


if __name__ == "__main__":
    sys.exit(main())
