#!/usr/bin/env python3
"""Checks what `secomp explain --trapped` says of who stopped the machine, on programs that trap after their last event.

Each program of a seed has one to three compartments. They emit events, call one another and have faults: some go
unnoticed by the machine, so that the chain replaces a section, and most programs have one after their last event that
the machine traps at: a store through null, through a pointer without a value, far past an array or past a block of the
heap, a block that is freed twice, a recursion without end, or an overflow before one of these. In half of the programs
a compartment gets random machine code, and the image stands before the text. Then, where the machine traps:

- the number of steps up to the trap is found by `run` or `exec` with ever other limits;
- the active compartment is found from the trace;
- where it is given or replaced, the line says so;
- else `meaning` of the last text with as many turns as steps, and with one event more than the trace, is blamed on the
  active compartment after the whole trace, for the cause and at the line that the report has; or it isn't blamed there,
  and the line says that the stack is full.

Where the machine doesn't trap there is no line; and without the flag the report is the same but for the line.

usage: bench/trapped.py [--texts N] [--seed S] [--secomp PROGRAM] [--keep DIR]
"""
import collections
import random
import re
import subprocess
import sys
from concurrent.futures import ThreadPoolExecutor

sys.dont_write_bytecode = True
from given import GIVEN, Image, code_start, drawn_code
from seeds import arguments, keep

STEPS = 1000000
LINK = re.compile(r"replace (\w+) after \d+ \w+ line \d+")
NAMES = ["Main", "Left", "Right"]
# Faults that the machine mostly traps at, as the lines of a function.
LOUD = {
    "null": ["p = 0;", "*p = n;"],
    "no value": ["*q = n;"],
    "far": ["i = n + 100000000;", "a[i] = 1;"],
    "before": ["i = n - 100000000;", "i = a[i];"],
    "stack": ["i = deep(n);"],
    "overflow, then null": ["i = 2147483647;", "i = i + 1;", "p = 0;", "*p = i;"],
    "large frames, then null": ["i = sink(n, 60);"],
    "division, then far": ["i = n / (n - n);", "i = 300000000;", "a[i] = 1;"],
    "past a block": ["q = malloc(4 * sizeof(int));", "i = n + 100000000;", "q[i] = n;"],
    "freed twice": ["q = malloc(4 * sizeof(int));", "free(q);", "free(q);"],
}
# Faults that the machine passes over.
QUIET = [["i = 5;", "a[i] = n;"], ["i = 2147483647;", "i = i + n;", "b[1] = i;"], ["i = n / (n - n);", "b[0] = i;"]]


class Program:
    """The text of a seed."""

    def __init__(self, draw):
        self.draw, self.count = draw, draw.choice([1, 2, 2, 3, 3])
        self.fault = draw.choice(sorted(LOUD) + ["none"])
        self.place = draw.randrange(self.count)

    def text(self):
        """All sections, Main first."""
        return "".join(self.section(number) for number in range(self.count))

    def section(self, number):
        """A section: it calls the next one, and one of them has the fault after its last event."""
        name, following = NAMES[number], number + 1 < self.count
        lines = ["#pragma compartment " + name]
        lines += [] if number == 0 else ["#pragma export work%d" % number]
        lines += ["#pragma import %s work%d" % (NAMES[number + 1], number + 1)] if following else []
        lines += ["#pragma import Env output"]
        lines += ["int work%d(int n);" % (number + 1)] if following else []
        lines += ["void output(int v);", "int a[4];", "int b[4];"]
        lines += ["int deep(int n) {", "  int i;", "  int x[%d];" % self.draw.choice([10, 300, 1000]), "  x[0] = n;",
                  "  i = deep(x[0]);", "  return i + x[0];", "}"]
        lines += ["int sink(int n, int left) {", "  int i;", "  int *p;", "  int x[300];", "  x[0] = n;",
                  "  if (left == 0) {", "    p = 0;", "    *p = n;", "  }", "  i = sink(n, left - 1);",
                  "  return i + x[0];", "}"]
        return "\n".join(lines + self.function(number, following)) + "\n"

    def function(self, number, following):
        """The function that runs: quiet faults, events, the call of the next compartment, and the fault."""
        head = "int main(void) {" if number == 0 else "int work%d(int n) {" % number
        body = ["int i;", "int *p;", "int *q;"]
        body += ["int n;", "n = %d;" % self.draw.choice([1, 2, 7])] if number == 0 else []
        before = [["output(%d);" % self.draw.randrange(9)] for _ in range(self.draw.randrange(3))]
        before += [self.draw.choice(QUIET)] if self.draw.random() < 0.3 else []
        self.draw.shuffle(before)
        calls = [["n = work%d(n);" % (number + 1)]] if following else []
        faulty = [LOUD[self.fault]] if number == self.place and self.fault != "none" else []
        early = faulty and following and self.draw.random() < 0.2
        after = [["output(%d);" % self.draw.randrange(9)]] if self.draw.random() < 0.4 else []
        parts = before + (faulty + calls + after if early else calls + after + faulty)
        body += [line for part in parts for line in part] + ["return 0;"]
        return [head] + ["  " + line for line in body] + ["}"]


class Case:
    """A program, perhaps with an image of which a compartment is given, with what the program says of it."""

    def __init__(self, seed, program):
        self.seed, self.program, self.draw = seed, program, random.Random(seed)
        self.maker = Program(self.draw)
        self.text = self.maker.text()
        self.image, self.words = b"", []

    def run(self, data, *words):
        """The status, and what a command writes for an input."""
        ran = subprocess.run([self.program, *words], input=data, capture_output=True, check=False)
        return ran.returncode, (ran.stdout if ran.returncode == 0 else ran.stderr).decode("latin1")

    def give(self):
        """Gives one compartment of the image other code."""
        image = Image(subprocess.run([self.program, "compile"], input=self.text.encode(), capture_output=True,
                                     check=True).stdout)
        number = self.draw.randrange(len(image.comps))
        image.comps[number]["code"] = drawn_code(self.draw, image, number)
        if number == image.main:
            image.entry = code_start(number)
        self.image, self.words = image.written(), ["--image"]

    def explain(self, *words):
        """What `explain` writes, as lines."""
        status, out = self.run(self.image + self.text.encode(), "explain", *self.words, *words)
        return out if status == 0 else "status %d: %s" % (status, out)

    def stop(self, steps):
        """Why the machine stops within so many steps."""
        data, command = (self.image, "exec") if self.image else (self.text.encode(), "run")
        return self.run(data, command, "--steps", str(steps))[1].splitlines()[-1]

    def steps_to_trap(self):
        """The least number of steps after which the machine stands trapped."""
        low, high = 0, STEPS
        while high - low > 1:
            middle = (low + high) // 2
            low, high = (middle, high) if self.stop(middle) == "stop steps" else (low, middle)
        return high

    def expected(self, trace, performing, last):
        """The line that tells who stopped the machine."""
        active = "Main"
        for words in map(str.split, trace):
            active = words[2] if words[0] in ("call", "ret") else active
        if active in performing:
            return "trapped %s replaced" % active
        limits = ["--turns", str(self.steps_to_trap()), "--events", str(len(trace) + 1)]
        _, out = self.run(last.encode(), "meaning", *limits)
        *events, stop = out.splitlines()
        if stop.startswith("stop blamed " + active + " ") and events == trace:
            return "trapped %s %s line %s" % tuple(stop.split()[2:5])
        return "trapped %s stack" % active

    def check(self):
        """What is wrong, and how the line ends, or why there is none."""
        if self.draw.random() < 0.5:
            self.give()
        report, plain = self.explain("--trapped"), self.explain()
        if plain.startswith("status"):
            return [plain], "refused"
        lines = plain.splitlines()
        at = next(number for number, line in enumerate(lines) if line.startswith("stop "))
        if not lines[at].startswith("stop trap"):
            return ([] if report == plain else ["a line without a trap"]), lines[at]
        told = report[len(plain):].rstrip("\n")
        performing = [line.split()[1] for line in lines[at + 1:] if GIVEN.fullmatch(line) or LINK.fullmatch(line)]
        expected = self.expected(lines[:at], performing, self.explain("--show", "32"))
        wrong = [] if report.startswith(plain) and told == expected else ["%s, not %s" % (told, expected)]
        wrong += [] if self.explain("--trapped", "--show", "32") == self.explain("--show", "32") else ["--show differs"]
        return wrong, " ".join(expected.split()[2:3])


def main():
    """Checks the programs of the seeds that the words name; the exit status."""
    words = arguments(__doc__, 500)
    counts, failed = collections.Counter(), 0
    cases = [Case(seed, words.secomp) for seed in range(words.seed, words.seed + words.texts)]
    with ThreadPoolExecutor(2) as pool:
        for case, (wrong, kind) in zip(cases, pool.map(Case.check, cases)):
            counts[kind] += 1
            if wrong:
                failed += 1
                print("seed %d: %s" % (case.seed, "; ".join(wrong)), flush=True)
                keep(words.keep, case)
    kinds = ", ".join("%d %s" % (count, kind) for kind, count in sorted(counts.items()))
    print("programs %d: %s" % (words.texts, kinds))
    print("%d passed, %d failed" % (words.texts - failed, failed))
    return 1 if failed else 0


if __name__ == "__main__":
    sys.exit(main())
