#!/usr/bin/env python3
"""Counts the instructions of a round of some loops, as `secomp compile` and as `gcc -O0` and `-O1` compile them:
those of bench/meaning.sh, and one each with a constant expression, copies of variables, and a result that nobody
reads.

Usage: turns.py PROGRAM [BEFORE]. PROGRAM is a built secomp, BEFORE one whose `compile` leaves the optimiser out. Where
riscv64-unknown-elf-gcc (package gcc-riscv64-unknown-elf) isn't on the path, its columns are empty. secomp's figure is
the difference of the steps that the machine takes for 200 and for 100 rounds, by halves; gcc's is the number of
instructions from the loop's label to its branch, and those of the function that it calls; 0 where no loop is left.
"""
import re
import shutil
import subprocess
import tempfile

from seeds import words_of

GCC = "riscv64-unknown-elf-gcc"
HEAD = "int main(void) {\n  unsigned i;\n  int sum = 0;\n  int x = 0;\n  int y = 0;\n  for (i = 0; i < ROUNDS; i++) {\n"
LOOPS = {
    "loop": ("", "    sum = sum ^ 5;\n"),
    "calls": ("int next(int a) {\n  return a ^ 5;\n}\n", "    sum = next(sum);\n"),
    "stores": ("unsigned a[256];\n", "    a[i & 255u] = i;\n"),
    "constants": ("", "    sum = sum ^ (3 * 4 + (1 << 5) - 2);\n"),
    "copies": ("", "    x = sum;\n    y = x;\n    sum = y ^ 5;\n"),
    "dead": ("", "    x = sum * 3;\n    sum = sum ^ 5;\n"),
}


def text(name, rounds):
    before, body = LOOPS[name]
    return before + HEAD.replace("ROUNDS", f"{rounds}u") + body + "  }\n  return sum;\n}\n"


def steps(program, name, rounds):
    """The least number of steps after which the run has ended."""
    source = "#pragma compartment Main\n" + text(name, rounds)
    low, high = 0, 65536
    while low + 1 < high:
        half = (low + high) // 2
        run = subprocess.run([program, "run", "--steps", str(half)], input=source.encode(), capture_output=True)
        if b"stop ended" in run.stdout:
            high = half
        else:
            low = half
    return high


def instructions(lines):
    return sum(1 for line in lines if re.match(r"\t[a-z]", line))


def by_gcc(name, level):
    """The count of gcc at a level; `None` where it isn't there."""
    if not shutil.which(GCC):
        return None
    with tempfile.NamedTemporaryFile(suffix=".c", mode="w") as source:
        source.write(text(name, 100))
        source.flush()
        command = [GCC, "-march=rv32im", "-mabi=ilp32", level, "-S", "-o", "-", source.name]
        lines = subprocess.run(command, capture_output=True, text=True, check=True).stdout.splitlines()
    main = lines[lines.index("main:"):]
    branches = [(i, line.split(",")[-1].strip() + ":") for i, line in enumerate(main) if re.match(r"\tb[a-z]+\t", line)]
    back = [(i, main.index(label)) for i, label in branches if label in main[:i]]
    if not back:
        return 0
    last, first = back[-1]
    count = instructions(main[first:last + 1])
    if any("next" in line for line in main[first:last + 1]):
        called = lines[lines.index("next:"):]
        count += instructions(called[:called.index("\tjr\tra") + 1])
    return count


def round_of(program, name):
    """The instructions of a round by secomp."""
    return (steps(program, name, 200) - steps(program, name, 100)) / 100


def main():
    programs = dict(zip(("secomp", "before"), words_of(__doc__, "program", "before?")))
    for name in LOOPS:
        figures = {each: round_of(program, name) for each, program in programs.items()}
        figures.update({"gcc " + level: by_gcc(name, level) for level in ("-O0", "-O1")})
        numbers = ["-" if figure is None else format(figure, ".1f") for figure in figures.values()]
        columns = [f"  {each} {number:>5}" for each, number in zip(figures, numbers)]
        print(f"{name:9}" + "".join(columns))


main()
