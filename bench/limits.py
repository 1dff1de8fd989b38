#!/usr/bin/env python3
"""Measures what `secomp` takes on the worst inputs within its limits: native stack, memory and time.

- The least stack, in KiB, with which a run gives the answer that it gives with much: on trees 250 high of each form, on
  brackets at their limit, on calls 32 compartments deep, on 4,096 exports.
- Seconds and bytes of memory a byte of text of `check`, for texts of 8 MiB of one form each, and of `compile` for
  1 MiB.
- Seconds and MiB of `explain` on chains of 32 links with 4,096 events and 16,777,216 steps, of `exec` and `link` on
  images and objects of nearly 64 MiB.

usage: bench/limits.py [--secomp PROGRAM] [--only stack|check|compile|others]
"""
import argparse
import os
import resource
import sys

sys.dont_write_bytecode = True
from hostile import file_of
from seeds import TOP

MAIN = "#pragma compartment Main\n"
PLENTY = 256 << 20
HEIGHT = 250


def measured(program, words, text, stack=PLENTY):
    """The status and the output of a run with that much stack, its seconds, and the most KiB of memory."""
    files = [file_of(text), file_of(), file_of(), file_of()]
    child = os.fork()
    if child == 0:
        resource.setrlimit(resource.RLIMIT_STACK, (stack, resource.RLIM_INFINITY))
        for to, file in enumerate(files[:3]):
            os.dup2(file, to)
        # what a process took before it became the program counts as its memory, so one that is small begins it
        spent = f"/proc/{os.getppid()}/fd/{files[3]}"
        os.execve("/usr/bin/time", ["time", "-q", "-f", "%U %S %M", "-o", spent, program, *words], {})
    status = os.waitstatus_to_exitcode(os.waitpid(child, 0)[1])
    *outputs, spent = [os.pread(file, os.fstat(file).st_size, 0) for file in files[1:]]
    for file in files:
        os.close(file)
    user, system, kilobytes = spent.split()[-3:]
    return (status, *outputs), float(user) + float(system), int(kilobytes)


def main_of(body, before=""):
    """A program of one compartment with this body of `main`."""
    return (MAIN + before + "int main(void) {\n" + body + "  return 0;\n}\n").encode()


def expression(opening, middle, closing):
    """A program with a tree of an expression: what opens a level, the middle, what closes one."""
    return main_of("  x = " + opening * HEIGHT + middle + closing * HEIGHT + ";\n", "int x;\nint a[4];\n")


def statement(opening, closing):
    """A program with a tree of a statement."""
    return main_of(opening * HEIGHT + "x = 1;" + closing * HEIGHT + "\n", "int x;\n")


def chain_of_calls(count):
    """A program in which each compartment calls the next."""
    text = MAIN + "#pragma import C1 f1\nint f1(int v);\nint main(void) {\n  int r;\n  r = f1(1);\n  return r;\n}\n"
    for at in range(1, count):
        text += f"#pragma compartment C{at}\n#pragma export f{at}\n"
        if at + 1 < count:
            text += f"#pragma import C{at + 1} f{at + 1}\nint f{at + 1}(int v);\n"
            text += f"int f{at}(int v) {{\n  int r;\n  r = f{at + 1}(v);\n  return r;\n}}\n"
        else:
            text += f"int f{at}(int v) {{\n  return v;\n}}\n"
    return text.encode()


def exporting(count):
    """A program with a compartment of that many exports."""
    exports = "".join(f"#pragma export f{at}\n" for at in range(count))
    functions = "".join(f"int f{at}(void) {{\n  return {at};\n}}\n" for at in range(count))
    return (MAIN + "int main(void) {\n  return 0;\n}\n#pragma compartment Many\n" + exports + functions).encode()


def recursion(depth):
    """A program whose function calls itself."""
    function = "int f(int n) {\n  int r = 0;\n  if (n) {\n    r = f(n - 1);\n  }\n  return r;\n}\n"
    return main_of("  int r;\n  r = f(%d);\n" % depth, function)


STRUCTS = "int x;\nstruct S { struct S *s; int m; };\nstruct S *t;\n"
DEEP = {
    "complements": expression("~", "1", ""),
    "negations": expression("- ", "1", ""),
    "nots": expression("!", "1", ""),
    "sums to the left": main_of("  x = 1" + " + 1" * HEIGHT + ";\n", "int x;\n"),
    "sums to the right": expression("1 + (", "1", ")"),
    "products": expression("1 * (", "1", ")"),
    "comparisons": expression("1 < (", "1", ")"),
    "conjunctions": expression("1 && (", "1", ")"),
    "disjunctions": expression("0 || (", "1", ")"),
    "indices": expression("a[", "1", "]"),
    "places": main_of("  x = " + "*&" * 120 + "x;\n", "int x;\n"),
    "arrows": main_of("  x = t" + "->s" * HEIGHT + "->m;\n", STRUCTS),
    "brackets": main_of("  x = " + "(" * 1022 + "1" + ")" * 1022 + ";\n", "int x;\n"),
    "blocks of if": statement("if (1) { ", " }"),
    "else if": main_of("if (x) { } " + "else if (x) { } " * (HEIGHT - 5), "int x;\n"),
    "while": statement("while (0) { ", " }"),
    "for": statement("for (x = 0; x < 1; x++) { ", " }"),
    "calls of compartments": chain_of_calls(32),
    "exports": exporting(4096),
    "recursion": recursion(4000),
}
STACK = [["check"], ["meaning"], ["compile"], ["run"], ["explain"], ["object", "--section", "Main"]]


def least_stack(program, words, text):
    """The least stack in KiB, to within 4, with which a run answers as with plenty."""
    wanted = measured(program, words, text)[0]
    low, high = 0, 1 << 14
    while high - low > 4:
        middle = (low + high) // 2
        if measured(program, words, text, middle << 10)[0] == wanted:
            high = middle
        else:
            low = middle
    return wanted[0], high


def stacks(program):
    """The stack of each command on each deep text."""
    worst = (0, "", "")
    print("stack (KiB)            " + " ".join("%8s" % words[0] for words in STACK))
    for name, text in DEEP.items():
        row = [least_stack(program, words, text) for words in STACK]
        worst = max([worst] + [(least, name, words[0]) for (_, least), words in zip(row, STACK)])
        told = [least if status == 0 else "(%d) %d" % (status, least) for status, least in row]
        print("%-22s " % name + " ".join("%8s" % it for it in told))
    print("most: %d KiB, %s, %s" % worst)


def filled(size, head, line, tail, most):
    """A text of about that size, of at most that many lines with a number each."""
    lines, length = [], len(head) + len(tail)
    for at in range(most):
        each = line.replace("@", str(at))
        length += len(each)
        if length > size:
            break
        lines.append(each)
    return (head + "".join(lines) + tail).encode()


END = "int main(void) {\n  return 0;\n}\n"
BODY = """int x;
int f(int a, int b, int c, int d, int e, int g, int h, int i) {
  return a;
}
int main(void) {
  int r;
"""
# What a text begins with, its lines, and how it ends.
SHAPES = {
    "functions": ("", "int f@(int a) { return a; }\n", END),
    "prototypes": ("", "int f@(int a);\n", END),
    "globals": ("", "int g@;\n", END),
    "structs": ("", "struct S@ { int a; };\n", END),
    "members": ("struct S {\n", "int m@;\n", "};\n" + END),
    "locals": ("int main(void) {\n", "int l@;\n", "return 0;\n}\n"),
    "assignments": (BODY, "x=1;", "return 0;\n}\n"),
    "empty statements": (BODY, ";", "return 0;\n}\n"),
    "sums of names": (BODY, "x=" + "x+" * 240 + "x;\n", "return 0;\n}\n"),
    "calls": (BODY, "r=f(1,1,1,1,1,1,1,1);", "return 0;\n}\n"),
    "ifs": (BODY, "if(1){}", "return 0;\n}\n"),
    "deep sums": (BODY, "x=" + "1+(" * 240 + "1" + ")" * 240 + ";\n", "return 0;\n}\n"),
    "complements": (BODY, "x=" + "~" * 240 + "1;\n", "return 0;\n}\n"),
    "initialisers": ("int a[1048576] = {1", ",1", "};\n" + END),
    "long names": ("", "int " + "n" * 50 + "@;\n", END),
    "brackets": (BODY, "x=" + "(" * 1000 + "1" + ")" * 1000 + ";\n", "return 0;\n}\n"),
    "comments": ("", "/**/", END),
    "spaces": ("", " ", END),
    "an unfinished text": (BODY, "x=1;", ""),
    "marks": (BODY, "+", ""),
    "openings": (BODY, "{", ""),
}
MOST_LINES = {"initialisers": 1048575}


def sizes(program, words, size):
    """What a command takes on texts of each form."""
    print("%s, %d bytes        s  MiB  bytes a byte" % (words[0], size))
    for name, (head, line, tail) in SHAPES.items():
        text = filled(size, MAIN + head, line, tail, MOST_LINES.get(name, size))
        (status, _, err), seconds, kilobytes = measured(program, words, text)
        print("%-20s %8.2f %6d %6.1f  status %d %s" % (
            name, seconds, kilobytes >> 10, 1024 * kilobytes / len(text), status, err.decode().strip()[:60]))


def links():
    """A program of 32 compartments that are all replaced, whose main one loops for long, then emits 4,096 events."""
    others = range(1, 32)
    text = MAIN + "".join(f"#pragma import C{at} f{at}\n" for at in others) + "#pragma import Env output\n"
    text += "void output(int v);\n" + "".join(f"int f{at}(int v);\n" for at in others)
    text += "int x[2];\nint y;\nint main(void) {\n  int i;\n  int r;\n  x[2] = 5;\n"
    text += "  for (i = 0; i < 450000; i++) {\n    r = i;\n  }\n  for (i = 0; i < 65; i++) {\n"
    text += "".join(f"    r = f{at}(i);\n" for at in others)
    text += "  }\n  for (i = 0; i < 1000; i++) {\n    output(y);\n  }\n  return 0;\n}\n"
    for at in others:
        text += f"#pragma compartment C{at}\n#pragma export f{at}\nint x[2];\nint y;\n"
        text += f"int f{at}(int v) {{\n  x[2] = v;\n  return y;\n}}\n"
    return text.encode()


def full_image():
    """An image of 32 compartments with code and globals at their limits, as far as 64 MiB go; and its main one ends."""
    image = b"SCIM" + (2).to_bytes(2, "little") + bytes([32, 0]) + 0x01000000.to_bytes(4, "little")
    code = bytes.fromhex("67800000") * (1048576 // 4)
    for at in range(32):
        name = b"C%d" % at
        image += bytes([len(name)]) + name + bytes([4]) + bytes(4) + len(code).to_bytes(4, "little") + code
        image += (458752).to_bytes(4, "little") + bytes(458752)
    return image


def others(program):
    """What the other commands take on their worst inputs."""
    text = links()
    steps = ["--steps", "16777216", "--events", "4096"]
    policy = b"policy P\nstate s\n" + b"on s out * > 2147483646 deny\n" * 4096 + b"policy end\n"
    cases = [("explain", ["explain", *steps], text), ("explain --show", ["explain", "--show", "32", *steps], text),
             ("run", ["run", *steps], text), ("judge", ["judge", *steps], policy + text),
             ("exec, 46 MiB", ["exec", *steps], full_image())]
    print("                          s     MiB")
    for name, words, data in cases:
        (status, out, err), seconds, kilobytes = measured(program, words, data)
        lines = out.decode().splitlines()
        chain = next((line for line in lines if line.startswith("chain")), "")
        print("%-20s %8.2f %7d  status %d, %d bytes of input, %s %s" % (
            name, seconds, kilobytes >> 10, status, len(data), chain, err.decode().strip()))


def main():
    options = argparse.ArgumentParser(description=__doc__.split("\n")[0])
    options.add_argument("--secomp", default=os.path.join(TOP, "crates/secomp/out/secomp"))
    options.add_argument("--only", default="stack,check,compile,others")
    words = options.parse_args()
    for part in words.only.split(","):
        if part == "stack":
            stacks(words.secomp)
        elif part == "others":
            others(words.secomp)
        else:
            sizes(words.secomp, [part], 8388608 - 64 if part == "check" else 1048576 - 64)


if __name__ == "__main__":
    main()
