#!/usr/bin/env python3
"""Tests tools/why: `mistakes.py`, at the top of the repository. For each mistake that C programmers make here, the
reason that it must name first, and at which line. The last line counts them.
"""
import argparse
import re
import subprocess
import sys
import tempfile

from sections import TOP, count

# Where a mistake stands in a text: in main, between the functions, or as the whole text.
MAIN = "#pragma compartment Main\nint main(void) {\n@\n  return 0;\n}\n"
FILE = "#pragma compartment Main\n@\nint main(void) {\n  return 0;\n}\n"
TWO = ("#pragma compartment Main\n#pragma import Net put\n@\nint main(void) {\n  return 0;\n}\n"
       "#pragma compartment Net\n#pragma export put\nint put(int i) { return i; }\n")

# A template, what stands at its @, the line that is named, and a part of the reason.
MISTAKES = [
    (MAIN, "  int c; c = 'a';", 3, "character constant"),
    (MAIN, '  int *s; s = "text";', 3, "a string"),
    (FILE, "#define SIZE 4", 2, "macro"),
    (FILE, "#undef SIZE", 2, "macro"),
    (FILE, "#include <stdio.h>", 2, "#include"),
    (FILE, "#ifdef DEBUG", 2, "preprocessing"),
    (FILE, "#if 1", 2, "preprocessing"),
    (FILE, "#endif", 2, "preprocessing"),
    (FILE, "#pragma once", 2, "the pragmas are"),
    (FILE, " #pragma export f", 2, "first column"),
    (FILE, "#pragma import Net", 2, "a section and a function"),
    (FILE, "#pragma import Net a b", 2, "a line for each"),
    (FILE, "#pragma export a b", 2, "a line for each"),
    (FILE, "#pragma export", 2, "names a function"),
    (FILE, "#pragma compartment", 2, "has a name"),
    (FILE, "#pragma compartment A B", 2, "nothing follows"),
    (FILE, "#pragma compartment 1A", 2, "begins with a letter"),
    (FILE, "#pragma compartment  A", 2, "one blank"),
    (MAIN, "  int a; a = 1 ? 2 : 3;", 3, "?:"),
    (MAIN, "  int a; a = 08;", 3, "octal"),
    (MAIN, "  int a; a = 0b101;", 3, "binary"),
    (MAIN, "  unsigned int a; a = 1UL;", 3, "suffixes"),
    (MAIN, "  int a; a = 10L;", 3, "suffixes"),
    (MAIN, "  int a; a = 0xffLL;", 3, "suffixes"),
    (MAIN, "  int a; a = 4294967296u;", 3, "at most 2147483647"),
    (MAIN, "  int a; a = 3000000000;", 3, "at most 2147483647"),
    (MAIN, "  int a; a = 1e3;", 3, "floating point"),
    (MAIN, "again: ;", 3, "a colon"),
    (FILE, "struct S { int a : 3; };", 2, "a colon"),
    (MAIN, "  int a; a = 1 + \\\n  2;", 3, "lines that go on"),
    (MAIN, "  int a@; ", 3, "no use for"),
    (MAIN, "  int größe;", 3, "outside ASCII"),
    (FILE, "int " + "n" * 64 + ";", 2, "63 characters"),
    (FILE, "int f(int a, ...);", 2, "any number of arguments"),
    (FILE, "char c;", 2, "of types there are"),
    (FILE, "short s;", 2, "of types there are"),
    (FILE, "long n;", 2, "of types there are"),
    (FILE, "float x;", 2, "of types there are"),
    (FILE, "double x;", 2, "of types there are"),
    (MAIN, "  goto out;", 3, "no goto"),
    (MAIN, "  switch (1) {\n  }", 3, "no switch"),
    (MAIN, "  do { } while (1);", 3, "no do loop"),
    (FILE, "typedef int word;", 2, "no typedef"),
    (FILE, "enum E { A };", 2, "no enum"),
    (FILE, "union U { int a; };", 2, "no union"),
    (FILE, "static int a;", 2, "storage classes"),
    (FILE, "const int a = 1;", 2, "storage classes"),
    (FILE, "extern int a;", 2, "storage classes"),
    (FILE, "inline int f(void) { return 1; }", 2, "storage classes"),
    (FILE, "volatile int a;", 2, "storage classes"),
    (MAIN, "  int a; a = sizeof a;", 3, "sizeof takes"),
    (MAIN, "  int a; a = sizeof(int[4]);", 3, "sizeof takes"),
    (MAIN, "  int *p; p = malloc(4);", 3, "malloc takes"),
    (MAIN, "  int *p; p = malloc(sizeof(int) * 4);", 3, "malloc takes"),
    (MAIN, "  int *p = malloc(sizeof(int));", 3, "statement of its own"),
    (MAIN, "  int *p; p = (int *)malloc(sizeof(int));", 3, "no casts"),
    (MAIN, "  int *p; p = calloc(2, 4);", 3, "no library"),
    (MAIN, "  int *p; p = malloc(2 * sizeof(unsigned));", 3, "under its sizeof"),
    (MAIN, "  int a; a = 1; free(a);", 3, "free takes"),
    (MAIN, "  for (int i = 0; i < 3; i++) { }", 3, "start of the function"),
    (MAIN, "  int a; a = (int)3u;", 3, "no casts"),
    (MAIN, "  unsigned int a; int b; b = 1; a = (unsigned int)b;", 3, "no casts"),
    (FILE, "int a[2][3];", 2, "one dimension"),
    (FILE, "int (*f)(int);", 2, "pointers to functions"),
    (MAIN, "  ;\n  int late;", 4, "start of the function"),
    (FILE, "struct { int a; } s;", 2, "has a tag"),
    (FILE, "struct S { int a; } s;", 2, "defined by itself"),
    (FILE, "int a[2] = {};", 2, "at least one constant"),
    (MAIN, "  int a[2] = {1, 2};", 3, "no initialiser"),
    (FILE, "int a[];", 2, "has its length"),
    (FILE, "int a[0];", 2, "at least one element"),
    (FILE, "int n; int a[n];", 2, "one integer"),
    (FILE, "int f(int a) { return a; }\nint g(void) {\n  int x;\n  x = f(1) + 2;\n  return x;\n}", 5,
     "no part of an expression"),
    (FILE, "int f(int a) { return a; }\nint g(void) {\n  int x;\n  x = 2 * f(1);\n  return x;\n}", 5,
     "no part of an expression"),
    (FILE, "int f(int a) { return a; }\nint g(void) {\n  if (f(1)) { }\n  return 0;\n}", 4, "no part of an expression"),
    (MAIN, "  int a, b; a = b = 1;", 3, "one assignment"),
    (MAIN, "  int a, b; a = 1; b = a++;", 3, "++ and --"),
    (MAIN, "  if (1) return 1;", 3, "in braces"),
    (MAIN, "  while (0)\n    ;", 3, "in braces"),
    (MAIN, "  if (1) { } else return 1;", 3, "body of else"),
    (FILE, "int f() { return 1; }", 2, "(void)"),
    (MAIN, "  int a; a = 1;\n  a;", 4, "no statement"),
    (MAIN, "  int a; a = 1\n  a = 2;", 3, "a ; is missing"),
    (MAIN, "  break;", 3, "in a loop"),
    (MAIN, "  continue;", 3, "in a loop"),
    (MAIN, "  x = 1;", 3, "declared before"),
    (MAIN, "  int a; int a;", 3, "a is declared twice"),
    (MAIN, "  f(1);", 3, "defined or imported"),
    (FILE, "struct S s;", 2, "struct S isn't defined before"),
    (MAIN, "  int *p; p = 7;", 3, "what is assigned"),
    (MAIN, "  int a; int *p; p = 0; a = p;", 3, "what is assigned"),
    (MAIN, "  int a[3]; int *p; p = &a;", 3, "whole array"),
    (MAIN, "  int a; a = 1; a = a[0];", 3, "pointers go into"),
    (MAIN, "  return;", 3, "return has a value"),
    (FILE, "void f(void) { return 1; }", 2, "return has a value"),
    (TWO, "int f(void) {\n  int a;\n  a = put(1);\n  return a;\n}", 5, "wants its prototype"),
    (TWO, "int put(unsigned int i);", 3, "declarations of the function agree"),
    (TWO, "", 2, "has a prototype"),
    (FILE, "#pragma export f", 2, "defined in this section"),
    (FILE, "#pragma import Log write\nvoid write(int v);", 2, "no section is named Log"),
    (FILE, "int f(int a, int b, int c, int d, int e, int g, int h, int i, int j);", 2, "too many"),
    (FILE, "int a[2000000];", 2, "too many"),
    (MAIN, "  int i;\n  for (i = 0; i < 3; i++)\n    i = 2;", 4, "the body of for stands in braces"),
    (MAIN, "  int a; a = 1;\n  if (a) a = 2;", 4, "the body of if stands in braces"),
    (MAIN, "  int a;\n  if (a = 1) {\n  }", 4, "an assignment is no expression"),
    (FILE, "int f(int a[]) { return 1; }", 2, "a parameter is no array: write a pointer, as int *a"),
    (FILE, "int f(int a[4]) { return 1; }", 2, "a parameter is no array"),
    (FILE, "int f(a) { return 1; }", 2, "a type is missing before a"),
    (FILE, "int f(size_t a) { return 1; }", 2, "no type size_t"),
    (FILE, "word a;", 2, "word is no type"),
    (MAIN, "  int *p; p = NULL;", 3, "NULL isn't declared: null is the literal 0"),
    (FILE, "int *p = NULL;", 2, "NULL isn't declared: null is the literal 0"),
    (MAIN, "  int a = input();", 3, "a local isn't initialised by a call: after the declarations, a = input(..);"),
    (MAIN, "  int count; cuont = 1;", 3, "cuont isn't; count is meant?"),
    (MAIN, "  output(1);", 3, "#pragma import Env output"),
    (TWO.replace("Net put", "Nets put", 1), "int put(int i);", 2,
     "no section is named Nets, so that nothing is exported there; Net"),
    (TWO.replace("Net put", "Net putt", 1), "int putt(int i);", 2, "Net doesn't export putt; put is meant?"),
    (FILE, "#pragma export bt_f\nint bt_f(void) { return 1; }", 2, "no name that crosses begins with bt_"),
    (FILE, "struct S { int a; };\nint f(struct S *s) { return s.a; }", 3, "write -> before a"),
    (FILE, "struct S { int count; };\nint f(struct S *s) { return s->cuont; }", 3,
     "has no member cuont; count is meant?"),
    (MAIN, "  int a; a = 1; }\n  a = 2;", 4, "a type is missing before a"),
    (FILE, '#include "text.h"', 2, "no #include"),
    (FILE, "int g = 1 + 2;", 2, "a global begins with one integer constant"),
    (MAIN, "  int a; a = 1;\n  long long b;", 4, "no type long"),
    (MAIN, "  int a; a = 1, a = 2;", 3, "no comma operator"),
    (MAIN, "  int a;\n  for (a = 0, a = 1; a < 2; a++) { }", 4, "no comma operator"),
    (MAIN, "  int a;\n  for (a = 0; a < 2; a++, a++) { }", 4, "no comma operator"),
    ("int limit = 3;\n" + MAIN, "", 1, "only comments stand before the first section"),
    ("@\nint main(void) {\n  return 0;\n}\n", "", 2, "which begins with a line as #pragma compartment Main"),
    ("\ufeff// a ? b : c\n" + MAIN, "", 1, "byte order mark"),
    (MAIN, "  int größe; // so: 'a' ? b", 3, "outside ASCII"),
    (FILE, "int f(int a) {\n  return a;\n", 5, "a `}` is missing before"),
    (FILE, "int a = -2147483648;", 2, "the least int is 0x80000000"),
    (MAIN, "  int a; a = 1;\n  1 = a;", 4, "on the left of = stand"),
    (MAIN, "  int a; int *p; p = 0;\n  &a = p;", 4, "on the left of = stand"),
    (TWO.replace("@", "int put(int i);\nint f(void) { return put; }"), "", 4, "put is a function, and no variable"),
    (MAIN.replace("(void)", "(int argc, char **argv)"), "", 2, "main is defined as int main(void)"),
]

# Texts with more faults than one, and the lines and a part of each message: one fault gives one message.
SEVERAL = [
    (MAIN, "  int a\n  a = 1;\n  a = 2;", [(3, "a ; is missing")]),
    (MAIN, "  int i;\n  for (int j = 0; j < 3; j++) {\n    i = j;\n  }", [(4, "start of the function")]),
    ("int a;\nint f(void) {\n  return 1;\n}\n" + FILE, "static int b;",
     [(1, "only comments stand before"), (6, "storage classes")]),
    (FILE, "enum kind { A, B };\nstatic int limit = 4;\nint f() { return 1; }",
     [(2, "no enum"), (3, "storage classes"), (4, "(void)")]),
    (MAIN, "  int i;\n  i = x;\n  i = y + x;", [(4, "x isn't"), (5, "y isn't"), (5, "x isn't")]),
    (MAIN, "  int i;\n  i = 1\n  i = 2;\n  if (i) i = 3;\n  i = 4;", [(4, "a ; is missing"), (6, "braces")]),
]
# Accepted texts that can't be compiled, and what is said of them.
LARGE = [(MAIN, "  int a[9000]; a[0] = 1;", "too large: the frame of main of Main would take"),
         (MAIN, "  int a[9000]; a[0] = 1;", "make the arrays of main globals")]


def said_of(folder, texts):
    """The lines of tools/why for each text, of which it begins some with the text's number."""
    for number, (template, part, *_) in enumerate(texts):
        with open(f"{folder}/{number}.c", "w", encoding="utf-8") as it:
            it.write(template.replace("@", part, 1))
    names = [f"{number}.c" for number in range(len(texts))]
    ran = subprocess.run([f"{TOP}/tools/why", *names], cwd=folder, capture_output=True, text=True, check=False)
    said = {name: [] for name in names}
    for line in ran.stdout.split("\n"):
        name, colon, rest = line.partition(":")
        if colon and name in said:
            said[name].append(rest.lstrip())
    return list(said.values())


def answers():
    """What tools/why says of each mistake, where it isn't what it must."""
    with tempfile.TemporaryDirectory() as folder:
        said = iter(said_of(folder, [*MISTAKES, *SEVERAL, *LARGE]))
        for _, part, line, reason in MISTAKES:
            came = next(said)
            right = came and re.match(rf"{line}:\d+: ", came[0]) and reason in came[0]
            yield "" if right else f"{part!r}: wanted line {line}, {reason!r}, and came {came[:1]}"
        for _, part, wanted in SEVERAL:
            found = next(said)
            right = len(found) == len(wanted) and all(
                came.startswith(f"{line}:") and reason in came for came, (line, reason) in zip(found, wanted))
            yield "" if right else f"{part!r}: wanted {wanted}, and came {found}"
        for _, part, reason in LARGE:
            found = next(said)
            yield "" if found and reason in found[0] else f"{part!r}: wanted {reason!r}, and came {found[:1]}"


if __name__ == "__main__":
    argparse.ArgumentParser(description=__doc__, formatter_class=argparse.RawDescriptionHelpFormatter).parse_args()
    sys.exit(count(answers()))
