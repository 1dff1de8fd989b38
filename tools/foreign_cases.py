"""The cases of tools/foreign_sessions.py: files of foreign compartments that run, and ones that are refused."""

PROGRAM = """#pragma compartment Main
#pragma import Env output
#pragma import Part work
#pragma import Other twice
void output(int value);
int work(int first, int second);
int twice(int value);
int main(void) {
  int value;
  value = work(1, 2);
  output(value);
  value = work(3, 4);
  output(value);
  return 0;
}
#pragma compartment Part
#pragma import Env input
#pragma import Other twice
#pragma export work
int input(void);
int twice(int value);
int work(int first, int second) { while (1) { } }
#pragma compartment Other
#pragma export twice
int twice(int value) {
  return 2 * value;
}
"""
WORK = "int work(int first, int second) "

# What it shows, the files, and the lines of the run that aren't calls and returns.
RUNS = [
    ("a number of each call", {"a.c": WORK + "{ return 10 * first + second; }"}, "out Main 12, out Main 34"),
    ("a call of an import keeps the registers", {"a.c": '#include "section.h"\n' + WORK + """{
      int sum = 0;
      for (int at = 0; at < 3; at++) sum += twice(first) * second + at;
      return sum;
    }"""}, "out Main 15, out Main 75"),
    ("two files in two languages", {"a.c": "int sum(int, int);\n" + WORK + "{ return sum(first, second); }",
                                    "b.s": ".text\n.globl sum\nsum:\n  add a0, a0, a1\n  ret\n"},
     "out Main 3, out Main 7"),
    ("input is read, and 0 comes after the last", {"a.c": '#include "section.h"\n' + WORK + "{ return input(); }"},
     "in Part 0, out Main 0, in Part 0, out Main 0"),
    ("strings, printf to nowhere, floats and errno", {"a.c": """
      #include <errno.h>
      #include <stdio.h>
      #include <stdlib.h>
      #include <string.h>
      """ + WORK + """{
        char text[32];
        snprintf(text, sizeof text, "%d.%s", first, "5");
        printf("%s", text);
        errno = 0;
        strtol("99999999999999", 0, 10);
        return (int)(strtod(text, 0) * 100) + (int)strlen(text) * 1000 + (errno == ERANGE) * 10000;
      }"""}, "out Main 13150, out Main 13350"),
    ("the heap", {"a.c": """
      #include <stdint.h>
      #include <stdlib.h>
      """ + WORK + """{
        int sum = 0;
        for (int round = 0; round < 20; round++) {
          char *one = malloc(10000), *other = calloc(100, 100), *aligned = aligned_alloc(64, 3);
          if (!one || !other || !aligned || (uintptr_t)aligned % 64) return -1;
          one[9999] = 5;
          one = realloc(one, 20000);
          sum += one[9999] + other[9999];
          free(one);
          free(other);
          free(aligned);
        }
        void *volatile large = malloc(300000);
        return sum + (large == 0) + first;
      }"""}, "out Main 102, out Main 104"),
    ("C++ with constructors at the first call", {"a.cc": """
      struct Base { virtual int give() = 0; virtual ~Base() {} };
      struct Count : Base { int count; Count() : count(40) {} int give() override { return ++count; } };
      static Count count;
      extern "C" """ + WORK + """{
        Base *made = new Count;
        int value = made->give() + count.give() + first;
        delete made;
        return value;
      }"""}, "out Main 83, out Main 86"),
    ("abort is a breakpoint", {"a.c": "#include <assert.h>\n" + WORK + "{ assert(first == 1); return second; }"},
     "out Main 2, stop trap breakpoint"),
    ("a block that is freed twice is a bad free", {"a.c": "#include <stdlib.h>\n" + WORK + """{
        char *volatile block = malloc(8);
        free(block);
        if (first == 3) free(block);
        return second;
      }"""}, "out Main 2, stop trap badfree"),
]

# What goes wrong with maps and with other scripts, and what stands in the answer.
MAPS = [
    ("fetch with two folders", "examples/foreign/fetch a b", "usage: examples/foreign/fetch [FOLDER]"),
    ("fetch with an option", "examples/foreign/fetch --fast", "usage: examples/foreign/fetch [FOLDER]"),
    ("where with a map that isn't there", "tools/where --map lost.map", "where: lost.map: No such file"),
    ("where with a file that is no map", "tools/where --map program.c", "where: program.c is no map"),
    ("where with a line that is none", "tools/where --map bad.map", "where: bad.map:2: no line of a map"),
    ("image with a file that is no map", "tools/image --map program.c", "image: program.c is no map"),
]

# What is refused, the files, the words after PROGRAM, and what stands in the sentence.
REFUSALS = [
    ("no such export", {"a.c": "int other(void) { return 1; }"}, "Part a.c",
     "Part exports work, and no file defines it for others"),
    ("an export that is static", {"a.c": "static " + WORK + "{ return 1; }"}, "Part a.c",
     "Part exports work, and no file defines it"),
    ("an export with a name of C++", {"a.cc": WORK + "{ return 1; }"}, "Part a.cc",
     'work has a name of C++: write extern "C" before it'),
    ("a parameter too few", {"a.c": "int work(int first) { return first; }"}, "Part a.c",
     "a.c:1: work takes 1 parameter, and the text's takes 2 parameters"),
    ("a pointer as parameter", {"a.c": "int work(int first, char *second) { return first; }"}, "Part a.c",
     "a.c:1: work takes a pointer as parameter 2, and only numbers of 32 bits cross"),
    ("a character as parameter", {"a.c": "int work(char first, int second) { return first; }"}, "Part a.c",
     "work takes char as parameter 1"),
    ("a result of 64 bits", {"a.c": "long long work(int first, int second) { return first; }"}, "Part a.c",
     "work gives long long int, and only numbers of 32 bits cross"),
    ("a result that the text has and C hasn't", {"a.c": "void work(int first, int second) { }"}, "Part a.c",
     "work gives void, and the text's gives int"),
    ("an import with a parameter more", {"a.c": "int twice(int, int);\n" + WORK + "{ return twice(first, second); }"},
     "Part a.c", "a.c:1: twice takes 2 parameters, and the text's takes 1 parameter"),
    ("an import that isn't declared in the text",
     {"a.c": "void output(int);\n" + WORK + "{ output(1); return 1; }"}, "Part a.c",
     "isn't imported: add `#pragma import Env output` to the section Part"),
    ("a name that nothing defines", {"a.c": "int lost(void);\n" + WORK + "{ return lost(); }"}, "Part a.c",
     "lost is used in a.c, and is defined nowhere"),
    ("an import that a file defines", {"a.c": "int twice(int it) { return it; }\n" + WORK + "{ return twice(1); }"},
     "Part a.c", "twice is defined by a file, and Part imports a function of that name"),
    ("a name that two files define", {"a.c": WORK + "{ return 1; }\nint it;", "b.c": "int it = 2;"}, "Part a.c b.c",
     "it is defined by two files"),
    ("globals beyond their limit", {"a.c": "static char many[500000];\n" + WORK + "{ return many[first]++; }"},
     "Part a.c", "more than 458752"),
    ("code beyond its limit", {"a.s": ".globl work\nwork:\n  ret\n  .skip 1048576\n"}, "Part a.s", "more than 1048576"),
    ("thread-local data", {"a.c": "_Thread_local int it;\n" + WORK + "{ return it++; }"}, "Part a.c",
     "a.c has thread-local data, it: a compartment has no threads"),
    ("compressed instructions", {"a.s": ".option arch, +c\n.globl work\nwork:\n  c.nop\n  ret\n"}, "Part a.s",
     "a.s has compressed instructions"),
    ("atomics", {"a.c": "#include <stdatomic.h>\nstatic _Atomic int it;\n" + WORK + "{ return it++; }"}, "Part a.c",
     "is atomic, and RV32IM has no atomic instructions"),
    ("a section with a place of its own", {"a.c": '__attribute__((section(".mine"))) int it = 1;\n' + WORK +
                                           "{ return it++; }"}, "Part a.c", "the section .mine has no place"),
    ("a file that isn't C", {"a.txt": "", "a.c": ""}, "Part a.txt", "a.txt is neither C, C++ nor assembly"),
    ("a file that isn't there", {}, "Part lost.c", "lost.c: there is no such file"),
    ("C that the compiler refuses", {"a.c": "int work(int first"}, "Part a.c", "a.c isn't accepted by gcc:"),
    ("a section that the text hasn't", {"a.c": ""}, "Lost a.c", "program.c has no section Lost; it has Main, Part"),
    ("build without a file", {}, "build Part= -o made", "this is to be SECTION=FILE[,FILE].."),
    ("a section twice", {"a.c": ""}, "build Part=a.c Part=a.c -o made", "Part is given twice"),
    ("a place that can't be written", {"a.c": WORK + "{ return 1; }"}, "Part a.c -o lost/made", "lost/made: "),
    ("no files", {}, "Part", "which files is the section made of?"),
    ("an option that there isn't", {"a.c": ""}, "Part a.c --fast", "unrecognized arguments: --fast"),
    ("a compiler that there isn't", {"a.c": ""}, "Part a.c --cc tcc", "invalid choice: 'tcc'"),
]

# The header, and what stands in the answer.
STUBS = [
    ("numbers", "#include <stddef.h>\nint input(void);\nunsigned done(size_t, long it);\nvoid feed(int);\n",
     "#pragma compartment Part\n#pragma import Env input\n#pragma export done\n#pragma export feed\nint input(void);\n"
     "unsigned int done(unsigned int first, int second) { while (1) { } }\nvoid feed(int first) { while (1) { } }\n"),
    ("a pointer", "int parse(const char *text);\n",
     "part.h:1: parse takes a pointer as parameter 1, and only numbers of 32 bits cross"),
    ("nine parameters", "int many(int, int, int, int, int, int, int, int, int);\n", "at most 8 cross"),
    ("any number of parameters", "int any();\n", "any takes any number of parameters"),
    ("nothing", "#define IT 1\n", "part.h declares no function"),
    ("no C", "int (\n", "part.h isn't accepted by gcc:"),
]
