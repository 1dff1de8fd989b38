#!/usr/bin/python3
"""Tests `tools/port`: `port_sessions.py [--secomp PROGRAM] [WORD]`.

Each program of tools/port_cases is ported, run by `meaning` and by `run`, and compiled by gcc: outputs and results are
the same. Each one of tools/port_cases/refused is refused at the line and with the words that its first line says.
Programs of two sections, the line map and each bad use are tested here. With WORD only tests whose name has it are
run. Without pycparser or gcc nothing is run, and that is said. The last line counts; the status is 1 if one failed.
"""
import argparse
import os
import re
import shutil
import subprocess
import sys
import tempfile

import sections

CASES = os.path.join(os.path.dirname(os.path.abspath(__file__)), "port_cases")
PORT = os.path.join(os.path.dirname(CASES), "port")
EXPECTED = re.compile(r"/\* refused at line (\d+): (.*?) \*/")
SHIM = """#include <stdio.h>
void output(int value) { printf("%d\\n", value); }
int input(void) { int value; return scanf("%d", &value) == 1 ? value : 0; }
"""

SECTIONS = {
    "main.c": """int next(void);
void output(int value);
signed char narrow(signed char c, unsigned int n);
int main(void) {
  output(next() * 10 + next());
  output(narrow(-5, 7));
  return 0;
}
""",
    "reader.c": """#include <assert.h>
int input(void);
static int first = 1, *where = &first;
static int buffer[2];
int next(void) {
  buffer[*where] = input();
  *where = !*where;
  return buffer[!*where];
}
signed char narrow(signed char c, unsigned int n) {
  assert(n);
  return c - n;
}
""",
    "crossing.c": """int *next(void);
void output(int value);
int main(void) {
  output(*next());
  return 0;
}
""",
    "pointer.c": """static int x;
int *next(void) { return &x; }
""",
    "fault.c": """int a[4];
int main(void) {
  int i;

  for (i = 0; i < 5; i++)
    a[i] = i;
  return 0;
}
""",
}


def ran(words, text="", folder=None):
    done = subprocess.run(words, input=text.encode(), capture_output=True, check=False, cwd=folder)
    return done.stdout.decode(errors="replace"), done.stderr.decode(errors="replace"), done.returncode


class Tests:
    def __init__(self, secomp, folder):
        self.secomp, self.folder = secomp, folder

    def port(self, *words):
        return ran([PORT, *words, "-o", f"{self.folder}/ported.c"], folder=self.folder)

    def text(self):
        with open(f"{self.folder}/ported.c", encoding="utf-8") as it:
            return it.read()

    def outputs(self, command, inputs="0"):
        """What the ported text outputs, and its result at the end."""
        most = "--turns=1000000" if command == "meaning" else "--steps=10000000"
        out, err, status = ran([self.secomp, command, most, f"--in={inputs}", "--events=4000"], self.text())
        if status:
            return [err.strip()]
        lines = [it.split() for it in out.splitlines()]
        return [it[2] for it in lines if it[0] in ("out", "end")] + [" ".join(lines[-1])]

    def by_gcc(self, path):
        """The outputs of the program under gcc, and its status."""
        with open(f"{self.folder}/shim.c", "w", encoding="utf-8") as it:
            it.write(SHIM)
        _, err, status = ran(["gcc", "-w", "-fsigned-char", "-o", f"{self.folder}/native", path,
                              f"{self.folder}/shim.c"])
        if status:
            return [err]
        out, _, status = ran([f"{self.folder}/native"])
        return [*out.split(), str(status), "stop ended"]

    def same(self, path):
        _, err, status = self.port(f"Main={path}")
        if status:
            return err
        wanted = self.by_gcc(path)
        for command in ("meaning", "run"):
            came = self.outputs(command)
            if came != wanted:
                at = next((at for at, it in enumerate(zip(came, wanted)) if it[0] != it[1]), len(wanted))
                return f"{command}: at {at}: {came[at:at + 3]} in place of {wanted[at:at + 3]}"
        return ""

    def refused(self, path):
        with open(path, encoding="utf-8") as it:
            line, words = EXPECTED.match(it.read()).groups()
        _, err, status = self.port(f"Main={path}")
        if status != 1 or f"{os.path.basename(path)}:{line}: refused:" not in err or words not in err:
            return f"status {status}, {err.strip()!r} in place of line {line}, {words!r}"
        return ""

    def write(self, *names):
        for name in names:
            with open(f"{self.folder}/{name}", "w", encoding="utf-8") as it:
                it.write(SECTIONS[name])

    def test_sections(self):
        self.write("main.c", "reader.c")
        _, err, status = self.port("Main=main.c", "Reader=reader.c")
        if status:
            return err
        came = self.outputs("run", "3,4")
        checked = ran([self.secomp, "check"], self.text())[0]
        wanted = ["34", "-12", "0", "stop ended"]
        if "import Env output" in checked.split("compartment Reader")[1]:
            return "Reader has an import of output that it doesn't use"
        return "" if came == wanted else f"{came} in place of {wanted}"

    def test_crossing_pointer(self):
        self.write("crossing.c", "pointer.c")
        _, err, status = self.port("Main=crossing.c", "Other=pointer.c")
        return "" if status == 1 and err.startswith("crossing.c:4: refused:") else f"status {status}, {err}"

    def test_map(self):
        self.write("fault.c")
        self.port("Main=fault.c")
        out = ran([self.secomp, "meaning"], self.text())[0]
        line = int(out.split()[-1])
        with open(f"{self.folder}/ported.c.map", encoding="utf-8") as it:
            places = dict(it_.split(" ", 1) for it_ in it.read().splitlines())
        return "" if places.get(str(line)) == "fault.c:6" else f"{out}: {places.get(str(line))}"

    def bad(self, status, *words):
        out, err, came = ran([PORT, *words], folder=self.folder)
        if came != status or "Traceback" in err or not err:
            return f"{words}: status {came}, {err}"
        return ""

    def test_bad_uses(self):
        self.write("fault.c")
        with open(f"{self.folder}/broken.c", "w", encoding="utf-8") as it:
            it.write("int main(void) {\n")
        with open(f"{self.folder}/bytes.c", "wb") as it:
            it.write(bytes(range(256)))
        open(f"{self.folder}/empty.c", "w", encoding="utf-8").close()
        uses = [(2,), (2, "Main=fault.c"), (2, "-o", "x"), (2, "fault.c", "-o", "x"), (2, "Main=", "-o", "x"),
                (2, "Env=fault.c", "-o", "x"), (2, "1a=fault.c", "-o", "x"), (2, "A=fault.c", "A=fault.c", "-o", "x"),
                (2, "Main=absent.c", "-o", "x"), (2, "Main=fault.c", "-o", "no/folder/x"),
                (2, *[f"S{at}=fault.c" for at in range(33)], "-o", "x"), (1, "Main=broken.c", "-o", "x"),
                (1, "Main=bytes.c", "-o", "x"), (1, "Main=empty.c", "-o", "x"),
                (1, "A=fault.c", "B=fault.c", "-o", "x")]
        return "\n".join(filter(None, (self.bad(*use) for use in uses)))

    def all(self, word):
        """Each test's name, and what gives its fault."""
        for folder, test in ((CASES, self.same), (f"{CASES}/refused", self.refused)):
            for name in sorted(os.listdir(folder)):
                if name.endswith(".c"):
                    yield name, lambda path=f"{folder}/{name}", test=test: test(path)
        for name in ("test_sections", "test_crossing_pointer", "test_map", "test_bad_uses"):
            yield name, getattr(self, name)


def main():
    parser = argparse.ArgumentParser(description=__doc__, formatter_class=argparse.RawDescriptionHelpFormatter)
    parser.add_argument("word", nargs="?", default="")
    parser.add_argument("--secomp", metavar="PROGRAM", help="the program, in place of that of ./secomp")
    found = parser.parse_args()
    if ran([PORT, "--help"])[2] or not shutil.which("gcc"):
        print("tools/port wasn't tried: it takes python3-pycparser and gcc")
        return 0
    with tempfile.TemporaryDirectory() as folder:
        tests = Tests(found.secomp or sections.program(), folder)
        return sections.count(answer and f"{name}: {answer}" for name, answer in
                              ((name, test()) for name, test in tests.all(found.word) if found.word in name))


if __name__ == "__main__":
    sys.exit(main())
