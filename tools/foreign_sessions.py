#!/usr/bin/env python3
"""Tests tools/foreign: `foreign_sessions.py [--secomp PROGRAM] [--only WORD]`, at the top of the repository.

It runs the sessions of docs/FOREIGN.md, the attempts of its table of hostile code, compartments of C, C++ and assembly,
and everything that the tool refuses. Without the cross compiler it says that it didn't run, and without a library that
a session needs that the session didn't. The last line counts; the status is 1 if one failed.
"""
import argparse
import concurrent.futures
import os
import re
import shutil
import subprocess
import sys
import tempfile

from foreign_cases import MAPS, PROGRAM, REFUSALS, RUNS, STUBS
from foreign_compile import demand
from foreign_program import Refused
from sections import TOP, commands, count, program, read

PAGE = "docs/FOREIGN.md"
TUTORIAL = "docs/TUTORIAL.md"
CHECKED = re.compile(r"^secomp: (this program has run-time checks|building ).*\n", re.M)
ADDRESS = re.compile(r"\b0x[0-9a-f]{8}\b")
ROW = re.compile(r"\| (\d+) \| [^|]+ \| `([^`]+)`[^|]* \|")
HOSTILE = ("examples/foreign/hostile_program.c", "Hostile=examples/foreign/hostile.c", "Spy=examples/foreign/spy.s")
LINKED = ("tools", "docs", "examples")


def shell(command, folder, **more):
    ran = subprocess.run(["/bin/bash", "-c", command], cwd=folder, stdin=subprocess.DEVNULL, stdout=subprocess.PIPE,
                         stderr=subprocess.STDOUT, check=False, env={**os.environ, **more})
    return ran.returncode, CHECKED.sub("", ran.stdout.decode(errors="replace"))


class Folder:
    """A folder with files, in which the repository's folders and the program stand."""

    def __init__(self, files):
        self.files, self.made = files, tempfile.TemporaryDirectory()

    def __enter__(self):
        path = self.made.name
        for name in LINKED:
            os.symlink(f"{TOP}/{name}", f"{path}/{name}")
        os.symlink(os.environ["SECOMP"], f"{path}/secomp")
        for name, text in self.files.items():
            with open(os.path.join(path, name), "w", encoding="utf-8") as it:
                it.write(text)
        return path

    def __exit__(self, *error):
        self.made.cleanup()


def run_of(files, compiler, wanted):
    """What a run gives that isn't wanted."""
    with Folder({"program.c": PROGRAM, **files}) as path:
        status, said = shell(f"tools/foreign build program.c Part={','.join(files)} --cc {compiler} -o image", path)
        if status:
            return said
        _, wrote = shell("./secomp exec --steps 16777216 < image", path)
    lines = [re.sub(r"(stop trap \w+) .*", r"\1", line) for line in wrote.splitlines()]
    came = ", ".join(line for line in lines if not re.match("call|ret|end|stop ended", line))
    return "" if came == wanted else f"gives {came}, not {wanted}"


def refusal_of(files, words, wanted):
    """How an answer differs from a refusal with this sentence and no traceback."""
    with Folder({"program.c": PROGRAM, **files}) as path:
        build = words.startswith("build ")
        command = f"tools/foreign build program.c {words[6:]}" if build else f"tools/foreign program.c {words}"
        status, said = shell(command + " > /dev/null", path)
    return "" if status == 2 and wanted in said and "Traceback" not in said else f"status {status}: {said}"


def stub_of(header, wanted):
    with Folder({"part.h": header}) as path:
        status, said = shell("tools/foreign --stub part.h Part", path)
    good = status == 0 and said == wanted if wanted.startswith("#") else status == 2 and wanted in said
    return "" if good and "Traceback" not in said else f"status {status}: {said}"


def map_of(command, wanted):
    with Folder({"program.c": PROGRAM, "bad.map": "secomp map 1\nfrom here\n"}) as path:
        status, said = shell(command, path)
    return "" if status == 2 and wanted in said and "Traceback" not in said else f"status {status}: {said}"


def without_compiler():
    """Where the cross compiler is missing, the package is named."""
    with Folder({"program.c": PROGRAM, "a.c": ""}) as path:
        words = f"{sys.executable} tools/foreign program.c Part a.c"
        status, said = shell(words, path, PATH=path)
        if status != 2 or "riscv64-unknown-elf-gcc is missing: apt-get install gcc-riscv64-unknown-elf" not in said:
            return f"status {status}: {said}"
        os.symlink(shutil.which("riscv64-unknown-elf-gcc"), f"{path}/riscv64-unknown-elf-gcc")
        status, said = shell(words + " --cc clang", path, PATH=path)
    return "" if status == 2 and "clang is missing: apt-get install clang" in said else f"status {status}: {said}"


def without_library():
    """Where picolibc is missing, its package is named."""
    code = "import sys; sys.path.insert(0, 'tools')\nimport foreign_compile\nforeign_compile.LIBRARY = '/lost'\n" \
           "try:\n  foreign_compile.demand('gcc')\nexcept foreign_compile.Refused as refused: print(refused)"
    said = subprocess.run([sys.executable, "-c", code], cwd=TOP, capture_output=True, text=True, check=False).stdout
    return "" if said == "picolibc is missing: apt-get install picolibc-riscv64-unknown-elf\n" else said


def full_output():
    """Outputs that take nothing get a sentence, too."""
    with Folder({"program.c": PROGRAM}) as path:
        status, said = shell("tools/foreign --header program.c Part > /dev/full", path)
        if status != 2 or "Traceback" in said:
            return f"/dev/full: status {status}: {said}"
        _, said = shell("for n in 1 2 3; do tools/foreign --header program.c Part | true; done", path)
    return said


def image_of():
    """What tools/image says of a foreign function with a map."""
    text = "\nint work(int first, int second) { return first - second; }\n"
    with Folder({"program.c": PROGRAM, "a.c": text}) as path:
        shell("tools/foreign build program.c Part=a.c -o image", path)
        _, said = shell("tools/image program.c --map image.map < image", path)
        found = re.search(r"^work:\n  ([0-9a-f]{8})", said, re.M)
        _, place = shell(f"tools/image --pc 0x{found.group(1)} --map image.map < image", path) if found else (0, said)
    return "" if re.match("Part, work: .*    a.c:2 in work\n", place) and "\nmain:\n" in said else place


def attempts():
    """How the attempts of the table in the document end, which are made one after the other on one image."""
    rows = ROW.findall(read(f"{TOP}/{PAGE}").decode())
    with Folder({}) as path:
        status, said = shell(f"tools/foreign build {' '.join(HOSTILE)} -o image", path)
        if status or not rows:
            return said or f"{PAGE} has no table"
        for number, wanted in rows:
            _, wrote = shell(f"./secomp exec --in {number} < image", path)
            if wanted not in re.sub(r" 0x[0-9a-f]{8}$", "", wrote, flags=re.M).splitlines():
                return f"attempt {number} gives {wrote}, and {wanted} is wanted"
    return ""


def main_of():
    """A run in which main is foreign, too, and has a constructor."""
    text = '#include "section.h"\nstatic int at = twice(3);\nint main() { output(work(at, 1)); return at; }\n'
    files = {"m.cc": text, "a.c": "int work(int first, int second) { return 10 * first + second; }\n"}
    with Folder({"program.c": PROGRAM, **files}) as path:
        _, said = shell("tools/foreign build program.c Main=m.cc Part=a.c -o image && ./secomp exec < image", path)
    wanted = "call Main Other twice 3\nret Other Main 6\ncall Main Part work 6 1\nret Part Main 61\n" \
             "out Main 61\nend Main 6\nstop ended\n"
    return "" if said.endswith(wanted) else said


def sessions():
    """How the sessions of the document go, one after the other, where their library is here. Addresses of code are
    those of one version of gcc, and aren't compared."""
    wrong = []
    with Folder({}) as path:
        for command, shown, _ in commands(f"{TOP}/{PAGE}"):
            if command.startswith("apt-get") or "fetch" in command:
                continue
            if "jsmn" in command and not os.path.exists("/usr/include/jsmn.h"):
                print(f"the sessions of {PAGE} weren't tried: apt-get install libjsmn-dev")
                break
            _, wrote = shell(command, path)
            if ADDRESS.sub("", wrote) != ADDRESS.sub("", shown):
                wrong.append(f"$ {command}\nwrote\n{wrote}in place of\n{shown}")
    return "\n".join(wrong)


def tutorial():
    """The session of the tutorial that makes an image, from `evil.c` on."""
    wrong, begun = [], False
    with Folder({}) as path:
        for command, shown, _ in commands(f"{TOP}/{TUTORIAL}"):
            begun = begun or "evil.c" in command
            if begun and shell(command, path)[1] != shown:
                wrong.append(f"$ {command}\nwrote\n{shell(command, path)[1]}in place of\n{shown}")
    return "\n".join(wrong)


def tests():
    """The name of each test, and what says how it failed."""
    yield "the sessions", sessions
    yield "the session of the tutorial", tutorial
    yield "the attempts", attempts
    yield "without the compiler", without_compiler
    yield "without picolibc", without_library
    yield "an output that is full or closed", full_output
    yield "image with a map", image_of
    yield "main is foreign", main_of
    for compiler in ("gcc", "clang") if shutil.which("clang") else ("gcc",):
        for name, files, wanted in RUNS:
            yield f"{name}, by {compiler}", lambda files=files, by=compiler, wanted=wanted: run_of(files, by, wanted)
    for name, command, wanted in MAPS:
        yield name, lambda command=command, wanted=wanted: map_of(command, wanted)
    for name, files, words, wanted in REFUSALS:
        yield name, lambda files=files, words=words, wanted=wanted: refusal_of(files, words, wanted)
    for name, header, wanted in STUBS:
        yield f"--stub of {name}", lambda header=header, wanted=wanted: stub_of(header, wanted)


def main():
    options = argparse.ArgumentParser(description=__doc__.split("\n", maxsplit=1)[0])
    options.add_argument("--secomp", metavar="PROGRAM", help="the program in place of what ./secomp runs")
    options.add_argument("--only", metavar="WORD", default="", help="only tests in whose name it stands")
    given = options.parse_args()
    try:
        demand("gcc")
    except Refused as refused:
        print(f"tools/foreign wasn't tested: {refused}")
        return 0
    os.environ["SECOMP"] = os.path.abspath(given.secomp) if given.secomp else program()
    with concurrent.futures.ThreadPoolExecutor(4) as pool:
        running = [(name, pool.submit(test)) for name, test in tests() if given.only in name]
        return count(test.result() and f"{name}: {test.result()}" for name, test in running)


if __name__ == "__main__":
    sys.exit(main())
