#!/usr/bin/env python3
"""Tests tools/attack and tools/secret: `attack_sessions.py [--runs N] [--secomp PATH] [WORD]`, at the top.

Each program of examples/attacked has a weakness, which must be found, and a mended twin, in which nothing must be
found: in N runs by texts (2,000), and in a tenth of N by machine code, with --image. Then bad words and bad inputs get
their answers, code that is made smaller has its jumps right, the same attack finds the same with and without GNU
parallel and when it is started again, and the sessions of docs/ATTACK.md write what they show. With WORD, one of
attacked, bad_uses, placement, changes, agreement and sessions, only that test is run. What needs GNU parallel says that
it didn't run where that isn't there. The last line counts; the status is 1 if one failed.
"""
import argparse
import itertools
import os
import re
import shutil
import struct
import subprocess
import tempfile

from attack_code import Instruction, placed
from machine_code import RETURN, head_length, jump
from sections import TOP, commands, count, program

PAGE = "docs/ATTACK.md"
CHECKED = re.compile(r"^secomp: (this program has run-time checks|building ).*\n", re.M)

# A program of examples/attacked, which section is attacked, and what must be found.
WEAK = [
    ("index", "Reader", "fault Main OutOfBounds examples/attacked/index.c:14: "),
    ("sum", "Counter", "fault Till Overflow examples/attacked/sum.c:16: "),
    ("order", "Main", "fault Box NullUse examples/attacked/order.c:37: "),
    ("reentry", "Viewer", "fault List Dangling examples/attacked/reentry.c:38: "),
    ("repeat", "Main", "fault Session Dangling examples/attacked/repeat.c:32: "),
    ("sign", "Main", "fault Board OutOfBounds examples/attacked/sign.c:25: "),
    ("twice", "Source", "fault Main OutOfBounds examples/attacked/twice.c:21: "),
    ("steps", "Main", "fault Desk OutOfBounds examples/attacked/steps.c:52: "),
    ("divide", "Host", "fault Shop ZeroDivisor examples/attacked/divide.c:15: "),
    ("full", "Main", "fault Stack OutOfBounds examples/attacked/full.c:28: "),
    ("deep", "Guest", "trap Main owner"),
]
STORE, KEY = "examples/store.c", "examples/policies/key.policy"
# Words, and what standard error must say; the status must be 2.
BAD = [
    ("attack", "the following arguments are required"),
    ("attack nowhere.c Main", "nowhere.c: No such file or directory"),
    ("attack examples Main", "examples: Is a directory"),
    ("attack examples/refused.c Main", "examples/refused.c: secomp: refused types line 6"),
    (f"attack {STORE} Nobody", "no compartment Nobody"),
    (f"attack {STORE} Main Main", "a section is named twice"),
    (f"attack {STORE} Main Net", "all compartments are attacked"),
    ("attack unused.c Idle", "Idle exports nothing"),
    ("attack large.c Part --image", "large.c: a section has no object, which --image takes: secomp: too large"),
    ("attack large.c Part", "secomp: too large"),
    (f"attack {STORE} Nobody --image", "no compartment Nobody"),
    (f"attack {STORE} Main --runs 0", "at least 1"),
    (f"attack {STORE} Main --runs many", "invalid int value"),
    (f"attack {STORE} Main --jobs 0", "at least 1"),
    (f"attack {STORE} Main --input 1,,2", "1,,2: No such file or directory"),
    (f"attack {STORE} Main --input 9999999999", "an input goes from"),
    (f"attack {STORE} Main --input {STORE}", f"{STORE}:1: no list of numbers"),
    (f"attack {STORE} Main --policy {STORE}", f"{STORE}: secomp: bad policy line 1"),
    (f"attack {STORE} Main --results {STORE}", f"{STORE}"),
    (f"attack {STORE} Main --secomp nowhere", "nowhere: No such file or directory"),
    (f"attack {STORE} Main --secomp /bin/true", "isn't a program `secomp`"),
    ("secret", "the following arguments are required"),
    (f"secret {STORE} Net.key", "--values"),
    ("secret nowhere.c Net.key --values 1", "nowhere.c: No such file or directory"),
    ("secret examples/refused.c Net.key --values 1", "refused types line 6"),
    (f"secret {STORE} key --values 1", "a section, a dot and a global"),
    (f"secret {STORE} Nobody.key --values 1", "no compartment Nobody"),
    (f"secret {STORE} Net.lock --values 1", "no global lock"),
    (f"secret {STORE} Net.key[0] --values 1", "an element of an array"),
    (f"secret {STORE} Net.buf --values 1", "an element of an array"),
    (f"secret {STORE} Net.buf[4] --values 1", "buf has 4 elements"),
    (f"secret {STORE} Net.key --values 1,x", "numbers with commas"),
    (f"secret {STORE} Net.key --values 4294967296", "a value goes from"),
    (f"secret {STORE} Net.key --values 1 --inputs nowhere", "nowhere: No such file or directory"),
    ("secret examples/queue.c Queue.first --values 1", "no global first that is an integer"),
]
UNUSED = "#pragma compartment Main\nint main(void) { return 0; }\n#pragma compartment Idle\nint idle;\n"
LARGE = "#pragma compartment Main\n#pragma import Part part\nint part(void);\nint main(void) {\n  int a[9000];\n" \
        "  a[0] = part();\n  return 0;\n}\n#pragma compartment Part\n#pragma export part\n" \
        "int part(void) { return 1; }\n"
# A global's declaration, which is changed, the value, and the declaration with it.
CHANGES = [
    ("int a;", "a", "5", "int a = 5;"),
    ("int a = 1;", "a", "-5", "int a = -5;"),
    ("int a = -1, b = - 2;", "b", "-2147483648", "int a = -1, b = 0x80000000;"),
    ("unsigned int a, *p, b;", "b", "4294967295", "unsigned int a, *p, b = -1;"),
    ("int a[4];", "a[2]", "7", "int a[4] = {0, 0, 7};"),
    ("int a[4] = {1, -2, 3};", "a[1]", "7", "int a[4] = {1, 7, 3};"),
    ("int a[4] = {1, -2,};", "a[3]", "7", "int a[4] = {1, -2, 0, 7};"),
]


def run(words, folder):
    """What a tool writes, what it says on standard error, and its status."""
    ran = subprocess.run(words, cwd=folder, stdin=subprocess.DEVNULL, capture_output=True, check=False)
    return ran.stdout.decode(errors="replace"), CHECKED.sub("", ran.stderr.decode(errors="replace")), ran.returncode


def attacked(asked, folder):
    """Each weakness is found at its line, and nothing in the mended twin."""
    for (name, section, wanted), way in itertools.product(WEAK, ([], ["--image"])):
        for twin, status in ((name, 1), (f"{name}_mended", 0)):
            words = ["tools/attack", f"examples/attacked/{twin}.c", section, *way, "--first",
                     f"--runs={max(asked.runs // 10, 1) if way else asked.runs}"]
            out, err, got = run([*words, "--jobs=1", f"--results={folder}/{twin}"], folder)
            faults = [line for line in out.splitlines() if line.startswith(("fault", "trap", "violation"))]
            good = got == status and not err and faults[:1] == [it for it in faults[:1] if it.startswith(wanted)]
            good = good and bool(faults) == bool(status)
            yield f"{twin}: attacked", "" if good else f"{' '.join(words)}\nstatus {got}\n{out}{err}"


def bad_uses(asked, folder):
    """Bad words and bad inputs are refused in a line, with status 2."""
    for name, text in (("unused.c", UNUSED), ("large.c", LARGE)):
        with open(f"{folder}/{name}", "w", encoding="utf-8") as it:
            it.write(text)
    for line, wanted in BAD:
        out, err, status = run([f"tools/{line.split()[0]}", *line.split()[1:]], folder)
        good = status == 2 and wanted in err and not out and "Traceback" not in err
        yield f"bad: {line}", "" if good else f"{line}\nstatus {status}\n{out}{err}"
    for line in ("attack --help", "secret --help"):
        out, err, status = run([f"tools/{line.split()[0]}", "--help"], folder)
        yield line, "" if status == 0 and "of this is proved" in out and not err else f"{line}\n{out}{err}"
    short = f"attack {STORE} Main --runs 1 --jobs 1 --results {folder}/closed"
    for line in (short, f"secret {STORE} Net.key --values 1"):
        out, err, _ = run(["bash", "-c", f"tools/{line} | true"], folder)
        yield f"closed: {line}", err


def placement(_, folder):
    """Code from which nothing is left out stays as it is, and a jump over what is left out goes to what follows it."""
    for name, section, _ in WEAK:
        with open(f"{TOP}/examples/attacked/{name}.c", "rb") as it:
            data = subprocess.run([os.environ["SECOMP"], "object", "--section", section], stdin=it, cwd=folder,
                                  capture_output=True, check=False).stdout
        at = head_length(data) + 1
        code = data[at + 4:at + 4 + int.from_bytes(data[at:at + 4], "little")]
        words = list(struct.unpack(f"<{len(code) // 4}I", code))
        same = placed([Instruction(place, word) for place, word in enumerate(words)], 0)
        yield f"placement of {name}", "" if same == words and words else f"{name}: other code"
    over = [Instruction(place, word) for place, word in enumerate([jump(12), 0x13, 0x13, RETURN])]
    cut = placed(over[:1] + over[2:], 5)
    yield "placement", "" if cut == [jump(8), 0x13, RETURN, 0, 0] else f"placement: {cut}"


def changes(_, folder):
    """What tools/secret changes in a declaration."""
    maker = "import sys; sys.path.insert(0, 'tools')\nfrom importlib.machinery import SourceFileLoader\n" \
            "it = SourceFileLoader('secret', 'tools/secret').load_module()\nimport types\n" \
            "asked = types.SimpleNamespace(program='it', place=sys.argv[2], values=sys.argv[3])\n" \
            "print(next(it.texts(sys.argv[1], asked))[1], end='')"
    for before, place, value, after in CHANGES:
        text = f"#pragma compartment Main\n{before}\nint main(void) {{ return 0; }}\n"
        out, err, _ = run(["python3", "-W", "ignore", "-c", maker, text, f"Main.{place}", value], folder)
        good = out == text.replace(before, after)
        yield f"changes {before}", "" if good else f"{before} with {place} = {value}: {out}{err}"


def agreement(asked, folder):
    """The same attack shows the same side by side, one after another, and when it is started again."""
    for way in ([], ["--image"]):
        words = ["tools/attack", "examples/messages.c", "Parser", *way, "--policy", KEY, "--runs=120", "--seed=7"]
        alone = run([*words, "--jobs=1", f"--results={folder}/same"], folder)
        again = run([*words, "--jobs=1", f"--results={folder}/same"], folder)
        yield "again", "" if again == alone else f"again: {again}\nin place of\n{alone}"
        if not shutil.which("parallel"):
            print("side by side: wasn't tried: this takes GNU parallel (in Debian the package `parallel`)")
            return
        shutil.rmtree(f"{folder}/same")
        aside = run([*words, "--jobs=2", f"--results={folder}/same"], folder)
        yield "side by side", "" if aside == alone else f"side by side: {aside}\nin place of\n{alone}"


def sessions(asked, folder):
    """Those of the page."""
    for command, shown, _ in commands(f"{TOP}/{PAGE}"):
        if "examples/foreign" in command and not os.path.exists(f"{TOP}/examples/foreign"):
            print(f"$ {command}\nwasn't tried: examples/foreign isn't there")
            continue
        ran = subprocess.run(["bash", "-c", command], cwd=folder, stdin=subprocess.DEVNULL, stdout=subprocess.PIPE,
                             stderr=subprocess.STDOUT, check=False)
        wrote = CHECKED.sub("", ran.stdout.decode(errors="replace"))
        yield f"$ {command}", "" if wrote == shown else f"$ {command}\nwrote\n{wrote}in place of\n{shown}"


def answers(asked, folder):
    for test in (attacked, bad_uses, placement, changes, agreement, sessions):
        if asked.word in test.__name__ or not asked.word:
            for name, answer in test(asked, folder):
                yield answer and f"{name} failed: {answer}"


def main():
    parser = argparse.ArgumentParser(description=__doc__, formatter_class=argparse.RawDescriptionHelpFormatter)
    parser.add_argument("word", nargs="?", default="")
    parser.add_argument("--runs", type=int, default=2000)
    parser.add_argument("--secomp")
    asked = parser.parse_args()
    path = os.path.abspath(asked.secomp) if asked.secomp else program()
    with tempfile.TemporaryDirectory() as folder:
        for name in ("tools", "docs", "examples"):
            os.symlink(f"{TOP}/{name}", f"{folder}/{name}")
        with open(f"{folder}/secomp", "w", encoding="utf-8") as it:
            it.write(f'#!/bin/sh\n[ "$SECOMP_WHICH" = 1 ] && echo {path} && exit\nexec {path} "$@"\n')
        os.chmod(f"{folder}/secomp", 0o755)
        os.environ.update(HOME=folder, SECOMP=path)
        return count(answers(asked, folder))


if __name__ == "__main__":
    raise SystemExit(main())
