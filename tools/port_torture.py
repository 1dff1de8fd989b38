#!/usr/bin/python3
"""Ports and runs gcc's torture suite: `port_torture.py FOLDER [--secomp PROGRAM] [--only WORD]`.

FOLDER is gcc.c-torture/execute of Debian's gcc-12-source, unpacked. Each program checks itself: it agrees where the
ported text ends with 0 under `run`, and is slow where it takes more than 16,777,216 steps. It is undefined where the
text is blamed and gcc's sanitizer reports the same line. The last lines count what goes through, what agrees, and the
reasons of refusals. This takes some minutes and isn't in the gate.
"""
import argparse
import collections
import concurrent.futures
import os
import re
import subprocess
import sys
import tempfile

import sections
from porter.common import Refused
from porter.program import Program

STEPS = "--steps=16777216"


def ported(path):
    """The text, or the refusal."""
    program = Program([("Main", [path])], [os.path.dirname(path)], [])
    program.shows_faults = False
    program.translate()
    return program.text()


def outcome(secomp, path):
    """How a program goes: refused, agrees, or what it does in place of ending with 0."""
    try:
        text = ported(path)
    except Refused as refusal:
        return "refused", refusal.what, getattr(refusal.coord, "line", None)
    except Exception as error:  # a fault of the porter
        return "fault", f"{type(error).__name__}: {error}", None
    try:
        ran = subprocess.run([secomp, "run", STEPS], input=text.text().encode(), capture_output=True, check=False,
                             timeout=100)
    except subprocess.TimeoutExpired:
        return "slow", "", None
    lines = ran.stdout.decode().splitlines()
    if ran.returncode:
        return "unaccepted", ran.stderr.decode().strip().split("\n")[-1], None
    if lines[-1:] == ["stop ended"] and lines[-2:-1] == ["end Main 0"]:
        return "agrees", "", None
    return unended(secomp, path, text, lines)


def unended(secomp, path, text, lines):
    """How a program goes that didn't end with 0 within the steps."""
    meant = subprocess.run([secomp, "meaning", "--turns=16777216"], input=text.text().encode(), capture_output=True,
                           check=False)
    ended = meant.stdout.decode().splitlines()
    if lines[-1:] == ["stop steps"] and (ended[-2:] == ["end Main 0", "stop ended"] or ended[-1:] == ["stop turns"]):
        return "slow", f"{ended[-2:]}", None
    blamed = re.fullmatch(r"stop blamed Main \w+ (\d+)", ended[-1] if ended else "")
    place = text.places[int(blamed.group(1)) - 1] if blamed else None
    line = place[1] if place else None
    if line and reported(path, line):
        return "undefined", ended[-1].rsplit(" ", 1)[0], line
    return "differs", f"{lines[-1] if lines else ''}; {ended[-1:]}", line


def reported(path, line):
    """Whether gcc's sanitizer of undefined behaviour reports this line."""
    with tempfile.TemporaryDirectory() as folder:
        built = subprocess.run(["gcc", "-w", "-fsanitize=undefined", "-include", "stdlib.h", "-o", f"{folder}/it", path],
                               capture_output=True, check=False)
        if built.returncode:
            return False
        ran = subprocess.run([f"{folder}/it"], capture_output=True, check=False, timeout=100)
    return f":{line}:" in "".join(re.findall(r":\d+:\d+: runtime error", ran.stderr.decode(errors="replace")))


def main():
    parser = argparse.ArgumentParser(description=__doc__, formatter_class=argparse.RawDescriptionHelpFormatter)
    parser.add_argument("folder")
    parser.add_argument("--secomp")
    parser.add_argument("--only", default="", metavar="WORD", help="programs whose name has this word")
    parser.add_argument("--every", type=int, default=1, metavar="N", help="each Nth program")
    parser.add_argument("--jobs", type=int, default=1, metavar="N", help="how many at once")
    found = parser.parse_args()
    os.nice(15)
    secomp = found.secomp or sections.program()
    counts, reasons = collections.Counter(), collections.Counter()
    names = [it for it in sorted(os.listdir(found.folder)) if it.endswith(".c") and found.only in it][::found.every]
    paths = [os.path.join(found.folder, it) for it in names]
    with concurrent.futures.ProcessPoolExecutor(found.jobs, initializer=sys.setrecursionlimit,
                                                initargs=(20000,)) as pool:
        for name, (kind, what, line) in zip(names, pool.map(outcome, [secomp] * len(paths), paths)):
            counts[kind] += 1
            print(f"{name}: {kind} {what}{f' at line {line}' if line else ''}".rstrip(), flush=True)
            if kind == "refused":
                reasons[re.sub(r"\b[a-z_]*\d\w*|before: .*|\d+", "..", what)[:60]] += 1
    for what, number in reasons.most_common(40):
        print(f"{number:5} {what}")
    print(dict(counts))


if __name__ == "__main__":
    main()
