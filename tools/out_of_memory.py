#!/usr/bin/env python3
"""Lists each place of the program's code where the answer `OutOfMemory` is made, and not passed on.

usage, at the top of the repository:
  tools/out_of_memory.py           prints `FILE FUNCTION: CODE` for each place
  tools/out_of_memory.py --check   compares them with tools/out_of_memory.txt, which has a reason for each; the status
                                   is 1 where a place isn't there, or one of the file is gone

`OutOfMemory` is passed on where an error that means it becomes another type's: in a conversion from it or from an
allocator's error, and in an arm or a closure whose pattern names one of these. All else is a place: an `Err` that is
returned, a `None` that becomes it, and an error that a pattern `_` hides. Crates that only test are left out. """
import argparse
import glob
import re
import sys

from repeated import test_crates
from sections import TOP

KEPT = f"{TOP}/tools/out_of_memory.txt"
WORD = re.compile(r"\bOutOfMemory\b")
CONTRACT = re.compile(r"\b(?:ensures|requires|invariant|decreases|ghost \w+ =)[^{};]*\{")
CONVERSION = re.compile(r"impl\b[^{]*\bFrom<(?:OutOfMemory|AllocError|AllocFailed<\w+>)> for\b[^{]*\{")
# Where the word is a type, a variant's declaration, or a pattern.
NAMED = re.compile(
    r"use [^;]*;|struct OutOfMemory\b|[<,] ?OutOfMemory>|-> OutOfMemory\b|^ +OutOfMemory(?:\(\w+\))?,$"
    r"|(?:\w+::)?OutOfMemory(?:\(\w+\))?\)*(?= =>| =|\|)", re.M)
# An arm or a closure whose pattern names an error that means it, up to the end of what it gives.
PASSED = re.compile(r"(?:\|(?:\w+::)?OutOfMemory(?:\(\w+\))?\|"
                    r"|(?:(?:\w+::)?OutOfMemory(?:\(\w+\))?|\w+::Memory|AllocError)\)* =>)[^,;]*[,;]")


def blanked(text, begin, end):
    """The text with blanks in place of a part; lines stay."""
    return text[:begin] + re.sub(r"[^\n]", " ", text[begin:end]) + text[end:]


def without_blocks(text, head):
    """The text without what begins so and goes to the brace that closes it."""
    while found := head.search(text):
        depth, at = 1, found.end()
        while depth and at < len(text):
            depth += {"{": 1, "}": -1}.get(text[at], 0)
            at += 1
        text = blanked(text, found.start(), at)
    return text


def places(path):
    """Each place of a file, as the function and the line of code."""
    with open(path, encoding="utf-8") as it:
        whole = it.read()
    text = re.sub(r"//[^\n]*", "", whole)
    lines = text.split("\n")
    for head in (CONTRACT, CONVERSION):
        text = without_blocks(text, head)
    for passed in (PASSED, NAMED):
        while found := next((it for it in passed.finditer(text) if it.group().strip()), None):
            text = blanked(text, found.start(), found.end())
    for number, line in enumerate(text.split("\n")):
        for _ in WORD.finditer(line):
            heads = (re.search(r"\bfn (\w+)", before) for before in reversed(lines[:number + 1]))
            function = next((head[1] for head in heads if head), "")
            yield f"{path.removeprefix(TOP + '/crates/')} {function}: {lines[number].strip()}"


def found_places():
    tests = test_crates()
    paths = sorted(glob.glob(f"{TOP}/crates/*/src/**/*.rt", recursive=True))
    return [place for path in paths if path.removeprefix(f"{TOP}/crates/").split("/")[0] not in tests
            for place in places(path)]


def check(found):
    """Compares the places with those of the file; equal ones of a function count."""
    with open(KEPT, encoding="utf-8") as it:
        lines = it.read().splitlines()
    known = [line for line in lines if line and line[0] not in "# "]
    status = 0
    for place in sorted(set(found) | set(known)):
        more = found.count(place) - known.count(place)
        if more:
            print(f"{place}: " + ("not in tools/out_of_memory.txt" if more > 0 else "gone: take it out of the file"))
            status = 1
    for place, reason in zip(lines, [*lines[1:], ""]):
        if place in known and not reason.startswith("    "):
            print(f"{place}: has no reason below it in tools/out_of_memory.txt")
            status = 1
    return status


def main():
    parser = argparse.ArgumentParser(description=__doc__, formatter_class=argparse.RawDescriptionHelpFormatter)
    parser.add_argument("--check", action="store_true", help="compare them with the committed list")
    asked = parser.parse_args()
    found = found_places()
    if asked.check:
        return check(found)
    print("\n".join(found))
    return 0


if __name__ == "__main__":
    sys.exit(main())
