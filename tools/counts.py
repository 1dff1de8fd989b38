"""Counts that may only fall: what tools/counts.txt has, and how a tool compares its own with them."""
import sys

from sections import TOP

PATH = f"{TOP}/tools/counts.txt"


def committed():
    """Each name of the file with its count."""
    with open(PATH, encoding="utf-8") as it:
        return {name: int(number) for name, _, number in (line.strip().rpartition(" ") for line in it) if name}


def grown(numbers, tool):
    """Says which counts are above the committed ones, and by which words the tool lists them."""
    before, has_grown = committed(), False
    for name, number in numbers.items():
        if number > before.get(name, 0):
            print(f"{name}: {number}, and {before.get(name, 0)} before; {tool} lists them", file=sys.stderr)
            has_grown = True
    return has_grown


def check(numbers, tool):
    """The status of a tool's --check: 1 where a count has grown. One that has fallen is noted."""
    if grown(numbers, tool):
        return 1
    if fallen := [name for name, number in numbers.items() if number < committed()[name]]:
        print(f"note: fewer than tools/counts.txt has: {', '.join(fallen)}; {tool} --write lowers them")
    return 0


def write(numbers, tool):
    """The status of a tool's --write: 1 where a count has grown, and then nothing is written."""
    if grown(numbers, tool):
        return 1
    kept = {**committed(), **numbers}
    with open(PATH, "w", encoding="utf-8") as it:
        it.writelines(f"{name} {number}\n" for name, number in sorted(kept.items()))
    return 0
