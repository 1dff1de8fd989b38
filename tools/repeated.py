#!/usr/bin/env python3
"""Lists repeated passages: pairs of places with eight lines or more that are the same, or the same with other names.

usage, at the top of the repository:
  tools/repeated.py [KIND ..]   prints `LINES LATER ~ EARLIER` for each pair, longest first, and the counts
  tools/repeated.py --check     compares the counts with tools/counts.txt; the status is 1 if one has grown
  tools/repeated.py --write     writes the counts there, unless one has grown

The kinds are counted apart: src (code), tests (the code of crates that only test), specs and proofs. Blank lines,
comments, imports and lone punctuation are left out, and so are files that a tool writes. Two passages are the same with
other names if a one-to-one renaming makes them equal, up to the values of literals, and if at least half of the names
(other than keywords) are kept. Each passage is paired with the longest one before it, so that three copies make two
pairs; no line is in two later places. """
import argparse
import glob
import re
import sys
from collections import defaultdict

from counts import check, write
from sections import TOP

LEAST = 8
# Of each passage of eight lines only so many earlier places are looked at.
MOST_PLACES = 64
TOKEN = re.compile(r'"(?:[^"\\]|\\.)*"|[^\s(){}\[\];,.:"`]+|[^\s]')
IMPORT = {
    ".rt": re.compile(r"(pub(\(\w+\))? )?(ghost )?(use\b|mod \w+;)"),
    ".antt": re.compile(r"(\w+ )*use |(pub )?mod "),
}
COMMENT = {".rt": "//", ".antt": "-- "}
GENERATED = re.compile(r"// .*\bwritten\b.* by tools/")
KEYWORDS = frozenset(
    "as bool break const continue crate else ensures enum false fn for ghost if impl in let match mod module mut new "
    "now old pub record return requires self Self static struct true type u8 u16 u32 u64 usize i32 i64 use where while "
    "abbrev data of".split())


def classify(token):
    """What a token must have in common with that of the other passage: itself, or only that it is a name or literal."""
    if token[0] == '"' or token[0].isdigit():
        return "literal"
    return "name" if token[0].isalpha() or token[0] in "_◌" or ord(token[0]) > 127 else token


class Line:
    """A line that counts: where it stands, its shape without names and literals, and its names."""

    def __init__(self, path, number, tokens):
        self.path, self.number = path, number
        self.shape = tuple(classify(token) for token in tokens)
        self.names = tuple(token for token in tokens if classify(token) == "name")


def lines_of(path):
    """The lines of a file that count."""
    with open(path, encoding="utf-8") as it:
        lines = it.read().split("\n")
    if any(GENERATED.match(line) for line in lines[:3]):
        return
    ending = path[path.rindex("."):]
    is_import = False
    for number, line in enumerate(map(str.strip, lines), 1):
        if is_import or IMPORT[ending].match(line):
            is_import = ending == ".rt" and not line.endswith(";")
        elif line and not line.startswith(COMMENT[ending]):
            tokens = TOKEN.findall(line)
            if any(classify(token) in ("name", "literal") for token in tokens):
                yield Line(path, number, tokens)


class Passages:
    """The lines of all files of a kind, one after another, and where each passage of eight lines begins."""

    def __init__(self, paths):
        self.lines = [line for path in paths for line in lines_of(path)]
        self.keys = [self.key(at) for at in range(len(self.lines))]
        self.starts = defaultdict(list)

    def key(self, at):
        """What is equal for eight lines and a renamed copy of them; nothing where the file ends before."""
        part = self.lines[at:at + LEAST]
        if len(part) < LEAST or part[0].path != part[-1].path:
            return None
        numbers = {}
        return tuple((line.shape, tuple(numbers.setdefault(name, len(numbers)) for name in line.names))
                     for line in part)

    def common(self, earlier, later):
        """How many lines from these two on are the same up to names, of which half are kept."""
        there, back, count = {}, {}, 0
        first, second = self.lines[earlier].path, self.lines[later].path
        while later + count < len(self.lines) and earlier + count < later:
            left, right = self.lines[earlier + count], self.lines[later + count]
            if (left.path, right.path, left.shape) != (first, second, right.shape):
                break
            if any(there.setdefault(a, b) != b or back.setdefault(b, a) != a for a, b in zip(left.names, right.names)):
                break
            count += 1
        free = [(a, b) for a, b in there.items() if a not in KEYWORDS]
        return count if 2 * sum(a == b for a, b in free) >= len(free) else 0

    def best(self, at):
        """The longest passage before this one that it repeats: its length and where it begins; one line if none."""
        found = [(self.common(earlier, at), -earlier) for earlier in self.starts[self.keys[at]][-MOST_PLACES:]
                 if earlier + LEAST <= at]
        length, earlier = max(found, default=(0, 0))
        return (length, -earlier) if length >= LEAST else (1, None)

    def pairs(self):
        """The pairs of places: how many lines, the later place, and the earlier one."""
        at = 0
        while at < len(self.lines):
            length, earlier = self.best(at) if self.keys[at] else (1, None)
            if earlier is not None:
                yield length, self.place(at, length), self.place(earlier, length)
            for begin in range(at, at + length):
                if self.keys[begin]:
                    self.starts[self.keys[begin]].append(begin)
            at += length

    def place(self, at, length):
        first, last = self.lines[at], self.lines[at + length - 1]
        return f"{first.path.removeprefix(TOP + '/crates/')}:{first.number}-{last.number}"


def test_crates():
    """The crates that stand below `# Tests` in crates.txt."""
    with open(f"{TOP}/crates.txt", encoding="utf-8") as it:
        _, _, below = it.read().partition("\n# Tests\n")
    return {line.split(":")[0].split()[0] for line in below.splitlines() if ":" in line}


def files():
    """The files of each kind."""
    tests = test_crates()
    found = {"src": [], "tests": [], "specs": [], "proofs": []}
    for path in sorted(glob.glob(f"{TOP}/crates/*/*/**/*", recursive=True)):
        crate, kind = path.removeprefix(f"{TOP}/crates/").split("/")[:2]
        if path.endswith((".rt", ".antt")) and kind in found:
            found["tests" if kind == "src" and crate in tests else kind].append(path)
    return found


def main():
    parser = argparse.ArgumentParser(description=__doc__, formatter_class=argparse.RawDescriptionHelpFormatter)
    parser.add_argument("kinds", nargs="*", metavar="KIND", help="src, tests, specs or proofs; all four without a word")
    how = parser.add_mutually_exclusive_group()
    how.add_argument("--check", action="store_true", help="fail if a count has grown")
    how.add_argument("--write", action="store_true", help="write the counts, unless one has grown")
    asked = parser.parse_args()
    found = files()
    if wrong := [kind for kind in asked.kinds if kind not in found]:
        parser.error(f"{wrong[0]}: no kind; these are {', '.join(found)}")
    pairs = {kind: sorted(Passages(found[kind]).pairs(), key=lambda it: -it[0])
             for kind in found if kind in (asked.kinds or found)}
    numbers = {f"repeated {kind}": len(them) for kind, them in pairs.items()}
    if asked.check or asked.write:
        return (check if asked.check else write)(numbers, "tools/repeated.py")
    for length, later, earlier in (pair for them in pairs.values() for pair in them):
        print(length, later, "~", earlier)
    for kind, them in pairs.items():
        print(f"{kind}: {len(them)} pairs, {sum(length for length, _, _ in them)} lines")
    return 0


if __name__ == "__main__":
    sys.exit(main())
