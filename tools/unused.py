#!/usr/bin/env python3
"""Lists what nothing leads to: each definition and lemma of specs/ and proofs/ that no contract, answer, edit or
document cites, nor anything else that they cite.

usage:
  tools/unused.py [REPO]    prints FILE NAME LINES, and the sums
  tools/unused.py --check   compares the number of definitions with tools/counts.txt; the status is 1 if it has grown
  tools/unused.py --write   writes the number there, unless it has grown

Answers and invariants of functions count as cited, as do the files of EXAMPLES, which compute what the definitions
say, and files with a line INSTANCE at their head, which show that premises can be met. Names are distinguished by
file and import; a name that a contract writes stands for each definition so called in specs/.
"""
import glob
import os
import re
import sys

from counts import check, write
from sections import TOP, usage

EXAMPLES = re.compile(
    r"(Examples?|Rows|Causes|Texts|Accounts|Known|Typed|Refusals|Runs|Seven|Computed|Small|Names|Calling)\.antt$")
INSTANCE = "-- An instance:"
WORD = re.compile(r"[^\s(){}\[\];,`\".]+")
CODE_WORD = re.compile(r"[A-Za-z_◌][\w◌'′-]*")
HEAD = re.compile(r"(?:(?:pub|abbrev|private|unfoldable|opaque)\s+)*(?:(?:record|data|ruleset)\s+)?([^\s(){}\[\];,]+)")
USE = re.compile(r"(?:\w+ )*?use (?:Rattle\.)?([^\s{]+?)(?:\.\{(.*)\})?(?: as (\S+))?$")


class File:
    """What a file defines: by name its lines, the words in them, and the words of the sections that it stands in."""

    def __init__(self, path):
        self.words, self.lines, self.names, self.modules = {}, {}, {}, {}
        self.sections, self.open, self.last = [(0, set())], None, None
        lines = open(path, encoding="utf-8").read().split("\n")
        self.is_instance = any(line.startswith(INSTANCE) for line in lines)
        for line in lines:
            if line.strip() and not line.strip().startswith("-- "):
                self.take(len(line) - len(line.lstrip()), line.strip())

    def take(self, indent, line):
        """Reads a line that is no comment."""
        if self.open is not None:
            if self.open == "body":
                self.sections.append((indent, self.header))
                self.open = None
            else:
                self.header |= set(WORD.findall(line))
                self.open = "body" if line.endswith("where") else self.open
                return
        while len(self.sections) > 1 and indent < self.sections[-1][0]:
            self.sections.pop()
        if indent > self.sections[-1][0]:
            self.note(line)
        elif USE.match(line):
            self.imported(*USE.match(line).groups())
        elif re.match(r"(pub )?(module|mutual)\b", line):
            self.open = "body" if line.endswith("where") or line == "mutual" else "head"
            self.header, self.last = set(WORD.findall(line)), None
        elif not re.match(r"(pub )?mod ", line):
            head = HEAD.match(line)
            if head and not line.startswith("unfolding"):
                self.last = head.group(1)
                self.words.setdefault(self.last, set().union(*(words for _, words in self.sections)))
                self.lines.setdefault(self.last, 0)
            self.note(line)

    def note(self, line):
        """Adds a line to what was begun last."""
        if self.last:
            self.words[self.last] |= set(WORD.findall(line))
            self.lines[self.last] += 1

    def imported(self, module, names, other):
        """Notes a line of imports."""
        if names is None:
            self.modules[other or module.split(".")[-1]] = module
        for name in (names or "").split(","):
            there, _, here = name.strip().partition(" as ")
            self.names[(here or there).strip()] = (module, there.strip())


def read(path):
    return open(path, encoding="utf-8").read()


class Repository:
    """The files of a repository, and what was reached in them."""

    def __init__(self, top):
        self.crates = os.path.join(top, "crates")
        found = [path for path in glob.glob(f"{self.crates}/**/*", recursive=True) if "/out/" not in path]
        self.files = {self.module(path): File(path) for path in found if path.endswith(".antt")}
        self.code = "\n".join(read(path) for path in found if path.endswith((".rt", ".edit")))
        pages = [os.path.join(top, "README.md"), *glob.glob(f"{top}/docs/[!T]*.md"), f"{top}/docs/TUTORIAL.md"]
        quoted = [part for page in pages for part in re.findall("`([^`]*)`", read(page))]
        self.documents = set(CODE_WORD.findall(" ".join(quoted)))
        self.reached, self.left = set(), []

    def module(self, path):
        return os.path.relpath(path, self.crates)[:-len(".antt")].replace("/", ".")

    def reach(self, module, name):
        """Follows a name through imports to where it is defined."""
        for _ in range(12):
            file = self.files.get(module)
            if file is None:
                return
            if name in file.words:
                if (module, name) not in self.reached:
                    self.reached.add((module, name))
                    self.left.append((module, name))
                return
            if name not in file.names:
                return
            module, name = file.names[name]

    def begin(self):
        """Reaches what code and documents cite, answers, and examples."""
        cited = set(CODE_WORD.findall(self.code))
        proofs = {path.replace("::", ".") for path in re.findall(r"proofs::([\w:]+)", self.code)}
        for module, file in self.files.items():
            parts = module.split(".")
            shown = file.is_instance or EXAMPLES.search(f"{parts[-1]}.antt")
            whole = parts[1] == "proofs" and (len(parts) > 3 or shown)
            for name in file.words:
                by_code = name in cited if parts[1] == "specs" else ".".join([*parts[2:], name]) in proofs
                if whole or by_code or name in self.documents or name.startswith(("infix", "◌")):
                    self.reach(module, name)

    def go_on(self):
        """Reaches what was reached cites."""
        while self.left:
            module, name = self.left.pop()
            file = self.files[module]
            for word in file.words[name]:
                self.reach(module, word)
                for there in file.modules.values():
                    self.reach(there, word)


def unused(top):
    """What nothing leads to: the file, the name, and how many lines it has."""
    repository = Repository(top)
    repository.begin()
    repository.go_on()
    for module, file in sorted(repository.files.items()):
        for name, lines in file.lines.items():
            if (module, name) not in repository.reached:
                yield module.replace(".", "/") + ".antt", name, lines


def main(words):
    if words in (["--check"], ["--write"]):
        number = {"unused definitions": len(list(unused(TOP)))}
        return (check if words == ["--check"] else write)(number, "tools/unused.py")
    usage(__doc__, len(words) <= 1 and all(os.path.isdir(f"{word}/crates") for word in words))
    found = list(unused(os.path.realpath(words[0]) if words else TOP))
    for file, name, lines in found:
        print(file, name, lines)
    print(f"{len(found)} definitions, {sum(lines for _, _, lines in found)} lines")
    return 0


if __name__ == "__main__":
    sys.exit(main(sys.argv[1:]))
