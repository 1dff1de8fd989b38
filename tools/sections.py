"""What the tools beside `secomp` share: a text's sections, the program, the sessions that a document shows, and how
tests are counted. Nothing here is part of the proved program."""
import functools
import os
import re
import subprocess
import sys

HEADING = re.compile(r"#pragma compartment ([A-Za-z_]\w*)\s*$")
TOP = os.path.dirname(os.path.dirname(os.path.abspath(__file__)))


class Section:
    """A compartment's lines, and the number of its first in the file, from 1."""

    def __init__(self, name, first):
        self.name, self.first, self.lines = name, first, []

    def place(self, line):
        """Of a line counted from the compartment line as 1: its number in the file, and what stands there."""
        text = self.lines[line - 1] if 0 < line <= len(self.lines) else ""
        return self.first + line - 1, text.strip()


def sections(text):
    """Those of a text, in order."""
    found = []
    for number, line in enumerate(text.split("\n"), 1):
        heading = HEADING.match(line)
        if heading:
            found.append(Section(heading.group(1), number))
        if found:
            found[-1].lines.append(line)
    return found


def section_of(text, name):
    return next((section for section in sections(text) if section.name == name), None)


def secomp(words, text):
    """What the program writes on these words for a text, what it says on standard error, and its status."""
    try:
        ran = subprocess.run([program(), *words], input=text, capture_output=True, check=False)
    except OSError as error:
        stop(f"secomp: {error.strerror}")
    return ran.stdout, ran.stderr.decode(errors="replace"), ran.returncode


@functools.cache
def program():
    """The program that `./secomp` runs, which is built first where it isn't yet; or the one that SECOMP names."""
    if named := os.environ.get("SECOMP"):
        return named
    asks = {**os.environ, "SECOMP_WHICH": "1"}
    ran = subprocess.run([f"{TOP}/secomp"], env=asks, stdin=subprocess.DEVNULL, stdout=subprocess.PIPE, check=False)
    if ran.returncode:
        sys.exit(2)
    return ran.stdout.decode().rstrip("\n")


def stop(text):
    """Ends a tool for bad use or bad input."""
    print(text, file=sys.stderr)
    sys.exit(2)


def read(path):
    try:
        with open(path, "rb") as it:
            return it.read()
    except OSError as error:
        return stop(f"{path}: {error.strerror}")


def origin(path, number):
    """The line that this one of a ported text comes from, as FILE:LINE with what stands there, by the map that
    tools/port writes beside the text; nothing where there is no map, or the line is the porter's own."""
    try:
        with open(path + ".map", encoding="utf-8", errors="replace") as it:
            places = dict(line.rstrip("\n").split(" ", 1) for line in it if " " in line)
    except OSError:
        return ""
    found = places.get(str(number), "")
    file, _, line = found.rpartition(":")
    try:
        with open(file, encoding="utf-8", errors="replace") as it:
            lines = it.read().split("\n")
        return f"{found}: {lines[int(line) - 1].strip()}"
    except (OSError, ValueError, IndexError):
        return found


def commands(document):
    """Each command of a document, what is shown below it, and all that follows."""
    lines = read(document).decode().split("\n")
    for number, line in enumerate(lines):
        if line.startswith("    $ "):
            shown = []
            for below in lines[number + 1:]:
                if not below.startswith("    ") or below.startswith("    $ "):
                    break
                shown.append(below[4:] + "\n")
            yield line[6:], "".join(shown), "\n".join(lines[number + 1:])


def repository_files():
    """The files of the repository: those that git knows or would take, or, where this isn't a checkout of git, all but
    what is built."""
    words = ["git", "-C", TOP, "ls-files", "-z", "--cached", "--others", "--exclude-standard"]
    ran = subprocess.run(words, capture_output=True, check=False)
    if ran.returncode == 0:
        names = {name for name in ran.stdout.decode().split("\0") if name}
        return sorted(name for name in names if os.path.isfile(f"{TOP}/{name}"))
    found = []
    for folder, below, names in os.walk(TOP):
        below[:] = [name for name in below if name not in ("out", ".git", "__pycache__")]
        found += [os.path.relpath(f"{folder}/{name}", TOP) for name in names]
    return sorted(found)


def count(answers):
    """Prints each answer of a test that isn't empty, since it says why the test failed, and at the end how many passed
    and how many failed. The status of a program that ran these tests."""
    passed = failed = 0
    for answer in answers:
        if answer:
            failed += 1
            print(answer, flush=True)
        else:
            passed += 1
    print(f"{passed} passed, {failed} failed")
    return 1 if failed else 0


def usage(text, is_right=False):
    """Says how a tool is used where its words ask for that, or where they aren't right."""
    if sys.argv[1:] in (["-h"], ["--help"]):
        print(text)
        sys.exit(0)
    if not is_right:
        stop(text)


def start(main, text):
    """Runs a tool that takes one word at most, or says how it is used."""
    words = sys.argv[1:]
    usage(text, len(words) <= 1 and not any(word.startswith("-") for word in words))
    sys.exit(main(*words))
