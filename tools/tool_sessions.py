#!/usr/bin/env python3
"""Runs the sessions of the documents of tools: `tool_sessions.py [WORD]`, at the top of the repository.

A session is a line `$ COMMAND` in a block that is indented by four spaces, with what it writes below it, on both
streams. They are run in order, in a folder of their own, in which the repository's folders and `secomp` stand; that
runs the program that SECOMP names, if it does. With WORD only those are run in which it stands, and those that show
nothing. What a program with run-time checks says of itself isn't compared. Where a session wants a Debian package that
isn't there, that is said. The last line counts; the status is 1 if one failed.
"""
import os
import re
import shlex
import subprocess
import tempfile

from sections import TOP, commands, count, program, start

PAGES = ["docs/TOOLS.md", "docs/BUILD.md"]
CHECKED = re.compile(r"^secomp: (this program has run-time checks|building |built ).*\n", re.M)
WANTING = re.compile(r"\w+: this takes .* \(in Debian the package .*\n")


def run(command, folder):
    ran = subprocess.run(["bash", "-c", command], cwd=folder, stdin=subprocess.DEVNULL, stdout=subprocess.PIPE,
                         stderr=subprocess.STDOUT, check=False)
    return CHECKED.sub("", ran.stdout.decode(errors="replace"))


def answers(page, word, folder):
    """How each session of a page went that was tried: nothing where it wrote what is shown."""
    for command, shown, _ in commands(page):
        if shown and word not in command:
            continue
        wrote = run(command, folder)
        if WANTING.fullmatch(wrote):
            print(f"$ {command}\nwasn't tried: {wrote}", end="")
        else:
            yield "" if wrote == shown else f"$ {command}\nwrote\n{wrote}in place of\n{shown}"


def main(word=""):
    program()
    return count(answer for page in PAGES for answer in in_folder(page, word))


def in_folder(page, word):
    with tempfile.TemporaryDirectory() as folder:
        for name in ("tools", "docs", "examples"):
            os.symlink(f"{TOP}/{name}", f"{folder}/{name}")
        if "SECOMP" in os.environ:
            with open(f"{folder}/secomp", "w", encoding="utf-8") as it:
                it.write(f'#!/bin/sh\nexec {shlex.quote(program())} "$@"\n')
            os.chmod(f"{folder}/secomp", 0o755)
        else:
            os.symlink(f"{TOP}/secomp", f"{folder}/secomp")
        yield from answers(page, word, folder)


if __name__ == "__main__":
    start(main, __doc__)
