#!/usr/bin/env python3
"""Tests tools/check-documents and tools/release: faults are planted in a copy of the repository, and each has to be
refused with a sentence that names it. Without a fault nothing is refused.

usage: tools/document_faults.py. The last line counts; the status is 1 if a test failed. Nothing here is proved.
"""
import os
import shutil
import subprocess
import sys
import tempfile

from sections import TOP, count, repository_files, start

# a check, a file, what stands there once, what is put in its place, and a part of the refusal
FAULTS = [
    ("generated", "docs/TRUSTED.md", "# What has to be read", "# What may be read", "isn't what the sources give"),
    ("generated", "crates/sc_base/specs/Limits.antt", "most_events = 4096",
     "-- never met: no_such_law\nmost_events = 4096", "no public function is called no_such_law"),
    ("sessions", "docs/EXPLAIN.md", "    chain 1\n    replace Net after 1", "    chain 1\n    replace Net after 2", ""),
    ("quotes", "docs/proof/paper.md", "  pub proper : link.after < length trace",
     "  pub proper : link.after ≤ length trace", "IsBlamedSo isn't as in"),
    ("quotes", "crates/sc_chain/specs/Chain.antt", "  pub proper : link.after < length trace",
     "  pub proper : link.after ≤ length trace", "IsBlamedSo isn't as in"),
    ("quotes", "docs/proof/paper.md", "Chain.antt IsBlamedSo", "Chain.antt IsBlamed", "has no IsBlamed"),
    ("links", "SECURITY.md", "](docs/SPLITTING.md)", "](docs/SPLITING.md)", "docs/SPLITING.md leads nowhere"),
    ("links", "CONTRIBUTING.md", "README.md#what-is-trusted", "README.md#what-is-believed",
     "no heading for #what-is-believed"),
    ("version", "CITATION.cff", "version: 0.", "version: 9.", "CITATION.cff: says version 9."),
    ("version", "README.md", "Version 0.", "Edition 0.", "README.md: says version nothing"),
    ("kit", "README.md", "rattle-kit-", "rattle-kit-0", "README.md doesn't name the kit"),
    ("figures", "docs/figures/account.svg", "prefers-color-scheme", "prefers-contrast", "lacks a title, or colours"),
    ("figures", "docs/figures/pipeline.svg", "</svg>", "", "docs/figures/pipeline.svg"),
    ("layout", "SECURITY.md", "## What doesn't count\n", "## What doesn't count \n", "ends in a blank"),
]


def copied(folder):
    """A copy of the repository's files, with a git repository of its own in which all is committed."""
    for name in repository_files():
        os.makedirs(os.path.dirname(f"{folder}/{name}"), exist_ok=True)
        shutil.copy2(f"{TOP}/{name}", f"{folder}/{name}")
    git = ["git", "-C", folder, "-c", "user.name=test", "-c", "user.email=test@test.example"]
    for words in (["init", "-q"], ["add", "-A"], ["commit", "-q", "-m", "A copy"]):
        subprocess.run([*git, *words], check=True)


def run(folder, *words):
    """What a tool of the copy writes, and its status."""
    tool = [f"{folder}/tools/{words[0]}", *words[1:]]
    ran = subprocess.run(tool, cwd=folder, capture_output=True, text=True, check=False)
    return ran.stdout + ran.stderr, ran.returncode


def refused(folder, fault):
    """What is wrong where a fault is planted; nothing where it is refused as it must be."""
    check, path, old, new, part = fault
    with open(f"{folder}/{path}", encoding="utf-8") as it:
        text = it.read()
    if old not in text:
        return f"{path} has no {old!r}"
    with open(f"{folder}/{path}", "w", encoding="utf-8") as it:
        it.write(text.replace(old, new, 1))
    wrote, status = run(folder, "check-documents", "--only", check)
    with open(f"{folder}/{path}", "w", encoding="utf-8") as it:
        it.write(text)
    return "" if status == 1 and part in wrote and "Traceback" not in wrote else f"{fault}: status {status}\n{wrote}"


def unreleased(folder, part):
    """What is wrong where a release has to be refused with this part."""
    wrote, status = run(folder, "release", "--to", f"{folder}/archives")
    is_refused = status == 1 and part in wrote and not os.path.exists(f"{folder}/archives")
    return "" if is_refused else f"release: {part} was wanted, status {status}\n{wrote}"


def answers():
    """The answers of all tests."""
    with tempfile.TemporaryDirectory() as folder:
        copied(folder)
        wrote, status = run(folder, "check-documents")
        yield f"without a fault:\n{wrote}" if status else ""
        for fault in FAULTS:
            yield refused(folder, fault)
        yield unreleased(folder, "there is no proved program")
        with open(f"{folder}/README.md", "a", encoding="utf-8") as it:
            it.write("more\n")
        yield unreleased(folder, "the checkout has changes")


if __name__ == "__main__":
    start(lambda: count(answers()), __doc__)
