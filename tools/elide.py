#!/usr/bin/env python3
"""Leaves out of a crate's lemmas what follows from the rest: tries `_` in place of long arguments, and no type where
one stands at a `let` or at the variable of a λ, and keeps what the prover still accepts. Statements stay as they are.

usage, at the top of the repository: tools/elide.py CRATE [ROUNDS]     ROUNDS: the most checks (60)

It tries all at once and withdraws, check by check, what an error points at, until none is left; a lemma that still
fails goes back as it was. A check reads all files of proofs/ but the answers and takes seconds to a minute, through
tools/lemmas.py, so KEPT is used as there. What comes out is to be laid out by `rt fmt`, and proved by `rt ci`.
"""
import glob
import os
import re
import shutil
import subprocess
import sys

from sections import usage

LEAST = 6  # characters that an edit has to save
SIGNATURE = re.compile(r"^(\s*)(?:pub )?([^\s(){}\[\];,]+) : ")
TOKEN = re.compile(r"[^\s(){}\[\];,]+|[(){}\[\];,]|\n")
KEYWORDS = {"omega", "rw", "simp", "cc", "grind", "search", "first_of",
            "elim", "let", "in", "as", "record", "where", "hlevel",
            "assumption", "open", "use", "at"}
BREAKS = {"=", ";", ",", "∙", "→", "↦", "|", "in", ".", "∷", "++", "≡", "(", "[", "{"}
FOUND = re.compile(r"^\./proofs/(\w+)\.antt:(\d+):(\d+): (?:error|warning: (?!this pattern))(.*)$", re.M)


class Lemma:
    """A lemma's equations: where they lie in the text, from which line to which, and the signatures within."""

    def __init__(self, name, first, last, start, end, indent):
        self.name, self.first, self.last = name, first, last
        self.start, self.end, self.indent, self.within = start, end, indent, []


def depth_of(line):
    return len(line) - len(line.lstrip())


def block_end(lines, at, indent):
    """The line after those that are indented deeper."""
    while at < len(lines) and lines[at].strip() and depth_of(lines[at]) > indent:
        at += 1
    return at


def equations_end(lines, at, indent, name):
    """The line after the equations of a name."""
    own = re.compile(" " * indent + re.escape(name) + r"(\s|$)")
    while at < len(lines) and own.match(lines[at]) and not SIGNATURE.match(lines[at]):
        at += 1
        while at < len(lines):
            after = next((k for k in range(at, len(lines)) if lines[k].strip()), len(lines))
            if after == len(lines) or depth_of(lines[after]) <= indent:
                break
            at = after + 1
    return at


def lemmas(text):
    """The lemmas of a file, in order."""
    lines = text.split("\n")
    starts = [0]
    for line in lines:
        starts.append(starts[-1] + len(line) + 1)
    found, at = [], 0
    while at < len(lines):
        head = SIGNATURE.match(lines[at])
        if not head or lines[at].strip().startswith(("abbrev", "record", "--", "use ", "module", "data", "ruleset")):
            at += 1
            continue
        indent, name, first = len(head.group(1)), head.group(2), at
        at = block_end(lines, at + 1, indent)
        if at < len(lines) and lines[at].strip().startswith("unfolding"):
            at = block_end(lines, at + 1, indent)
        end = equations_end(lines, at, indent, name)
        if end > at:
            lemma = Lemma(name, first, end, starts[at], starts[end], indent)
            for k in range(at, end):
                if SIGNATURE.match(lines[k]) and depth_of(lines[k]) > indent:
                    lemma.within.append((starts[k], starts[block_end(lines, k + 1, depth_of(lines[k]))]))
            found.append(lemma)
        at = max(end, first + 1)
    return found


def closing(text, at, end):
    """The place after the bracket that closes the one at a place."""
    depth = 0
    for k in range(at, end):
        depth += (text[k] in "([{") - (text[k] in ")]}")
        if depth == 0:
            return k + 1
    return None


def typed_let(text, at, end):
    """The type of a `let`, where what it binds isn't a tactic's, as an edit."""
    head = re.match(r"let ([\w'′-]+) : ", text[at:end])
    if not head:
        return None
    depth = 0
    for k in range(at + head.end(), end - 1):
        depth += (text[k] in "([{") - (text[k] in ")]}")
        if depth == 0 and text[k] == "=" and text[k - 1] in " \n" and text[k + 1] in " \n":
            beginnings = ("omega", "rw", "simp", "cc", "grind", "search", "elim", "record", "(")
            if text[k + 1:].lstrip().startswith(beginnings):
                return None
            return at + len("let ") + len(head.group(1)), k, " "
    return None


def edit_at(text, lemma, token, is_argument):
    """What may be left out at a token: from where to where, and what stands in its place."""
    start, word, end = token.start(), token.group(), lemma.end
    if word == "(" and is_argument:
        return start, closing(text, start, end), "_"
    if word == "{" and is_argument and re.match(r"\{\w+ = ", text[start:end]):
        return start - (text[start - 1] == " "), closing(text, start, end), ""
    if word == "let":
        return typed_let(text, start, end)
    if word == "λ" and re.match(r"λ \((\w+) : ", text[start:end]):
        return start + 2, closing(text, start + 2, end), re.match(r"λ \((\w+) : ", text[start:end]).group(1)
    if is_argument and re.match(r"[a-z_][\w'′.-]*$", word):
        return start, token.end(), "_"
    return None


def edits(text, lemma):
    """What may be left out of a lemma's right sides."""
    found, left, depth, before, begins = [], True, 0, None, True
    for token in TOKEN.finditer(text, lemma.start, lemma.end):
        word = token.group()
        if word == "\n":
            begins = True
            continue
        if begins and token.start() - text.rfind("\n", 0, token.start()) - 1 == lemma.indent:
            left, depth, before = True, 0, None
        begins = False
        if any(start <= token.start() < end for start, end in lemma.within):
            before = None
        elif left:
            depth += (word in "([{") - (word in ")]}")
            left, before = not (word == "=" and depth == 0), None
        else:
            is_word = before is not None and re.match(r"[\w◌«]", before) and before not in KEYWORDS
            is_argument = before in (")", "}", "]") or bool(is_word and not before.startswith("λ"))
            edit = edit_at(text, lemma, token, is_argument)
            if edit and edit[1] and edit[1] - edit[0] - len(edit[2]) >= LEAST:
                found.append({"at": edit[0], "end": edit[1], "new": edit[2], "lemma": lemma, "is_in": True})
            before = None if word in BREAKS or re.match(r"[^\w◌«)\]}]+$", word) else word
    return found


class File:
    """A file of proofs/, as it was and with edits."""

    def __init__(self, path):
        self.path, self.text = path, open(path, encoding="utf-8").read()
        self.lemmas = lemmas(self.text)
        self.edits = [edit for lemma in self.lemmas for edit in edits(self.text, lemma)]
        self.edits.sort(key=lambda edit: (edit["at"], -edit["end"]))

    def edited(self):
        """The text with the edits that are in, and where each stands in it."""
        text, at, places = "", 0, []
        for edit in self.edits:
            if edit["is_in"] and edit["at"] >= at:
                text += self.text[at:edit["at"]]
                places.append((len(text), edit))
                text, at = text + edit["new"], edit["end"]
        return text + self.text[at:], places

    def write(self, text):
        open(self.path, "w", encoding="utf-8").write(text)


def check(crate, files):
    """The errors that the prover finds in the edited files: file, line, column and message."""
    for file in files:
        file.write(file.edited()[0])
    words = ["python3", "tools/lemmas.py", crate, "--", "--incremental", f"/tmp/elide-{os.getpid()}"]
    said = subprocess.run(words, capture_output=True, text=True)
    by_name = {os.path.basename(file.path)[:-5]: file for file in files}
    if not re.search(r"^fn ", said.stdout + said.stderr, re.M):
        raise SystemExit(said.stdout + said.stderr)
    return [(by_name[name], int(line) - 1, int(column) - 1, text)
            for name, line, column, text in FOUND.findall(said.stdout + said.stderr) if name in by_name]


def withdraw(files, errors, tries):
    """Takes out the edits that errors point at, or the nearest in their lemma; all, where a lemma has failed often."""
    for file in files:
        text, places = file.edited()
        starts = [0]
        for line in text.split("\n"):
            starts.append(starts[-1] + len(line) + 1)
        now = lemmas(text)
        for _, line, column, said in (error for error in errors if error[0] is file and "not checked" not in error[3]):
            hit = next((k for k, lemma in enumerate(now) if lemma.first <= line < lemma.last), None)
            if hit is None:
                continue
            own = [(place, edit) for place, edit in places if edit["lemma"] is file.lemmas[hit]]
            tries[file.path, hit] = tries.get((file.path, hit), 0) + 1
            at = starts[line] + column
            exact = [edit for place, edit in own if place <= at <= place + max(1, len(edit["new"])) - 1]
            distances = sorted(((abs(place - at), k), own[k][1]) for k, (place, _) in enumerate(own))
            nearest = [edit for _, edit in distances[:1]]
            every = [edit for _, edit in own]
            for edit in every if tries[file.path, hit] > 40 else exact or nearest:
                edit["is_in"] = False


def main(words):
    usage(__doc__, 1 <= len(words) <= 2 and os.path.isdir(f"crates/{words[0]}/proofs") and
          (len(words) == 1 or words[1].isdigit()))
    crate, rounds = words[0], int(words[1]) if len(words) > 1 else 60
    paths = [path for path in sorted(glob.glob(f"crates/{crate}/proofs/*.antt"))]
    files = [File(path) for path in paths if os.path.basename(path) not in ("Lib.antt", "Common.antt")]
    tries, errors = {}, None
    try:
        for number in range(rounds):
            errors = check(crate, files)
            saved = sum(len(file.text) - len(file.edited()[0]) for file in files)
            print(f"{crate}: check {number}, {len(errors)} errors, {saved} characters", flush=True)
            if not errors:
                break
            withdraw(files, errors, tries)
    finally:
        shutil.rmtree(f"/tmp/elide-{os.getpid()}", ignore_errors=True)
        for file in files:
            file.write(file.text if errors or errors is None else file.edited()[0])


if __name__ == "__main__":
    main(sys.argv[1:])
