#!/usr/bin/env python3
"""Keeps what the documents quote from the sources as it stands there.

usage, at the top of the repository:
  tools/quotes.py [FILE..]           writes each quote anew, in these documents or in all of docs/ and README.md
  tools/quotes.py --check [FILE..]   status 1 where a quote isn't the text of its file, with a line for each

A quote is a fenced block of code directly below a line

  <!-- quote sc_chain/specs/Chain.antt IsChainWith -->

which names a file of crates/ and a definition in it. `NAME.FIELD` quotes one field of a record, and in a file of code
one clause of a function. The block is the file's text, verbatim but for the indentation that all its lines share.
"""
import argparse
import glob
import os
import re
import sys
import textwrap

from cites import Unresolved
from cites_code import Repository

QUOTE = re.compile(r"^<!-- quote (\S+) (\S+) -->\n(?:```(\w*)\n(.*?)^```\n)?", re.M | re.S)


def field_rows(rows, name):
    """The rows of a field of a record, or of a clause of a function."""
    begins = re.compile(rf"\s*(?:pub )?(?:ensures\*? |requires\*? )?{re.escape(name)}(?: |$)")
    at = next((at for at, row in enumerate(rows) if at and begins.match(row)), None)
    if at is None:
        return []
    indent = len(rows[at]) - len(rows[at].lstrip())
    end = at + 1
    while end < len(rows) and (not rows[end].strip() or len(rows[end]) - len(rows[end].lstrip()) > indent
                               or rows[end].strip().startswith("}")):
        end += 1
    return rows[at:end]


def quoted(repository, path, name):
    """The text of a definition, or of one field or clause of it."""
    owner, _, field = name.partition(".")
    whole = f"crates/{path}"
    if not os.path.exists(f"{repository.top}/{whole}"):
        raise Unresolved(f"there is no {whole}")
    is_code = path.endswith(".rt")
    things = repository.rust(whole).items if is_code else repository.antt(whole).scope.own
    if owner not in things:
        raise Unresolved(f"{whole} has no {owner}")
    thing = things[owner]
    rows = [row for begin, end in thing.spans for row in thing.file.rows[begin - 1:end]]
    rows = field_rows(rows, field) if field else rows
    if not rows:
        raise Unresolved(f"{owner} of {whole} has no {field}")
    return textwrap.dedent("\n".join(rows)).strip("\n") + "\n"


def renewed(repository, text, faults):
    """A document with its quotes as the sources have them. Notes the quotes that weren't."""

    def quote(found):
        language = found[3] or ("rust" if found[1].endswith(".rt") else "antt")
        now = quoted(repository, found[1], found[2])
        if found[4] != now:
            faults.append(f"{found[2]} isn't as in crates/{found[1]}")
        return f"<!-- quote {found[1]} {found[2]} -->\n```{language}\n{now}```\n"

    return QUOTE.sub(quote, text)


def documents(top):
    """All documents."""
    return [f"{top}/README.md", *sorted(glob.glob(f"{top}/docs/**/*.md", recursive=True))]


def main():
    """Checks or writes."""
    parser = argparse.ArgumentParser(description=__doc__, formatter_class=argparse.RawDescriptionHelpFormatter)
    parser.add_argument("--check", action="store_true", help="write nothing, and say which quotes are stale")
    parser.add_argument("files", nargs="*", help="the documents: all, where none is named")
    options = parser.parse_args()
    repository = Repository(os.path.dirname(os.path.dirname(os.path.realpath(__file__))))
    stale = 0
    for path in options.files or documents(repository.top):
        with open(path, encoding="utf-8") as it:
            text, faults = it.read(), []
        try:
            now = renewed(repository, text, faults)
        except Unresolved as it:
            sys.exit(f"tools/quotes.py: {os.path.relpath(path, repository.top)}: {it}")
        stale += len(faults)
        for fault in faults if options.check else []:
            print(f"{os.path.relpath(path, repository.top)}: {fault}: run tools/quotes.py")
        if now != text and not options.check:
            with open(path, "w", encoding="utf-8") as it:
                it.write(now)
    if options.check and stale:
        sys.exit(1)


if __name__ == "__main__":
    main()
