#!/usr/bin/env python3
"""Lists what has to be read to believe a claim: the definitions that the contracts of public calls reach.

usage, at the top of the repository:
  tools/trusted.py              writes docs/TRUSTED.md
  tools/trusted.py --check      status 1 where docs/TRUSTED.md isn't what would be written, or --helping prints a file
  tools/trusted.py --html FILE  writes the same as one page, with the text of each definition and links between them
  tools/trusted.py --helping    prints the files of specs/ whose `-- Helping:` should be added or removed
  tools/trusted.py --twice      prints the names that several files define, of those that are reached
  tools/trusted.py --terms      prints the words in the names of what is reached, by count

The list is in slices, one for each claim (tools/trusted_slices.py), and bottom up: a definition comes before its uses.
tools/cites.py and tools/cites_code.py say what cites what, and tools/cites_kit.py follows names into the kit. Types of
the code count as contracts see them: by their fields, or by the `Value`, `view` and `invariant` of an `impl Model`.
Proofs don't count. Nothing of these tools is proved.
"""
import collections
import os
import re
import sys
import textwrap

from cites import Unresolved
from cites_code import Repository
from sections import usage
from trusted_html import page
from trusted_slices import HEADLINE, Reach, Slices, counted, kit_places, ledger, other_calls, read

TARGET = "docs/TRUSTED.md"
INNER = re.compile(r"sc_emit_|.*_laws$|sc_types_|sc_parse_|sc_run_value$")
PASSING = ("Prelude.antt", "Common.antt", "Lib.antt")
HEAD = """# What has to be read

To believe what a contract of this repository claims, you have to trust the prover, and to read the definitions that the
contract cites, the definitions that those cite, and so on down to the words of the kit. This page lists them all. Code
and proofs aren't in the list, because the prover checks them against these definitions.

The list is in slices, one for each claim. A slice has only what the slices before it don't have, so the first one alone
is what the headline claim needs. Within a slice the order is bottom up: a definition comes before its uses. The number
after a name is its line.

{citations}

`tools/trusted.py` writes this page from the sources, and the gate checks that it is up to date. With `--html FILE` it
writes the same list as one HTML page with the text of each definition, in which each name links to its definition.
A type of the code counts as contracts see it: a struct by its fields, or, where it has a model (`impl Model`), by the
type of its values. A trait counts with the contracts of its functions. A file of `specs/` whose first line begins with
`-- Helping:` only models code: the contract of no public call reaches it.

| slice | definitions | lines | lines so far |
|---|---:|---:|---:|"""


def tables(slice_):
    """A table for each crate of a slice: its files in the order of reading, with the definitions."""
    rows, crate, path = [], None, None
    for thing in slice_.things:
        if thing.file.crate != crate:
            crate, path = thing.file.crate, None
            rows += ["", f"**`{crate}`**", "", "| file | definitions |", "|---|---|"]
        if thing.file.path != path:
            path = thing.file.path
            rows.append(f"| `{os.path.relpath(path, 'crates/' + crate)}` | ")
        else:
            rows[-1] = rows[-1][:-2] + ", "
        rows[-1] += f"`{thing.name}` {thing.line} |"
    return [*rows[1:], ""]


def kit_rows(reach):
    """The definitions of the kit that are cited, with the files in which they stand."""
    direct, more, built_in = kit_places(reach.words)
    files = collections.defaultdict(lambda: ([], [], []))
    for at, places in enumerate((direct, more)):
        for place in places:
            files[place.path][at].append(f"`{place.name}` {place.line}".replace("|", "\\|"))
            files[place.path][2].append(place.lines)
    cited, below = (sum(place.lines for place in places) for places in (direct, more))
    text = (f"These definitions cite {len(direct)} definitions of the kit ({cited} lines), which stand on {len(more)} "
            f"more ({below} lines). Paths are below the kit's folder `rattle`. "
            f"Built into the prover are {', '.join(f'`{name}`' for name in built_in)}.")
    yield from textwrap.wrap(text, 118, break_long_words=False, break_on_hyphens=False)
    yield from ["", "| file | lines | cited here | what these stand on |", "|---|---:|---|---|"]
    for path in sorted(files):
        cited, below, lines = files[path]
        yield f"| `{path}` | {sum(lines)} | {', '.join(cited)} | {', '.join(below)} |"
    types = sorted({f"`{it.crate}::{it.word}`" for it in reach.words if not it.module})
    yield from ["", f"Contracts also name these types of the kit's code: {', '.join(types)}."]


def document(repository):
    """The text of docs/TRUSTED.md."""
    slices = Slices(repository)
    rows = HEAD.format(citations=slices.citations()).split("\n")
    for it in slices.all:
        rows.append(f"| [{it.title}](#{it.anchor}) | {len(it.things):,} | {it.lines:,} | {it.so_far:,} |")
    direct, more, _ = kit_places(slices.reach.words)
    lines = sum(place.lines for place in [*direct, *more])
    total = slices.all[-1].so_far + lines
    rows += [f"| [The kit](#the-kit) | {len(direct) + len(more):,} | {lines:,} | {total:,} |", ""]
    for it in slices.all:
        text = textwrap.wrap(" ".join(it.text), 118, break_long_words=False, break_on_hyphens=False)
        rows += [f'<a id="{it.anchor}"></a>', "", f"## {it.title}", "", *text, "", f"{counted(it.things)}.", ""]
        rows += tables(it)
    rows += ["## Defaults that no run meets", "", *ledger(repository, slices.reach), "", "## The kit", ""]
    rows += [*kit_rows(slices.reach), ""]
    return "\n".join(rows)


def everything(repository, inner):
    """What the headline and the calls reach, and with `inner` also the public calls of the crates that aren't parts."""
    reach = Reach()
    for thing in [repository.public(HEADLINE[0])[HEADLINE[1]], *other_calls(repository).values()]:
        reach.take(thing)
    for crate in repository.crates if inner else []:
        if crate.startswith(("sc_", "rv_")) and not INNER.match(crate) and crate not in tests(repository):
            for thing in repository.public(crate).values():
                reach.take(thing)
    return reach.things


def tests(repository):
    """The crates that only test."""
    return re.findall(r"^(\w+):", read(f"{repository.top}/crates.txt").split("# Tests")[1], re.M)


def helping(repository):
    """The files of specs/ whose heading should change."""
    reached = {thing.file.path for thing in everything(repository, True)}
    for crate in repository.crates:
        for path in repository.files(crate, "specs", ".antt"):
            if os.path.basename(path) not in PASSING and crate.startswith(("sc_", "rv_")):
                marked = read(f"{repository.top}/{path}").startswith("-- Helping:")
                if marked == (path in reached):
                    yield f"{'remove' if marked else 'add'} {path}"


def twice(repository):
    """The names that several files of specs/ define, with their places."""
    places = collections.defaultdict(list)
    for thing in everything(repository, False):
        if thing.file.path.endswith(".antt"):
            places[thing.name].append(f"{thing.file.path}:{thing.line}")
    for name in sorted(places):
        if len(places[name]) > 1:
            yield f"{name}: {', '.join(sorted(places[name]))}"


def terms(repository):
    """The words in names, by count."""
    count = collections.Counter()
    for thing in everything(repository, False):
        for part in re.split(r"[_:◌-]+", thing.name):
            count.update(word.lower() for word in re.findall(r"[A-Z]?[^A-Z]+|[A-Z]+", part))
    return (f"{number} {word}" for word, number in sorted(count.items(), key=lambda it: (-it[1], it[0])))


def main(words):
    """Writes, compares or prints."""
    repository = Repository(os.path.dirname(os.path.dirname(os.path.realpath(__file__))))
    prints = {"--helping": helping, "--twice": twice, "--terms": terms}
    target = f"{repository.top}/{TARGET}"
    usage(__doc__, not words or len(words) == 1 and words[0] in [*prints, "--check"] or
          len(words) == 2 and words[0] == "--html")
    try:
        if words and words[0] in prints:
            print("\n".join(prints[words[0]](repository)))
            return
        html = words[:1] == ["--html"]
        text = page(Slices(repository)) if html else document(repository)
    except Unresolved as it:
        raise SystemExit(f"tools/trusted.py: {it}")
    if html or not words:
        with open(words[1] if html else target, "w", encoding="utf-8") as it:
            it.write(text)
    elif not os.path.exists(target) or read(target) != text:
        raise SystemExit(f"{TARGET} isn't what the sources give: run tools/trusted.py")
    elif any(helping(repository)):
        raise SystemExit("the heads of some files of specs/ are wrong: tools/trusted.py --helping says which")


if __name__ == "__main__":
    main(sys.argv[1:])
