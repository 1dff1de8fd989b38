"""The HTML page of tools/trusted.py --html: the text of each definition, with links to those that it cites."""
import functools
import html
import re

from cites import PIECE, Kit
from trusted_slices import kit_names, kit_places, ledger

WORD = re.compile(rf"(?P<comment>(?:--|//)[^\n]*)|(?P<string>\"(?:\\.|[^\"\\])*\")|(?P<word>{PIECE}(?:\.{PIECE})*)")
STYLE = """
:root { --ink: #1d2430; --paper: #ffffff; --soft: #5b6675; --line: #d9dee5; --code: #f5f7f9; --link: #0b57d0; }
@media (prefers-color-scheme: dark) {
  :root { --ink: #e4e8ee; --paper: #14181d; --soft: #9aa6b5; --line: #313944; --code: #1b2128; --link: #8ab4f8; }
}
body { color: var(--ink); background: var(--paper); font: 16px/1.5 system-ui, sans-serif; margin: 0 auto;
  max-width: 72rem; padding: 1rem 1.5rem 6rem; }
a { color: var(--link); text-decoration: none; }
a:hover { text-decoration: underline; }
h2 { border-top: 1px solid var(--line); margin-top: 3rem; padding-top: 1rem; }
table { border-collapse: collapse; }
td, th { border-bottom: 1px solid var(--line); padding: .2rem .8rem .2rem 0; text-align: left; }
td.n { font-variant-numeric: tabular-nums; text-align: right; }
.at { color: var(--soft); display: flex; font-size: .85rem; justify-content: space-between; margin: 1.2rem 0 .2rem; }
pre { background: var(--code); border: 1px solid var(--line); border-radius: 4px; margin: 0;
  font: 13px/1.45 ui-monospace, monospace; overflow-x: auto; padding: .6rem .8rem; }
:target pre { border-color: var(--link); }
.c { color: var(--soft); }
a.k { color: inherit; }
"""


@functools.lru_cache(None)
def anchor(thing):
    """The name of a definition's place in the page."""
    return html.escape(f"{thing.file.path}:{thing.line}:{thing.name}", quote=True)


def comment_above(rows, first):
    """The first line of the comment that stands directly above a definition."""
    while first > 1 and re.match(r"\s*(--|//|#\[)", rows[first - 2]):
        first -= 1
    return first


def kit_anchor(place):
    """The name of the place of a definition of the kit."""
    return html.escape(f"kit/{place.path}:{place.line}", quote=True)


def kit_link(names, it, shown):
    """A name of the kit, with a link to its definition if it has one there."""
    place = names.place(names.find(it.module, it.name)) if it.module else None
    if place:
        return f'<a class="k" href="#{kit_anchor(place)}">{shown}</a>'
    return f'<span title="{html.escape(f"kit: {it.module or it.word}")}">{shown}</span>'


def linked(thing, text, listed, names):
    """A text with a link at each word that cites a listed definition, or one of the kit."""
    links, out, place = thing.links(), [], 0
    for found in WORD.finditer(text):
        out.append(html.escape(text[place:found.start()]))
        word, shown = found[0], html.escape(found[0])
        targets = links.get(word) or links.get(word.strip("«»")) or links.get(word.rstrip(",:")) or []
        target = next((it for it in targets if it in listed), None)
        kit = next((it for it in targets if isinstance(it, Kit)), None)
        if found["comment"]:
            shown = f'<span class="c">{shown}</span>'
        elif target and target is not thing:
            shown = f'<a href="#{anchor(target)}">{shown}</a>'
        elif kit:
            shown = kit_link(names, kit, shown)
        out.append(shown)
        place = found.end()
    return "".join([*out, html.escape(text[place:])])


def block(thing, listed, names, count, lines):
    """A definition: its place, the counts up to it, and its text."""
    rows, pieces = thing.file.rows, []
    for begin, end in thing.spans:
        first = comment_above(rows, begin) if begin == thing.line else begin
        pieces.append("\n".join(rows[first - 1:end]))
    return (f'<section id="{anchor(thing)}"><div class="at"><span>{html.escape(thing.file.path)}:{thing.line}</span>'
            f"<span>{count:,} definitions, {lines:,} lines so far</span></div>"
            f'<pre>{linked(thing, chr(10).join(pieces), listed, names)}</pre></section>')


def quoted(text):
    """A row of the document as HTML: what stands between backticks is code."""
    return re.sub(r"`([^`]*)`", r"<code>\1</code>", html.escape(text))


def page(slices):
    """The whole page."""
    listed, names = {thing for it in slices.all for thing in it.things}, kit_names()
    out = ['<!doctype html><html lang="en"><head><meta charset="utf-8"><title>What has to be read</title>',
           f"<meta name=\"viewport\" content=\"width=device-width\"><style>{STYLE}</style></head><body>",
           "<h1>What has to be read</h1><p>These are the definitions on which the proved claims of <code>secomp</code> "
           "rest, in slices by claim. A definition comes before its uses, and each name in it is a link to its "
           f"definition. {quoted(slices.citations())}</p><table><tr><th>slice</th><th>definitions</th><th>lines</th>"
           "<th>lines so far</th></tr>"]
    out += [f'<tr><td><a href="#{it.anchor}">{quoted(it.title)}</a></td><td class="n">{len(it.things):,}</td>'
            f'<td class="n">{it.lines:,}</td><td class="n">{it.so_far:,}</td></tr>' for it in slices.all]
    out.append("</table>")
    count = lines = 0
    for it in slices.all:
        out.append(f'<h2 id="{it.anchor}">{quoted(it.title)}</h2><p>{quoted(" ".join(it.text))}</p>')
        crate = None
        for thing in it.things:
            count, lines = count + 1, lines + thing.lines()
            if thing.file.crate != crate:
                crate = thing.file.crate
                out.append(f"<h3>{html.escape(crate)}</h3>")
            out.append(block(thing, listed, names, count, lines))
    out.append(f"<h2>Defaults that no run meets</h2><p>{quoted(' '.join(ledger(slices.repository, slices.reach)))}</p>")
    return "\n".join([*out, *kit_blocks(slices, names), "</body></html>", ""])


def kit_blocks(slices, names):
    """The definitions of the kit, by file, with those that are cited here before those that they stand on."""
    direct, more, built_in = kit_places(slices.reach.words)
    yield (f'<h2 id="the-kit">The kit</h2><p>{len(direct)} definitions are cited here, of '
           f"{sum(it.lines for it in direct)} lines. They stand on {len(more)} more, of {sum(it.lines for it in more)} "
           f"lines. Built into the prover are {quoted(', '.join(f'`{name}`' for name in built_in))}.</p>")
    for place in [*direct, *more]:
        yield (f'<section id="{kit_anchor(place)}"><div class="at"><span>{html.escape(place.path)}:{place.line}</span>'
               f"</div><pre>{html.escape(names.text(place))}</pre></section>")
