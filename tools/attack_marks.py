"""Marks in a copy of a text, which tell what its trusted sections reach.

A mark stands where a block begins and behind a block that isn't the last of its block. It calls `reached` of a
compartment `Marks` with its number, the first, second, fourth, eighth time and so on that it is reached. The marked
text's meaning is the text's own but for these events, and turns for the calls; a section has one line more, behind its
first. Nothing of this is proved: what is found with marks is run again without.
"""
import re

TOKEN = re.compile(r"/\*.*?\*/|//[^\n]*|\s+|^#[^\n]*|[A-Za-z_]\w*|\d\w*|.", re.S | re.M)
LOCAL = ("int", "signed", "unsigned", "struct")


def tokens(text):
    """The tokens of a section with where they begin, without white space and comments."""
    for found in TOKEN.finditer(text):
        token = found.group()
        if not token.isspace() and not token.startswith(("/*", "//")):
            yield found.start(), token


def fresh(name, text):
    """A name that doesn't stand in a text."""
    used = set(re.findall(r"[A-Za-z_]\w*", text))
    return next(each for each in [name] + [f"{name}_{number}" for number in range(len(used) + 1)] if each not in used)


class Finder:
    """Finds where a section's marks go."""

    def __init__(self, text):
        self.items = list(tokens(text))
        self.places, self.open, self.first = [], [], None

    def token(self, at):
        return self.items[at][1] if at < len(self.items) else ""

    def behind(self, at):
        """Where a token ends."""
        place, token = self.items[at]
        return place + len(token)

    def locals_end(self, at):
        """The last token of the locals that begin behind a token, or this one."""
        while self.token(at + 1) in LOCAL:
            at += 1
            while self.token(at) not in (";", ""):
                at += 1
        return at

    def opened(self, at):
        """A brace opens: `struct` and `=` bring no statements."""
        if self.open and self.open[-1] != "data":
            self.places.append(self.behind(at))
            self.open.append("block")
        elif self.token(at - 1) == ")":
            at = self.locals_end(at)
            self.places.append(self.behind(at))
            self.open.append("function")
        else:
            self.open.append("data")
        return at

    def closed(self, at):
        kind = self.open.pop() if self.open else "data"
        if kind == "block" and self.token(at + 1) not in ("else", "}"):
            self.places.append(self.behind(at))

    def find(self):
        at = 0
        while at < len(self.items):
            place, token = self.items[at]
            if self.first is None and not token.startswith("#"):
                self.first = place
            if token == "{":
                at = self.opened(at)
            elif token == "}":
                self.closed(at)
            at += 1
        return self.places


def marked(text, first_number, names):
    """A section's text with marks that are numbered from this number on, and how many there are."""
    section, function, counts = names
    finder = Finder(text)
    places = finder.find()
    if not places:
        return text, 0
    parts, at = [], 0
    for number, place in enumerate(places):
        count = f"{counts}[{number}]"
        parts += [text[at:place], f" {count} = {count} + 1u; if (({count} & ({count} - 1u)) == 0u) "
                  f"{{ {function}({first_number + number}); }}"]
        at = place
    whole = "".join(parts) + text[at:]
    heading, _, below = whole.partition("\n")
    first = finder.first - len(heading) - 1
    head = f"void {function}(int); unsigned int {counts}[{len(places)}]; "
    return f"{heading}\n#pragma import {section} {function}\n{below[:first]}{head}{below[first:]}", len(places)


def line_of(text, place):
    return text.count("\n", 0, place) + 1


def marked_pieces(pieces):
    """The pieces of a text (see `written` of attack_text.py) with marks in those that aren't attacked, the section and
    the line of each mark, and the words with which an event of a mark begins."""
    whole = "".join(piece[0] for piece in pieces)
    names = tuple(fresh(name, whole) for name in ("Marks", "reached", "counts"))
    found, places = [], []
    for piece in pieces:
        if len(piece) == 2 or not piece[0].startswith("#pragma compartment "):
            found.append(piece)
            continue
        text, count = marked(piece[0], len(places), names)
        section = piece[0].split()[2]
        places += [(section, line_of(piece[0], place)) for place in Finder(piece[0]).find()][:count]
        found.append([text])
    found.append([f"#pragma compartment {names[0]}\n#pragma export {names[1]}\nvoid {names[1]}(int place) {{ }}\n"])
    return found, places, list(names[:2])
