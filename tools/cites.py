"""What definitions cite: the terms and the .antt files that tools/trusted.py reads.

A name in a term is bound there (by a pattern, a `λ`, a `let`, a typed parameter, a field before it), or the imports of
its file say what it is; one that is neither is an error. No kit is needed: of its names only the module is known.
"""
import collections
import functools
import re

PIECE = r'(?:«[^»]*»|[^\s(){}.;,@"«»]+)'
STRING = r'"(?:\\.|[^"\\])*"'
TOKEN = rf"(?P<string>{STRING})|(?P<word>{PIECE}(?:\.{PIECE})*|\.{PIECE}(?:\.{PIECE})*)|(?P<mark>[(){{}}.;,@])"
ANTT = re.compile(rf"(?P<skip>\s+|--[^\n]*|\{{-.*?-\}})|{TOKEN}", re.S)
RUST = re.compile(rf"(?P<skip>\s+|//[^\n]*|/\*.*?\*/|b?'(?:\\[^']*.|[^'\\])')|{TOKEN}", re.S)
# The words of antt that no file declares (`𝓛` is the toolchain's logic), and those of Rust.
BUILT_IN = set("𝓛 → × ↦ = | : [ ] ← _ ⊥ ¬ Unit tt absurd Type Prim where record elim as in let do λ data".split())
OF_RUST = set("Self Some None Ok Err Option Result String Vec Box Drop Clone Copy Fn FnMut FnOnce Iterator Default From"
              " Into PartialEq Eq PartialOrd Ord Hash Debug Display"
              " bool u8 u16 u32 u64 usize i8 i16 i32 i64 isize".split())
MODIFIERS = {"abbrev", "pub", "private", "unfoldable", "opaque"}

# a name of the kit: its crate and module, and the module and the word by which the kit knows it
Kit = collections.namedtuple("Kit", "crate word module name", defaults=("", ""))


class Unresolved(Exception):
    """A name that is neither bound nor imported."""


class Node:
    """A word of a text, or what stands in a pair of brackets."""

    def __init__(self, text, line, column, first):
        self.text, self.line, self.column, self.first = text, line, column, first
        self.items, self.end = None, line


def nodes_of(text, lexer):
    """The words of a text, with a node for each pair of brackets."""
    top, line, begins, place = [], 1, 0, 0
    stack, fresh = [top], True
    while place < len(text):
        found = lexer.match(text, place)
        if not found:
            raise Unresolved(f"{line}: can't read {text[place:place + 20]!r}")
        word = found[0]
        if not found["skip"]:
            node = Node(word, line, place - begins, fresh)
            fresh = False
            if word in ("(", "{"):
                node.items = []
                stack[-1].append(node)
                stack.append(node.items)
            elif word in (")", "}"):
                stack.pop()
                stack[-1][-1].end = line
            else:
                stack[-1].append(node)
        if "\n" in word:
            line += word.count("\n")
            begins, fresh = place + word.rindex("\n") + 1, True
        place = found.end()
    return top


def split(nodes, marks=(",", ";")):
    """The parts of a row between commas or semicolons."""
    parts = [[]]
    for node in nodes:
        if node.items is None and node.text in marks:
            parts.append([])
        else:
            parts[-1].append(node)
    return [part for part in parts if part]


def at_word(nodes, *words):
    """The place of the first of these words in a row, or None."""
    return next((at for at, node in enumerate(nodes) if node.items is None and node.text in words), None)


def words_in(nodes):
    """All words of a row, those in brackets too."""
    for node in nodes:
        yield from [node.text.strip("«»")] if node.items is None else words_in(node.items)


def chunks(nodes):
    """The rows that begin in the column of the first."""
    rows = []
    for node in nodes:
        if node.first and node.column <= nodes[0].column:
            rows.append([])
        rows[-1].append(node)
    return rows


class Walk:
    """What a term cites: each free word, with its line."""

    def __init__(self, scope):
        self.scope, self.found = scope, []

    def term(self, nodes, bound):
        """Notes what a row cites, and gives what is bound at its end."""
        bound, waiting, at = set(bound), [], 0
        while at < len(nodes):
            node = nodes[at]
            at += 1
            bound |= {name for column, name in waiting if node.first and node.column <= column}
            if node.items is not None:
                bound |= self.group(node, bound)
            elif node.text == "λ":
                end = at + at_word(nodes[at:], ".")
                bound |= self.binders(nodes[at:end], bound)
                at = end + 1
            elif node.text == "let":
                at = self.let(nodes, at, bound)
            elif at < len(nodes) and nodes[at].text == "←":
                waiting.append((node.column, node.text))
                at += 1
            else:
                self.cite(node, bound)
        return bound

    def let(self, nodes, at, bound):
        """Notes a `let`, binds its name, and gives the place after its `in`."""
        value = at + at_word(nodes[at:], "=")
        depth, end = 1, value
        while depth:
            end += 1
            depth += {"let": 1, "in": -1}.get(nodes[end].text, 0)
        name = at + (at_word(nodes[at:value], ":") or value - at)
        self.term(nodes[name + 1:value], bound)
        self.term(nodes[value + 1:end], bound)
        bound |= set(words_in(nodes[at:name]))
        return end + 1

    def binders(self, nodes, bound):
        """The names that a row of patterns without constructors binds."""
        names = set()
        for node in nodes:
            typed = node.items is not None and at_word(node.items, ":") is not None
            names |= self.group(node, bound) if typed else set(words_in([node]))
        return names

    def group(self, node, bound):
        """Notes what stands in brackets, and gives the names that it binds for what follows."""
        names = set()
        for part in split(node.items):
            colon = at_word(part, ":")
            if colon:
                self.term(part[colon + 1:], bound)
                names |= set(words_in(part[:colon]))
            elif node.text == "{" and len(part) > 1 and part[1].text == "=":
                self.term(part[2:], bound)
            else:
                self.term(part, bound)
        return names

    def patterns(self, nodes, bound):
        """Notes the constructors on the left of an equation, and binds all else."""
        for node in nodes:
            if node.items is not None:
                for part in split(node.items):
                    named = node.text == "{" and len(part) > 1 and part[1].text == "="
                    self.patterns(part[2:] if named else part, bound)
            elif "." in node.text or self.scope.is_constructor(node.text):
                self.cite(node, bound)
            elif node.text not in BUILT_IN:
                bound.add(node.text.strip("«»"))

    def cite(self, node, bound):
        """Notes a word that isn't bound."""
        text = node.text
        if text == "do":
            self.found.append(("◌>>=◌", node.line))
        elif text[0] not in ".\"0123456789" and text.split(".")[0].strip("«»") not in bound | BUILT_IN:
            self.found.append((text, node.line))


class Scope:
    """The names that imports bring, and those that a file declares."""

    def __init__(self, repository, outer=None, rust=None):
        self.repository, self.outer, self.rust = repository, outer, rust
        self.own, self.names, self.modules, self.parts = {}, {}, {}, collections.defaultdict(set)

    def use(self, nodes):
        """Takes an import in."""
        path = nodes[0].text.rstrip(".").rstrip(";")
        other = nodes[2].text if len(nodes) > 2 and nodes[1].text == "as" else None
        group = next((node for node in nodes if node.items is not None), None)
        if group is None:
            self.modules[other or path.split(".")[-1]] = path
            return
        for part in split(group.items):
            name = part[0].text.strip("«»")
            self.names[part[2].text if len(part) > 2 else name] = (path, name)

    def operators(self):
        """Makes the parts of operators lead to them."""
        for name in [*self.own, *self.names]:
            for part in name.split("◌") if "◌" in name else []:
                self.parts[part].add(name)

    def is_constructor(self, word):
        """Whether a word in a pattern stands for itself; of the kit's names it is told by how it is spelled."""
        if word in self.own:
            return word in self.own[word].constructors
        if word in self.names:
            module, name = self.names[word]
            thing = self.repository.find(module, name)
            return not name.islower() or name in ("true", "false", "zero", "suc", "pos", "negsuc") if isinstance(
                thing, Kit) else name in thing.constructors
        return word in self.parts or bool(self.outer and self.outer.is_constructor(word))

    def look(self, word):
        """What a word stands for, or nothing."""
        head, *rest = [piece.strip("«»") for piece in re.findall(PIECE, word)]
        if head in self.own:
            return [self.own[head]]
        if head in self.names:
            return [self.repository.find(*self.names[head])]
        if head in self.modules:
            return [self.repository.find(self.modules[head], rest[0] if rest else "")]
        part = head.strip("◌")
        if part in self.parts:
            return [it for name in sorted(self.parts[part]) for it in self.look(name)]
        found = self.outer.look(word) if self.outer else []
        return found or ([it for it in [self.rust.resolve(head)] if it] if self.rust else [])


class Thing:
    """A definition: where it stands, and the terms of which it is made."""

    def __init__(self, file, name, kind, nodes):
        self.file, self.name, self.kind = file, name, kind
        self.line, self.spans, self.parts = nodes[0].line, [], []
        self.constructors, self.types, self.is_public = set(), [], False
        self.extend(nodes)

    def extend(self, nodes):
        """Counts these lines as its own."""
        self.spans.append((nodes[0].line, max(node.end for node in nodes)))

    def lines(self):
        """How many lines it has."""
        return sum(end - begin + 1 for begin, end in self.spans)

    @functools.lru_cache(None)
    def links(self):
        """What each word cites directly."""
        links = {}
        for scope, note in self.parts:
            walk = Walk(scope)
            note(walk)
            for word, line in walk.found:
                there = scope.look(word)
                if not there and word.split(".")[0] not in OF_RUST:
                    raise Unresolved(f"{self.file.path}:{line}: can't tell what {word} is")
                links.setdefault(word, []).extend(there)
        for name in self.types:
            links.setdefault(name, []).append(self.file.resolve(name, self.line))
        return links

    @functools.lru_cache(None)
    def cited(self):
        """What it cites directly."""
        return [it for it in dict.fromkeys(it for there in self.links().values() for it in there)
                if it not in (self, None)]


class Antt:
    """A file of definitions."""

    def __init__(self, repository, path):
        self.path = path
        with open(f"{repository.top}/{path}", encoding="utf-8") as it:
            text = it.read()
        self.rows, self.scope = text.split("\n"), Scope(repository)
        self.crate = path.split("/")[1]
        self.block(nodes_of(text, ANTT), [])
        self.scope.operators()

    def block(self, nodes, around):
        """Reads the rows of a block, within the parameters of the modules around it."""
        last = None
        for row in chunks(nodes):
            words = [node.text for node in row]
            rest = next(at for at, word in enumerate(words) if word not in MODIFIERS)
            if words[rest] == "use":
                self.scope.use(row[rest + 1:])
            elif words[rest] in ("module", "mutual"):
                where = words.index("where") if words[rest] == "module" else rest
                self.block(row[where + 1:], [*around, row[rest + 2:where]])
            elif words[rest] in ("record", "data"):
                self.declare(row, row[rest + 1:], words[rest], around)
            elif words[rest] not in ("mod", "ruleset") and not words[rest].startswith("infix"):
                equal, colon = at_word(row, "="), at_word(row, ":")
                if rest or colon and not equal:
                    kind = "definition" if {"abbrev", "unfoldable"} & set(words[:rest]) else "lemma"
                    last = self.add(row, row[rest].text, kind)
                    self.note(last, around, lambda walk, bound, row=row[rest + 1:]: walk.term(row, bound))
                elif last.kind != "lemma":
                    last.extend(row)
                    self.equation(last, around, row, equal)

    def equation(self, thing, around, row, equal):
        """Notes an equation of what was declared last."""
        parts = thing.name.strip("«»").split("◌")
        left = [node for node in row[:equal] if node.text not in (thing.name, *parts)]
        if len(left) == equal:
            raise Unresolved(f"{self.path}:{row[0].line}: an equation of something else than {thing.name}")

        def read(walk, bound):
            walk.patterns(left, bound)
            where = at_word(row, "where") or len(row)
            inner = chunks(row[where + 1:])
            bound |= {it[0].text for it in inner}
            walk.term(row[equal + 1:where], bound)
            for it in inner:
                inside, at = set(bound), at_word(it, "=") or 0
                walk.patterns(it[1:at], inside)
                walk.term(it[at + 1:], inside)

        self.note(thing, around, read)

    def add(self, row, name, kind):
        """Adds a definition."""
        thing = self.scope.own[name.strip("«»")] = Thing(self, name.strip("«»"), kind, row)
        return thing

    def note(self, thing, around, read):
        """Adds a part of a definition, which is read where the parameters of its modules are bound."""

        def bind(walk):
            bound = set()
            for header in around:
                bound = walk.term(header, bound)
            read(walk, bound)

        thing.parts.append((self.scope, bind))

    def declare(self, row, body, kind, around):
        """Adds a record with its fields, or a data type with its constructors."""
        thing = self.add(row, body[0].text, kind)
        where = at_word(body, "where") or len(body)
        fields = [[node for node in field if node.text != "pub"] for field in chunks(body[where + 1:])]
        if kind == "data":
            thing.constructors = {field[0].text.strip("«»") for field in fields}
            self.scope.own.update(dict.fromkeys(thing.constructors, thing))

        def read(walk, bound):
            bound = walk.term(body[1:where], bound)
            for field in fields:
                walk.term(field[1:], bound)
                bound |= {field[0].text.strip("«»")} if kind == "record" else set()

        self.note(thing, around, read)
