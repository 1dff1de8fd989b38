"""What contracts cite: the .rt files that tools/trusted.py reads, and the repository in which names are looked up."""
import functools
import glob
import os
import re

from cites import Antt, Kit, OF_RUST, RUST, Scope, Thing, Unresolved, at_word, nodes_of, split, words_in

IDENT = re.compile(r"(?:[A-Za-z_]\w*::)*[A-Za-z_]\w*")
KEYWORDS = ("fn", "struct", "enum", "trait", "impl", "type", "const", "static", "use", "mod", "ghost")
CLAUSES = ("requires", "ensures", "requires*", "ensures*")


def is_clause(row, at):
    """Whether a pair of braces holds a clause or a ghost member, and not a body."""
    before = ["", "", "", *(node.text if node.items is None else "{" for node in row[:at])]
    clause = before[-1] in CLAUSES or before[-2] in CLAUSES and before[-1] != "{"
    return clause or before[-2] == "ghost" or before[-3] == "ghost" and before[-1] == "="


def items_of(nodes):
    """The items of a file, an `impl` or a trait."""
    row, depth = [], 0
    for node in nodes:
        row.append(node)
        text = node.text if node.items is None and node.text[0] != '"' else ""
        depth += text.count("[") - text.count("]")
        braces = node.items is not None and node.text == "{"
        if text == ";" and depth <= 0 or braces and not is_clause(row, len(row) - 1) and at_word(row, "use") is None:
            yield row
            row = []


def types_in(nodes, generics):
    """The types and constants that a row of Rust names."""
    for word in words_in(nodes):
        for path in IDENT.findall("" if word[0] == '"' else word):
            ours = path.split("::")[0] not in generics | OF_RUST
            if path.split("::")[-1][0].isupper() and ours:
                yield path


def generics_of(nodes):
    """The parameters in `<..>` at the beginning of a row, up to the first brackets."""
    text = ""
    for node in nodes:
        if node.items is not None:
            break
        text += " " + node.text
    return set(re.findall(r"[<,]\s*(?:const )?([A-Za-z_]\w*)", text))


class Rust:
    """A file of code: its items as contracts see them."""

    def __init__(self, repository, path):
        self.repository, self.path, self.crate = repository, path, path.split("/")[1]
        with open(f"{repository.top}/{path}", encoding="utf-8") as it:
            text = it.read()
        self.rows, self.items, self.uses, self.models, self.open = text.split("\n"), {}, {}, {}, set()
        self.scope = Scope(repository, rust=self)
        for row in self.within(nodes_of(text, RUST), self.scope):
            self.item(row)
        for name, (scope, bound, groups) in self.models.items():
            thing = self.items[name]
            thing.types = []
            thing.extend(groups)
            thing.parts = [(scope, lambda walk, it=it, bound=bound: walk.term(it.items, bound)) for it in groups]

    def within(self, nodes, scope):
        """The items of a row but for its ghost imports, which the scope takes."""
        rows = []
        for row in items_of(nodes):
            words = [node.text.split("<")[0] if node.items is None else "" for node in row]
            at = next((at for at, word in enumerate(words) if word in KEYWORDS), None)
            if at is not None and row[at].text == "ghost" and row[at + 1].text == "use":
                scope.use(row[at + 2:])
            elif at is not None:
                at -= 0 if "const" != row[at].text or row[at + 1].text != "fn" else -1
                rows.append((row, at))
        scope.operators()
        return rows

    def item(self, found):
        """Reads an item of the file."""
        row, at = found
        word, is_public = row[at].text, self.is_public(row, at)
        if word == "use":
            self.imported(row[at + 1:], [], is_public)
        elif word == "mod" and is_public:
            self.open.add(row[at + 1].text)
        elif word.startswith("impl"):
            self.impl(row, at)
        elif word == "fn":
            thing = self.function(row, at, self.scope, "", set())
            self.items[thing.name] = thing
        elif word not in ("mod", "ghost"):
            name = IDENT.match(row[at + 1].text)[0]
            thing = self.items[name] = Thing(self, name, {"type": "alias"}.get(word, word), row[at:])
            thing.is_public = is_public
            getattr(self, word if word in ("enum", "trait") else "plain")(thing, row[at + 1:])

    @staticmethod
    def is_public(row, at):
        """Whether an item is `pub`, and not only in a part."""
        pub = at_word(row[:at], "pub")
        return pub is not None and row[pub + 1].items is None

    def plain(self, thing, row):
        """A struct, an alias or a constant: the types in it, and what its ghost fields say."""
        generics = generics_of(row) | {thing.name}
        inside = split(row[-1].items or [])
        ghosts = [part for part in inside if at_word(part, "ghost") is not None]
        fields = generics | {node.text.rstrip(":") for part in inside for node in part if node.text.endswith(":")}
        for part in ghosts:
            thing.parts.append((self.scope, lambda walk, it=part[-1].items: walk.term(it, fields)))
        rest = [node for part in inside if part not in ghosts for node in part]
        thing.types = list(types_in([*(row[:-1] if row[-1].items else row), *rest], generics))

    def enum(self, thing, row):
        """An enum: its variants, and the types in them."""
        generics = generics_of(row) | {thing.name}
        for part in split(row[-1].items):
            name = next(node for node in part if node.items is None and node.text[0].isupper())
            thing.constructors.add(name.text)
            thing.types += types_in([node for node in part if node.items is not None], generics)

    def trait(self, thing, row):
        """A trait: its ghost members, and the contracts of its functions."""
        scope = Scope(self.repository, self.scope, self)
        inside = self.within(row[-1].items, scope)
        members = {it[at + 1].text.rstrip(":") for it, at in inside if it[at].text == "ghost"}
        for it, at in inside:
            if it[at].text == "ghost":
                group = next(node for node in it if node.items is not None)
                thing.parts.append((scope, lambda walk, group=group: walk.term(group.items, members | {"Self"})))
            elif it[at].text == "fn":
                function = self.function(it, at, scope, "", members | generics_of(row))
                thing.parts += function.parts
                thing.types += [name for name in function.types if name != thing.name]

    def impl(self, row, at):
        """The functions of an `impl`, or what contracts see in place of a type: the `Value` of its model."""
        head = " ".join(node.text for node in row[at:-1] if node.items is None)
        found = re.search(r"([A-Za-z_]\w*)(?:<[^<>]*>)? for ([A-Za-z_]\w*)", head)
        bare = re.sub(r"^impl(<[^<>]*(<[^<>]*>[^<>]*)*>)? *", "", head)
        owner = found[2] if found else IDENT.match(bare)[0]
        scope = Scope(self.repository, self.scope, self)
        for it, place in self.within(row[-1].items, scope):
            if it[place].text == "fn":
                thing = self.function(it, place, scope, owner, generics_of(row[at:]))
                thing.is_public |= bool(found)
                self.items.setdefault(thing.name, thing)
            elif found and found[1] == "Model" and it[place + 1].text == "Value":
                group = next(node for node in it if node.items is not None)
                self.models.setdefault(owner, (scope, generics_of(row[at:]) | {"Self"}, []))[2].append(group)

    def function(self, row, at, scope, owner, bound):
        """A function: the types that it names, and its clauses."""
        name = IDENT.match(row[at + 1].text)[0]
        head = next(place for place in range(at, len(row)) if row[place].items is not None and row[place].text == "(")
        ends = [place for place in range(at, len(row)) if row[place].text in ("{", ";")]
        clauses = [place for place in ends if row[place].items is not None and is_clause(row, place)]
        body = ends[-1] if ends[-1] not in clauses else len(row)
        thing = Thing(self, f"{owner}::{name}" if owner else name, "function", row[at:body])
        thing.is_public = self.is_public(row, at)
        generics = generics_of(row[at + 1:]) | bound
        first = clauses[0] if clauses else body
        thing.types = [*([owner] if owner else []), *types_in(row[at + 2:first], generics)]
        names = {"self", "Self", "result", *generics}
        for part in split(row[head].items):
            colon = next((place for place, node in enumerate(part) if node.text.endswith(":")), len(part) - 1)
            names |= {word.rstrip(":") for word in words_in(part[:colon + 1])}
        names |= {row[place - 1].text.rstrip(":") for place in clauses if row[place - 2].text == "ghost"}
        for place in clauses:
            thing.parts.append((scope, lambda walk, it=row[place].items: walk.term(it, names)))
        return thing

    def imported(self, nodes, before, is_public):
        """Takes a `use` of Rust in."""
        for part in split(nodes):
            path = before + [it for it in part[0].text.split("::") if it] if part[0].items is None else before
            if part[-1].items is not None:
                self.imported(part[-1].items, path, is_public)
            else:
                self.uses[part[2].text if len(part) > 2 else path[-1]] = (path, is_public)

    def resolve(self, path, line=None):
        """What a path of Rust names: a thing, a word of the kit, or None for a word of the language."""
        if path in self.items:
            return self.items[path]
        head, *rest = path.split("::")
        if head in self.uses:
            return self.repository.rust_path(self, self.uses[head][0] + rest)
        if rest:
            return self.repository.rust_path(self, [head, *rest])
        if line:
            raise Unresolved(f"{self.path}:{line}: can't tell what {path} is")
        return None


class Repository:
    """The files of a repository, read as they are wanted."""

    def __init__(self, top):
        self.top, self.crates = top, []
        with open(f"{top}/crates.txt", encoding="utf-8") as it:
            self.crates = [row.split(":")[0] for row in it if re.match(r"\w+:", row)]
        self.rank = {crate: at for at, crate in enumerate(self.crates)}

    def files(self, crate, part, end):
        """The paths of a crate's files."""
        found = glob.glob(f"{self.top}/crates/{crate}/{part}/**/*{end}", recursive=True)
        return sorted(os.path.relpath(path, self.top) for path in found)

    @functools.lru_cache(None)
    def antt(self, path):
        """A file of definitions."""
        return Antt(self, path)

    @functools.lru_cache(None)
    def rust(self, path):
        """A file of code."""
        return Rust(self, path)

    def library(self, crate):
        """The root of a crate's code."""
        return self.rust(f"crates/{crate}/src/lib.rt")

    def child(self, file, name):
        """The file of a module below a file of code, or nothing."""
        top = re.sub(r"/(lib|mod)\.rt$|\.rt$", "", file.path)
        found = [path for path in (f"{top}/{name}.rt", f"{top}/{name}/mod.rt") if os.path.exists(f"{self.top}/{path}")]
        return self.rust(found[0]) if found else None

    def rust_path(self, file, path):
        """What a path of Rust names, seen from a file."""
        head, *rest = path
        if head == "crate":
            file = self.library(file.crate)
        elif head in self.rank:
            file = self.library(head)
        elif head not in ("self", "super"):
            inside = self.child(file, head)
            if not inside:
                return file.items.get("::".join(path)) or Kit(head, "::".join(rest))
            file = inside
        for at, name in enumerate(rest):
            inside = self.child(file, name) if name.islower() else None
            if not inside or at == len(rest) - 1:
                return file.resolve(name) or file.items.get("::".join(rest[at:]))
            file = inside
        return None

    @functools.lru_cache(None)
    def find(self, module, name):
        """What a module of specs/ or proofs/ means by a name."""
        steps = module.split(".")[1:]
        if steps[0] not in self.rank:
            return Kit(steps[0], ".".join(steps[1:]), module, name)
        if steps[2] not in ("declared", "contracts"):
            path = f"crates/{'/'.join(steps)}.antt"
            found = self.antt(path).scope.look(name) if os.path.exists(f"{self.top}/{path}") else []
        else:
            at = next((at for at, step in enumerate(steps) if at > 2 and step[0].isupper()), len(steps))
            path = f"crates/{steps[0]}/src/{'/'.join(steps[3:at]) or 'lib'}.rt"
            file, step = self.rust(path), steps[at] if at < len(steps) else name
            # what is generated of a derived trait is called by both names: it belongs to the type
            owners = [it for it in file.items if step.startswith(it)] if steps[2] == "contracts" else []
            found = [file.resolve(step) or file.items.get(max(owners, key=len, default=""))]
        if not found or found[0] is None:
            raise Unresolved(f"{module}: has no {name}")
        return found[0]

    @functools.lru_cache(None)
    def public(self, crate):
        """The public functions of a crate by their paths, and its public traits."""
        lib = self.library(crate)
        seen = [(name, lib.resolve(name)) for name, (_, is_public) in lib.uses.items() if is_public]
        seen += [(name, thing) for name, thing in lib.items.items() if thing.is_public]
        for name in lib.open:
            seen += [(name, thing) for name, thing in self.child(lib, name).items.items() if thing.is_public]
        ours = {id(thing): name for name, thing in seen if isinstance(thing, Thing) and thing.file.crate == crate}
        found = {name: thing for name, thing in seen if id(thing) in ours and thing.kind in ("function", "trait")}
        for path in self.files(crate, "src", ".rt"):
            for name, thing in self.rust(path).items.items():
                owner = self.rust(path).resolve(name.split("::")[0]) if "::" in name else None
                if id(owner) in ours and thing.is_public:
                    found[f"{ours[id(owner)]}::{name.split('::')[1]}"] = thing
        return found
