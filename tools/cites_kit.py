"""The definitions of the kit that this repository's definitions cite: where each one stands and how many lines it has.

A name leads through the `pub use` rows of the kit's files to the file that declares it. The block of a definition
begins at its declaration and ends before the next empty line, comment or declaration. The words in the block that the
file declares or imports are what the definition cites in turn. Names of `Prim` are built into antt; the kit has no
file for them. Proofs and code aren't read, but for the declaration of a Rust type. Nothing here is proved.
"""
import collections
import functools
import glob
import os
import re
import shutil

MODIFIERS = r"(?:(?:abbrev|pub|private|unfoldable|opaque)\s+)*"
DECLARED = re.compile(rf"^(\s*){MODIFIERS}(?:(record|data)\s+)?((?![:=]\s)[^\s(){{}}.,;]+)(?=\s|$)")
USE = re.compile(r"^\s*(pub )?use\s+([^\s{}]+?)\.?(?:\{([^}]*)\})?(?:\s+as\s+(\S+))?\s*$", re.M)
WORD = re.compile(r"[^\s(){}.;,@\"«»λ]+")
MODIFIER_WORDS = ("abbrev", "pub", "private", "unfoldable", "opaque")
NO_NAMES = {"use", "module", "mod", "mutual", "infixl", "infixr", "infix", "ruleset", "where", "let", "in", "--"}

Place = collections.namedtuple("Place", "path name line lines")


def kit_folder():
    """The folder of the kit whose `rt` is on the path, or nothing."""
    found = shutil.which("rt")
    folder = os.path.join(os.path.dirname(os.path.dirname(os.path.realpath(found))), "rattle") if found else ""
    return folder if os.path.isdir(folder) else None


class KitFile:
    """A file of definitions of the kit: its blocks and its imports."""

    def __init__(self, folder, path):
        with open(f"{folder}/{path}", encoding="utf-8") as it:
            text = it.read()
        self.path, self.rows = path, text.split("\n")
        self.blocks, self.names, self.modules = {}, {}, {}
        for shown, module, group, other in USE.findall(text):
            if group:
                for part in group.split(","):
                    name, _, renamed = part.strip().partition(" as ")
                    self.names[(renamed or name).strip("«» ")] = (module, name.strip("«» "))
            else:
                self.modules[other or module.split(".")[-1]] = module
        self.declare()
        self.parts = collections.defaultdict(set)
        for name in [*self.blocks, *self.names]:
            for part in name.split("◌") if "◌" in name else []:
                self.parts[part].add(name)

    def declare(self):
        """Notes the block of each declaration, and the constructors of each data type by the block of the type."""
        for at, row in enumerate(self.rows):
            found = DECLARED.match(row)
            if not found or found[3] in NO_NAMES or found[3].startswith("--"):
                continue
            name, kind = found[3].strip("«»"), found[2]
            declares = kind or re.match(rf"\s*{MODIFIERS}\S+(\s+\{{[^}}]*\}})*(\s+\([^)]*\))*\s*:(\s|$)", row)
            if declares and name not in [*self.blocks, *MODIFIER_WORDS]:
                end = self.end(at, len(found[1]))
                self.blocks[name] = (at, end)
                for inner in self.rows[at + 1:end] if kind else []:
                    members = re.match(r"\s+(?:pub\s+)?(\S+(?:\s+\S+)*?)\s*:\s", inner)
                    for member in members[1].split() if members else []:
                        self.blocks.setdefault(member.strip("«»"), (at, end))

    def end(self, at, indent):
        """The row after the block that begins in a row."""
        for row in range(at + 1, len(self.rows)):
            text = self.rows[row]
            if not text.strip() or text.strip().startswith("--") and len(text) - len(text.lstrip()) <= indent:
                return row
        return len(self.rows)


class KitNames:
    """Follows names through the kit."""

    def __init__(self, folder):
        self.folder = folder

    @functools.lru_cache(None)
    def file(self, path):
        return KitFile(self.folder, path) if os.path.isfile(f"{self.folder}/{path}") else None

    @functools.lru_cache(None)
    def of_module(self, module):
        """The file of a module, or nothing."""
        head, *rest = module.split(".")
        if head == "Rattle" and len(rest) > 2 and rest[1] == "specs":
            inside = self.file(f"{rest[0]}/specs/{'/'.join(rest[2:])}.antt")
            library = self.file(f"{rest[0]}/specs/Lib.antt")
            passed = library.modules.get(rest[2]) if library and not inside else None
            return self.of_module(".".join([passed, *rest[3:]])) if passed else inside
        tail = "/".join(rest) + ".antt"
        places = {"lib": ["logic/Lib/", "antt/lib/src/"], "mathlib": ["antt/port/mathlib/src/"]}
        places = places.get(head, [f"logic/{head.capitalize()}/"])
        return next((it for it in (self.file(place + tail) for place in places) if it), None)

    @functools.lru_cache(None)
    def declared(self, module):
        """The Rust type of a module of declared types."""
        _, crate, *rest = module.split(".")
        name = next((step for step in rest if step[0].isupper()), None)
        top = f"{self.folder}/{crate}/src/{'/'.join(step for step in rest[2:] if step.islower())}"
        found = glob.glob(f"{self.folder}/{crate}/src/**/*.rt", recursive=True)
        paths = sorted(found, key=lambda it: (it not in (f"{top}.rt", f"{top}/mod.rt"), it))
        for path in paths if name else []:
            with open(path, encoding="utf-8") as it:
                rows = it.read().split("\n")
            for at, row in enumerate(rows):
                if re.match(rf"pub (struct|enum) {name}\b", row):
                    end = at if row.rstrip().endswith(";") else next(
                        end for end in range(at, len(rows)) if rows[end].startswith("}"))
                    return Place(os.path.relpath(path, self.folder), name, at + 1, end - at + 1)
        return None

    @functools.lru_cache(None)
    def find(self, module, name):
        """The file and the name in it that a module means by a name; a place, for a Rust type; or nothing."""
        if ".declared." in module:
            return self.declared(module)
        file = self.of_module(module)
        if file is None:
            return None
        if name in file.blocks:
            return file, name
        if name in file.names:
            return self.find(*file.names[name])
        below = sorted(glob.glob(f"{self.folder}/{file.path[:-len('.antt')]}/*.antt"))
        files = [self.file(os.path.relpath(path, self.folder)) for path in below]
        return next(((it, name) for it in files if name in it.blocks), None)

    def cited(self, file, name):
        """What a definition of a file cites."""
        begin, end = file.blocks[name]
        for row in file.rows[begin:end]:
            for word in WORD.findall(row.split("--")[0]):
                for it in file.parts.get(word, [word]):
                    if it in file.blocks and it != name:
                        yield file, it
                    elif it in file.names:
                        yield self.find(*file.names[it])

    @staticmethod
    def place(found):
        """The place of what was found, or nothing."""
        if found is None or isinstance(found, Place):
            return found
        begin, end = found[0].blocks[found[1]]
        head = DECLARED.match(found[0].rows[begin])[3].strip("«»")
        return Place(found[0].path, head, begin + 1, end - begin)

    def text(self, place):
        """The text of a definition."""
        with open(f"{self.folder}/{place.path}", encoding="utf-8") as it:
            return "\n".join(it.read().split("\n")[place.line - 1:place.line - 1 + place.lines])

    def closure(self, asked):
        """The places of what is asked for, by (module, name), and of what those cite in turn; and the names that have
        no file."""
        direct, more, built_in, seen = {}, {}, set(), set()
        waiting = [(self.find(*it), True, it[1]) for it in asked]
        while waiting:
            found, is_direct, name = waiting.pop()
            if found is None:
                built_in |= {name} if is_direct else set()
                continue
            if isinstance(found, Place):
                (direct if is_direct else more)[found] = None
                continue
            place = self.place(found)
            (direct if is_direct else more)[place] = None
            if place not in seen:
                seen.add(place)
                waiting += [(it, False, "") for it in self.cited(found[0], found[1])]
        return sorted(direct), sorted(it for it in more if it not in direct), sorted(built_in)
