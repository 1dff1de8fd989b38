"""The slices of docs/TRUSTED.md: what each claim adds to the definitions that have to be read, each slice bottom up."""
import collections
import heapq
import re

from cites import Kit, Unresolved
from cites_kit import KitNames, kit_folder

HEADLINE = ("sc_top", "secomp")
# Names that say only what they are functions of: what they stand on comes after the claims that cite them.
CLOSED = ("image_of", "section_part")
DOCUMENTS = ("README.md", "docs/PROOFS.md")
# The slices that the program's contract is cut into: a title, what it says, and from where its definitions are reached,
# by crate and name of a public call or of a definition of specs/.
CLAIMS = (
    ("The chain: what `explain` says of a run",
     "The headline claim, the contract of `sc_chain::explain`: acceptance of texts, the source meaning, the machine, "
     "the compiler's theorem and the chain of texts.", [("sc_chain", "explain")]),
    ("Images with given compartments", "The contract of `sc_chain::explain_image`.", [("sc_chain", "explain_image")]),
    ("`judge`", "Policies, verdicts, and what a violation says.", [("sc_top", "IsJudged"), ("sc_top", "HasBadLineIn")]),
    ("`make`", "Programs made from a seed, and their summaries.", [("sc_top", "IsMade")]),
    ("`tags`", "The machine with tags.", [("sc_top", "IsTagged")]),
    ("`object` and `link`", "Objects of sections, and how they are joined.",
     [("sc_top", "IsObjectOutput"), ("sc_top", "IsLinked"), ("sc_top", "HasBadObject"), ("sc_top", "HasBadJoin")]),
    ("The command line", "How words are read as a command, and the text that each status prints.",
     [("sc_top_words", "command"), ("sc_top", "status_text")]),
    ("The whole program",
     "The rest of the contract of `sc_top::secomp`: what it reads and writes, and what each status says.", [HEADLINE]),
)
NEVER = re.compile(r"never met: ([\w:]+)")


def read(path):
    """The text of a file."""
    with open(path, encoding="utf-8") as it:
        return it.read()


def counted(things):
    """How much that is, in words."""
    files = {thing.file.path for thing in things}
    lines = sum(thing.lines() for thing in things)
    return f"{len(things):,} definitions in {len(files):,} files, {lines:,} lines"


class Reach:
    """What is reached, in the order in which it is met."""

    def __init__(self):
        self.things, self.words = {}, {}

    def take(self, root, closed=()):
        """Adds what a call reaches, and gives what is new of it. What the closed names stand on is left out."""
        new, waiting, seen = [], collections.deque([root]), {root}
        while waiting:
            thing = waiting.popleft()
            if thing not in self.things:
                new.append(thing)
            for it in thing.cited() if thing.name not in closed else ():
                if isinstance(it, Kit):
                    self.words[it] = None
                elif it not in seen:
                    seen.add(it)
                    waiting.append(it)
        self.things.update(dict.fromkeys(new))
        return new


def named_calls(repository, text):
    """The public functions that a document names, by crate and path. A bare name is one of the crate that was named
    last in the paragraph, or else of the only crate that has a function of that name, where it has two words."""
    calls, homes = {}, collections.defaultdict(list)
    for crate in repository.crates:
        if crate.startswith(("sc_", "rv_")):
            for path in repository.public(crate):
                homes[path].append(crate)
    for paragraph in re.split(r"\n\s*\n|\n(?=[-#|])", text):
        crate = owner = None
        for quoted, after in re.findall(r"`((?:\w+)(?:::\w+)*)`('s (?:calls|arithmetic))?", paragraph):
            first, *rest = quoted.split("::")
            if first in repository.rank:
                crate, owner = first, rest[0] if len(rest) == 2 else None
                path = "::".join(rest)
                found = repository.public(crate) if after else [path] if crate in homes[path] else []
                calls.update(dict.fromkeys((crate, it) for it in found))
                continue
            tried = [f"{owner}::{quoted}", quoted] if crate else []
            found = next(((crate, path) for path in tried if crate in homes[path]), None)
            if not found and len(homes[quoted]) == 1 and ("_" in quoted or rest):
                found = (homes[quoted][0], quoted)
            if found:
                calls[found] = None
                owner = found[1].split("::")[0] if "::" in found[1] else owner
    return calls


def calls_by_part(repository):
    """The calls that the documents name, but for the headline, by the heading of docs/PROOFS.md below which they come
    first; those of README.md are under the name of the file if docs/PROOFS.md doesn't have them."""
    parts, seen = collections.OrderedDict(), {HEADLINE}
    texts = [(title, text) for title, text in headed(read(f"{repository.top}/{DOCUMENTS[1]}"))]
    for title, text in [*texts, (DOCUMENTS[0], read(f"{repository.top}/{DOCUMENTS[0]}"))]:
        calls = [call for call in named_calls(repository, text) if call not in seen]
        seen.update(calls)
        if calls:
            parts[title] = {call: repository.public(call[0])[call[1]] for call in calls}
    return parts


def headed(text):
    """The parts of a document below its headings of the second rank."""
    pieces = re.split(r"^## (.*)\n", text, flags=re.M)
    return zip(pieces[1::2], pieces[2::2])


def other_calls(repository):
    """The calls that the documents name, but for the headline."""
    return {call: thing for calls in calls_by_part(repository).values() for call, thing in calls.items()}


def crate_ranks(repository):
    """A number for each crate, greater than those of the crates on which it stands."""
    below = {}
    for row in read(f"{repository.top}/crates.txt").split("\n"):
        if re.match(r"\w+:", row):
            name, needed = row.split(":")
            below[name] = [it for it in needed.split() if it in repository.rank]
    ranks = {}

    def visit(crate):
        if crate not in ranks:
            for it in sorted(below.get(crate, []), key=repository.rank.get):
                visit(it)
            ranks[crate] = len(ranks)

    for crate in repository.crates:
        visit(crate)
    return ranks


def file_ranks(things):
    """A number for each file, greater than those of the files that it cites, as far as files don't cite one another."""
    cited = collections.defaultdict(dict)
    for thing in things:
        for it in thing.cited():
            if not isinstance(it, Kit) and it.file is not thing.file:
                cited[thing.file.path][it.file.path] = None
    ranks, begun = {}, set()

    def visit(path):
        if path not in begun:
            begun.add(path)
            for it in sorted(cited[path]):
                visit(it)
            ranks[path] = len(ranks)

    for path in sorted({thing.file.path for thing in things}):
        visit(path)
    return ranks


def bottom_up(things, crates):
    """Definitions in an order in which each comes after those that it cites; what cites itself around is taken from the
    lowest crate, file and line on. Those of one file stay together where they can."""
    inside, files = set(things), file_ranks(things)
    key = {it: (crates[it.file.crate], files[it.file.path], it.line, it.name) for it in things}
    users, open_ = collections.defaultdict(list), {}
    for thing in things:
        needed = [it for it in thing.cited() if it in inside]
        open_[thing] = len(needed)
        for it in needed:
            users[it].append(thing)
    by_key = {key[it]: it for it in things}
    ready, order, done, last = [key[it] for it in things if not open_[it]], [], set(), None
    heapq.heapify(ready)
    while len(order) < len(things):
        same = [it for it in ready if last and by_key[it] not in done and it[1] == key[last][1]]
        while ready and by_key[ready[0]] in done:
            heapq.heappop(ready)
        left = min(same) if same else ready[0] if ready else min(key[it] for it in things if it not in done)
        last = by_key[left]
        done.add(last)
        order.append(last)
        for it in users[last]:
            open_[it] -= 1
            if not open_[it] and it not in done:
                heapq.heappush(ready, key[it])
    return order


Slice = collections.namedtuple("Slice", "title anchor text things lines so_far")


class Slices:
    """All slices of a repository."""

    def __init__(self, repository):
        self.repository, self.reach, self.all = repository, Reach(), []
        self.crates = crate_ranks(repository)
        for title, text, names in CLAIMS:
            self.add(title, [text], [self.root(*name) for name in names], CLOSED)
        text = ["Nobody has to read these. The name `image_of` says only that several commands speak of one image:",
                "what the image does is `IsCompiled`, which the first slice has. The name `section_part` says only",
                "that a compartment's part of the image depends on the interfaces and its own section."]
        self.add("What `image_of` and `section_part` stand on", text, [self.root(*HEADLINE)], ())
        for title, calls in calls_by_part(repository).items():
            names = ", ".join(f"`{'::'.join(call)}`" for call in calls)
            self.add(f"{title}: the other calls", [f"For the contracts of {names}."], calls.values(), ())

    def root(self, crate, name):
        """A public call, or a definition of specs/, by its name."""
        found = self.repository.public(crate).get(name)
        for path in self.repository.files(crate, "specs", ".antt"):
            found = found or self.repository.antt(path).scope.own.get(name)
        if found is None:
            raise Unresolved(f"{crate} has no {name}: change CLAIMS of tools/trusted_slices.py")
        return found

    def add(self, title, text, roots, closed):
        """Adds a slice: what these reach and no slice before has."""
        new = [thing for root in roots for thing in self.reach.take(root, closed)]
        things = bottom_up(list(dict.fromkeys(new)), self.crates)
        lines = sum(thing.lines() for thing in things)
        so_far = lines + (self.all[-1].so_far if self.all else 0)
        anchor = f"slice-{len(self.all) + 1}"
        self.all.append(Slice(title, anchor, text, things, lines, so_far))

    def citations(self):
        """How many citations there are, and how many of them lead to what comes later."""
        order = {thing: at for at, thing in enumerate(it for slice_ in self.all for it in slice_.things)}
        pairs = [(thing, it) for thing in order for it in thing.cited() if it in order]
        later = [(thing, it) for thing, it in pairs if order[it] > order[thing]]
        closed = sum(thing.name in CLOSED for thing, it in later)
        others = len(later) - closed
        return (f"Of {len(pairs):,} citations {len(later):,} lead to a later definition: {closed:,} by `image_of` and\n"
                f"`section_part`, of which the claims only take the names, and {others:,} where definitions cite\n"
                "one another.")


def ledger(repository, reach):
    """The defaults that comments call `never met: LAW`, each with its place and its law."""
    laws = {path: crate for crate in repository.crates if crate.startswith(("sc_", "rv_"))
            for path in repository.public(crate)}
    found = []
    for path in sorted({thing.file.path for thing in reach.things}):
        for number, row in enumerate(read(f"{repository.top}/{path}").split("\n"), 1):
            for law in NEVER.findall(row):
                if law.split("::")[-1] not in laws:
                    raise Unresolved(f"{path}:{number}: no public function is called {law}")
                found.append(f"| `{path}:{number}` | `{law}` |")
    yield "A definition has to answer also where no run asks it. A comment `never met: LAW` marks such a default, with"
    yield f"the law that excludes it. {len(found)} {'is' if len(found) == 1 else 'are'} marked."
    yield from ["", "| default | law |", "|---|---|", *found] if found else []


def kit_names():
    """The kit on the path."""
    folder = kit_folder()
    if folder is None:
        raise Unresolved("`rt` of the Rattle kit has to be on the path, for the kit's definitions")
    return KitNames(folder)


def kit_places(words):
    """The places in the kit of what is cited, of what that stands on, and the names that are built in."""
    return kit_names().closure(sorted({(it.module, it.name) for it in words if it.module}))
