"""A text as the tools see it: its sections' trees, and the first faults that they find. Nothing here is proved; what is
refused, `secomp check` says, and a tool believes these faults only where they begin as that one says."""
from c_check import Checker
from c_tokens import Fault, tokens
from c_tree import parse
from c_types import shown, similar
from sections import Section, sections

PHASES = ["lex", "syntax", "names", "types", "interface", "count"]
ENVIRONMENT = {"input": ("int", []), "output": ("void", ["int"])}


class Part:
    """A section with its tokens, its tree, and what is declared in it."""

    def __init__(self, section):
        self.section, self.name, self.first = section, section.name, section.first
        self.tokens = self.tree = self.checker = None


class Program:
    """The sections of a text, and its faults, those of the first phase that has any, by line of the file."""

    def __init__(self, text):
        self.parts, self.faults = [Part(section) for section in sections(text)], []
        # what stands before the first section, as if a compartment line were before it
        before = Section("", 0)
        before.lines = ["", *text.split("\n")[:self.parts[0].first - 1 if self.parts else None]]
        self.preamble = Part(before)
        for phase in (self.cut, self.parse, self.check, self.meet):
            if not self.faults:
                phase()
        self.faults.sort(key=lambda it: (PHASES.index(it.phase), it.line, it.column))
        self.faults = [fault for fault in self.faults if fault.phase == self.faults[0].phase]

    def each(self, step):
        for part in [self.preamble, *self.parts]:
            try:
                step(part)
            except Fault as fault:
                self.add(part, fault)

    def add(self, part, fault):
        """Counts the lines of a fault in the file."""
        fault.at = getattr(fault, "at", fault.line) + part.first - 1
        fault.line += part.first - 1
        fault.part = part
        self.faults.append(fault)

    def cut(self):
        def step(part):
            part.tokens = tokens(part.section)
        self.each(step)

    def parse(self):
        def step(part):
            if part is not self.preamble:
                part.tree = parse(part.tokens)
            elif (first := part.tokens[0]).kind != "end":
                raise Fault("syntax", first.line, first.column, "only comments stand before the first section, which "
                            f"begins with a line as #pragma compartment {self.parts[0].name if self.parts else 'Main'}")
        self.each(step)

    def check(self):
        for part in self.parts:
            part.checker = Checker(part.section, part.tree)
            for fault in part.checker.check():
                self.add(part, fault)

    def part(self, name):
        return next((part for part in self.parts if part.name == name), None)

    # what is said where sections meet

    def say(self, part, node, text, names=()):
        fault = Fault("interface", node.line, node.column, text, names)
        self.add(part, fault)

    def meet(self):
        for part in self.parts:
            for node in part.tree.exports:
                self.exported(part, node)
            for node in part.tree.imports:
                self.imported(part, node)

    def exported(self, part, node):
        name = node.names[0]
        if name == "main":
            self.say(part, node, "main isn't exported: the run begins with it")
        elif name not in part.checker.functions:
            self.say(part, node, f"an exported function is defined in this section, and {name} "
                                 f"isn't{similar(name, part.checker.functions)}", [name])
        else:
            if name.startswith("bt_"):
                self.say(part, node, f"no name that crosses begins with bt_, as {name} does: explain makes such "
                                     "names", [name])
            self.crossing(part, part.checker.functions[name])

    def crossing(self, part, head):
        """Only integers cross."""
        for name, of, _ in head.params:
            if of not in ("int", "unsigned"):
                self.say(part, head, f"what crosses is int or unsigned int: the parameter {name or ''} of {head.name} "
                                     f"is {shown(of)}", [head.name])
        if head.result not in ("int", "unsigned", "void"):
            self.say(part, head, f"what crosses is int or unsigned int, the result one of these or void: that of "
                                 f"{head.name} is {shown(head.result)}", [head.name])

    def imported(self, part, node):
        owner, name = node.names
        if owner == "Env":
            if name not in ENVIRONMENT:
                self.say(part, node, f"of the environment there are input and output, and no {name}", [name])
                return
            result, params = ENVIRONMENT[name]
        elif self.part(owner) is None:
            names = [other.name for other in self.parts]
            self.say(part, node, f"no section is named {owner}, so that nothing is exported "
                                 f"there{similar(owner, names)}", [owner])
            return
        else:
            exporter = self.part(owner)
            if owner == part.name:
                self.say(part, node, f"{owner} imports from itself: the function is there already", [name])
                return
            if not any(other.names == [name] for other in exporter.tree.exports):
                names = [other.names[0] for other in exporter.tree.exports]
                self.say(part, node, f"an imported function is exported there, and {owner} doesn't export "
                                     f"{name}{similar(name, names)}", [name])
                return
            head = exporter.checker.functions.get(name)
            if head is None:
                return
            result, params = head.result, [of for _, of, _ in head.params]
        self.agrees(part, node, result, params)

    def agrees(self, part, node, result, params):
        owner, name = node.names
        if name in part.checker.functions:
            self.say(part, node, f"this section defines {name}, which it imports from {owner}", [name])
        head = part.checker.prototypes.get(name)
        if head is None:
            self.say(part, node, f"an import has a prototype in this section: `{shown(result)} "
                                 f"{name}({', '.join(map(shown, params)) or 'void'});` is missing", [name])
        elif (head.result, [of for _, of, _ in head.params]) != (result, params):
            self.say(part, head, f"declarations of the function agree, here and in {owner}: {shown(result)} "
                                 f"{name}({', '.join(map(shown, params)) or 'void'}) there", [name])
