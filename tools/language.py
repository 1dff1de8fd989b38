"""What an editor asks of a text: its faults, its outline, where a name is defined, and what it is. Lines and columns
count from 0 here, as editors count. Nothing here is proved."""
import re

from c_program import Program
from c_types import shown
from lint import warnings
from why_faults import faults

WORD = re.compile(r"[A-Za-z_]\w*")
ERROR, WARNING = 1, 2
MODULE, STRUCT, FUNCTION, VARIABLE = 2, 23, 12, 13


def span(line, column, length):
    return {"start": {"line": line, "character": column}, "end": {"line": line, "character": column + length}}


class Text:
    """A text as an editor has it."""

    def __init__(self, text):
        self.text, self.lines = text, text.split("\n")
        self.program = Program(text)
        self.parts = [part for part in self.program.parts if part.tree is not None]

    def diagnostics(self):
        """The faults with what to write instead, or the warnings of an accepted text."""
        data = self.text.encode("utf-8", "surrogateescape")
        found = [(getattr(fault, "at", fault.line), fault.column, ERROR, f"{fault.phase}: {fault.text}")
                 for fault, _ in faults(data, self.text)]
        if not found:
            found = [(line, 1, WARNING, words) for line, words in warnings(self.text)]
        return [{"range": self.range_at(line - 1, column - 1), "severity": severity, "source": "secomp",
                 "message": words}
                for line, column, severity, words in found]

    def range_at(self, line, column):
        """The word or sign that stands there."""
        stands = self.lines[line][column:] if line < len(self.lines) else ""
        word = WORD.match(stands)
        return span(line, column, len(word.group()) if word else min(1, len(stands)))

    def outline(self):
        """The sections, and in each what it declares."""
        return [{"name": part.name, "kind": MODULE,
                 **self.ranges(part.first - 1, part.first + len(part.section.lines) - 2),
                 "children": [self.symbol(part, node) for node in self.declared(part)]} for part in self.parts]

    def declared(self, part):
        nodes = part.tree.structs + part.tree.globals + part.tree.functions
        return sorted(nodes, key=lambda node: (node.line, node.column))

    def symbol(self, part, node):
        kind = {"struct": STRUCT, "global": VARIABLE, "function": FUNCTION}[node.kind]
        first = part.first + node.line - 2
        return {"name": node.name, "kind": kind, "detail": self.head(node),
                **self.ranges(first, part.first + getattr(node, "close", node.line) - 2)}

    def ranges(self, first, last):
        end = len(self.lines[last]) if last < len(self.lines) else 0
        return {"range": {"start": {"line": first, "character": 0}, "end": {"line": last, "character": end}},
                "selectionRange": span(first, 0, len(self.lines[first]))}

    def head(self, node):
        """What is declared, as C writes it."""
        if node.kind == "struct":
            return f"struct {node.name}"
        if node.kind in ("global", "local"):
            length = "" if node.length is None else f"[{node.length}]"
            return f"{shown(node.type)} {node.name}{length}"
        params = ", ".join(f"{shown(of)} {name or ''}".strip() for name, of, _ in node.params) or "void"
        return f"{shown(node.result)} {node.name}({params})"

    # names

    def word_at(self, line, column):
        """The name at a place, and the section that it stands in."""
        stands = self.lines[line] if line < len(self.lines) else ""
        word = next((it for it in WORD.finditer(stands) if it.start() <= column <= it.end()), None)
        part = next((part for part in reversed(self.parts) if part.first - 1 <= line), None)
        return (word.group() if word else None), part

    def found(self, line, column):
        """What a name at a place means: the section in which it is declared, and the node; or nothing."""
        name, part = self.word_at(line, column)
        if name is None or part is None:
            return None
        words = self.lines[line].split()
        if words[:2] == ["#pragma", "import"] and len(words) == 4:
            return self.imported(words[2], name)
        inside = self.function_at(part, line)
        for node in (inside.locals if inside else []):
            if node.name == name:
                return part, node
        if inside and name in [param for param, _, _ in inside.params]:
            return part, inside
        for node in self.declared(part):
            if node.name == name:
                return part, node
        return next((self.imported(node.names[0], name) for node in part.tree.imports if node.names[1] == name), None)

    def function_at(self, part, line):
        at = line - part.first + 2
        return next((node for node in part.tree.functions if node.line <= at <= node.close), None)

    def imported(self, owner, name):
        part = next((part for part in self.parts if part.name == owner), None)
        if part is None:
            return None
        if name == owner:
            return part, None
        return next(((part, node) for node in part.tree.functions if node.name == name), None)

    def definition(self, line, column):
        """The range of a name's definition, also in another section."""
        found = self.found(line, column)
        if not found:
            return None
        part, node = found
        if node is None:
            return span(part.first - 1, 0, len(self.lines[part.first - 1]))
        token = self.name_token(node, self.word_at(line, column)[0])
        return span(part.first + token.line - 2, token.column - 1, len(node.name))

    def name_token(self, node, name):
        """Where the name stands: that of a parameter within its function's head."""
        for param, _, token in getattr(node, "params", []):
            if param == name and token is not None:
                return token
        return getattr(node, "at", node)

    def hover(self, line, column):
        """What a name is, in words: of a function its head and who may call it."""
        found = self.found(line, column)
        if not found:
            return None
        part, node = found
        if node is None:
            return self.interface(part)
        name = self.word_at(line, column)[0]
        for param, of, _ in getattr(node, "params", []):
            if param == name and name != node.name:
                return f"{shown(of)} {name}: a parameter of {node.name}"
        return f"{self.head(node)}\n\n{self.whose(part, node)}"

    def whose(self, part, node):
        if node.kind != "function":
            return f"{'a local in' if node.kind == 'local' else 'private to'} {part.name}"
        users = [other.name for other in self.parts for it in other.tree.imports if it.names == [part.name, node.name]]
        if not any(it.names == [node.name] for it in part.tree.exports):
            return f"private to {part.name}"
        return f"exported by {part.name}, imported by {', '.join(users) or 'nobody'}"

    def interface(self, part):
        """The exports and imports of a section."""
        heads = {node.name: self.head(node) for node in part.tree.functions}
        lines = [f"exports {heads.get(it.names[0], it.names[0])}" for it in part.tree.exports]
        lines += [f"imports {it.names[1]} of {it.names[0]}" for it in part.tree.imports]
        return "\n\n".join([f"compartment {part.name}", *lines])
