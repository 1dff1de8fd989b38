"""The text of the sections, and for each line the file and the line that it comes from."""


class Printer:
    def __init__(self):
        self.lines, self.places = [], []

    def put(self, text, depth=0, coord=None):
        for line in text.split("\n"):
            self.lines.append("  " * depth + line)
            self.places.append((coord.file, coord.line) if coord is not None and coord.file else None)

    def items(self, items, depth):
        for it in items:
            getattr(self, "put_" + it[0])(it, depth)

    def put_line(self, item, depth):
        self.put(item[1], depth, item[2])

    def put_block(self, item, depth):
        self.items(item[1], depth + 1)

    def put_loop(self, item, depth):
        _, head, inside, coord = item
        self.put(f"{head} {{", depth, coord)
        self.items(inside, depth + 1)
        self.put("}", depth, coord)

    def put_if(self, item, depth):
        _, condition, yes, no, coord = item
        if not yes and not no:
            self.put(f"if ({condition}) {{", depth, coord)
            self.put("}", depth, coord)
            return
        if not yes:
            condition, yes, no = f"!({condition})", no, []
        self.put(f"if ({condition}) {{", depth, coord)
        self.items(yes, depth + 1)
        if no:
            self.put("} else {", depth, coord)
            self.items(no, depth + 1)
        self.put("}", depth, coord)

    def text(self):
        return "".join(f"{line}\n" for line in self.lines)

    def map(self):
        """Lines `NUMBER FILE:LINE`, for the lines of the text that come from a file."""
        return "".join(f"{number} {place[0]}:{place[1]}\n" for number, place in enumerate(self.places, 1) if place)


class Sections:
    """A part of a section: what is written of it."""

    def print_section(self, printer):
        starts, begin = self.start_functions()
        functions = sorted(self.written.values(), key=lambda it: self.order_of(it[0]))
        printed = []
        for entity, items in functions:
            if begin is not None and (entity.name == "main" and entity.target == "main" or self.is_exported(entity)):
                items = self.with_begin(items, begin)
            printed.append(items)
        dispatchers = [self.dispatcher_text(key) for key in list(self.dispatchers)]
        printer.put(f"#pragma compartment {self.name}")
        for name in self.exports:
            printer.put(f"#pragma export {name}")
        for name, (owner, _) in self.imports.items():
            printer.put(f"#pragma import {owner} {name}")
        for _, (_, prototype) in self.imports.items():
            printer.put(prototype)
        below = Printer()
        for line in self.struct_lines():
            below.put(line)
        below.items(self.variable_lines(), 0)
        for _, text in self.generated.values():
            below.put(text)
        for text in dispatchers:
            below.put(text)
        below.items(starts, 0)
        for items in printed:
            below.items(items, 0)
        if any("struct wide_word" in line for line in below.lines):
            printer.put("struct wide_word {\n  unsigned int low;\n  unsigned int high;\n};")
        printer.lines += below.lines
        printer.places += below.places

    def order_of(self, entity):
        return self.loaded.index(entity.file), entity.node.coord.line or 0

    def with_begin(self, items, begin):
        """The function with the setting of globals before its first statement."""
        head, (_, inside), end = items
        at = next((at for at, it in enumerate(inside) if it[0] != "line" or not self.is_local(it)), len(inside))
        return [head, ("block", [*inside[:at], ("line", f"{begin}();", head[2]), *inside[at:]]), end]

    def is_local(self, item):
        words = item[1].split()
        return words[0] in ("int", "unsigned", "struct")
