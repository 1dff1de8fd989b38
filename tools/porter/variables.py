"""Globals and their first values. Integers and arrays of integers get initialisers; the others are set by functions
that run before the section's first function."""
from .body import Body
from .common import Refused, placed
from .ctypes import base_of, known
from .initial import Fill, leaf_place, leaves_of
from .values import ATOM, Place

MOST_LINES = 150
COLUMNS_FROM = 8


class Variables:
    """A part of a section."""

    def first_values(self):
        """Gives each used global that isn't yet seen its initialiser; answers whether there was one."""
        fresh = [it for it in self.used.values() if it.target is not None and id(it) not in self.begun]
        for entity in fresh:
            self.begun[id(entity)] = ""
            if entity.init is not None:
                self.file = entity.file
                self.begin_variable(entity)
        return bool(fresh)

    def begin_variable(self, entity):
        kind = known(entity.type)
        body = Body(self, entity.scope)
        body.coord, body.function = entity.init.coord or entity.coord, None
        with placed(body):
            self.fill_variable(entity, kind, body)

    def fill_variable(self, entity, kind, body):
        fill = Fill(body)
        fill.whole(kind, entity.init, 0)
        base, _ = base_of(kind)
        if base.is_integer and not base.is_wide:
            constants = body.constants_of(fill.table, base)
            if constants is None:
                raise Refused(entity.coord, "an initialiser that is no constant")
            self.begun[id(entity)] = self.initialiser(kind, constants)
            return
        place = Place(entity.target, ATOM, kind, entity.sign)
        table = fill.table
        if kind.is_array and base.is_struct and len(table) and kind.count > COLUMNS_FROM:
            table = self.by_columns(body, place, kind, base, table)
        for index in sorted(table):
            if not self.is_zero(body, table[index]):
                body.fill_leaf(place, kind, index, table[index], entity.coord)
        self.start_lines.append((body.lines, body.locals))

    def is_zero(self, body, node):
        if isinstance(node, tuple):
            return False
        if isinstance(node, int):
            return node == 0
        with body.captured():
            value = body.value(node)
        return not isinstance(value, Place) and value.const == 0

    def initialiser(self, kind, constants):
        last = max((at for at, it in constants.items() if it), default=-1)
        if last < 0:
            return ""
        texts = [self.constant_text(constants.get(at, 0)) for at in range(last + 1)]
        return " = " + (f"{{{', '.join(texts)}}}" if kind.is_array else texts[0])

    def constant_text(self, value):
        return "0x80000000" if value == -(1 << 31) else str(value)

    def by_columns(self, body, place, kind, base, table):
        """Writes the integer members of a table of structures as one array each, and a loop; answers with the rest."""
        each, rest, loops = leaves_of(base), dict(table), []
        count = leaves_of(kind) // each
        for at in range(each):
            inner = known(leaf_place(Place("x", ATOM, base), base, at).type)
            if not inner.is_integer or inner.is_wide:
                continue
            nodes = {index // each: node for index, node in table.items() if index % each == at}
            constants = body.constants_of(nodes, inner)
            if constants is None:
                continue
            for index in nodes:
                rest.pop(index * each + at)
            values = [constants.get(index, 0) for index in range(count)]
            if any(values):
                loops.append((leaf_place(Place(f"{place.text}[i]", ATOM, base), base, at).text, self.table(values)))
        if loops:
            index = body.names.take("index")
            body.locals.append(("unsigned int", index, None))
            lines = [body.line(f"{to.replace('[i]', f'[{index}]', 1)} = {name}[{index}];") for to, name in loops]
            body.lines.append(("loop", f"for ({index} = 0u; {index} < {count}u; {index}++)", lines, body.coord))
        return rest

    # What is written

    def variable_lines(self):
        lines = []
        for entity in self.used.values():
            lines.append(("line", self.declarator_of(entity) + self.begun[id(entity)] + ";", entity.coord))
        for values, name in self.strings.items():
            lines.append(("line", self.table_text(name, values), None))
        for values, name in self.tables.items():
            lines.append(("line", self.table_text(name, values), None))
        for spelling, name in self.passings.values():
            lines.append(("line", f"{spelling} {name};".replace("* ", "*"), None))
        lines += [("line", f"int {name};", None) for name in self.exit_names or ()]
        return lines

    def declarator_of(self, entity):
        return self.declarator(entity.type, entity.target)

    def table_text(self, name, values):
        values = list(values)
        last = max((at for at, it in enumerate(values) if it), default=-1)
        texts = ", ".join(self.constant_text(it) for it in values[:last + 1])
        return f"int {name}[{len(values)}]" + (f" = {{{texts}}}" if texts else "") + ";"

    def start_functions(self):
        """The functions that set globals, and the name of the one that calls them all."""
        if not self.start_lines:
            return [], None
        chunks = [([], [])]
        for lines, locals_ in self.start_lines:
            if len(chunks[-1][0]) + len(lines) > MOST_LINES and chunks[-1][0]:
                chunks.append(([], []))
            for at in range(0, len(lines), MOST_LINES):
                if at:
                    chunks.append(([], []))
                chunks[-1][0].extend(lines[at:at + MOST_LINES])
                chunks[-1][1].extend(it for it in locals_ if it not in chunks[-1][1])
        found, names = [], []
        for lines, locals_ in chunks:
            names.append(self.names.take("begin_globals"))
            found.append(("line", f"void {names[-1]}(void) {{", None))
            found.append(("block", [("line", f"{of} {name};".replace("* ", "*") if count is None else
                                     f"{of} {name}[{count}];", None) for of, name, count in locals_] + lines))
            found.append(("line", "}", None))
        ready, begin = self.names.take("ready"), self.names.take("begin")
        found.append(("line", f"int {ready};", None))
        calls = [("line", f"{name}();", None) for name in names]
        found += [("line", f"void {begin}(void) {{", None),
                  ("block", [("if", f"{ready} == 0", [("line", f"{ready} = 1;", None), *calls], [], None)]),
                  ("line", "}", None)]
        return found, begin
