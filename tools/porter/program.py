"""All sections together: what crosses between them, and the two passes. The first finds which type each `void` behind
a pointer stands for, the second writes."""
from .body import Body
from .common import Refused, placed
from .ctypes import Void, known
from .preprocess import Place
from .printing import Printer
from .units import Unit

MOST_SECTIONS = 32
MOST_PASSES = 4


class Program:
    def __init__(self, sections, folders, defines):
        self.folders, self.defines = folders, defines
        self.units = [Unit(self, name, paths) for name, paths in sections]

    def definer(self, name, asking):
        """The other section that defines a function of this name for all."""
        for unit in self.units:
            entity = unit.functions.get(name) if unit is not asking else None
            if entity is not None and entity.node is not None and entity.file in unit.paths:
                return unit
        return None

    def crossing(self, unit, owner, name, coord):
        """A call across sections: an export there, an import here."""
        entity = owner.functions[name]
        kinds = [known(it) for it in [entity.type.result, *entity.type.parameters]]
        for it in kinds:
            if not (it.is_integer and not it.is_wide or isinstance(it, Void)):
                raise Refused(coord, f"a call of {name} in section {owner.name}: {it!r} would cross, and only words do")
        if name == "main":
            raise Refused(coord, "a call of main from another section")
        if name not in owner.exports:
            owner.names.taken.add(name)
            owner.exports[name] = entity
            if entity.target is not None and entity.target != name or name.startswith("bt_"):
                raise Refused(coord, f"{name} can't be exported by this name")
            entity.target = name
            owner.want(entity)
        unit.names.taken.add(name)
        unit.imports[name] = (owner.name, self.prototype(entity))
        return name, entity.type

    def prototype(self, entity):
        from .ctypes import target_of_value
        result = known(entity.type.result)
        spelling = "void" if isinstance(result, Void) else target_of_value(result)
        parameters = ", ".join(target_of_value(known(it)) for it in entity.type.parameters) or "void"
        return f"{spelling} {entity.name}({parameters});"

    def main_unit(self):
        found = [(unit, unit.functions["main"]) for unit in self.units
                 if "main" in unit.functions and unit.functions["main"].node is not None]
        if len(found) != 1:
            raise Refused(found[1][1].node.coord if found else Place(self.units[0].paths[0], 1),
                          "a second main" if found else "no file defines main")
        return found[0]

    def translate(self):
        self.perform(False)
        for _ in range(MOST_PASSES):
            before = Void.found
            self.perform(True)
            if Void.found == before:
                return
        raise Refused(self.main_unit()[1].node.coord, "a void pointer whose type the porter doesn't find")

    def perform(self, is_last):
        """One pass over all that is reached."""
        for unit in self.units:
            unit.begin(is_last)
            unit.begun, unit.start_lines = {}, []
        unit, main = self.main_unit()
        unit.want(main)
        while any([self.work(unit) for unit in self.units]):
            pass
        for unit in self.units:
            unit.group()
            unit.close_exits()

    def work(self, unit):
        """Translates what waits in a section; answers whether something did."""
        worked = False
        while unit.waiting or unit.first_values():
            worked = True
            if unit.waiting:
                entity = unit.waiting.pop(0)
                unit.file = entity.file
                body = Body(unit, entity.scope, entity)
                try:
                    with placed(body):
                        unit.written[id(entity)] = (entity, body.translate())
                except (AttributeError, TypeError, KeyError, IndexError, ValueError, AssertionError) as error:
                    if self.shows_faults:
                        raise
                    raise Refused(body.coord, f"a construct that the porter does not know ({error})") from error
        return worked

    shows_faults = False

    def text(self):
        printer = Printer()
        for unit in self.units:
            unit.print_section(printer)
        return printer
