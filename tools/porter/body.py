"""The translator of one function's body, and of declarations outside of functions."""
from pycparser import c_ast

from .calls import Calls
from .common import MOST_PARAMETERS, Names, Refused
from .ctypes import Function, Void, base_of, is_function_pointer, known, target_of, target_of_value
from .declarations import Declarations, Entity, Scope
from .effects import Effects
from .expressions import Expressions
from .initial import Initial
from .jumps import Jumps
from .statements import Statements
from .values import ATOM, Place


def addressed(node, found=None):
    """The names of variables whose address is taken."""
    found = set() if found is None else found
    if isinstance(node, c_ast.UnaryOp) and node.op == "&" and isinstance(node.expr, c_ast.ID):
        found.add(node.expr.name)
    for _, it in node.children():
        addressed(it, found)
    return found


class Body(Expressions, Effects, Calls, Statements, Jumps, Initial, Declarations):
    def __init__(self, unit, scope, function=None):
        self.unit, self.scope, self.function = unit, scope, function
        self.lines, self.locals, self.free, self.used, self.targets = [], [], {}, [], []
        self.names = Names((), unit.names)
        self.coord, self.machine, self.result_name, self.prologue = None, None, None, []
        self.taken = addressed(function.node) if function is not None else set()
        self.parameters = []

    # Names

    def open_scope(self):
        self.scope = Scope(self.scope)

    def close_scope(self):
        self.scope = self.scope.above

    def find(self, name, coord):
        found = self.scope.find(name)
        if found is None:
            found = self.unit.outside(name)
        if found is None:
            if name == "__func__" or name == "__FUNCTION__":
                raise Refused(coord, name)
            raise Refused(coord, f"{name}, which is declared nowhere")
        return found

    def find_called(self, name, coord):
        found = self.scope.find(name)
        if found is None or found.kind == "function":
            found = self.unit.builtin(name, found) or found or self.unit.implicit(name)
        return found

    def constant_value(self, node):
        """The value of a constant expression, or none."""
        with self.captured() as lines:
            try:
                value = self.value(node)
            except Refused:
                if isinstance(node, c_ast.InitList):
                    return None
                raise
        if isinstance(value, Place) or lines:
            return None
        return value.const if known(value.type).is_integer else None

    def scope_typedef(self, node):
        entity = Entity("typedef", node.name, node=node.type, scope=self.scope)
        kind = self.type_of(node.type, (str(node.coord), "typedef", node.name))
        if not self.has_void(kind):
            entity.value = kind
        self.scope.names[node.name] = entity

    def has_void(self, kind, depth=0):
        """Whether each use of a typedef may be a pointer to another type."""
        if isinstance(kind, Void):
            return kind is not self.unit.void
        if kind.is_pointer:
            return self.has_void(kind.to, depth + 1)
        if kind.is_array:
            return self.has_void(kind.of, depth + 1)
        if isinstance(kind, Function):
            return any(self.has_void(it) for it in [kind.result, *(kind.parameters or [])])
        return False

    # Locals

    def declare(self, node):
        storage = node.storage or []
        if node.name is None:
            self.type_of(node.type)
            return
        if isinstance(node.type, c_ast.FuncDecl):
            kind = self.type_of(node)
            self.scope.names[node.name] = self.unit.declare_function(node.name, kind, None, node.coord, self)
            return
        if "extern" in storage:
            kind = self.type_of(node)
            self.scope.names[node.name] = self.unit.declare_variable(node, kind, self.scope, None)
            return
        kind = self.type_of(node)
        if kind.is_array and kind.count is None:
            if node.init is None:
                raise Refused(node.coord, "an array without a length")
            kind = self.completed(kind, node.init)
        if isinstance(known(kind), (Void, Function)):
            raise Refused(node.coord, f"a variable of {kind!r}")
        if "static" in storage:
            entity = self.unit.declare_static(node, kind, self.scope)
            self.scope.names[node.name] = entity
            return
        self.declare_local(node, kind)

    def declare_local(self, node, kind):
        sign_kept = node.name not in self.taken
        entity = Entity("variable", node.name, kind, owner=self.function)
        entity.target = self.local(node.name, kind, sign_kept)
        entity.sign = self.sign_of(kind) if sign_kept else self.memory_sign(kind)
        self.scope.names[node.name] = entity
        place = Place(entity.target, ATOM, kind, entity.sign)
        if node.init is not None:
            self.initialise(place, kind, node.init)
        elif self.unit.is_copied(base_of(kind)[0]):
            self.clear(place, kind, node.coord)

    def memory_sign(self, kind):
        return "p" if known(kind).is_pointer and not is_function_pointer(known(kind)) else "s"

    def sign_of(self, kind):
        kind = known(kind)
        if kind.is_integer and kind.size == 4 and not kind.signed:
            return "u"
        return self.memory_sign(kind)

    def local(self, wanted, kind, sign_kept=True):
        """A new variable at the top of the function."""
        name = self.names.take(wanted)
        kind = known(kind)
        base, count = base_of(kind)
        if base.is_struct:
            self.unit.wants_complete(base, self.coord)
        self.unit.fits(kind, self.coord)
        spelling = target_of(base) if kind.is_array or not sign_kept else target_of_value(kind)
        self.locals.append((spelling, name, count if kind.is_array else None))
        return name

    def local_place(self, wanted, kind):
        place = Place(self.local(wanted, kind), ATOM, kind, "s")
        return place

    # The function

    def translate(self):
        """The lines of the function, with their places."""
        entity = self.function
        node = entity.node
        self.coord = node.coord
        if self.unit.is_exported(entity) and (entity.file, entity.name) in self.unit.exiting:
            raise Refused(node.coord, f"{entity.name} comes to exit, and another section calls it")
        self.open_scope()
        self.take_parameters(entity)
        self.prologue = self.lines
        if self.needs_machine(node.body):
            self.lines = []
            self.perform_machine(node.body)
        else:
            self.perform(node.body)
            self.finish_last()
        return self.whole(entity)

    def finish_last(self):
        """Where control can reach the end, a function with a result gives 0, as no caller may look at it."""
        if not self.ends(self.lines):
            if not isinstance(known(self.function.type.result), Void):
                if known(self.function.type.result).is_struct:
                    self.emit("return;")
                else:
                    self.emit("return 0;")
            elif self.machine is not None:
                self.emit("return;")
            elif self.is_main():
                self.emit("return 0;")

    def is_main(self):
        return self.function.name == "main"

    def ends(self, lines):
        last = lines[-1] if lines else ("line", "", None)
        if last[0] == "line":
            return last[1].startswith("return") or self.machine is not None and \
                last[1].startswith(f"{self.machine.state} = ")
        return last[0] == "if" and self.ends(last[2]) and self.ends(last[3])

    def take_parameters(self, entity):
        if entity.name == "main":
            self.take_main_parameters(entity)
            return
        result = known(entity.type.result)
        if result.is_struct:
            self.result_name = self.names.take("result")
            self.parameters.append((f"struct {result.group.target} *", self.result_name))
        exported = self.unit.is_exported(entity)
        for name, kind in zip(self.unit.parameter_names(entity), entity.type.parameters):
            self.take_parameter(name or "unnamed", known(kind), exported)
        for at in range(MOST_PARAMETERS, len(self.parameters)):
            spelling, name = self.parameters[at]
            self.locals.append((spelling, name, None))
            self.lines.insert(at - MOST_PARAMETERS,
                              self.line(f"{name} = {self.unit.passing(entity, at, spelling)};"))
        del self.parameters[MOST_PARAMETERS:]

    def take_parameter(self, name, kind, exported):
        entity = Entity("variable", name, kind, owner=self.function)
        self.scope.names[name] = entity
        kept = name not in self.taken
        if kind.is_struct:
            entity.target = self.local(name, kind)
            source = self.names.take(f"{name}_at")
            self.parameters.append((f"struct {kind.group.target} *", source))
            self.emit(f"{self.unit.copier(kind)}(&{entity.target}, {source});")
        elif kind.is_wide:
            low, high = self.names.take(f"{name}_low"), self.names.take(f"{name}_high")
            self.parameters += [("unsigned int", low), ("unsigned int", high)]
            entity.target = self.local(name, kind)
            self.emit(f"{entity.target}.low = {low};")
            self.emit(f"{entity.target}.high = {high};")
        elif not kept and self.sign_of(kind) == "u":
            source = self.names.take(f"{name}_in")
            self.parameters.append(("unsigned int", source))
            entity.target, entity.sign = self.local(name, kind, False), "s"
            self.emit(f"{entity.target} = {source};")
        else:
            entity.target, entity.sign = self.names.take(name), self.sign_of(kind)
            self.parameters.append((target_of_value(kind), entity.target))
            if exported and kind.is_integer and kind.size < 4:
                self.emit(f"{entity.target} = {entity.target} & {(1 << kind.bits) - 1};" if not kind.is_bool else
                          f"{entity.target} = {entity.target} != 0;")

    def take_main_parameters(self, entity):
        for name, kind in zip(self.unit.parameter_names(entity), entity.type.parameters or []):
            if name:
                found = Entity("variable", name, kind, owner=self.function)
                found.target, found.sign = self.local(name, kind, False), self.memory_sign(kind)
                self.scope.names[name] = found
                self.emit(f"{found.target} = 0;")

    def whole(self, entity):
        result = known(entity.type.result)
        if self.is_main():
            spelling, parameters = "int", "void"
        else:
            spelling = "void" if isinstance(result, Void) or result.is_struct else \
                "unsigned int" if result.is_wide else target_of_value(result)
            parameters = ", ".join(f"{of} {name}".replace("* ", "*") for of, name in self.parameters) or "void"
        head = f"{spelling} {entity.target}({parameters}) {{".replace("* ", "*")
        found = [("line", head, entity.node.coord)]
        inside = []
        for of, name, count in self.locals:
            text = f"{of} {name}".replace("* ", "*") + (f"[{count}]" if count is not None else "")
            inside.append(("line", f"{text};", entity.node.coord))
        found.append(("block", inside + (self.prologue if self.machine is None else self.prologue)))
        found.append(("line", "}", entity.node.coord))
        return found
