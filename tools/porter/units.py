"""One compartment: its files, what they declare, and the text of its section."""
import os

from pycparser import c_ast

from .body import Body
from .common import Names, Refused, placed
from .ctypes import CHAR, INT, VOID, Array, Function, Struct, Void, base_of, known, target_of, unify
from .declarations import Entity, Scope
from .helpers import Helpers
from .layout import Layout
from .printing import Sections
from .variables import Variables
from .preprocess import tree_of

LIBRARY = os.path.join(os.path.dirname(os.path.abspath(__file__)), "library")
IN_LIBRARY = {
    "strings.c": "strlen strcpy strncpy strcat strncat strcmp strncmp port_memcmp port_memchr strchr strrchr strstr "
                 "strspn strcspn strpbrk",
    "numbers.c": "abs labs rand srand atoi",
    "characters.c": "isdigit islower isupper isalpha isalnum isblank isspace iscntrl isgraph isprint ispunct isxdigit "
                    "tolower toupper",
    "bits.c": "ffs port_clz port_ctz port_popcount port_parity port_bswap32 port_bswap16 port_clzll port_ctzll "
              "port_popcountll port_bswap64 port_ffsll port_parityll llabs",
    "streams.c": "getchar putchar puts",
    "wide.c": "port_left port_right port_right_signed port_multiply port_divide port_remainder port_divide_signed "
              "port_remainder_signed port_high",
}
FILE_OF = {name: file for file, names in IN_LIBRARY.items() for name in names.split()}
OF_THE_COMPILER = {"abs", "labs", "llabs", "ffs"}
BUILTINS = {"abort", "exit", "malloc", "calloc", "free", "memcpy", "memmove", "memset", "memcmp", "memchr",
            "qsort", "port_expect", "port_prefetch", "port_assume_aligned",
            "offsetof"}


class Unit(Helpers, Layout, Variables, Sections):
    def __init__(self, program, name, paths):
        self.program, self.name, self.paths = program, name, paths
        self.void, self.char, self.is_last = VOID, CHAR, False
        self.trees, self.types, self.structs_at, self.tagged, self.copied = {}, {}, {}, {}, set()
        self.order, self.copied_now, self.exports_wanted = [], set(), {}
        self.loaded = list(paths)
        self.direct_exits, self.calls_seen, self.exiting, self.exit_names = set(), {}, set(), None

    def begin(self, is_last):
        """Forgets what a pass wrote, and keeps what it found out."""
        self.is_last, self.copied = is_last, self.copied | self.copied_now
        self.names = Names({"input", "output", "main"})
        self.functions, self.variables, self.statics, self.scopes = {}, {}, {}, {}
        self.waiting, self.written, self.used, self.strings, self.tables = [], {}, {}, {}, {}
        self.generated, self.dispatchers, self.numbered, self.imports, self.exports = {}, {}, [], {}, {}
        self.passings, self.static_locals, self.exit_names = {}, {}, None
        self.begin_layout()
        for path in self.loaded:
            self.read(path)
        self.name_all()

    def name_all(self):
        """Names first what other sections may call, then the rest."""
        for entity in self.functions.values():
            if entity.node is None:
                self.names.taken.add(entity.name)
        for home in [self.functions, *(home for home in self.statics.values())]:
            for entity in home.values():
                if entity.target is None and (entity.kind == "variable" or entity.node is not None):
                    entity.target = self.names.take(entity.name)
        for entity in self.variables.values():
            if entity.target is None:
                entity.target = self.names.take(entity.name)

    def read(self, path):
        """The declarations of a file."""
        if path not in self.trees:
            is_library = path not in self.paths
            self.trees[path] = tree_of(path, [] if is_library else self.program.folders,
                                       [] if is_library else self.program.defines)
        self.file, scope = path, Scope()
        self.scopes[path] = scope
        body = Body(self, scope)
        for node in self.trees[path].ext:
            body.coord = node.coord
            with placed(body):
                self.see(node, body, path)

    def see(self, node, body, path):
        if isinstance(node, c_ast.Typedef):
            body.scope_typedef(node)
        elif isinstance(node, c_ast.FuncDef):
            kind = self.defined_type(node, body)
            self.declare_function(node.decl.name, kind, node, node.coord, body)
        elif isinstance(node, c_ast.Decl):
            self.see_declaration(node, body, path)
        elif isinstance(node, c_ast.StaticAssert):
            if not body.constant_value(node.cond):
                raise Refused(node.coord, "a static assertion that fails")
        elif not isinstance(node, c_ast.Pragma):
            raise Refused(node.coord, f"{type(node).__name__} outside of functions")

    def see_declaration(self, node, body, path):
        kind = body.type_of(node) if node.name else body.type_of(node.type)
        if node.name is None:
            return
        if isinstance(kind, Function):
            self.declare_function(node.name, kind, None, node.coord, body)
            return
        if kind.is_array and kind.count is None and node.init is not None:
            kind = body.completed(kind, node.init)
        body.scope.names[node.name] = self.declare_variable(node, kind, body.scope, path)

    def defined_type(self, node, body):
        """The type of a function that is defined, also in the way of K&R."""
        kind = body.type_of(node.decl)
        if node.param_decls:
            kinds = {it.name: body.adjusted(body.type_of(it)) for it in node.param_decls}
            names = [it.name for it in node.decl.type.args.params]
            kind = Function(kind.result, [kinds.get(name, INT) for name in names])
        elif node.decl.type.args is not None and kind.parameters is None:
            kind = Function(kind.result, [INT for _ in node.decl.type.args.params])
        if kind.parameters is None:
            kind = Function(kind.result, [])
        return kind

    # Functions

    def declare_function(self, name, kind, node, coord, body):
        is_static = node is not None and "static" in (node.decl.storage or [])
        inside = body.scope.find(name)
        statics = self.statics.setdefault(self.file, {})
        entity = statics.get(name) if name in statics else None
        if entity is None and (is_static or self.is_static_here(name)):
            entity = statics[name] = Entity("function", name, kind, file=self.file)
            entity.target = None
        if entity is None:
            entity = self.functions.get(name)
        if entity is None:
            entity = self.functions[name] = Entity("function", name, kind, file=self.file)
            entity.target = name if name == "main" else None
        self.merge(entity, kind, node is not None, coord)
        if node is not None:
            if entity.node is not None:
                raise Refused(coord, f"a second definition of {name}")
            if name in OF_THE_COMPILER and self.file in self.paths:
                raise Refused(coord, f"a definition of {name}, in whose place compilers use their own")
            entity.node, entity.scope, entity.file = node, body.scope, self.file
        body.scope.names[name] = entity
        return entity

    def is_static_here(self, name):
        """Whether this file defines a static function of this name, perhaps later."""
        key = self.file, "statics"
        if key not in self.types:
            self.types[key] = {it.decl.name for it in self.trees[self.file].ext
                               if isinstance(it, c_ast.FuncDef) and "static" in (it.decl.storage or [])} | \
                {it.name for it in self.trees[self.file].ext
                 if isinstance(it, c_ast.Decl) and "static" in (it.storage or []) and it.name}
        return name in self.types[key]

    def merge(self, entity, kind, is_definition, coord):
        old = entity.type
        for one, other in [(old.result, kind.result), *zip(old.parameters or [], kind.parameters or [])]:
            one, other = known(one), known(other)
            if one.is_pointer and other.is_pointer:
                if not unify(one.to, other.to):
                    raise Refused(coord, f"{entity.name} is declared with two types")
            elif one.is_pointer or other.is_pointer:
                raise Refused(coord, f"{entity.name} is declared with two types")
        if is_definition or old.parameters is None:
            entity.type = kind

    def outside(self, name):
        return self.functions.get(name) if name in self.functions else None

    def implicit(self, name):
        """A function that is called without a declaration."""
        if name not in self.functions and FILE_OF.get(name) == "bits.c":
            self.load("bits.c")
        if name not in self.functions:
            entity = self.functions[name] = Entity("function", name, Function(INT, None), file=self.file)
            entity.target = None
        return self.functions[name]

    def builtin(self, name, found):
        if name in BUILTINS and (found is None or found.node is None) and self.defines_no(name):
            return Entity("builtin", name)
        return None

    def defines_no(self, name):
        return not (name in self.functions and self.functions[name].node is not None)

    def called(self, entity, coord):
        """The target's name of a function that is called, and its type."""
        if entity.node is None and entity.name in self.functions:
            entity = self.functions[entity.name]
        if entity.node is None:
            return self.called_elsewhere(entity, coord)
        self.want(entity)
        return entity.target, entity.type

    def want(self, entity):
        if entity.target is None:
            entity.target = self.names.take(entity.name)
        if id(entity) not in self.written:
            self.written[id(entity)] = None
            self.waiting.append(entity)

    def called_elsewhere(self, entity, coord):
        name = entity.name
        if name in ("input", "output"):
            kind = Function(INT, []) if name == "input" else Function(VOID, [INT])
            self.imports[name] = ("Env", f"int {name}(void);" if name == "input" else f"void {name}(int value);")
            return name, kind
        owner = self.program.definer(name, self)
        if owner is not None:
            return self.program.crossing(self, owner, name, coord)
        if name in FILE_OF:
            self.load(FILE_OF[name])
            return self.called(self.functions[name], coord)
        raise Refused(coord, f"a call of {name}, which no file defines")

    def load(self, file):
        path = os.path.join(LIBRARY, file)
        if path not in self.loaded:
            self.loaded.append(path)
            before = self.file
            self.read(path)
            self.name_all()
            self.file = before

    def library_function(self, name):
        self.load(FILE_OF[name])
        return self.called(self.functions[name], None)[0]

    def library_variable(self, name):
        self.load(FILE_OF[name])
        entity = self.variables[name]
        self.uses(entity, None)
        return entity.target

    def high_result(self):
        return self.library_variable("port_high")

    def is_import(self, entity):
        return entity.node is None and entity.name not in FILE_OF and \
            not (entity.name in self.functions and self.functions[entity.name].node is not None)

    def is_exported(self, entity):
        return self.functions.get(entity.name) is entity and entity.name in self.exports

    # exit

    def exits(self, function, coord):
        self.direct_exits.add((function.file, function.name))
        if self.is_exported(function):
            raise Refused(coord, "exit in a function that another section calls")

    def exit_variables(self):
        if self.exit_names is None:
            self.exit_names = self.names.take("exit_status"), self.names.take("exiting")
        return self.exit_names

    def may_exit(self, caller, entity):
        """Notes the call; says whether the first pass found that exit may be reached by it."""
        if entity is not None and entity.node is None and entity.name in self.functions:
            entity = self.functions[entity.name]
        callee = (entity.file, entity.name) if entity is not None else None
        self.calls_seen.setdefault((caller.file, caller.name), set()).add(callee)
        return callee in self.exiting

    def close_exits(self):
        """What may reach exit: None stands for calls by number."""
        reaching = set(self.direct_exits)
        by_number = {(it.file, it.name) for it in self.numbered}
        while True:
            more = {caller for caller, callees in self.calls_seen.items() if callees & reaching}
            if by_number & (reaching | more):
                more.add(None)
            if more <= reaching:
                break
            reaching |= more
        self.exiting = reaching

    def parameter_names(self, entity):
        args = entity.node.decl.type.args if hasattr(entity.node.decl.type, "args") else None
        found = []
        for it in args.params if args is not None else ():
            name = getattr(it, "name", None)
            found.append(name)
        return found[:len(entity.type.parameters or [])] if entity.type.parameters is not None else []

    def spellings(self, entity):
        found = [(it, None) for kind in entity.type.parameters for it in self.passed(kind)]
        if known(entity.type.result).is_struct:
            found.insert(0, (target_of(entity.type.result) + " *", None))
        return found

    def passing(self, entity, at, spelling):
        key = id(entity), at
        if key not in self.passings:
            self.passings[key] = (spelling, self.names.take(f"{entity.name}_argument_{at + 1}"))
        return self.passings[key][1]

    def number_of(self, entity, coord):
        if entity.node is None and entity.name in self.functions:
            entity = self.functions[entity.name]
        if entity.node is None and entity.name in FILE_OF and self.program.definer(entity.name, self) is None:
            self.load(FILE_OF[entity.name])
            entity = self.functions[entity.name]
        if entity.node is None:
            raise Refused(coord, f"a pointer to {entity.name}, which this section doesn't define")
        self.want(entity)
        if entity not in self.numbered:
            self.numbered.append(entity)
        return self.numbered.index(entity) + 1

    # Variables

    def declare_variable(self, node, kind, scope, path):
        name, storage = node.name, node.storage or []
        home = self.variables
        if path is not None and ("static" in storage or self.is_static_here(name)):
            home = self.statics.setdefault((path, "variables"), {})
        elif path is None and name in self.statics.get((self.file, "variables"), {}):
            home = self.statics[self.file, "variables"]
        entity = home.get(name)
        if isinstance(known(kind), Void):
            raise Refused(node.coord, "a variable of void")
        if entity is None:
            entity = home[name] = Entity("variable", name, kind, node=None, scope=scope, init=None, target=None)
            entity.is_defined, entity.coord, entity.file = False, node.coord, self.file
            entity.sign = "p" if target_of(kind).endswith("*") and not known(kind).is_array else "s"
        elif known(entity.type).is_array and known(entity.type).count is None:
            entity.type = kind
        if "extern" not in storage or node.init is not None:
            entity.is_defined = True
        if node.init is not None:
            entity.init, entity.scope = node.init, scope
        return entity

    def declare_static(self, node, kind, scope):
        key = self.file, str(node.coord), node.name
        if key not in self.static_locals:
            entity = Entity("variable", node.name, kind, scope=scope, init=node.init, target=None, file=self.file)
            entity.is_defined, entity.coord = True, node.coord
            entity.sign = "p" if target_of(kind).endswith("*") and not known(kind).is_array else "s"
            self.static_locals[key] = entity
        return self.static_locals[key]

    def uses(self, entity, coord):
        """A global is written only where it is used."""
        if entity.owner is not None or id(entity) in self.used:
            return
        if not entity.is_defined:
            raise Refused(coord, f"{entity.name}, a variable that no file of this section defines")
        kind = known(entity.type)
        if kind.is_array and kind.count is None:
            entity.type = kind = Array(kind.of, 1)
        if isinstance(kind, Function):
            raise Refused(coord, "a variable of a function's type")
        base = base_of(kind)[0]
        if base.is_struct:
            self.wants_complete(base, coord)
        self.fits(kind, entity.coord)
        if entity.target is None:
            entity.target = self.names.take(entity.name)
        self.used[id(entity)] = entity

    def string(self, values):
        key = tuple(values)
        if key not in self.strings:
            self.strings[key] = self.names.take("text")
        return self.strings[key]

    def table(self, values):
        key = tuple(values)
        if key not in self.tables:
            self.tables[key] = self.names.take("table")
        return self.tables[key]

    # Types

    def variable_type(self, key):
        if key not in self.types:
            self.types[key] = Void()
        return self.types[key]

    def alike(self, one, other):
        return unify(one, other)

    def struct_for(self, tag, where):
        if where is None:
            where = "tag", tag
        if where not in self.structs_at:
            self.structs_at[where] = Struct(tag or "anonymous")
        return self.structs_at[where]

    def is_copied(self, kind):
        return kind.is_struct and id(kind) in self.copied
