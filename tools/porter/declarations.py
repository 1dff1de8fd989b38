"""Names, scopes, and types as they are declared."""
from pycparser import c_ast

from .common import Refused
from .ctypes import BY_WORDS, INT, UNSIGNED, Array, Function, Member, Pointer, Struct, Void, known
from .constants import string_values

FLOATS = {"float", "double", "_Complex"}


class Entity:
    """What a name stands for: a variable, a function, a constant, a typedef or a function of the library."""

    def __init__(self, kind, name, of=None, **more):
        self.kind, self.name, self.type, self.target, self.sign = kind, name, of, name, "s"
        self.owner, self.value, self.node, self.key, self.file = None, None, None, None, None
        self.__dict__.update(more)


class Scope:
    def __init__(self, above=None):
        self.above, self.names, self.tags = above, {}, {}

    def find(self, name):
        scope = self
        while scope is not None:
            if name in scope.names:
                return scope.names[name]
            scope = scope.above
        return None

    def find_tag(self, name):
        scope = self
        while scope is not None:
            if name in scope.tags:
                return scope.tags[name]
            scope = scope.above
        return None


class Declarations:
    """Types of pycparser's declarations. Needs `scope`, `unit`, and `constant_value` of a node."""

    def type_of(self, node, key=None):
        key = key or (str(node.coord), type(node).__name__, getattr(node, "name", None) or "")
        method = getattr(self, "type_" + type(node).__name__, None)
        if method is None:
            raise Refused(node.coord, f"the type {type(node).__name__}")
        return method(node, key)

    def type_Typename(self, node, key):
        return self.type_of(node.type, (*key, str(node.coord)))

    def type_Decl(self, node, key):
        return self.type_of(node.type, (*key, node.name))

    def type_TypeDecl(self, node, key):
        if "volatile" in (node.quals or ()) and False:
            raise Refused(node.coord, "volatile")
        return self.type_of(node.type, (*key, node.declname or "", str(node.coord)))

    def type_PtrDecl(self, node, key):
        to = self.type_of(node.type, (*key, "*"))
        if isinstance(to, Void) and to is self.unit.void:
            to = self.unit.variable_type((*key, "void"))
        return Pointer(to)

    def type_ArrayDecl(self, node, key):
        of = self.type_of(node.type, (*key, "[]"))
        if node.dim is None:
            return Array(of, None)
        count = self.constant_value(node.dim)
        if count is None:
            raise Refused(node.coord, "an array of variable length")
        if count <= 0:
            raise Refused(node.coord, "an array without elements")
        return Array(of, count)

    def type_FuncDecl(self, node, key):
        result = self.type_of(node.type, (*key, "result"))
        if node.args is None:
            return Function(result, None)
        parameters, variadic = [], False
        for at, it in enumerate(node.args.params):
            if isinstance(it, c_ast.EllipsisParam):
                variadic = True
            elif isinstance(it, c_ast.ID):
                return Function(result, None)
            else:
                parameters.append(self.adjusted(self.type_of(it, (*key, at))))
        if len(parameters) == 1 and isinstance(parameters[0], Void):
            parameters = []
        return Function(result, parameters, variadic)

    def adjusted(self, kind):
        """A parameter's type: arrays and functions are pointers there."""
        if kind.is_array:
            return Pointer(kind.of)
        return Pointer(kind) if isinstance(kind, Function) else kind

    def type_IdentifierType(self, node, key):
        words = sorted(node.names)
        if FLOATS & set(words):
            raise Refused(node.coord, f"{' '.join(node.names)}: no floating point")
        if words == ["void"]:
            return self.unit.void
        if " ".join(words) in BY_WORDS:
            return BY_WORDS[" ".join(words)]
        found = self.scope.find(node.names[0]) if len(words) == 1 else None
        if found is None or found.kind != "typedef":
            raise Refused(node.coord, f"the type {' '.join(node.names)}")
        if found.value is not None:
            return found.value
        before, self.scope = self.scope, found.scope
        try:
            return self.type_of(found.node, (*key, "typedef", found.name))
        finally:
            self.scope = before

    def type_Enum(self, node, key):
        if node.values is None:
            found = self.scope.find_tag(node.name)
            return found if found is not None else UNSIGNED
        value, values = 0, []
        for it in node.values.enumerators:
            if it.value is not None:
                value = self.constant_value(it.value)
                if value is None:
                    raise Refused(it.coord, "a constant that isn't known")
            values.append(value)
            if value > UNSIGNED.most or min(values) < INT.least or min(values) < 0 and max(values) > INT.most:
                raise Refused(it.coord, "an enumeration of more than 32 bits")
            of = INT if value <= INT.most else UNSIGNED
            self.scope.names[it.name] = Entity("constant", it.name, of, value=value)
            value += 1
        kind = INT if min(values) < 0 else UNSIGNED
        if node.name:
            self.scope.tags[node.name] = kind
        return kind

    def type_Union(self, node, key):
        struct = self.type_Struct(node, key)
        if node.decls and len(node.decls) > 1:
            struct.is_union = True
            if any(it.width is not None or not it.name for it in struct.members):
                raise Refused(node.coord, "a union with bit fields")
        return struct

    def type_Struct(self, node, key):
        where = (str(node.coord), node.name)
        struct = None
        if node.name:
            struct = self.scope.tags.get(node.name) if node.decls is not None else self.scope.find_tag(node.name)
        if struct is None:
            is_file_scope = self.scope.above is None
            struct = self.unit.struct_for(node.name, None if node.name and is_file_scope else where)
            if node.name:
                self.scope.tags[node.name] = struct
        if node.decls is not None:
            if struct.members is not None and struct.defined_at != where:
                struct = self.unit.struct_for(None, where)
                struct.tag = node.name
                if node.name:
                    self.scope.tags[node.name] = struct
            if struct.members is None:
                struct.defined_at, struct.coord = where, node.coord
                self.define(struct, node)
            elif node.name or True:
                self.see_again(node)
        return struct

    def see_again(self, node):
        """Constants and tags that are declared inside a structure that is known already."""
        for it in node.decls or ():
            inner = it
            while hasattr(inner, "type") and not isinstance(inner, (c_ast.Enum, c_ast.Struct, c_ast.Union)):
                inner = inner.type
            if isinstance(inner, (c_ast.Enum, c_ast.Struct, c_ast.Union)):
                self.type_of(inner)

    def define(self, struct, node):
        members = []
        for at, it in enumerate(node.decls):
            if not isinstance(it, c_ast.Decl):
                continue
            if it.name == "port_packed":
                struct.is_packed = True
                continue
            kind = known(self.type_of(it, (struct.defined_at, at, it.name)))
            width = None
            if it.bitsize is not None:
                width = self.constant_value(it.bitsize)
                if not kind.is_integer or width is None or width > kind.bits or kind.is_wide:
                    raise Refused(it.coord, f"a bit field of {kind!r}")
            if isinstance(kind, (Void, Function)) or kind.is_struct and kind.members is None:
                raise Refused(it.coord, f"a member of {kind!r}")
            if kind.is_array and kind.count is None:
                raise Refused(it.coord, "a member without a length")
            if it.name is None and width is None:
                raise Refused(it.coord, "a structure without a name inside another")
            members.append(Member(it.name, kind, width))
        struct.members = members
        self.unit.defined(struct)
        self.unit.fits(struct, node.coord)

    def completed(self, kind, init):
        """The type of an array whose length its initialiser gives."""
        if isinstance(init, c_ast.Constant) and init.type == "string":
            return Array(kind.of, len(string_values(init.value, init.coord)))
        if not isinstance(init, c_ast.InitList):
            raise Refused(getattr(init, "coord", None), "an array without a length")
        if len(init.exprs) == 1 and isinstance(init.exprs[0], c_ast.Constant) and init.exprs[0].type == "string" and \
                known(kind.of).is_integer:
            return self.completed(kind, init.exprs[0])
        return Array(kind.of, self.count_of_list(kind.of, init))
