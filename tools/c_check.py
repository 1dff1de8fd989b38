"""The rules of names and types of a section, by docs/LANGUAGE.md: what breaks them. Nothing here is proved; what is
refused, `secomp check` says."""
from c_types import Types, decayed, is_integer, is_null, is_pointer, shown, similar, whole

LIBRARY = {"calloc", "realloc", "memcpy", "memset", "memmove", "printf", "puts", "putchar", "getchar", "exit", "abort",
           "assert", "strlen", "strcmp", "scanf", "rand", "abs"}


class Checker(Types):
    """Looks at one section."""

    def __init__(self, section, tree):
        super().__init__()
        self.section, self.tree = section, tree
        self.imports, self.prototypes, self.exports = {}, {}, {}
        self.function, self.loops = None, 0

    def check(self):
        self.directives()
        self.declarations()
        for function in self.tree.functions:
            self.body(function)
        return self.faults

    def directives(self):
        for node in self.tree.imports:
            self.imports[node.names[1]] = node
        for node in self.tree.exports:
            self.exports[node.names[0]] = node

    def declarations(self):
        items = self.tree.structs + self.tree.globals + self.tree.prototypes + self.tree.functions
        for item in sorted(items, key=lambda it: (it.line, it.column)):
            self.line = item.line
            getattr(self, f"declare_{item.kind}")(item)

    def declare_struct(self, node):
        if node.name in self.structs:
            self.say("names", node, f"the struct {node.name} is defined twice", [node.name])
        members = {}
        self.structs[node.name] = None
        for name, of, length in node.members:
            if name in members:
                self.say("names", node, f"{node.name} has two members {name}", [name])
            self.known(of, node)
            members[name] = whole(of, length)
        self.structs[node.name] = members

    def declare_global(self, node):
        self.known(node.type, node.at)
        if any(node.name in names for names in (self.globals, self.functions, self.prototypes, self.imports)):
            self.say("names", node.at, f"{node.name} is declared twice in this section", [node.name])
        self.globals[node.name] = whole(node.type, node.length)
        if node.init is not None:
            self.initial(node)

    def initial(self, node):
        is_struct = node.type.startswith("struct ") and not is_pointer(node.type)
        if is_struct or is_pointer(node.type) and node.length is not None:
            self.say("types", node.at, f"{node.name} has no initialiser of its type: assign its parts in a "
                                       "function", [node.name])
        elif node.length is not None and len(node.init) > node.length:
            self.say("types", node.at, f"{node.name} has {node.length} elements, and its initialiser more", [node.name])
        elif is_pointer(node.type) and node.init != [0]:
            self.say("types", node.at, f"{node.name} is a pointer, and begins with 0 or with nothing", [node.name])

    def head(self, node):
        for _, of, _ in node.params:
            self.known(of, node)
        if node.result != "void":
            self.known(node.result, node)
        if node.name in self.globals:
            self.say("names", node.at, f"{node.name} is a variable of this section, too", [node.name])

    def declare_prototype(self, node):
        self.head(node)
        self.prototypes.setdefault(node.name, node)

    def declare_function(self, node):
        self.head(node)
        if node.name in self.functions:
            self.say("names", node.at, f"{node.name} is defined twice", [node.name])
        self.functions[node.name] = node

    # bodies

    def body(self, function):
        self.function, self.scope, self.loops = function, {}, 0
        self.line = function.line
        for name, of, token in function.params:
            if name in self.scope:
                self.say("names", token, f"{function.name} has two parameters {name}", [name])
            self.scope[name] = of
        for local in function.locals:
            self.line = local.line
            self.known(local.type, local.at)
            if local.name in self.scope:
                self.say("names", local.at, f"{local.name} is declared twice in {function.name}", [local.name])
            self.scope[local.name] = whole(local.type, local.length)
            if local.init is not None:
                self.into(local.type, self.value(local.init), local.init, local.at, local.name)
        for statement in function.body:
            self.statement(statement)

    def statement(self, node):
        before, self.line = self.line, node.line
        getattr(self, f"do_{node.kind}", lambda _: None)(node)
        self.line = before

    def statements(self, nodes):
        for node in nodes:
            self.statement(node)

    def jump(self, node):
        if not self.loops:
            self.say("names", node, f"{node.kind} stands in a loop")

    do_break = do_continue = jump

    def condition(self, node):
        of = self.value(node)
        if of is not None and not is_integer(of) and not is_pointer(of):
            self.say("types", node, "a condition is an integer or a pointer")

    def do_if(self, node):
        self.condition(node.cond)
        self.statements(node.then)
        self.statements(node.other)

    def do_while(self, node):
        self.condition(node.cond)
        self.rounds(node)

    def do_for(self, node):
        if node.first:
            self.statement(node.first)
        if node.cond:
            self.condition(node.cond)
        if node.next:
            self.statement(node.next)
        self.rounds(node)

    def rounds(self, node):
        self.loops += 1
        self.statements(node.body)
        self.loops -= 1

    def do_return(self, node):
        result = self.function.result
        if node.call:
            given = self.invocation(node.call)
            if result == "void":
                self.say("types", node, f"{self.function.name} has no result, and returns one")
            elif given == "void":
                self.say("types", node, f"{node.call.name} has no result", [node.call.name])
            elif given is not None:
                self.fits(result, given, node.call, f"the result of {self.function.name}")
        elif node.value is None:
            if result != "void":
                self.say("types", node, f"return has a value exactly where the function has a result: "
                                        f"{self.function.name} returns {shown(result)}")
        elif result == "void":
            self.value(node.value)
            self.say("types", node, f"return has a value exactly where the function has a result: "
                                    f"{self.function.name} has none")
        else:
            self.into(result, self.value(node.value), node.value, node.value, f"the result of {self.function.name}")

    def do_call(self, node):
        self.invocation(node.call)

    def do_free(self, node):
        of = self.value(node.value)
        if of is not None and not is_pointer(of) and not is_null(node.value):
            self.say("types", node.value, "free takes a pointer, or the literal 0")

    def do_malloc(self, node):
        is_known = self.known(node.of, node)
        if node.count is not None:
            of = self.value(node.count)
            if of is not None and not is_integer(of):
                self.say("types", node.count, "the number in malloc is an integer")
        of = self.place(node.place)
        if of is not None and is_known and of != node.of + "*":
            self.say("types", node.place, f"the place of malloc points to the type under its sizeof: "
                                          f"{shown(node.of + '*')}, and it is {shown(of)}")

    def do_assign_call(self, node):
        given, of = self.invocation(node.call), self.place(node.place)
        if given == "void":
            self.say("types", node, f"{node.call.name} has no result", [node.call.name])
        elif given is not None and of is not None:
            self.fits(of, given, node, "the place")

    def do_assign(self, node):
        given, of = self.value(node.value), self.place(node.place)
        if of is not None:
            self.into(of, given, node.value, node, "the place")

    def do_update(self, node):
        of = self.place(node.place)
        given = self.value(node.value) if node.value is not None else "int"
        if of is None or given is None:
            return
        joined = self.joined(node, node.op, decayed(of), given)
        if joined is not None:
            self.fits(of, joined, node, "the place")

    def into(self, of, given, value, node, what):
        """A value goes into a place of a type: null goes into each pointer."""
        if given is not None and not (is_pointer(of) and is_null(value)):
            self.fits(of, given, node, what)

    def fits(self, of, given, node, what):
        if isinstance(of, tuple) or of.startswith("struct ") and not is_pointer(of):
            self.say("types", node, f"what is assigned is an integer or a pointer: "
                                    f"{'an array' if isinstance(of, tuple) else 'a struct'} as a "
                     "whole goes nowhere; assign its parts")
        elif is_pointer(of) and given != of:
            more = "; null is the literal 0" if is_integer(given) else ""
            self.say("types", node, f"what is assigned has the place's type: {what} is {shown(of)}, and the value is "
                                    f"{shown(given)}{more}")
        elif is_integer(of) and not is_integer(given):
            self.say("types", node, f"what is assigned has the place's type: {what} is {shown(of)}, and the value is "
                                    f"{shown(given)}")

    def invocation(self, node):
        """The type of what a call gives; none where that isn't known."""
        given = [self.value(arg) for arg in node.args]
        if node.name in self.scope:
            return self.say("names", node, f"{node.name} is a variable here, and no function", [node.name])
        if node.name not in self.functions and node.name not in self.imports:
            return self.uncalled(node)
        head = self.functions.get(node.name) or self.prototypes.get(node.name)
        if head is None:
            return self.say("types", node, f"a call of an import wants its prototype in this section: that of "
                                           f"{node.name}", [node.name])
        if len(given) != len(head.params):
            wanted = f"{len(head.params)} argument{'s' * (len(head.params) != 1)}"
            self.say("types", node, f"{node.name} takes {wanted}, and has {len(given)} here", [node.name])
        for value, of, (_, wanted, _) in zip(node.args, given, head.params):
            self.into(wanted, of, value, value, f"the parameter of {node.name}")
        return head.result

    def uncalled(self, node):
        if node.name in LIBRARY:
            why = (f"no library has {node.name} here: of the heap there are malloc and free, of the environment input "
                   "and output")
        elif node.name in self.prototypes:
            why = (f"{node.name} has a prototype, and is neither defined nor imported in this section: #pragma import "
                   f"SECTION {node.name}")
        elif node.name in ("input", "output"):
            why = f"{node.name} isn't imported in this section: #pragma import Env {node.name}, and its prototype"
        else:
            why = (f"a function that is called is defined or imported in this section, and {node.name} is neither"
                   f"{similar(node.name, [*self.functions, *self.imports])}")
        return self.say("names", node, why, [node.name])
