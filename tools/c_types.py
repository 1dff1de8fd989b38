"""The types of expressions, by docs/LANGUAGE.md: each gets its own as `type`. A type is its words, as `int*`; that of
an array is a pair of the element's and the length. Nothing here is proved; what is refused, `secomp check` says."""
import difflib

from c_tokens import Fault

CONSTANTS = {"NULL": "null is the literal 0", "true": "write 1", "false": "write 0", "EOF": "write a number",
             "INT_MAX": "write 2147483647", "INT_MIN": "write -2147483647 - 1", "UINT_MAX": "write 4294967295u"}


def is_pointer(of):
    return isinstance(of, str) and of.endswith("*")


def is_integer(of):
    return of in ("int", "unsigned")


def decayed(of):
    return of[0] + "*" if isinstance(of, tuple) else of


def whole(of, length):
    return of if length is None else (of, length)


def shown(of):
    """A type as C writes it."""
    if isinstance(of, tuple):
        return f"{shown(of[0])} [{of[1]}]"
    base = of.rstrip("*")
    return f"{'unsigned int' if base == 'unsigned' else base}{' ' + '*' * (len(of) - len(base)) if of != base else ''}"


def is_null(node):
    return node.kind == "literal" and node.value == 0


def similar(name, names):
    close = difflib.get_close_matches(name, [other for other in names if other != name], 1, 0.6)
    return f"; {close[0]} is meant?" if close else ""


def is_place(node):
    return node.kind in ("variable", "index", "member", "arrow") or node.kind == "unary" and node.op == "*"


class Types:
    """Gives types to the expressions of a section. A method `type_KIND` gives that of a node, which is none where it
    isn't known."""

    def __init__(self):
        self.structs, self.globals, self.functions = {}, {}, {}
        self.faults, self.scope, self.line = [], {}, 1

    def say(self, phase, node, text, names=(), line=None):
        """Notes a fault: at a node, of the statement or declaration whose line is the present one."""
        fault = Fault(phase, line or self.line, node.column, text, names)
        fault.at = node.line
        self.faults.append(fault)

    def known(self, of, node):
        """Says it where a type names a struct that isn't defined before."""
        base = of.rstrip("*")
        if not base.startswith("struct "):
            return True
        tag = base[len("struct "):]
        if tag not in self.structs or self.structs[tag] is None and base == of:
            self.say("names", node, f"struct {tag} isn't defined before this{similar(tag, self.structs)}", [tag])
            return False
        return True

    def value(self, node):
        return decayed(self.typed(node))

    def place(self, node):
        """The type of a place."""
        of = self.typed(node)
        if of is not None and not is_place(node):
            self.say("types", node, "what is assigned to, or whose & is taken, is a variable, an element or a member")
            return None
        return of

    def typed(self, node):
        node.type = getattr(self, f"type_{node.kind}")(node)
        return node.type

    def type_literal(self, node):
        return "unsigned" if node.unsigned else "int"

    def type_sizeof(self, node):
        self.known(node.of, node)
        return "unsigned"

    def type_variable(self, node):
        if node.name in self.scope:
            return self.scope[node.name]
        if node.name in self.globals:
            return self.globals[node.name]
        names = [*self.scope, *self.globals]
        if node.name in CONSTANTS:
            why = f"{node.name} isn't declared: {CONSTANTS[node.name]}"
        elif node.name in self.functions or node.name in self.prototypes:
            why = f"{node.name} is a function, and no variable: there are no pointers to functions"
        else:
            why = f"a variable is declared before it is used, and once: {node.name} isn't{similar(node.name, names)}"
        return self.say("names", node, why, [node.name])

    def type_unary(self, node):
        if node.op == "&":
            of = self.place(node.of)
            if isinstance(of, tuple):
                return self.say("types", node, "& of a whole array isn't taken: the array itself is a pointer to its "
                                               "first element")
            return of and of + "*"
        of = self.value(node.of)
        if of is None:
            return None
        if node.op == "*":
            return of[:-1] if is_pointer(of) else self.say("types", node, f"* wants a pointer, and this is {shown(of)}")
        if node.op == "!" and is_pointer(of):
            return "int"
        if not is_integer(of):
            return self.say("types", node, f"{node.op} wants an integer, and this is {shown(of)}")
        return "int" if node.op == "!" else of

    def type_binary(self, node):
        left, right = self.value(node.left), self.value(node.right)
        if left is None or right is None:
            return None
        if node.op in ("==", "!="):
            if is_pointer(left) and is_null(node.right) or is_pointer(right) and is_null(node.left):
                return "int"
        return self.joined(node, node.op, left, right)

    def joined(self, node, op, left, right):
        """The type of an operator between two values."""
        if op in ("&&", "||") and all(is_integer(of) or is_pointer(of) for of in (left, right)):
            return "int"
        if is_integer(left) and is_integer(right):
            if op in ("==", "!=", "<", ">", "<=", ">=", "&&", "||"):
                return "int"
            return left if op in ("<<", ">>") else "unsigned" if "unsigned" in (left, right) else "int"
        if is_pointer(left) and left == right and op in ("-", "==", "!=", "<", ">", "<=", ">="):
            return "int"
        if is_pointer(left) and is_integer(right) and op in ("+", "-"):
            return left
        if is_integer(left) and is_pointer(right) and op == "+":
            return right
        return self.say("types", node, f"{op} wants integers, or pointers of one type: here are {shown(left)} and "
                                       f"{shown(right)}")

    def type_index(self, node):
        base, index = self.value(node.base), self.value(node.index)
        if base is None or index is None:
            return None
        if not is_pointer(base):
            return self.say("types", node, f"an index wants a pointer or an array before it, and this is "
                                           f"{shown(base)}: pointers go into pointers only")
        if not is_integer(index):
            return self.say("types", node, f"an index is an integer, and this is {shown(index)}")
        return base[:-1]

    def type_member(self, node):
        of = self.place(node.base)
        if is_pointer(of):
            return self.say("types", node, f"this is a pointer: write -> before {node.name}")
        return self.member(node, of)

    def type_arrow(self, node):
        of = self.value(node.base)
        if of is not None and not is_pointer(of):
            return self.say("types", node, f"-> wants a pointer, and this is {shown(of)}")
        return self.member(node, of and of[:-1])

    def member(self, node, of):
        if of is None:
            return None
        if isinstance(of, tuple) or not of.startswith("struct ") or is_pointer(of):
            return self.say("types", node, f"a struct stands before the member {node.name}, and this is {shown(of)}")
        members = self.structs.get(of[len("struct "):])
        if members is None:
            return None
        if node.name not in members:
            return self.say("types", node, f"{of} has no member {node.name}{similar(node.name, members)}", [node.name])
        return members[node.name]
