"""What is accepted, and means something else than in C, or is no fault here where C has one. Nothing here is proved."""
import re

from c_program import Program
from sections import sections
from why_guesses import without_comments


def warnings(text):
    """The warnings for an accepted text, as line and words, by line."""
    lines, found = without_comments(text.split("\n")), []
    for number, line in enumerate(lines, 1):
        if re.search(r"(^|[;{}])\s*\*\s*\w+\s*(\+\+|--)\s*;", line):
            found.append((number, "*p++ is (*p)++ here: it changes what p points to, and leaves p"))
        if re.search(r"^\s*[\w\s*]+\w+\s*\([^;{]*\bstruct\s+\w+\s+\w+[^;{]*\)", line):
            found.append((number, "a parameter of struct type: no call can pass one"))
    for section in sections("\n".join(lines)):
        found += [(number, f"{name} may end without return: that is blamed, also where nobody uses the value")
                  for name, number in without_return(section)]
    program = Program(text)
    if not program.faults:
        for part in program.parts:
            for function in part.tree.functions:
                found += [(line + part.first - 1, words) for line, words in Indices(function).found]
    return sorted(set(found))


def without_return(section):
    """The functions with a result whose last statement is no return, and the lines of their braces."""
    text = "\n".join(section.lines)
    for head in re.finditer(r"^(?!void\s+\w+\s*\()[a-z][\w\s*]*?(\w+)\s*\([^;{]*\)\s*\{", text, re.M):
        depth, at = 1, head.end()
        while depth and at < len(text):
            depth += {"{": 1, "}": -1}.get(text[at], 0)
            at += 1
        body = text[head.end():at - 1].rstrip()
        leaves = re.search(r"(^|[;{}\s])return\b[^;]*;$|while\s*\(\s*1\s*\)\s*\{.*\}$", body, re.S)
        if head.group(1) != "main" and not leaves:
            yield head.group(1), section.first + text.count("\n", 0, at - 1)


# A bound that lets every number through.
ANY = 2 ** 32


class Indices:
    """The indices of a function that leave an array, or may leave an array that lies within a variable."""

    def __init__(self, function):
        # the variables that were compared, and of some the least number that the comparisons don't let through
        self.found, self.compared, self.bounds = [], set(), {}
        for statement in function.body:
            self.statement(statement)

    def statement(self, node):
        for name, part in vars(node).items():
            if name in ("then", "other", "body"):
                continue
            if hasattr(part, "kind"):
                self.walk(part, node.line, name == "cond")
        for parts in (getattr(node, "then", []), getattr(node, "other", []), getattr(node, "body", [])):
            for inner in parts:
                self.statement(inner)

    def walk(self, node, line, is_condition=False):
        """Looks at an expression, a call, or a part of a `for`; a condition's comparisons hold from then on."""
        if node.kind == "binary" and node.op in ("<", ">", "<=", ">=", "==", "!=") and is_condition:
            self.compared |= names_of(node)
            self.bound(node)
        if node.kind == "index":
            self.index(node, line)
        for name, part in vars(node).items():
            for inner in part if isinstance(part, list) else [part]:
                if hasattr(inner, "kind"):
                    self.walk(inner, line, is_condition or name == "cond")

    def bound(self, node):
        """Notes up to which number a comparison lets a variable through, as `i < 4`; one with 0 lets it through to any,
        and one with something else to a number that isn't known here."""
        left, right, op = node.left, node.right, node.op
        if left.kind == "literal":
            left, right, op = right, left, {"<": ">", ">": "<", "<=": ">=", ">=": "<="}.get(op, op)
        if left.kind == "variable" and right.kind == "literal" and op in ("<", ">", "<=", ">="):
            least = right.value + (op in ("<=", ">")) or ANY
            self.bounds[left.name] = min(least, self.bounds.get(left.name, least))
        else:
            self.bounds.update(dict.fromkeys(names_of(node), 0))

    def index(self, node, line):
        of = node.base.type
        if not isinstance(of, tuple):
            return
        is_inner, index = node.base.kind in ("member", "arrow"), node.index
        name = node.base.name
        if index.kind == "literal":
            if index.value >= of[1]:
                what = ("stays within its variable, which is no fault here, and one in C" if is_inner else
                        "is blamed where it is used")
                self.found.append((line, f"{name} has {of[1]} elements, and the index {index.value} is past them: it "
                                         f"{what}"))
        elif is_inner and index.kind == "variable" and of[1] < self.bounds.get(index.name, 0):
            bound = self.bounds[index.name]
            most = f"may be up to {bound - 1}" if bound < ANY else "isn't bounded from above"
            self.found.append((line, f"{name} lies within a larger variable and has {of[1]} elements, but {index.name} "
                                     f"{most}: past the elements it may stay within the variable, which is no fault "
                                     "here, and one in C"))
        elif is_inner and not self.is_bounded(index):
            self.found.append((line, f"the index of {name}, which lies within a larger variable, isn't compared "
                                     "before: past "
                               f"{of[1]} elements it may stay within the variable, which is no fault here, and one in "
                               "C"))

    def is_bounded(self, index):
        if index.kind == "binary" and index.op in ("&", "%") and "literal" in (index.left.kind, index.right.kind):
            return True
        names = names_of(index)
        return bool(names) and names <= self.compared


def names_of(node):
    """The variables of an expression."""
    if node.kind == "variable":
        return {node.name}
    found = set()
    for part in vars(node).values():
        if hasattr(part, "kind"):
            found |= names_of(part)
    return found
