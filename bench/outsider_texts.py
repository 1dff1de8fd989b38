"""Makes compartmentalised C texts from seeds, for `bench/outsider.py`.

A text has two to four compartments with structs, arrays, pointers, loops, calls inside and across, and events of the
environment. Operations are guarded so that they are defined; `risk` is the share of those that aren't, and `flaw` that
of other undefined behaviour: `FAULTS`, and variables that begin with nothing. Each statement stands on one line.
"""
import collections
import random

CONSTANTS = """0 1 2 3 5 7 8 15 16 31 32 33 63 64 100 255 256 1000
    32767 32768 65535 65536 1073741824 2147483646 2147483647
    017 0777 0x7f 0x7fffffff 0x80000000 0xffffffff 0XFFFF 037777777777 0u 1u 3U 31u 32u 2147483648u 4294967295u 0xabcdu
    -1 -2 -31 -32 -128 -32768 -2147483647 -0x80000000""".split()
FAULTS = ["""
    {x} = 2147483647 + ({y} & 3 | 1)
    {x} = -(-2147483647 - 1)
    {x} = (-2147483647 - 1) / -1
    {x} = (-2147483647 - 1) % -1
    {x} = ({y} & 1 | 1) << 31
    {x} = (-1 - ({y} & 7)) << 1
    {x} = 65536 * (32768 | {y} & 255)
    """, """
    {x} = {y} / ({y} & 0)
    {x} = {y} % ({y} & 0)
    {x} /= {y} ^ {y}
    """, """
    {x} = {y} << 32
    {x} = {y} >> ({y} | 32)
    {x} = 1u << -1
    {x} <<= {y} | 0x80000000
    """, """
    {a}[{n}] = {y}
    {x} = {a}[-1]
    {x} = {a}[{y} | {n} | 16]
    t[{k}].m0 = {y}
    {x} = t[-1].a[0]
    {w} = &t[{k} + 1]
    {w} = t + -1
    """, """
    {p} = 0; {x} = *{p}
    {p} = 0; *{p} = {y}
    {p} = 0; {p} = {p} + 1
    {p} = 0; {p} = &{p}[{y}]
    {w} = 0; {x} = {w}->m0
    {w} = 0; (*{w}).a[1] = {y}
    {w} = 0; {p} = &{w}->a[0]
    """, """
    {p} = 0; {q} = 0; {x} = {p} < {q};NULL
    {p} = 0; {x} = {p} - {p};NULL
    {p} = &gi; {x} = {p}[1];BOUNDS
    {p} = &gi; {p} = {p} - 1;BOUNDS
    {x} = *({a} + {n});BOUNDS
    {w} = t + {k}; {w}->m0 = {x};BOUNDS
    """, """
    {x} = v
    if (v > {y}) {{ }}
    v = v + 1
    {x} = o.v
    """, """
    o.p = 0; {p} = &o.v; {x} = {p}[1]
    o.p = &gi; {p} = &o.v; {x} = *({p} + 1)
    """, """
    {p} = &gi; {q} = &o.v; {x} = {p} - {q}
    {p} = &gi; {q} = &o.v; {x} = {p} >= {q}
    {p} = &gi + 1; {q} = &o.v; {x} = {p} == {q}
    """, """
    {p} = choose(77); {x} = *{p}
    {p} = choose(77); if ({p}) {{ }}
    {p} = choose(77); {x} = {p} == &gi
    """, """
    {x} = ends(0)
    ends(0)
    """]
OPERATORS = "||,&&,|,^,&,== !=,< > <= >=,<< >>,+ -,* / %"
LEVELS = {op: level for level, ops in enumerate(OPERATORS.split(","), 1) for op in ops.split()}
PREFIX, LEAF = 11, 12
BOUNDS, NULL, HEAP = "  // bounds unchecked", "  // null unchecked", "  // heap checked"
# What goes wrong with an allocated block of {n} elements, before and after it is freed.
BLOCK_FAULTS = [
    "{h}[{n}] = {y}; {x} = {h}[-1]; {x} = *({h} + {n}); {x} = {h}[{n} + 1]; free({h} + 1); free(&gi)".split("; "),
    "{x} = *{h}; {h}[0] = {y}; free({h}); free(&{h}[0])".split("; ")]
Expr = collections.namedtuple("Expr", "text level unsigned")
Var = collections.namedtuple("Var", "name base size")
Function = collections.namedtuple("Function", "name result parameters cost owner shared recursive")


class Draw:
    """Random choices by `random.random` alone, whose sequence is the same on every Python 3."""

    def __init__(self, seed):
        self.source = random.Random(seed)

    def below(self, count):
        return int(self.source.random() * count)

    def pick(self, items):
        return items[self.below(len(items))]

    def chance(self, share):
        return self.source.random() < share


class Section:
    """What a compartment has so far: its structs, its globals, what it imports and the lines of its functions."""

    def __init__(self, name, draw):
        self.name, self.imports, self.functions, self.heads = name, {}, [], []
        self.members = [("m%d" % i, draw.pick(["int", "unsigned"])) for i in range(1 + draw.below(3))]
        self.width = 1 << (1 + draw.below(2))
        members = ["  %s %s;" % (base, member) for member, base in self.members]
        members += ["  int a[%d];" % self.width, "  struct node *next;"]
        if draw.chance(0.5):
            members.reverse()
        self.structs = ["struct node {"] + members + ["};", "struct odd {", "  int v;", "  int *p;", "};"]
        self.scalars = [Var("g%d" % i, draw.pick(["int", "unsigned", "signed"]), 0) for i in range(1 + draw.below(3))]
        names = ["b0", "b1"][:1 + draw.below(2)]
        self.arrays = [Var(name, draw.pick(["int", "unsigned"]), 1 + draw.below(9)) for name in names]
        self.table = Var("t", "struct node", 1 + draw.below(5))
        variables = self.scalars + self.arrays + [Var("gi", "int", 0), Var("s", "struct node", 0), self.table]
        self.head = ["%s %s%s;" % (each.base, each.name, self.initial(each, draw)) for each in variables]
        self.head += ["int *gp = 0;", "struct node *list;", "struct node *heap;"]

    @staticmethod
    def initial(var, draw):
        """The rest of a global's declaration."""
        size = "[%d]" % var.size if var.size else ""
        if "struct" in var.base or draw.chance(0.3):
            return size
        if not size:
            return " = " + draw.pick(CONSTANTS)
        return "%s = {%s}" % (size, ", ".join(draw.pick(CONSTANTS) for _ in range(1 + draw.below(var.size))))

    def text(self, exports, turned):
        """The whole section, with what it exports; where `turned`, its functions are in reverse, after prototypes."""
        lines = ["#pragma compartment " + self.name]
        lines += ["#pragma export " + name for name in exports]
        lines += ["#pragma import %s %s" % (owner, name) for name, (owner, _) in self.imports.items()]
        lines += [head for _, head in self.imports.values()]
        heads = self.heads + ["int fold(int *, int);", "int *choose(int);", "int ends(int k);"] if turned else []
        functions = [line for function in (self.functions[::-1] if turned else self.functions) for line in function]
        return "\n".join(lines + self.structs + self.head + heads + functions) + "\n"


def wrap(expr, level):
    """The text of an operand that must stand at a level at least."""
    return expr.text if expr.level >= level else "(" + expr.text + ")"


def binary(op, left, right):
    """Two operands under an operator, with the parentheses that are needed."""
    level = LEVELS[op]
    text = "%s %s %s" % (wrap(left, level), op, wrap(right, level + 1))
    unsigned = left.unsigned or right.unsigned and op not in ("<<", ">>")
    return Expr(text, level, unsigned and op not in ("||", "&&", "==", "!=", "<", ">", "<=", ">="))


def prefix(op, operand):
    """An operand under a prefix operator; no two signs stand together."""
    text = wrap(operand, PREFIX)
    return Expr(op + ("(" + text + ")" if text[0] in "-+&" else text), PREFIX, operand.unsigned and op != "!")


def literal(text):
    """A constant as an operand."""
    hexadecimal = text.lower().startswith("0x") or text.startswith("0")
    wide = hexadecimal and int(text.rstrip("uU"), 16 if "x" in text.lower() else 8) > 0x7FFFFFFF
    return Expr(text, PREFIX if text[0] == "-" else LEAF, text[-1] in "uU" or wide)


class Expressions:
    """Makes expressions over the variables of a function; `risk` is the share of operations that stand unguarded."""

    def __init__(self, maker, section, parameters):
        self.maker, self.section, self.draw, self.risk, self.flaw = maker, section, maker.draw, maker.risk, maker.fault
        draw = self.draw
        self.locals = [Var("x%d" % i, draw.pick(["int", "unsigned"]), 0) for i in range(1 + draw.below(3))]
        self.locals += [Var("g0", "int", 0)] if draw.chance(0.2) else []
        self.own_arrays = [Var("c", draw.pick(["int", "unsigned"]), 1 + draw.below(6))] if draw.chance(0.5) else []
        mine = [each.name for each in self.locals]
        self.scalars = self.locals + parameters + [each for each in section.scalars if each.name not in mine]
        self.arrays = self.own_arrays + section.arrays
        self.counters = []

    def index(self, size, depth=1):
        """An index into an array of so many elements; unguarded it may leave it."""
        if self.draw.chance(self.risk):
            return self.draw.pick([str(size), "-1", str(size + 1), str(self.draw.below(size)), self.number(1).text])
        kind = self.draw.below(3)
        if kind == 0 or depth == 0:
            return str(self.draw.below(size))
        whole = self.number(depth - 1)
        if kind == 1:
            return binary("&", whole, literal(str((1 << (size.bit_length() - 1)) - 1))).text
        return binary("%", binary("|", whole, literal("0u")), literal(str(size))).text

    def member(self, base, joint="."):
        """A place in a struct, and whether it is unsigned."""
        if self.draw.chance(0.25):
            index = binary("&", self.number(1), literal(str(self.section.width - 1)))
            return "%s%sa[%s]" % (base, joint, index.text), False
        name, base_type = self.draw.pick(self.section.members)
        return base + joint + name, base_type == "unsigned"

    def place(self, depth=1):
        """A place of an integer, and whether it is unsigned."""
        kind = self.draw.below(8)
        if kind == 0:
            array = self.draw.pick(self.arrays)
            return "%s[%s]" % (array.name, self.index(array.size, depth)), array.base == "unsigned"
        if kind == 1:
            return self.member("s")
        if kind == 2:
            return self.member("t[%s]" % self.index(self.section.table.size, depth))
        var = self.draw.pick(self.scalars)
        return var.name, var.base == "unsigned"

    def number(self, depth):
        """An integer expression."""
        if depth <= 0 or self.draw.chance(0.15):
            if self.draw.chance(0.3):
                return literal(self.draw.pick(CONSTANTS))
            if self.counters and self.draw.chance(0.3):
                return Expr(self.draw.pick(self.counters), LEAF, False)
            text, unsigned = self.place(depth)
            return Expr(text, LEAF, unsigned)
        if self.draw.chance(0.15):
            operand = self.number(depth - 1)
            op = self.draw.pick("-~!+")
            guarded = op == "-" and not operand.unsigned and not self.draw.chance(self.risk)
            return prefix(op, self.small(operand) if guarded else operand)
        return self.operation(self.draw.pick(list(LEVELS)), self.number(depth - 1), self.number(depth - 1))

    def small(self, expr):
        """An expression of the same type that is at most 32768 in size where it is signed."""
        op, right = self.draw.pick([("&", "255"), ("%", "1000"), (">>", "16")])
        return binary(op, expr, literal(right))

    def divisor(self, expr):
        """An expression of the same type that isn't 0, nor -1 where it is signed."""
        if expr.unsigned:
            return binary("|", expr, literal("1"))
        return binary("+", binary("&", expr, literal("15")), literal("1"))

    def operation(self, op, left, right):
        """Two operands under an operator, guarded so that it isn't undefined, or not."""
        unsigned = left.unsigned or right.unsigned
        if not self.draw.chance(self.risk):
            if op in "+-*" and not unsigned:
                left, right = self.small(left), self.small(right)
            elif op in "/%":
                right = self.divisor(right)
            elif op in ("<<", ">>"):
                free = op == ">>" or left.unsigned
                left = left if free else binary("&", left, literal("255"))
                right = binary("&", right, literal("31" if free else "15"))
        return binary(op, left, right)

    def value(self):
        """An integer expression of some depth, as text."""
        return self.number(self.draw.below(4)).text

    def condition(self):
        """A condition, sometimes with pointers."""
        mixed = "list && " + wrap(self.number(1), 3)
        pointers = ["gp", "!gp", "gp != 0", "0 == list", mixed, "&s == list", "!gp || !list", "gp == &gi"]
        return self.draw.pick(pointers) if self.draw.chance(0.15) else self.value()


class Body(Expressions):
    """Makes one function: its locals and its statements, with an estimate of the turns and events that it takes."""

    def __init__(self, maker, section, parameters, budget):
        super().__init__(maker, section, parameters)
        self.lines, self.depth, self.cost, self.times, self.budget = [], 1, 1, 1, budget
        self.declared, self.loops = {}, 0

    def add(self, line):
        """Adds a line, and sometimes one that says nothing."""
        self.lines.append("  " * self.depth + line)
        if self.draw.chance(0.03):
            self.lines += self.draw.pick([[""], ["  ;"], ["  // x = 1 / 0;"], ["  /* two", "     lines */"]])

    def local(self, name, base):
        """Declares a pointer or a counter that stands among the locals, at its first use."""
        if name not in self.declared:
            empty = self.draw.chance(self.flaw / 8)
            self.declared[name] = "%s%s%s;" % (base, name, "" if empty else " = 0")
        return name

    def target(self):
        """A place on which no call has an effect, for a call's result."""
        array = self.draw.pick(self.arrays)
        element = "%s[%d]" % (array.name, self.draw.below(array.size))
        return self.draw.pick([each.name for each in self.scalars] + [element])

    def assign(self):
        """An assignment."""
        place, _ = self.place()
        self.add("%s = %s;" % (place, self.value()))

    def update(self):
        """A compound assignment or a step by one."""
        place, unsigned = self.place()
        free = unsigned or self.draw.chance(self.risk)
        if free and self.draw.chance(0.3):
            return self.add(self.draw.pick(["%s++;", "%s--;", "++%s;", "--%s;"]) % place)
        op = self.draw.pick("+ - * & | ^ / % << >>".split() if free else "& | ^ / % >>".split())
        right = self.number(self.draw.below(3))
        if not self.draw.chance(self.risk):
            if op in "/%":
                right = self.divisor(right)
            elif op in ("<<", ">>"):
                right = binary("&", right, literal("31"))
        return self.add("%s %s= %s;" % (place, op, right.text))

    def block(self, count):
        """Statements one step deeper."""
        self.depth += 1
        for _ in range(count):
            self.statement()
        self.depth -= 1

    def branch(self):
        """An `if` with some of its parts."""
        self.add("if (%s) {" % self.condition())
        self.block(self.draw.below(3))
        while self.draw.chance(0.25):
            self.add("} else if (%s) {" % self.condition())
            self.block(1)
        if self.draw.chance(0.4):
            self.add("} else {")
            self.block(1 + self.draw.below(2))
        self.add("}")

    def loop(self):
        """A loop of a few rounds, by a counter that nothing else sets."""
        rounds = 1 + self.draw.below(6)
        if self.depth > 4 or self.times * rounds > 30:
            return self.assign()
        name = self.local("i%d" % self.loops, "int ")
        self.loops += 1
        form = self.draw.below(4)
        if form == 1:
            self.add("%s = %d;" % (name, -rounds))
        self.add(["for ({0} = 0; {0} < {1}; {0}++) {{", "while ({0}) {{", "for ({0} = {1}; {0} > 0; --{0}) {{",
                  "for ({0} = 0; ; {0} += 1) {{"][form].format(name, rounds))
        inner = {1: "  %s = %s + 1;" % (name, name), 3: "  if (%s >= %d) { break; }" % (name, rounds)}
        if form in inner:
            self.add(inner[form])
        self.times *= rounds
        self.cost += self.times
        self.counters.append(name)
        self.block(1 + self.draw.below(3))
        if self.draw.chance(0.3):
            self.add("  if (%s) { %s; }" % (self.condition(), self.draw.pick(["break", "continue"])))
            self.block(1)
        self.counters.pop()
        self.times //= rounds
        return self.add("}")

    def invocation(self):
        """A call that the budget allows, with the name of its function; or none."""
        name = self.section.name
        known = [each for each in self.maker.functions if (each.owner == name or each.shared)
                 and self.cost + self.times * (each.cost + 3) <= self.budget]
        if not known:
            return None, ""
        function = self.draw.pick(known)
        self.cost += self.times * (function.cost + 3)
        if function.owner != name:
            self.section.imports[function.name] = function.owner, head_of(function, self.draw) + ";"
        return function, "%s(%s)" % (function.name, ", ".join(self.value() for _ in function.parameters))

    def call(self):
        """A call, its result kept or not."""
        function, text = self.invocation()
        if function is None:
            return self.output()
        kept = function.result != "void" and self.draw.chance(0.8)
        return self.add((self.target() + " = " if kept else "") + text + ";")

    def output(self):
        """An event of the environment."""
        self.cost += self.times
        name = "output" if self.draw.chance(0.75) else "input"
        self.section.imports[name] = "Env", {"output": "void output(int v);", "input": "int input(void);"}[name]
        if name == "output":
            return self.add("output(%s);" % self.value())
        return self.add((self.target() + " = " if self.draw.chance(0.8) else "") + "input();")

    def leave(self):
        """A return on a condition."""
        self.add("if (%s) {" % self.condition())
        self.add("  return%s;" % (" " + self.value() if self.result != "void" else ""))
        self.add("}")

    def offset(self, at, size, end):
        """A step from an index of an array to another one, maybe its end; or beyond where the risk is taken."""
        if self.draw.chance(self.risk):
            return self.draw.below(2 * size + 3) - size - 1 - at + size // 2
        return self.draw.below(size + end) - at

    def walk(self):
        """Pointers that move over an array, read and write it and are compared."""
        array = self.draw.pick(self.arrays + [self.section.table])
        name = {"int": "p", "unsigned": "u"}.get(array.base, "w")
        p, q = [self.local(name + each, array.base + " *") for each in "12"]
        at = self.offset(0, array.size, 1)
        self.add("%s = %s;" % (p, self.draw.pick(["&{0}[{1}]", "{0} + {1}", "{1} + {0}"]).format(array.name, at)))
        for _ in range(2 + self.draw.below(4)):
            kind = self.draw.below(4)
            if kind == 0:
                by = self.offset(at, array.size, 1)
                forms = ["{0} = {0} + {1};", "{0} += {1};", "{0} = &{0}[{1}];", "{0} = {0} - {2};", "{0} -= {2};"]
                form = self.draw.pick(forms)
                form = {1: "{0}++;", -1: "--{0};"}.get(by, form)
                self.add(form.format(p, by, "(%d)" % -by) + BOUNDS)
                at += by
            elif kind == 3:
                self.add("%s = %s + %d;" % (q, array.name, self.offset(0, array.size, 1)))
                form = self.draw.pick(["%s - %s", "%s < %s", "%s >= %s", "%s == %s", "%s != %s", "%s > %s || %s"])
                self.add("%s = %s;" % (self.target(), form % ((p, q, p)[:form.count("%s")])))
            else:
                self.through(p, at, array)

    def through(self, p, at, array):
        """Reads or writes an element of an array through a pointer that stands at an index of it."""
        by = self.offset(at, array.size, 0)
        place = self.draw.pick(["{0}[{1}]", "(*({0} + {1}))"]).format(p, by) if by else "(*%s)" % p
        if array.base == "struct node":
            place = self.member(place)[0] if by or self.draw.chance(0.5) else self.member(p, "->")[0]
        left, right = self.draw.pick([(place, self.value()), (self.target(), "%s ^ 1" % place)])
        self.add("%s = %s;%s" % (left, right, BOUNDS))

    def members(self):
        """A pointer to a member, and one to a pointer."""
        member, base = self.draw.pick(self.section.members)
        p = self.local("u3" if base == "unsigned" else "p3", base + " *")
        r = self.local("v4" if base == "unsigned" else "r4", base + " **")
        whole = self.draw.pick(["s", "t[%d]" % self.draw.below(self.section.table.size)])
        self.add("%s = &%s.%s;" % (p, whole, member))
        self.add("*%s = %s;" % (p, self.value()))
        self.add("%s = &%s;" % (r, p))
        self.add("%s = **%s & *&%s;" % (self.target(), r, self.draw.pick(self.scalars).name))

    def chain(self):
        """Puts an element into the list, or walks along it."""
        if self.draw.chance(0.5):
            at = self.draw.below(self.section.table.size)
            self.add("t[%d].next = list;" % at)
            return self.add("list = &t[%d];" % at)
        w, i = self.local("w5", "struct node *"), self.local("i9", "int ")
        self.cost += 5 * self.times
        self.add("%s = list;" % w)
        self.add("for (%s = 0; %s && %s < 5; %s++) {" % (i, w, i, i))
        self.add("  %s ^= %s;" % (self.draw.pick(self.scalars).name, self.member(w, "->")[0]))
        self.add("  %s = %s->next;" % (w, w))
        if self.draw.chance(self.flaw):
            self.add("  %s = %s->next;" % (w, w))
        return self.add("}")

    def blocks(self):
        """A block that is allocated, filled, used and freed."""
        h, i, size = self.local("h8", "int *"), self.local("i9", "int "), 1 + self.draw.below(9)
        array = Var(h, "int", size)
        self.cost += size * self.times
        forms = ["{0} * sizeof(int)", "({0} + 0u) * sizeof(signed)", "1 * {0} * sizeof(int)",
                 "(9 - (9 - {0})) * sizeof(int)"]
        form = "sizeof(int)" if size == 1 else self.draw.pick(forms)
        self.add("%s = malloc(%s);" % (h, form.format(size)))
        if not self.draw.chance(self.flaw / 4):
            self.add("for (%s = 0; %s < %d; %s++) { %s[%s] = %s; }" % (i, i, size, i, h, i, self.value()))
        for _ in range(self.draw.below(4)):
            place = "%s[%s]" % (h, self.draw.below(size))
            left, right = self.draw.pick([(place, self.value()), (self.target(), "%s ^ 1" % place)])
            self.add("%s = %s;" % (left, right))
        self.block_fault(array, 0)
        self.add("free(%s);" % h)
        self.block_fault(array, 1)

    def block_fault(self, array, freed):
        """Sometimes a line of `BLOCK_FAULTS`."""
        if self.draw.chance(self.flaw):
            x, y = self.target(), self.draw.pick(self.scalars).name
            line = self.draw.pick(BLOCK_FAULTS[freed])
            self.add(line.format(h=array.name, n=array.size, x=x, y=y) + ";" + HEAP)

    def nodes(self):
        """Puts an allocated element into a list, or takes the first one out and frees it."""
        w, member = self.local("w8", "struct node *"), self.section.members[0][0]
        if self.draw.chance(0.5):
            self.cost += self.times
            self.add("%s = malloc(sizeof(struct node));" % w)
            self.add("%s->%s = %s;" % (w, member, self.value()))
            self.add("%s->next = heap;" % w)
            return self.add("heap = %s;" % w)
        self.add("if (heap) {")
        self.add("  %s = heap;" % w)
        if not self.draw.chance(self.flaw):
            self.add("  heap = %s->next;" % w)
        self.add("  %s ^= %s->%s;" % (self.draw.pick(self.scalars).name, w, member))
        self.add("  free(%s);" % w)
        return self.add("}")

    def common(self):
        """Sets or uses the global pointer."""
        kind = self.draw.below(4)
        if kind == 0:
            ints = ["&gi", "0"] + [each.name for each in self.section.arrays if each.base == "int"]
            if self.draw.chance(2 * self.flaw):
                ints += ["&" + each.name for each in self.locals if each.base == "int"]
            return self.add("gp = %s;" % self.draw.pick(ints))
        if self.draw.chance(self.flaw):
            return self.add("%s = *gp;" % self.target())
        if kind == 1:
            return self.add("if (gp) { *gp = %s; }" % self.value())
        return self.add("%s = gp == 0 || *gp < %s;" % (self.target(), wrap(self.number(1), 8)))

    def fault(self):
        """Undefined behaviour, if it is reached: some lines of `FAULTS`."""
        bases = [("p", "int *"), ("q", "int *"), ("w", "struct node *")]
        names = {name: self.local(name + "6", base) for name, base in bases}
        array, y = self.draw.pick(self.arrays), self.draw.pick(self.scalars).name
        names.update(x=self.target(), y=y, a=array.name, n=array.size, k=self.section.table.size)
        self.declared.update(v="int v;", o="struct odd o;")
        lines = self.draw.pick(self.draw.pick(FAULTS).strip().split("\n"))
        for line in lines.strip().format(**names).split("; "):
            line, _, mark = line.partition(";")
            self.add(line if line[-1] == "}" else line + ";" + {"BOUNDS": BOUNDS, "NULL": NULL, "": ""}[mark])

    def statement(self):
        """One statement of a kind drawn by weight, or some that belong together."""
        kinds = [self.assign, self.output] * 6 + [self.update, self.call] * 5 + [self.branch] * 3
        kinds += [self.loop, self.walk] * 2 + [self.members, self.chain, self.common, self.common, self.helpers]
        kinds += [self.blocks] * 2 + [self.nodes] * 2
        kinds += [self.leave] if self.draw.chance(0.3) else []
        kinds = [self.fault] if self.draw.chance(self.flaw / 2) else kinds
        if self.depth > 5:
            kinds = [self.assign, self.update, self.output]
        self.draw.pick(kinds)()

    def helpers(self):
        """Calls a function that gets or gives a pointer."""
        array = self.draw.pick([each for each in self.arrays if each.base == "int"] + [Var("gi", "int", 0)])
        if self.draw.chance(0.5):
            p = self.local("p7", "int *")
            self.add("%s = choose(%s);" % (p, self.draw.pick(["1", "2", self.value()])))
            return self.add("%s = *%s;" % (self.target(), p))
        more = 1 if self.draw.chance(self.risk) else 0
        whole = "%s, %d" % (array.name if array.size else "&gi", (array.size or 1) + more)
        self.cost += self.times * (array.size + 2)
        half = array.size // 2
        part = "&%s[%d], %d" % (array.name, half, array.size - half + more) if array.size else "0, 0"
        return self.add("%s = fold(%s);" % (self.target(), self.draw.pick([whole, part])))

    def finish(self, function):
        """The end of a function: a call of itself, and how it returns."""
        if function.recursive:
            values = ["a0 - 1"] + [self.value() for _ in function.parameters[1:]]
            kept = self.target() + " = " if function.result != "void" else ""
            self.add("%s%s(%s);" % (kept, function.name, ", ".join(values)))
        if function.result == "void":
            return self.add("return;") if self.draw.chance(0.2) else None
        if function.name == "main" and self.draw.chance(0.2):
            return None
        if self.draw.chance(self.flaw / 2):
            return self.leave()
        called, text = self.invocation() if self.draw.chance(0.3) else (None, "")
        return self.add("return %s;" % (text if called and called.result != "void" else self.value()))

    def function(self, function, count):
        """The lines of a whole function with about so many statements."""
        self.result = function.result
        if function.recursive:
            self.counters.append("a0")
            self.add("if (a0 < 1 || a0 > 4) { return%s; }" % ("" if self.result == "void" else " " + self.value()))
        for array in self.own_arrays:
            if not self.draw.chance(self.flaw / 2):
                self.local("i9", "int ")
                value = self.draw.pick(["i9", "~i9", "7 - i9"])
                self.add("for (i9 = 0; i9 < %d; i9++) { %s[i9] = %s; }" % (array.size, array.name, value))
                self.cost += array.size
        for _ in range(count):
            self.statement()
        self.finish(function)
        begins = CONSTANTS + ["a%d" % i for i in range(len(function.parameters))]
        lines = []
        for each in self.locals:
            begin = "" if self.draw.chance(self.flaw / 12) else " = " + self.draw.pick(begins)
            lines.append("%s %s%s;" % (each.base, each.name, begin))
        lines += ["%s %s[%d];" % (each.base, each.name, each.size) for each in self.own_arrays]
        lines = ["  " + line for line in lines + list(self.declared.values())]
        return [head_of(function, self.draw) + " {"] + lines + self.lines + ["}"]


def head_of(function, draw):
    """The head of a function; a parameter's type is spelled in one of its ways."""
    spelled = {"int": ["int", "signed", "signed int"], "unsigned": ["unsigned", "unsigned int"]}
    parameters = ["%s a%d" % (draw.pick(spelled[base]), i) for i, base in enumerate(function.parameters)]
    return "%s %s(%s)" % (function.result, function.name, ", ".join(parameters) or "void")


class Maker:
    """Makes a text and its inputs from a seed."""

    def __init__(self, seed):
        self.draw = draw = Draw(seed)
        self.risk, self.fault = draw.pick([(0, 0), (0, 0), (0, 0.1), (0, 0.2), (0.01, 0.05), (0.03, 0.1), (0.1, 0.1)])
        names = ["Main", "A", "Net_1", "store"]
        self.sections = [Section(name, draw) for name in names[:2 + draw.below(3)]]
        self.functions = []
        for section in self.sections:
            self.add_helpers(section)
        for i in range(3 + draw.below(5)):
            self.add_function("f%d" % i, draw.pick(self.sections))
        self.main = draw.pick(self.sections)
        self.add_function("main", self.main)
        self.inputs = [int(draw.pick([each for each in CONSTANTS if each.lstrip("-").isdigit() and each[0] != "0"]))
                       for _ in range(draw.below(9))]

    def add_helpers(self, section):
        """Three functions: one folds an array, one gives a pointer, and one may end without a value."""
        fold = self.draw.pick([["r = r ^ *p;" + BOUNDS, "p++;" + BOUNDS], ["r = ~r ^ p[n - 1];" + BOUNDS, ";"]])
        head = ["int fold(int *p, int n) {", "  int r = 0;", "  for (; n > 0; n--) {"]
        section.functions.append(head + ["    " + line for line in fold] + ["  }", "  return r;", "}"])
        inner = ["  if (k > 2) {", "    return &l;", "  }"] if self.fault and self.draw.chance(0.7) else []
        section.functions.append(["int *choose(int k) {", "  int l = k;", "  gi = l;"] + inner + ["  return &gi;", "}"])
        section.functions.append(["int ends(int k) {", "  if (k) {", "    return k;", "  }", "}"])

    def add_function(self, name, section):
        """An ordinary function, which calls those that there are."""
        draw = self.draw
        if name == "main":
            function, budget = Function(name, "int", [], 0, section.name, False, False), 1500
        else:
            recursive = draw.chance(0.15)
            types = [draw.pick(["int", "unsigned"]) for _ in range(draw.pick([0, 1, 1, 2, 2, 3, 8]))]
            types = ["int"] + types[1:] if recursive else types
            result = draw.pick(["int", "int", "unsigned", "void"])
            budget = 60 if recursive else 300
            function = Function(name, result, types, 0, section.name, draw.chance(0.8), recursive)
        parameters = [Var("a%d" % i, base, 0) for i, base in enumerate(function.parameters)]
        body = Body(self, section, parameters[1:] if function.recursive else parameters, budget)
        section.functions.append(body.function(function, 4 + draw.below(8) + (6 if name == "main" else 0)))
        section.heads.append(head_of(function, draw) + ";")
        if name != "main":
            self.functions.append(function._replace(cost=body.cost * (5 if function.recursive else 1)))

    def text(self):
        """The sections in some order, with the exports that the imports want and some more."""
        wanted = {name for section in self.sections for name in section.imports}
        texts = []
        for section in self.sections:
            mine = [each.name for each in self.functions if each.owner == section.name and each.shared]
            exports = [name for name in mine if name in wanted or self.draw.chance(0.3)]
            texts.append(section.text(exports, self.draw.chance(0.5)))
        turn = self.draw.below(len(texts))
        return "// %s\n" % "a text" * self.draw.below(2) + "".join(texts[turn:] + texts[:turn])
