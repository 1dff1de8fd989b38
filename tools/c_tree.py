"""The tree of a section, by the grammar of docs/LANGUAGE.md. Where the text leaves it, the fault says what to write
instead. Nothing here is proved."""
from c_expressions import Node
from c_reasons import declaration_reason
from c_statements import Statements
from c_tokens import TYPE_WORDS, value_of


class Section:
    """What a section declares, in order."""

    def __init__(self):
        self.exports, self.imports, self.structs, self.globals, self.functions, self.prototypes = [], [], [], [], [], []


class Parser(Statements):
    """Reads a section."""

    def section(self):
        made = Section()
        while self.token().kind == "directive":
            token = self.take()
            words = token.text.split()
            (made.exports if words[1] == "export" else made.imports).append(Node(words[1], token, names=words[2:]))
        while self.token().kind != "end":
            self.declaration(made)
        return made

    def declaration(self, made):
        first = self.token()
        if first.kind == "directive":
            self.fault("directives stand before all declarations of their section")
        if first.text == "struct" and self.text(2) == "{":
            made.structs.append(self.struct())
            return
        if first.text not in TYPE_WORDS | {"void"}:
            self.fault(*declaration_reason(self.tokens, self.at))
        base, result = self.base(void=True), self.at
        stars = self.stars()
        if self.text() == "(":
            self.fault("no pointers to functions, and no parentheses around what is declared")
        name = self.name("the name of what is declared")
        if self.text() == "(":
            self.function(made, first, base + "*" * stars, name)
            return
        if base == "void":
            self.fault("void stands only before a function", first)
        self.at = result
        self.globals(made, base, first)

    def declarator(self, base):
        """A name with its type: a base with its stars, and the length of an array or none."""
        of, length = base + "*" * self.stars(), None
        token = self.name("a name")
        if self.text() == "[":
            self.take()
            if self.token().kind != "number":
                self.fault("an array has its length, which is one integer: int a[4]")
            length = value_of(self.take().text)
            if not length:
                self.fault("an array has at least one element", self.tokens[self.at - 1])
            self.take("]", "the length of an array is one integer")
            if self.text() == "[":
                self.fault(f"arrays have one dimension: compute the index, as {token.text}[i * n + j]")
        return token, of, length

    def struct(self):
        token = self.take()
        made = Node("struct", token, name=self.take().text, members=[])
        self.take("{")
        while self.text() != "}":
            if self.text() not in TYPE_WORDS:
                self.fault(*declaration_reason(self.tokens, self.at))
            base, more = self.base(), True
            while more:
                name, of, length = self.declarator(base)
                made.members.append((name.text, of, length))
                more = self.text() == "," and self.take()
            self.take(";")
        if not made.members:
            self.fault("a struct has at least one member")
        made.close = self.take().line
        if self.token().kind == "name":
            self.fault("a struct is defined by itself; variables are declared after it: struct NAME x;")
        self.take(";", "`;` is missing after the `}` of a struct")
        return made

    def globals(self, made, base, first):
        more = True
        while more:
            name, of, length = self.declarator(base)
            node = Node("global", first, name=name.text, type=of, length=length, init=None, at=name)
            if self.text() == "=":
                self.take()
                node.init = self.constants()
                if self.text() not in (",", ";") and self.token().line == self.tokens[self.at - 1].line:
                    self.fault("a global begins with one integer constant, or a list of them; compute others in main")
            made.globals.append(node)
            more = self.text() == "," and self.take()
        self.take(";")

    def constants(self):
        if self.text() != "{":
            return [self.constant()]
        self.take()
        if self.text() == "}":
            self.fault("an initialiser has at least one constant")
        values = [self.constant()]
        while self.text() == ",":
            self.take()
            if self.text() == "}":
                break
            values.append(self.constant())
        self.take("}")
        return values

    def constant(self):
        sign = -1 if self.text() == "-" and self.take() else 1
        if self.text() == "NULL":
            self.fault("NULL isn't declared: null is the literal 0")
        if self.token().kind != "number":
            self.fault("a global begins with an integer constant, which may have a minus; compute others in main")
        return sign * value_of(self.take().text)

    def function(self, made, first, result, name):
        node = Node("function", first, name=name.text, result=result, params=[], at=name, body=None, locals=[])
        self.take()
        if self.text() == ")":
            self.fault(f"a function without parameters is declared with (void): {name.text}(void)")
        if self.text() == "void" and self.text(1) == ")":
            self.take()
        else:
            self.parameters(node)
        self.take(")")
        if self.text() == ";":
            self.take()
            node.kind = "prototype"
            made.prototypes.append(node)
            return
        if self.text() != "{":
            self.fault(f"after the head of {name.text} stands `{{`, or `;` for a prototype")
        self.body(node)
        made.functions.append(node)

    def parameters(self, node):
        while True:
            if self.text() == ".":
                self.fault("no functions of any number of arguments")
            if self.text() not in TYPE_WORDS:
                if node.name == "main":
                    self.fault("main is defined as int main(void): what a run reads comes from input()")
                self.fault(*declaration_reason(self.tokens, self.at, is_parameter=True))
            of = self.base() + "*" * self.stars()
            name = self.take() if self.token().kind == "name" else None
            if self.text() == "[":
                shown = name.text if name else "a"
                self.fault(f"a parameter is no array: write a pointer, as {of} *{shown}")
            node.params.append((name.text if name else None, of, name))
            if self.text() != ",":
                return
            self.take()

    def body(self, node):
        self.take("{")
        for name, _, token in node.params:
            if name is None:
                self.fault("each parameter of a function that is defined has a name", token)
        while self.text() in TYPE_WORDS:
            self.locals(node)
        node.body = self.statements()
        node.close = self.take("}").line

    def locals(self, node):
        first = self.token()
        base, more = self.base(), True
        while more:
            name, of, length = self.declarator(base)
            made = Node("local", first, name=name.text, type=of, length=length, init=None, at=name)
            if self.text() == "=":
                if length is not None or self.text(1) == "{":
                    self.fault("a local array or struct has no initialiser: assign its elements")
                self.take()
                if self.text() == "malloc":
                    self.fault("malloc is a statement of its own, after the declarations: p = malloc(n * sizeof(T));")
                if self.token().kind == "name" and self.text(1) == "(":
                    self.fault(f"a local isn't initialised by a call: after the declarations, {name.text} = "
                               f"{self.text()}(..);")
                made.init = self.expression()
            node.locals.append(made)
            more = self.text() == "," and self.take()
        self.take(";")


def parse(tokens):
    """The tree of a section's tokens."""
    return Parser(tokens).section()
