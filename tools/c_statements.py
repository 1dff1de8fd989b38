"""Reads statements, by the grammar of docs/LANGUAGE.md. Nothing here is proved."""
from c_expressions import Node, Reader
from c_reasons import statement_reason
from c_tokens import TYPE_WORDS

UPDATES = {"+=", "-=", "*=", "/=", "%=", "<<=", ">>=", "&=", "^=", "|="}


class Statements(Reader):
    """Reads statements."""

    def statements(self):
        found = []
        while self.text() != "}":
            if self.token().kind == "end":
                self.fault("`}` is missing before the end of the section", self.tokens[max(self.at - 1, 0)])
            found.append(self.statement())
        return found

    def block(self, what):
        if self.text() != "{":
            self.behind(f"the body of {what} stands in braces: {what} {'(..) ' * (what != 'else')}{{ .. }}")
        self.nested()
        self.take()
        found = self.statements()
        self.take("}")
        self.open -= 1
        return found

    def statement(self):
        token = self.token()
        if token.text == ";":
            return Node("empty", self.take())
        if token.text in ("break", "continue"):
            self.take()
            self.take(";")
            return Node(token.text, token)
        if token.text == "return":
            return self.returned()
        if token.text == "if":
            return self.branch()
        if token.text == "while":
            self.take()
            return Node("while", token, cond=self.condition(), body=self.block("while"))
        if token.text == "for":
            return self.loop()
        if why := statement_reason(self.tokens, self.at):
            self.fault(*why)
        made = self.simple()
        self.take(";")
        return made

    def condition(self):
        self.take("(")
        made = self.expression()
        if self.text() == "=" or self.text() in UPDATES:
            self.fault("an assignment is no expression: assign in a statement before, and compare with ==")
        self.take(")")
        return made

    def returned(self):
        token = self.take()
        if self.text() == ";":
            self.take()
            return Node("return", token, value=None, call=None)
        if self.token().kind == "name" and self.text(1) == "(":
            call = self.call()
            if self.text() != ";":
                self.fault("a call is no part of an expression: assign it to a variable first, and return that",
                           Node("", call))
            self.take()
            return Node("return", token, value=None, call=call)
        value = self.expression()
        self.take(";")
        return Node("return", token, value=value, call=None)

    def branch(self):
        token = self.take()
        made = Node("if", token, cond=self.condition(), then=self.block("if"), other=[])
        if self.text() == "else":
            self.take()
            made.other = [self.branch()] if self.text() == "if" else self.block("else")
        return made

    def loop(self):
        token = self.take()
        self.take("(")
        if self.text() in TYPE_WORDS:
            self.fault("a loop's variable is declared at the start of the function")
        first = None if self.text() == ";" else self.simple()
        self.take(";", "a for has three parts: one assignment each in the first and the last, with `;` between")
        cond = None if self.text() == ";" else self.expression()
        self.take(";")
        after = None if self.text() == ")" else self.simple()
        self.take(")", "a for has one assignment in its last part: no comma operator")
        return Node("for", token, first=first, cond=cond, next=after, body=self.block("for"))

    def simple(self):
        token = self.token()
        if token.text == "free":
            self.take()
            self.take("(")
            made = Node("free", token, value=self.expression())
            self.take(")")
            return made
        if token.text in ("++", "--"):
            self.take()
            return Node("update", token, place=self.prefix(), op=token.text[0], value=None)
        if token.kind == "name" and self.text(1) == "(":
            return Node("call", token, call=self.call())
        place = self.prefix()
        if self.text() in ("++", "--"):
            return Node("update", token, place=place, op=self.take().text[0], value=None)
        if self.text() in UPDATES:
            return Node("update", token, place=place, op=self.take().text[:-1], value=self.expression())
        self.take("=", "an expression is no statement: a statement assigns, or calls")
        return self.assigned(token, place)

    def assigned(self, token, place):
        if self.text() == "malloc":
            return self.allocated(token, place)
        if self.token().kind == "name" and self.text(1) == "(":
            call = self.call()
            if self.text() not in (";", ")"):
                self.fault("a call is no part of an expression: assign it to a variable first", Node("", call))
            return Node("assign_call", token, place=place, call=call)
        value = self.expression()
        if self.text() == "=" or self.text() in UPDATES:
            self.fault("an assignment is no expression: one assignment a statement")
        return Node("assign", token, place=place, value=value)

    def allocated(self, token, place):
        self.take()
        self.take("(")
        size = self.expression()
        if size.kind == "binary" and size.op == "*" and size.right.kind == "sizeof":
            count, of = size.left, size.right.of
        elif size.kind == "sizeof":
            count, of = None, size.of
        else:
            self.fault("malloc takes the size of a type, or a number times it: p = malloc(n * sizeof(T));",
                       Node("", size))
        self.take(")")
        return Node("malloc", token, place=place, count=count, of=of)

    def call(self):
        name = self.take()
        made = Node("invocation", name, name=name.text, args=[])
        self.take("(")
        while self.text() != ")":
            if self.token().kind == "name" and self.text(1) == "(":
                self.fault(f"a call is no part of an expression: assign {self.text()}(..) to a variable first")
            made.args.append(self.expression())
            if self.text() != ",":
                break
            self.take()
        self.take(")")
        return made
