"""Reads the tokens of a section, and expressions, by the grammar of docs/LANGUAGE.md. Nothing here is proved."""
from c_tokens import TYPE_WORDS, Fault, value_of

LEVELS = [("||",), ("&&",), ("|",), ("^",), ("&",), ("==", "!="), ("<", ">", "<=", ">="), ("<<", ">>"), ("+", "-"),
          ("*", "/", "%")]
MOST_OPEN = 200


class Node:
    """A part of a tree: its kind, its first token's line and column, and its parts."""

    def __init__(self, kind, token, **parts):
        self.kind, self.line, self.column = kind, token.line, token.column
        self.__dict__.update(parts)


class Reader:
    """Reads the tokens of a section."""

    def __init__(self, tokens):
        self.tokens, self.at, self.open = tokens, 0, 0

    def token(self, ahead=0):
        return self.tokens[min(self.at + ahead, len(self.tokens) - 1)]

    def text(self, ahead=0):
        return self.token(ahead).text

    def fault(self, text, token=None, names=()):
        token = token or self.token()
        raise Fault("syntax", token.line, token.column, text, names)

    def take(self, text=None, why=None):
        token = self.token()
        if text is not None and token.text != text:
            if token.text in ("++", "--"):
                self.fault("++ and -- are statements, no part of an expression")
            if token.text == ",":
                self.fault("no comma operator: one statement each, and in a for one assignment in each part")
            if why:
                self.fault(why)
            self.behind(f"a {text} is missing at the end of this line, or what follows can't stand here", text)
        self.at += 1
        return token

    def behind(self, text, missing=None):
        """A fault at the token here, which is shown behind the token before where that one ends its line."""
        token, before = self.token(), self.tokens[max(self.at - 1, 0)]
        if before.line == token.line and missing:
            text = f"`{missing}` is missing before `{token.text}`" if token.text else f"`{missing}` is missing"
        fault = Fault("syntax", token.line, token.column, text)
        if before.line != token.line:
            fault.at, fault.column = before.line, before.column + len(before.text)
        raise fault

    def name(self, what):
        token = self.token()
        if token.kind != "name":
            self.fault(f"{what} is wanted here, and `{token.text}` is none" if token.text else f"{what} is missing")
        return self.take()

    def base(self, void=False):
        """The words of a type, as one: int, unsigned, struct NAME, void."""
        token = self.take()
        if token.text == "struct":
            if self.text() == "{":
                self.fault("a struct has a tag: struct NAME { .. };")
            return f"struct {self.name('the tag of a struct').text}"
        if token.text in ("signed", "unsigned"):
            if self.text() == "int":
                self.take()
            elif self.text() in ("char", "long", "short"):
                self.fault("of types there are int, unsigned int, pointers and structs: all integers have 32 bits")
            return "unsigned" if token.text == "unsigned" else "int"
        if token.text == "void" and not void:
            self.fault("void is no type of a variable", token)
        return token.text

    def stars(self):
        count = 0
        while self.text() == "*":
            self.take()
            count += 1
        return count

    def nested(self):
        self.open += 1
        if self.open > MOST_OPEN:
            self.fault("this is nested too deeply for this tool")

    # expressions

    def expression(self, level=0):
        if level == len(LEVELS):
            return self.prefix()
        left = self.expression(level + 1)
        while self.text() in LEVELS[level]:
            token = self.take()
            left = Node("binary", token, op=token.text, left=left, right=self.expression(level + 1))
        return left

    def prefix(self):
        token = self.token()
        if token.text in ("++", "--"):
            self.fault("++ and -- are statements, no part of an expression")
        if token.text in ("-", "+", "!", "~", "&", "*"):
            self.nested()
            self.take()
            made = Node("unary", token, op=token.text, of=self.prefix())
            self.open -= 1
            return made
        return self.postfix()

    def postfix(self):
        made = self.primary()
        while self.text() in ("[", ".", "->"):
            token = self.take()
            if token.text == "[":
                made = Node("index", token, base=made, index=self.expression())
                self.take("]")
            else:
                name = self.name("the name of a member")
                made = Node("member" if token.text == "." else "arrow", token, base=made, name=name.text)
        return made

    def primary(self):
        token = self.token()
        if token.kind == "number":
            self.take()
            return Node("literal", token, value=value_of(token.text),
                        unsigned=token.text[-1] in "uU" or value_of(token.text) > 2147483647)
        if token.kind == "name":
            if self.text(1) == "(":
                self.fault(f"a call is no part of an expression: assign {token.text}(..) to a variable first")
            self.take()
            return Node("variable", token, name=token.text)
        if token.text == "sizeof":
            return self.size()
        if token.text == "(":
            return self.parenthesised()
        if token.text == "malloc":
            self.fault("malloc stands only behind `=`: p = malloc(n * sizeof(T));")
        self.fault(f"an expression is wanted here, and `{token.text}` begins none" if token.text else
                   "the section ends within an expression")

    def parenthesised(self):
        token = self.take()
        if self.text() in TYPE_WORDS | {"void", "char", "long", "short", "const"}:
            self.fault("no casts: int and unsigned int go into each other as they are", token)
        self.nested()
        made = self.expression()
        if self.text() == "=":
            self.fault("an assignment is no expression: assign in a statement before")
        self.take(")")
        self.open -= 1
        return made

    def size(self):
        token = self.take()
        if self.text() != "(" or self.text(1) not in TYPE_WORDS:
            self.fault("sizeof takes int, unsigned int, a struct or a pointer, in parentheses",
                       self.token(self.text() == "("))
        self.take()
        of = self.base() + "*" * self.stars()
        self.take(")", "sizeof takes int, unsigned int, a struct or a pointer: no array")
        return Node("sizeof", token, of=of)
