"""What C programmers write where this language has something else: the likeliest reason for a token that can't stand
where it does. Nothing here is proved."""

TYPES = set("""char short long float double _Bool _Complex bool size_t ssize_t uint8_t uint16_t uint32_t uint64_t int8_t
int16_t int32_t int64_t u8 u16 u32 uintptr_t FILE""".split())
QUALIFIERS = {"static", "extern", "register", "auto", "inline", "const", "volatile", "restrict"}
OTHERS = {
    "typedef": "no typedef: write the type itself",
    "enum": "no enum: write the numbers",
    "union": "no union: use a struct with a member for each",
    "goto": "no goto: use loops, break and continue",
    "switch": "no switch: write if and else if",
    "case": "no switch: write if and else if",
    "default": "no switch: write if and else if",
    "do": "no do loop: while (1) { ..; if (!c) { break; } }",
    "else": "an else stands right behind the `}` of an if",
    "malloc": "malloc stands only behind `=`: p = malloc(n * sizeof(T));",
    "sizeof": "an expression is no statement: a statement assigns, or calls",
}


def declaration_reason(tokens, at, is_parameter=False):
    """Why no declaration, member or parameter begins here: a reason, and the token."""
    token = tokens[at]
    if token.text in QUALIFIERS:
        return (f"no storage classes and qualifiers: leave `{token.text}` out; what isn't exported is private already",
                token)
    if token.text in TYPES:
        return (f"no type {token.text}: of types there are int, unsigned int, pointers and structs; all integers have "
                "32 bits"), token
    if token.text in OTHERS:
        return OTHERS[token.text], token
    if token.text == "void":
        return ("a parameter is int, unsigned int, a pointer to one or to a struct: no void *" if is_parameter else
                "void is no type of a variable"), token
    if token.kind == "name":
        follows = tokens[min(at + 1, len(tokens) - 1)]
        if follows.kind == "name" or follows.text == "*":
            return f"{token.text} is no type: write int, unsigned int or struct NAME", token
        return f"a type is missing before {token.text}", token
    if token.text == "}":
        return "a `}` too many, or a `{` is missing before", token
    if token.text in ("if", "while", "for", "return"):
        return f"`{token.text}` stands in a function; a `}}` before may be one too many", token
    if is_parameter:
        return ("a parameter is missing behind the comma" if token.text == ")" else "a parameter begins with its type",
                token)
    return f"a declaration begins with int, unsigned int, struct or void, and not with `{token.text}`", token


def statement_reason(tokens, at):
    """Why no statement begins here, where that is clear from its first tokens: a reason, and the token."""
    token, follows = tokens[at], tokens[min(at + 1, len(tokens) - 1)]
    if token.text in ("int", "signed", "unsigned", "struct", "void"):
        ahead = [next_one.text for next_one in tokens[at:at + 8]]
        if "(" in ahead and ";" not in ahead[:ahead.index("(")] and "=" not in ahead[:ahead.index("(")]:
            return "no function begins within another: a `}` is missing before", token
    if token.text in ("int", "signed", "unsigned", "struct"):
        return "locals are declared at the start of the function, before all statements", token
    if token.text in QUALIFIERS or token.text in TYPES and follows.kind in ("name", "word"):
        return declaration_reason(tokens, at)
    if token.text == "{":
        return "a block stands only behind if, else, while and for", token
    if token.text in OTHERS:
        return OTHERS[token.text], token
    if token.kind == "number" or token.text in ("-", "+", "!", "~", "&"):
        return ("an expression is no statement: on the left of = stand a variable, an element, a member, or * with a "
                "pointer"), token
    if token.kind == "name" and follows.kind == "name":
        return f"{token.text} is no type, or an operator is missing before {follows.text}", follows
    if token.kind == "name" and follows.text == ":":
        return "no labels", token
    return None
