"""Texts in which attacked sections do as a behaviour says, and behaviours that do as a trace says.

A behaviour is {"input": I, "parts": {SECTION: {"entries": [ENTRY, ..], "rest": {FUNCTION: ENTRY}}}}. An entry of a
section is a call of one of its exports, or the start of its `main`; the first is entry 0. ENTRY is [CALLS, VALUE,
FUNCTION]: what the section calls there, what it returns, and in which function this counts, None for any. An entry
beyond the list, or of another function, does as `rest` says. A call is [FUNCTION, VALUES, TIMES]. A value is a number
of 32 bits with a sign, or [WHAT, N]: what the last call returned ("result"), the entry's first argument ("argument"),
or how many rounds of the call's repetition are done ("round"), each with N added.

This file stands alone, since it is copied to other machines. Nothing of it is proved.
"""
import json

WORDS = {"result": "bt_result", "argument": "bt_0", "round": "bt_round"}
TYPES = {"int": "int", "unsigned": "unsigned int", "void": "void"}
MOST, LEAST = 2147483647, -2147483648
NOTHING = [[], 0, None]
MOST_TOLD = 6


class Bad(Exception):
    """Bad words or bad input, or a run that failed, in words."""


def wrapped(number):
    """A number as a word of 32 bits, with its sign."""
    return (number - LEAST) % 2**32 + LEAST


class Interface:
    """What a section exports and imports: of each function its result's and its parameters' types."""

    def __init__(self):
        self.exports, self.imports, self.main = {}, {}, False

    def functions(self):
        """Those by which it is entered."""
        return {**self.exports, **({"main": ("int", [])} if self.main else {})}


def interfaces(report):
    """By the compartments' names, from what `secomp check` writes."""
    found = {}
    for words in map(str.split, report.splitlines()):
        if words[0] == "compartment":
            found[words[1]] = last = Interface()
        elif words[0] == "export":
            last.exports[words[1]] = (words[2], words[3:])
        elif words[0] == "import":
            last.imports[words[2]] = (words[1], words[3], words[4:])
        elif words[0] == "main":
            found[words[1]].main = True
    return found


def spelled(value, names):
    """A value in C, where these names are in reach; another is 0."""
    if isinstance(value, list):
        word = WORDS[value[0]]
        return f"{word} + {value[1] % 2**32}u" if word in names else str(max(value[1], 0))
    if value < 0:
        return "0x80000000" if value == LEAST else str(value)
    return str(value)


class Writer:
    """Writes the text of one section."""

    def __init__(self, name, interface, part):
        self.name, self.interface, self.part = name, interface, part
        self.keeps = '["result"' in json.dumps(part)
        self.names = set()

    def call(self, call):
        """The statement of a call, if the section has such an import."""
        function, values, times = call
        if function not in self.interface.imports or times < 1:
            return ""
        _, result, types = self.interface.imports[function]
        within = self.names | ({"bt_round"} if times > 1 else set())
        given = ", ".join(spelled(value, within) for value in (values + [0] * len(types))[:len(types)])
        statement = f"{'bt_result = ' if self.keeps and result != 'void' else ''}{function}({given});"
        if times == 1:
            return statement
        return f"for (bt_round = 0u; bt_round < {times}u; bt_round++) {{ {statement} }}"

    def entry(self, entry, result):
        """The statements of an entry, with its return."""
        calls = [self.call(call) for call in entry[0]]
        value = "" if result == "void" else " " + spelled(entry[1] or 0, self.names)
        return " ".join([call for call in calls if call] + [f"return{value};"])

    def function(self, name, result, types):
        """The text of a function that enters the section."""
        self.names = ({"bt_result"} if self.keeps else set()) | ({"bt_0"} if types else set())
        parameters = ", ".join(f"{TYPES[kind]} bt_{number}" for number, kind in enumerate(types)) or "void"
        rest = self.entry(self.part["rest"].get(name, NOTHING), result)
        body = [f"  if (bt_at == {number}u) {{ {text} }}" for number, entry in enumerate(self.part["entries"])
                if entry[2] in (None, name) and (text := self.entry(entry, result)) != rest] + [f"  {rest}"]
        rounds = ["  unsigned int bt_round;"] if any("bt_round" in line for line in body) else []
        count = ["  bt_n = bt_n + 1u;"] if self.part["entries"] else []
        at = ["  unsigned int bt_at = bt_n;"] if len(body) > 1 else []
        return "\n".join([f"{TYPES[result]} {name}({parameters}) {{", *at, *rounds, *count, *body, "}", ""])

    def text(self):
        lines = [f"#pragma compartment {self.name}"]
        lines += [f"#pragma export {name}" for name in self.interface.exports]
        lines += [f"#pragma import {parts[0]} {name}" for name, parts in self.interface.imports.items()]
        for name, (_, result, types) in self.interface.imports.items():
            lines.append(f"{TYPES[result]} {name}({', '.join(TYPES[kind] for kind in types) or 'void'});")
        lines += ["unsigned int bt_n;"] if self.part["entries"] else []
        lines += ["unsigned int bt_result;"] if self.keeps else []
        functions = self.interface.functions().items()
        return "\n".join([*lines, ""]) + "".join(self.function(name, *parts) for name, parts in functions)


def written(pieces, faces, behaviour):
    """The text of pieces: [TEXT], or [TEXT, SECTION] of an attacked section, in whose place what the behaviour says."""
    texts = []
    for piece in pieces:
        if len(piece) == 2:
            texts.append(Writer(piece[1], faces[piece[1]], behaviour["parts"][piece[1]]).text())
        else:
            texts.append(piece[0])
    return "".join(texts)


def events(lines):
    """The events among a report's lines, each as its words."""
    return [line.split() for line in lines if line.split(" ")[0] in ("call", "ret", "in", "out", "end")]


def add_call(entry, function, values):
    """A call is done at the end of an entry: once more, where it was the last one."""
    calls = entry[0]
    if calls and calls[-1][:2] == [function, values]:
        calls[-1][2] += 1
    else:
        calls.append([function, values, 1])


def replayed(trace, attacked, main, number):
    """The behaviour of the attacked sections that does what they did in a trace: events as words."""
    parts = {name: {"entries": [], "rest": {}} for name in attacked}
    opened = []

    def enter(section, function):
        entry = [[], None, function]
        if section in parts:
            parts[section]["entries"].append(entry)
        opened.append(entry)

    enter(main, "main")
    for words in trace:
        kind, who = words[:2]
        if kind == "call":
            if who in parts:
                add_call(opened[-1], words[3], [int(value) for value in words[4:]])
            enter(words[2], words[3])
        elif kind in ("ret", "end"):
            entry = opened.pop()
            entry[1] = int(words[-1]) if len(words) == (4 if kind == "ret" else 3) else None
        elif who in parts:
            add_call(opened[-1], "input" if kind == "in" else "output", [] if kind == "in" else [int(words[2])])
    return {"input": number, "parts": parts}


def said(trace, attacked):
    """What the attacked sections did last in a trace, in lines, each with the number of events before it."""
    opened, told = [], []
    for number, words in enumerate(trace):
        kind, who = words[:2]
        if kind == "call":
            opened.append(words[3])
            text = " ".join([f"calls {words[2]} {words[3]}", *words[4:]])
        elif kind == "ret":
            function = opened.pop()
            text = f"returns {words[3]} from {function}" if len(words) == 4 else f"returns from {function}"
        else:
            text = f"outputs {words[2]}" if kind == "out" else {"in": "reads an input", "end": "ends"}[kind]
        if who in attacked:
            times = told.pop()[1] if told and told[-1][0] == f"{who} {text}" else 0
            told.append((f"{who} {text}", times + 1, f"after {number} event{'' if number == 1 else 's'}"))
    shown = [f"{text} {f'{times} times, the last ' if times > 1 else ''}{after}" for text, times, after in told]
    more = ["..."] if len(shown) > MOST_TOLD else []
    return more + shown[-MOST_TOLD:] or ["before what is attacked does anything"]
