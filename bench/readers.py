"""Second readers of images, objects and policies, after docs/MACHINE.md and docs/EXPLAIN.md, and of what `secomp`
writes.

They share no code with the program, and say which of its answers bytes have to get.
"""
import re

NAME = re.compile(rb"[A-Za-z_][A-Za-z0-9_]{0,62}")
KEYWORDS = """auto break case char const continue default do double else enum extern float for goto if inline int long
register restrict return short signed sizeof static struct switch typedef union unsigned void volatile while _Alignas
_Alignof _Atomic _Bool _Complex _Generic _Imaginary _Noreturn _Static_assert _Thread_local""".split()
MOST_CODE, MOST_GLOBALS, MOST_EXPORTS, MOST_COMPARTMENTS = 1048576, 458752, 4096, 32


class Bad(Exception):
    """A field is missing, incomplete or bad; its argument is the cause."""


class Fields:
    """The fields of a file, one after the other."""

    def __init__(self, data, at=0):
        self.data, self.at, self.cause = data, at, 1

    def bytes(self, count):
        """The next bytes."""
        if self.at + count > len(self.data):
            raise Bad(self.cause)
        self.at += count
        return self.data[self.at - count:self.at]

    def number(self, size, most=2 ** 32 - 1):
        """The next number of that many bytes, the lowest first."""
        number = int.from_bytes(self.bytes(size), "little")
        self.want(number <= most)
        return number

    def want(self, holds):
        """The field just read is good."""
        if not holds:
            raise Bad(self.cause)

    def name(self):
        """A name after its length."""
        length = self.number(1, 63)
        name = self.bytes(length)
        self.want(NAME.fullmatch(name))
        return name

    def words(self):
        """Code after its length."""
        length = self.number(4, MOST_CODE)
        self.want(length % 4 == 0)
        return self.bytes(length)


def exports(fields, with_entry):
    """The exports of a compartment: names, parameters, results and, in an image, entries."""
    found = []
    for _ in range(fields.number(2, MOST_EXPORTS)):
        export = [fields.name(), fields.number(1, 8), fields.number(1, 1)]
        found.append(tuple(export + ([fields.number(4)] if with_entry else [])))
    return found


def imports(fields, comps):
    """The imports of a compartment: compartments and indices of their exports."""
    return [(fields.number(1, comps - 1), fields.number(2)) for _ in range(fields.number(2, MOST_EXPORTS))]


def differ(things):
    """No two of them are the same."""
    return len(set(things)) == len(things)


def imports_fit(comps):
    """Imports are distinct, of another compartment, and below the number of its exports."""
    return all(differ(comp["imports"])
               and all(to != at and index < len(comps[to]["exports"]) for to, index in comp["imports"])
               for at, comp in enumerate(comps))


def image_cause(data):
    """The cause for which the bytes are no image, or none."""
    fields = Fields(data)
    try:
        fields.want(fields.bytes(4) == b"SCIM")
        fields.cause = 2
        version = fields.number(2)
        fields.want(version in (1, 2))
        fields.cause = 3
        count = fields.number(1, MOST_COMPARTMENTS)
        fields.want(count > 0)
        fields.cause = 4
        main, entry = fields.number(1, count - 1), fields.number(4)
        comps = [compartment(fields, count, 7 if version == 2 else 3) for _ in range(count)]
    except Bad as bad:
        return bad.args[0]
    good = (fields.at == len(data) and differ([comp["name"] for comp in comps]) and imports_fit(comps) and
            enters(main, entry, comps) and all(differ([export[0] for export in comp["exports"]]) and
                                               differ([export[3] for export in comp["exports"]]) and
                                               all(enters(at, export[3], comps) for export in comp["exports"])
                                               for at, comp in enumerate(comps)))
    return None if good else 9


def compartment(fields, count, flags):
    """One compartment of an image."""
    fields.cause = 5
    comp = {"name": fields.name()}
    fields.want(comp["name"] != b"Env")
    fields.want(fields.number(1) & ~flags == 0)
    fields.cause = 6
    comp["exports"] = exports(fields, True)
    fields.cause = 7
    comp["imports"] = imports(fields, count)
    fields.cause = 8
    comp["code"] = fields.words()
    fields.bytes(fields.number(4, MOST_GLOBALS))
    return comp


def enters(comp, address, comps):
    """An address is a whole word of the compartment's code."""
    start = 0x01000000 + (comp << 20)
    return address % 4 == 0 and start <= address < start + len(comps[comp]["code"])


def object_cause(fields):
    """The cause for which no object begins where the fields stand, or none; and what it says of the program."""
    try:
        fields.cause = 1
        fields.want(fields.bytes(4) == b"SCOB")
        fields.cause = 2
        fields.want(fields.number(2) == 1)
        fields.cause = 3
        count = fields.number(1, MOST_COMPARTMENTS)
        fields.want(count > 0)
        main, own = fields.number(1, count - 1), fields.number(1, count - 1)
        fields.cause = 4
        comps = [face(fields, count) for _ in range(count)]
        fields.cause = 5
        fields.number(1, 1)
        fields.cause = 6
        code = fields.words()
        fields.cause = 7
        start = fields.number(4)
        fields.want(start % 4 == 0 and start < len(code) if own == main else start == 0)
        fields.cause = 8
        fields.bytes(fields.number(4, MOST_GLOBALS))
    except Bad as bad:
        return bad.args[0], None
    good = (differ([comp["name"] for comp in comps]) and imports_fit(comps) and
            all(differ([export[0] for export in comp["exports"]]) for comp in comps) and
            len(code) // 4 >= len(comps[own]["exports"]))
    return (None if good else 9), (main, own, comps)


def face(fields, count):
    """What an object says of a compartment."""
    comp = {"name": fields.name()}
    fields.want(comp["name"] != b"Env")
    comp["flags"] = fields.number(1, 3)
    comp["exports"] = exports(fields, False)
    comp["imports"] = imports(fields, count)
    return comp


def link_answer(data):
    """What `link` has to say on standard error, and its status; nothing and 0 where it links."""
    fields, read = Fields(data), []
    while not read or fields.at < len(data):
        cause, says = object_cause(fields)
        if cause is not None:
            return 11, "bad object %d %d" % (len(read), cause)
        read.append(says)
    main, _, comps = read[0]
    for at, (other_main, _, other) in enumerate(read):
        if (other_main, other) != (main, comps):
            return 12, "objects differ 0 %d" % at
    owns = [own for _, own, _ in read]
    for at, own in enumerate(owns):
        if own in owns[:at]:
            return 12, "object twice %s" % comps[own]["name"].decode()
    for at, comp in enumerate(comps):
        if at not in owns:
            return 12, "object missing %s" % comp["name"].decode()
    return 0, ""


WHO = rb"(?:\*|[A-Za-z_][A-Za-z0-9_]{0,62})"
TEST = rb"(?:=|!=|<=|>=|<|>) (?P<value>-?[0-9]+)"
PATTERNS = [re.compile(b"call %s %s %s(?: arg 0*[1-8] %s)?" % (WHO, WHO, WHO, TEST)),
            re.compile(b"ret %s %s(?: %s)?" % (WHO, WHO, TEST)), re.compile(b"(?:out|in|end) %s(?: %s)?" % (WHO, TEST))]
RULE = re.compile(rb"on (?P<state>\S+) (?P<pattern>[^\n]*) (?:to (?P<next>\S+)|deny)")


def is_pattern(words):
    """They are a pattern of events."""
    for pattern in PATTERNS:
        found = pattern.fullmatch(words)
        if found:
            value = found["value"]
            return value is None or -2 ** 31 <= int(value) < 2 ** 31
    return False


def is_rule(line, states):
    """A line is a rule over these states."""
    found = RULE.fullmatch(line)
    return bool(found and found["state"] in states and found["next"] in states | {None}
                and is_pattern(found["pattern"]))


def bad_policy_line(data):
    """The first line with which no policy begins, from 1, or none; and where the text after the policy begins."""
    states, rules, at = set(), 0, 0
    lines = data.split(b"\n")[:-1]
    for number, line in enumerate(lines, 1):
        at += len(line) + 1
        kind, _, name = line.partition(b" ")
        if number == 1:
            good = kind == b"policy" and NAME.fullmatch(name)
        elif line == b"policy end":
            if states:
                return None, at
            good = False
        elif kind == b"state":
            good = NAME.fullmatch(name) and name not in states and len(states) < 256 and rules == 0
            states.add(name)
        else:
            rules += 1
            good = states and rules <= 4096 and is_rule(line, states)
        if not good:
            return number, at
    return len(lines) + 1, at


IDENTIFIER = "[A-Za-z_][A-Za-z0-9_]*"
NUMBER = "-?[0-9]+"
ERRORS = {2: "secomp: usage", 3: "secomp: refused (lex|syntax|names|types|interface|count) line [0-9]+",
          4: f"secomp: too large (data of {IDENTIFIER}|frame of {IDENTIFIER} {IDENTIFIER}|code of {IDENTIFIER}) [0-9]+",
          5: "secomp: too long [0-9]+", 6: "secomp: bad image [1-9]", 11: "secomp: bad object [0-9]+ [1-9]",
          12: f"secomp: objects differ 0 [0-9]+|secomp: object (twice|missing) {IDENTIFIER}",
          13: f"secomp: no section {IDENTIFIER}", 14: "secomp: bad policy line [0-9]+"}
TRAP = "owner|misaligned|illegal|badjump|noimport|badcall|badfree|breakpoint"
EVENT = (f"call {IDENTIFIER} {IDENTIFIER} {IDENTIFIER}( {NUMBER}){{0,8}}|ret {IDENTIFIER} {IDENTIFIER}( {NUMBER})?|"
         f"(in|out|end) {IDENTIFIER} {NUMBER}")
STOP = f"stop (ended|events|steps|turns|trap ({TRAP}) 0x[0-9a-f]{{8}}|blamed {IDENTIFIER} [A-Za-z]+ [0-9]+)"
CHAIN = f"chain [0-9]+(\n(replace {IDENTIFIER} after [0-9]+ [A-Za-z]+ line [0-9]+))*"
VERDICT = f"verdict (holds {IDENTIFIER}|violated after [0-9]+ by {IDENTIFIER} rule [0-9]+ (clean|compromised))"
RUN = f"(({EVENT})\n)*{STOP}\n"
REPORTS = {"run": RUN, "exec": RUN, "tags": RUN, "meaning": RUN, "explain": RUN + CHAIN + "\n",
           "judge": RUN + CHAIN + "\n" + VERDICT + "\n",
           "check": f"((compartment {IDENTIFIER}|export {IDENTIFIER} [a-z]+( [a-z]+)*"
                    f"|import {IDENTIFIER} {IDENTIFIER} [a-z]+"
                    f"( [a-z]+)*)\n)*main {IDENTIFIER}\n"}
REPORTS = {command: re.compile(report) for command, report in REPORTS.items()}
ERRORS = {status: re.compile(error) for status, error in ERRORS.items()}


def form_of(command, status, out, err):
    """What is wrong with the form of an answer, or none."""
    if status == 0:
        if err:
            return "an error beside an output"
        if command in REPORTS and not REPORTS[command].fullmatch(out.decode("ascii")):
            return "an output that isn't of the command's form"
        if command in ("compile", "link") and image_cause(out) is not None:
            return "an output that is no image"
        if command == "object" and object_cause(Fields(out))[0] is not None:
            return "an output that is no object"
        return None
    if out:
        return "an output beside status %d" % status
    if status not in ERRORS:
        return "status %d" % status
    said = err.decode("ascii")
    if not ERRORS[status].match(said) or status != 2 and not ERRORS[status].fullmatch(said.rstrip("\n")):
        return "an error that isn't of the status's form"
    return None
