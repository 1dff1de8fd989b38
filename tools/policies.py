"""Policies in the form that people write, and in the plain one that `secomp judge` reads. Nothing here is proved.

The friendly form has comments after `#` or `//`, blank lines, any blanks and line ends, several policies in a file, and
two conditions on an event: `A or B` is two rules. `A and B` is one rule behind another that has the opposite of A. This
one does what the first later rule for the same events does, so that no such rule may have a condition of its own.
"""
import re

from command import Refused, check_value

NAME = re.compile(r"[A-Za-z_]\w{0,62}$", re.ASCII)
OPPOSITE = {"=": "!=", "!=": "=", "<": ">=", ">=": "<", ">": "<=", "<=": ">"}
NAMES = {"call": 3, "ret": 2, "out": 1, "in": 1, "end": 1}
WORDS = {"call": "call CALLER CALLEE FUNCTION", "ret": "ret CALLEE CALLER", "out": "out COMPARTMENT",
         "in": "in COMPARTMENT", "end": "end COMPARTMENT"}


class Rule:
    """A rule: its state, the kind of event, the names, a condition (argument, operator, value) or none, where it leads
    (none where it denies), and the line at which it was written."""

    def __init__(self, state, kind, names, condition, to, line):
        self.state, self.kind, self.names, self.condition, self.to, self.line = state, kind, names, condition, to, line

    def text(self):
        words = ["on", self.state, self.kind, *self.names]
        if self.condition:
            argument, operator, value = self.condition
            words += ["arg", str(argument)] if argument else []
            words += [operator, str(value)]
        return " ".join([*words, *(["to", self.to] if self.to else ["deny"])])


class Policy:
    """A policy: its name, its states with their lines, and its rules in the plain form's order."""

    def __init__(self, name, line):
        self.name, self.line, self.states, self.rules = name, line, [], []

    def plain(self):
        """The bytes that `judge` reads before a program."""
        lines = [f"policy {self.name}", *(f"state {name}" for name, _ in self.states)]
        return "".join(f"{line}\n" for line in [*lines, *(rule.text() for rule in self.rules), "policy end"]).encode()

    def initial(self):
        return self.states[0][0]


class Reader:
    """Reads the policies of a file."""

    def __init__(self, path):
        self.path, self.number, self.policies, self.open = path, 0, [], None

    def refuse(self, text, line=None):
        raise Refused(f"{self.path}:{line or self.number}: {text}")

    def name(self, word):
        if not NAME.match(word):
            self.refuse(f"{word!r} is no name")
        return word

    def read(self, data):
        for self.number, line in enumerate(data.decode("utf-8", "replace").splitlines(), 1):
            words = re.split(r"#|//", line, maxsplit=1)[0].split()
            if words:
                self.line(words)
        if self.open:
            self.refuse(f"the policy {self.open.name} has no line `policy end`", self.open.line)
        if not self.policies:
            self.refuse("no policy: one begins with `policy NAME`", 1)
        return self.policies

    def line(self, words):
        if words[0] == "policy":
            self.begin_or_end(words)
        elif not self.open:
            self.refuse("what stands here is outside a policy: one begins with `policy NAME`")
        elif words[0] == "state":
            self.state(words)
        elif words[0] == "on":
            self.rules(words)
        else:
            self.refuse(f"a line begins with policy, state or on, and not with {words[0]!r}")

    def begin_or_end(self, words):
        if len(words) != 2:
            self.refuse("`policy NAME` or `policy end`")
        if words[1] != "end":
            if self.open:
                self.refuse(f"the policy {self.open.name} isn't ended before this one: `policy end`")
            self.open = Policy(self.name(words[1]), self.number)
            if any(policy.name == words[1] for policy in self.policies):
                self.refuse(f"two policies of the name {words[1]}")
        elif not self.open:
            self.refuse("no policy is open here")
        else:
            self.end()

    def end(self):
        policy, self.open = self.open, None
        if not policy.states:
            self.refuse(f"the policy {policy.name} has no state: `state NAME`", policy.line)
        known = {name for name, _ in policy.states}
        for rule in policy.rules:
            for state in (rule.state, rule.to):
                if state and state not in known:
                    self.refuse(f"no state {state} in the policy {policy.name}", rule.line)
        policy.rules = self.plain_rules(policy.rules)
        if len(policy.states) > 256 or len(policy.rules) > 4096:
            self.refuse("a policy has at most 256 states and 4,096 rules", policy.line)
        self.policies.append(policy)

    def state(self, words):
        if len(words) != 2:
            self.refuse("`state NAME`")
        if any(name == words[1] for name, _ in self.open.states):
            self.refuse(f"two states of the name {words[1]}")
        self.open.states.append((self.name(words[1]), self.number))

    def rules(self, words):
        """A line `on STATE EVENT [CONDITION] to STATE` or `.. deny`; its conditions are kept as a list of lists."""
        if words[-1] == "deny":
            to, rest = None, words[1:-1]
        elif len(words) > 2 and words[-2] == "to":
            to, rest = self.name(words[-1]), words[1:-2]
        else:
            self.refuse("a rule ends with `to STATE` or `deny`")
        if len(rest) < 2 or rest[1] not in NAMES:
            self.refuse("a rule is `on STATE EVENT ..`, and an event is call, ret, out, in or end")
        state, kind, names = self.name(rest[0]), rest[1], rest[2:2 + NAMES[rest[1]]]
        if len(names) < NAMES[kind]:
            self.refuse(f"the event is `{WORDS[kind]}`, each a name or *")
        if wrong := next((name for name in names if name != "*" and not NAME.match(name)), None):
            self.refuse(f"{wrong!r} is no name: the event is `{WORDS[kind]}`, each a name or *")
        conditions = self.conditions(kind, rest[2 + NAMES[kind]:])
        for condition in conditions:
            self.open.rules.append(Rule(state, kind, names, condition, to, self.number))

    def conditions(self, kind, words):
        """The conditions that `or` joins: each is none, or what `and` joins."""
        if not words:
            return [None]
        found, parts = [], [[]]
        for word in words:
            if word in ("or", "and"):
                found.append(word)
                parts.append([])
            else:
                parts[-1].append(word)
        if "or" in found and "and" in found:
            self.refuse("`or` and `and` don't stand in one rule: write two rules")
        if found.count("and") > 1:
            self.refuse("a rule has at most two conditions with `and`; a third takes another state")
        made = [self.condition(kind, part) for part in parts]
        return [made] if "and" in found else [[one] for one in made]

    def condition(self, kind, words):
        argument = 0
        if kind == "ret" and words and NAME.match(words[0]):
            self.refuse("a policy can't tell by which function is returned: `ret CALLEE CALLER` has compartments only. "
                        "Go to a state of its own at the call, and look at the return there")
        if kind == "call":
            if len(words) != 4 or words[0] != "arg" or words[1] not in list("12345678"):
                self.refuse("a condition on a call is `arg K OP VALUE`, with K from 1 to 8")
            argument, words = int(words[1]), words[2:]
        if len(words) != 2 or words[0] not in OPPOSITE:
            self.refuse("a condition is `OP VALUE`, with one of = != < <= > >=")
        try:
            return argument, words[0], check_value(words[1])
        except ValueError:
            self.refuse(f"{words[1]!r} is no decimal from -2147483648 to 2147483647")

    def plain_rules(self, rules):
        """The rules with one condition each."""
        plain = []
        for at, rule in enumerate(rules):
            # an event without the first one's argument has none of the second one's, and meets neither
            first, *second = sorted(rule.condition, key=lambda it: it[0]) if rule.condition else [None]
            if second:
                plain.append(self.opposite(rule, first, rules[at + 1:]))
            plain.append(Rule(rule.state, rule.kind, rule.names, second[0] if second else first, rule.to, rule.line))
        return plain

    def opposite(self, rule, first, later):
        """The rule for events that don't meet the first of two conditions."""
        same = [other for other in later if other.state == rule.state and other.kind == rule.kind and
                all(a == b or "*" in (a, b) for a, b in zip(rule.names, other.names))]
        to = rule.state
        if same:
            if same[0].condition or not all(b in (a, "*") for a, b in zip(rule.names, same[0].names)):
                self.refuse(f"`and` can't be put into the plain form here, as the rule of line {same[0].line} takes "
                            "some of "
                            "the same events: put that rule into a state of its own, or give it no condition",
                            rule.line)
            to = same[0].to
        argument, operator, value = first
        return Rule(rule.state, rule.kind, rule.names, (argument, OPPOSITE[operator], value), to, rule.line)


def read_policies(path, data):
    """The policies of a file; what isn't one is refused with its line."""
    return Reader(path).read(data)


def chosen(policies, name, path):
    """The policy of this name, or the only one of a file."""
    found = [policy for policy in policies if name in (None, policy.name)]
    if not found:
        raise Refused(f"{path}: no policy {name}")
    if len(found) > 1:
        raise Refused(f"{path}: {len(found)} policies; choose one with --name")
    return found[0]
