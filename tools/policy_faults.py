"""What can't be meant in a policy for a program: names that the program doesn't have, arguments that a function doesn't
have, states that can't be reached, and rules that no event comes to. Nothing here is proved."""
import difflib

from command import LEAST_VALUE, MOST_VALUE

INTERVALS = {"=": lambda v: [(v, v)], "!=": lambda v: [(LEAST_VALUE, v - 1), (v + 1, MOST_VALUE)],
             "<": lambda v: [(LEAST_VALUE, v - 1)], "<=": lambda v: [(LEAST_VALUE, v)],
             ">": lambda v: [(v + 1, MOST_VALUE)], ">=": lambda v: [(v, MOST_VALUE)]}


class Finder:
    """Finds the faults of one policy."""

    def __init__(self, policy, interface):
        self.policy, self.interface, self.found = policy, interface, []
        # the rules that take no event
        self.idle = set()
        self.calls = list(interface.calls())

    def say(self, line, text):
        if (line, text) not in self.found:
            self.found.append((line, text))

    def faults(self):
        """All faults, by line."""
        taken, events = {}, []
        for rule in self.policy.rules:
            matched = self.events(rule)
            if not matched:
                self.say(rule.line, self.no_event(rule))
            events.append(matched)
        for rule, matched in zip(self.policy.rules, events):
            self.hidden(rule, matched, taken)
        self.unreachable(events)
        if not any(rule.to is None for rule in self.policy.rules):
            self.say(self.policy.line, f"no rule of {self.policy.name} denies anything, so that it always holds")
        return sorted(self.found)

    def names_match(self, rule, names):
        return all(wanted in ("*", name) for wanted, name in zip(rule.names, names))

    def events(self, rule):
        """The events of the program that fit a rule but for the values, by their names."""
        if rule.kind == "call":
            fits = [((a, b, f), count) for a, b, f, count, _ in self.calls]
        elif rule.kind == "ret":
            fits = [((b, a, result), int(result)) for a, b, _, _, result in self.calls]
        elif rule.kind == "end":
            fits = [((self.interface.main,), 1)]
        else:
            fits = [((name,), 1) for name in self.interface.uses("input" if rule.kind == "in" else "output")]
        argument = max(rule.condition[0], 1) if rule.condition else 0
        return {names for names, count in fits if self.names_match(rule, names) and argument <= count}

    def no_event(self, rule):
        """Why no event of the program fits a rule."""
        compartments = rule.names[:2] if rule.kind in ("call", "ret") else rule.names
        for name in compartments:
            if name == "Env":
                return "no `call` or `ret` has Env: its events are `in COMPARTMENT` and `out COMPARTMENT`"
            if name != "*" and name not in self.interface.exports:
                return f"the program has no compartment {name}{like(name, self.interface.exports)}"
        if rule.kind in ("call", "ret"):
            return self.no_call(rule)
        if rule.kind == "end":
            return f"the run ends in {self.interface.main}, whose main it is, and not in {rule.names[0]}"
        function = "input" if rule.kind == "in" else "output"
        who = "no compartment imports" if rule.names[0] == "*" else f"{rule.names[0]} doesn't import"
        return f"{who} {function}"

    def no_call(self, rule):
        if rule.kind == "ret":
            callee, caller, function = rule.names[0], rule.names[1], "*"
        else:
            caller, callee, function = rule.names
        fits = [call for call in self.calls if callee in ("*", call[1])]
        functions = {call[2] for call in fits} | {name for comp, exports in self.interface.exports.items()
                                                  if callee in ("*", comp) for name in exports}
        if function not in ("*", *functions):
            whose = "no compartment exports" if callee == "*" else f"{callee} doesn't export"
            return f"{whose} {function}{like(function, functions)}"
        fits = [call for call in fits if function in ("*", call[2]) and caller in ("*", call[0])]
        if not fits:
            what = f"{'anything' if function == '*' else function} of {'any other' if callee == '*' else callee}"
            return f"no compartment imports {what}" if caller == "*" else f"{caller} doesn't import {what}"
        if rule.kind == "ret":
            return f"what {caller} calls of {callee} has no result, so that this condition never holds"
        most = max(call[3] for call in fits)
        what = "what is called there" if function == "*" else function
        return f"{what} has {most} argument{'s' * (most != 1)}, and no argument {rule.condition[0]}"

    def hidden(self, rule, matched, taken):
        """Says it where earlier rules of the state take all events of this one, and notes what this one takes."""
        argument, wanted = 0, [(LEAST_VALUE, MOST_VALUE)]
        if rule.condition:
            argument, operator, value = rule.condition
            wanted = [it for it in INTERVALS[operator](value) if it[0] <= it[1]]
        if not wanted:
            self.idle.add(rule)
            self.say(rule.line, "no value meets this condition")
            return
        lines, is_hidden = set(), bool(matched)
        for names in matched:
            before = taken.setdefault((rule.state, rule.kind, names), [])
            by = covering(before, argument, wanted)
            is_hidden = is_hidden and bool(by)
            lines |= by
        for names in matched:
            taken[rule.state, rule.kind, names].append((argument if rule.condition else None, wanted, rule.line))
        if is_hidden:
            self.idle.add(rule)
        if is_hidden and lines - {rule.line}:
            shown = " and ".join(str(line) for line in sorted(lines - {rule.line}))
            rules = "the rule of line" if len(lines) == 1 else "the rules of lines"
            self.say(rule.line, f"no event comes to this rule: all of its events go to {rules} {shown}")

    def unreachable(self, events):
        reached, grew = {self.policy.initial()}, True
        leading = [rule for rule, matched in zip(self.policy.rules, events)
                   if matched and rule.to and rule not in self.idle]
        while grew:
            more = {rule.to for rule in leading if rule.state in reached}
            grew = not more <= reached
            reached |= more
        for name, line in self.policy.states:
            if name not in reached:
                self.say(line, f"the state {name} can't be reached")


def covering(before, argument, wanted):
    """The lines of earlier rules that together take all of these values; empty where some value is left."""
    left, lines = list(wanted), set()
    for of, values, line in before:
        if of is None:
            return lines | {line}
        if of == argument:
            rest = [piece for one in left for piece in minus(one, values)]
            if rest != left:
                lines.add(line)
            left = rest
        if not left:
            return lines
    return set()


def minus(interval, values):
    """What is left of an interval without these, which are apart and in order."""
    low, high = interval
    for first, last in values:
        if low < first <= high:
            yield low, first - 1
        if first <= high and last >= low:
            low = max(low, last + 1)
        if low > high:
            return
    yield low, high


def like(name, names):
    """The name that was likely meant."""
    close = difflib.get_close_matches(name, list(names), 1, 0.5)
    return f"; {close[0]} is meant?" if close else ""


def faults(policy, interface):
    return Finder(policy, interface).faults()
