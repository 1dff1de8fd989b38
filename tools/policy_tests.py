#!/usr/bin/env python3
"""Tests the plain form of policies: for policies from seeds, with `or` and `and`, each of many events leads from each
state to where it leads by the friendly form; what can't be put into the plain form is counted. And a policy's faults
are compared with what all events of a program do: a rule is said to take no event exactly where none takes it.

The last line counts; the status is 1 if a test failed.
"""
import argparse
import itertools
import random
import sys

from command import Refused
from interface import Interface
from policies import read_policies
from policy_faults import faults
from sections import count

INTERFACE = Interface("""compartment A
import B f int int int
import B g void
import C h int int
import Env output void int
compartment B
export f int int int
export g void
compartment C
export h int int
import Env input int
main A""".split("\n"))
# conditions are on the inner ones
VALUES = [-3, -2, -1, 0, 1, 2, 3]
COMPARES = {"=": int.__eq__, "!=": int.__ne__, "<": int.__lt__, "<=": int.__le__, ">": int.__gt__, ">=": int.__ge__}
KINDS = [("call", "A", "B", "f", 2), ("call", "A", "B", "g", 0), ("call", "A", "C", "h", 1), ("ret", "B", "A", 1),
         ("ret", "B", "A", 0), ("ret", "C", "A", 1), ("out", "A", 1), ("in", "C", 1), ("end", "A", 1)]
EVENTS = [(kind[0], kind[1:-1], values) for kind in KINDS for values in itertools.product(VALUES, repeat=kind[-1])]


def holds(condition, values):
    argument, operator, value = condition
    argument = max(argument, 1)
    return len(values) >= argument and COMPARES[operator](values[argument - 1], value)


def matches(kind, names, event):
    return kind == event[0] and all(a in ("*", b) for a, b in zip(names, event[1]))


def step(rules, state, event):
    """The number of the first rule that takes an event, and where it leads; rules have lists of conditions."""
    for number, (of, kind, names, conditions, to) in enumerate(rules):
        if of == state and matches(kind, names, event) and all(holds(it, event[2]) for it in conditions):
            return number, to
    return None, state


def drawn(draw):
    """A policy of the friendly form: its text, and its rules as they are meant."""
    lines, rules = ["policy P", "state s", "state t"], []
    for _ in range(draw.randint(1, 4)):
        kind, *names = draw.choice(KINDS)[:-1]
        names = [draw.choice([name, name, "*"]) for name in names]
        number = draw.choice([0, 1, 1, 2])
        conditions = [(draw.randint(1, 2) if kind == "call" else 0, draw.choice(list(COMPARES)),
                       draw.choice(VALUES[1:-1])) for _ in range(number)]
        joint, state, to = draw.choice(["or", "and"]), draw.choice("st"), draw.choice(["s", "t", None])
        shown = f" {joint} ".join(f"{f'arg {it[0]} ' * (kind == 'call')}{it[1]} {it[2]}" for it in conditions)
        lines.append(" ".join(["on", state, kind, *names, shown, f"to {to}" if to else "deny"]))
        if joint == "or" and number == 2:
            rules += [(state, kind, names, [it], to) for it in conditions]
        else:
            rules.append((state, kind, names, conditions, to))
    return "\n".join([*lines, "policy end", ""]), rules


def plain_of(policy):
    return [(it.state, it.kind, it.names, [it.condition] if it.condition else [], it.to) for it in policy.rules]


def answer(seed):
    """What is wrong with a policy's plain form or with what is said of it; None where it has no plain form."""
    text, meant = drawn(random.Random(seed))
    try:
        policy = read_policies("P", text.encode())[0]
    except Refused as why:
        return None if "`and` can't be put" in str(why) else f"seed {seed}: {why}\n{text}"
    plain, taken = plain_of(policy), set()
    for state, event in itertools.product("st", EVENTS):
        number, to = step(plain, state, event)
        taken.add(number)
        if to != step(meant, state, event)[1]:
            return f"seed {seed}: {event} in {state} leads to {to}\n{text}"
    said = {line for line, words in faults(policy, INTERFACE) if line > 3}
    for number, rule in enumerate(policy.rules):
        whole = [at for at, other in enumerate(policy.rules) if other.line == rule.line]
        if len(whole) == 1 and (number not in taken) != (rule.line in said):
            return f"seed {seed}: line {rule.line}, and these are said to take no event: {sorted(said)}\n{text}"
    return ""


def main():
    made = argparse.ArgumentParser(description=__doc__, formatter_class=argparse.RawDescriptionHelpFormatter)
    made.add_argument("--policies", type=int, default=2000)
    asked = made.parse_args()
    found = [answer(seed) for seed in range(asked.policies)]
    print(f"{found.count(None)} policies have no plain form")
    return count(it for it in found if it is not None)


if __name__ == "__main__":
    sys.exit(main())
