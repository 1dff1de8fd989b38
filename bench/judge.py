#!/usr/bin/env python3
"""Times `judge` on a policy of 256 states and 4,096 rules, and a trace of 4,096 events: what it takes beyond `explain`.

usage: bench/judge.py [PROGRAM]     PROGRAM: a built secomp (by default what ./secomp runs)

Each event leads to the next state, by the last of the state's 16 rules; or all rules are of the one state in which the
policy stays. The aim is 50 ms. The least of five runs is printed.
"""
import os
import subprocess
import time

from seeds import words_of

EVENTS = 4096
TEXT = f"""#pragma compartment Main
#pragma import Env output
void output(int v);
int main(void) {{
  int i;
  for (i = 0; i < {EVENTS - 1}; i++) {{
    output(i);
  }}
  return 0;
}}
"""


def policy(states, rules):
    lines = ["policy Large", *(f"state s{state}" for state in range(states)), *rules, "policy end"]
    return "".join(line + "\n" for line in lines)


def moving():
    """16 rules for each state, of which the last is taken."""
    rules = []
    for state in range(256):
        rules += [f"on s{state} out Main = {-1 - k} deny" for k in range(15)]
        rules.append(f"on s{state} out Main to s{(state + 1) % 256}")
    return policy(256, rules)


def staying():
    """All rules for the first state, and none is taken."""
    return policy(256, [f"on s0 out Main = {-1 - k} deny" for k in range(4096)])


def seconds(program, command, text):
    """The least that a command takes, of five runs."""
    least = None
    for _ in range(5):
        start = time.monotonic()
        subprocess.run([program, command, "--events", str(EVENTS)], input=text, text=True, stdout=subprocess.DEVNULL,
                       check=True)
        took = time.monotonic() - start
        least = took if least is None else min(least, took)
    return least


def main(words):
    top = os.path.dirname(os.path.dirname(os.path.realpath(__file__)))
    program = words[0] if words else os.path.join(top, "secomp")
    plain = seconds(program, "explain", TEXT)
    for name, rules in (("rules of 256 states", moving()), ("rules of one state", staying())):
        print(f"{name}: {1000 * (seconds(program, 'judge', rules + TEXT) - plain):.0f} ms beyond {1000 * plain:.0f} ms")


if __name__ == "__main__":
    main(words_of(__doc__, "program?"))
