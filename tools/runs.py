"""Runs of a program and what they show, for the tools that look at many. Nothing here is proved."""
import re

from command import MOST_EVENTS, MOST_STEPS, Refused
from inputs import as_words
from interface import refusal
from sections import section_of, secomp

EVENT = re.compile(r"(call|ret|in|out|end) ")
LINK = re.compile(r"replace (\w+) after (\d+) (\w+) line (?P<line>\d+)")
TRAPPED = re.compile(r"trapped (\w+) (\w+) line (?P<line>\d+)")
UNBLAMED = re.compile(r"trapped (\w+) (stack|replaced)")
BLAME = re.compile(r"stop blamed (\w+) (\w+) (\d+)")
VERDICT = re.compile(r"verdict (?:holds (\w+)|violated after (\d+) by (\w+) rule (\d+) (\w+))")


class Link:
    """A replacement: of whom, after how many events, why, and at which line of its section."""

    def __init__(self, name, after, cause, line):
        self.name, self.after, self.cause, self.line = name, int(after), cause, int(line)

    def finding(self):
        return f"replace {self.name} {self.cause} line {self.line}"


class Verdict:
    """What `judge` says of a policy: the state in which it stands, or the violation."""

    def __init__(self, policy, state, after, name, rule, kind):
        self.policy, self.state, self.name, self.kind = policy, state, name, kind
        self.after, self.rule = int(after or 0), int(rule or 0)

    def line(self):
        """The line of the policy's file at which the violated rule was written."""
        return self.policy.rules[self.rule - 1].line

    def finding(self):
        return f"verdict {self.policy.name} violated by {self.name} rule {self.rule} {self.kind}"


class Run:
    """A run: its input, its events, how it stops, the chain, the verdicts, and of a trap where the source is blamed, or
    in whom and why it isn't."""

    def __init__(self, name, values):
        self.name, self.values = name, values
        self.events, self.stop, self.links, self.verdicts = [], "", [], []
        self.blame, self.unblamed = None, ()

    def take(self, lines, policy):
        """Takes what `explain` or `judge` wrote; the same lines again where another policy was judged."""
        self.events, self.links = [], []
        for line in lines:
            if EVENT.match(line):
                self.events.append(line)
            elif parts := LINK.fullmatch(line):
                self.links.append(Link(*parts.groups()))
            elif parts := VERDICT.fullmatch(line):
                self.verdicts.append(Verdict(policy, *parts.groups()))
            elif parts := TRAPPED.fullmatch(line):
                self.blame = Link(parts[1], len(self.events), parts[2], parts["line"])
            elif parts := UNBLAMED.fullmatch(line):
                self.unblamed = parts.groups()
            elif line.startswith("stop "):
                self.stop = line

    def findings(self):
        """All that isn't as it should be, each in the words in which it can be allowed."""
        found = [self.stop] if self.stop != "stop ended" else []
        found += [link.finding() for link in self.links]
        return found + [verdict.finding() for verdict in self.verdicts if verdict.state is None]


def trace(path, text, run, words, policies):
    """Does a run, and judges it by each policy."""
    for policy in policies or [None]:
        given = policy.plain() if policy else b""
        asked = ["judge" if policy else "explain", "--trapped", *words, *as_words(run.values)]
        out, said, status = secomp(asked, given + text)
        if status:
            raise Refused(refusal(path, said, status, given.count(b"\n")))
        run.take(out.decode("ascii", "replace").splitlines(), policy)
    return run


def place(text, link):
    """The line in the file of a link, and what stands there."""
    section = section_of(text, link.name)
    return section.place(link.line) if section else (1, "")


def advice(stop, words, count):
    """What to do where a run ends early: which option to raise, or that the most is reached."""
    given = {word.partition("=")[0]: int(word.partition("=")[2]) for word in words if word.startswith(("--steps=",
                                                                                                       "--events="))}
    if stop == "stop events":
        if given.get("--events", 1024) < MOST_EVENTS:
            return f"raise --events: this run may have {given.get('--events', 1024):,}, and {MOST_EVENTS:,} is the most"
        return (f"a run has at most {MOST_EVENTS:,} events, inputs among them: split the input, or put more than one "
                "number into each input")
    if stop in ("stop steps", "stop turns"):
        most = given.get("--steps", 1_000_000)
        if most < MOST_STEPS:
            return f"raise --steps: this run may have {most:,}, and {MOST_STEPS:,} is the most"
        return f"a run has at most {MOST_STEPS:,} steps: the program loops, or does too much"
    return ""
