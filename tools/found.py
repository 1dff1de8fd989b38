"""What tools/check-runs found, as text, as objects and as a SARIF log. Nothing here is proved."""
import re
from urllib.parse import quote

from command import Refused
from runs import advice, place

FINDING = re.compile(r"(?:(.*): )?(replace \w+ \w+ line \d+|stop \w[\w ]*|verdict \w+ violated by \w+ rule \d+ \w+)")
SCHEMA = "https://json.schemastore.org/sarif-2.1.0.json"


class Allowed:
    """What is expected: lines of a file, and which of them a run showed."""

    def __init__(self, path, text):
        self.path, self.lines, self.seen = path, {}, set()
        for at, line in enumerate(text.splitlines(), 1):
            line = line.split("#", 1)[0].strip()
            if line and not (parts := FINDING.fullmatch(line)):
                raise Refused(f"{path}:{at}: no finding: one is as tools/check-runs writes it in brackets")
            if line:
                self.lines[parts.groups()] = at

    def has(self, name, finding):
        found = [key for key in ((name, finding), (None, finding)) if key in self.lines]
        self.seen.update(found)
        return bool(found)

    def unused(self):
        return [f"{self.path}:{at}" for key, at in self.lines.items() if key not in self.seen]


def described(path, text, run, words=()):
    """Each finding of a run: its words, the file and line that it is shown at, and a sentence."""
    if run.stop != "stop ended":
        if run.blame:
            line, stands = place(text, run.blame)
            yield (run.stop, path, line,
                   f"the machine stops where {run.blame.name} is blamed, {run.blame.cause}: {stands}")
        else:
            yield run.stop, path, 1, ended_early(run, words)
    for link in run.links:
        line, stands = place(text, link)
        yield link.finding(), path, line, f"{link.name} is blamed after event {link.after}, {link.cause}: {stands}"
    for verdict in run.verdicts:
        if verdict.state is None:
            event = run.events[verdict.after] if verdict.after < len(run.events) else "?"
            yield (verdict.finding(), verdict.policy.path, verdict.line(),
                   f"{verdict.policy.name} is violated by event {verdict.after + 1}, `{event}`, of {verdict.name}, "
                   f"{meant(verdict)}")


def ended_early(run, words):
    """Why a run ends early that the source isn't blamed for, in a sentence."""
    if not run.stop.startswith("stop trap"):
        return f"the run doesn't end: {advice(run.stop, words, len(run.events))}"
    name, reason = run.unblamed
    if reason == "replaced":
        return f"the machine stops in {name}, after the events that the chain accounts for"
    return f"the machine stops where {name} is blamed for nothing: its stack is full, as by a recursion without end"


def meant(verdict):
    return "by its own source" if verdict.kind == "clean" else "after it was compromised"


def lines_of(path, text, run, words):
    """The lines of a run as text, of the form that editors jump to."""
    for finding, file, line, said in described(path, text, run, words):
        if finding not in run.allowed:
            yield f"{file}:{line}: {run.name}: {said}  [{finding}]"


def as_object(path, text, run):
    """A run as an object."""
    links = []
    for link in run.links:
        line, stands = place(text, link)
        links.append({"compartment": link.name, "after": link.after, "cause": link.cause, "line": link.line,
                      "file_line": line, "source": stands})
    verdicts = [{"policy": it.policy.name, "file": it.policy.path, "holds": it.state is not None, **(
        {"state": it.state} if it.state is not None else
        {"after": it.after, "by": it.name, "rule": it.rule, "file_line": it.line(),
         "compromised": it.kind == "compromised"})}
        for it in run.verdicts]
    blame = None
    if run.blame:
        line, stands = place(text, run.blame)
        blame = {"compartment": run.blame.name, "cause": run.blame.cause, "line": run.blame.line, "file_line": line,
                 "source": stands}
    return {"program": path, "input": run.name, "values": run.values, "events": len(run.events),
            "stop": run.stop[len("stop "):],
            "blame": blame, "chain": links, "verdicts": verdicts, "findings": run.findings(), "allowed": run.allowed,
            "passed": len(run.allowed) == len(run.findings())}


def rule_of(finding):
    """The kind of a finding: what it has in common with those of other lines and programs."""
    words = finding.split()
    return {"replace": lambda: words[2], "stop": lambda: "Stop" + words[1].capitalize(),
            "verdict": lambda: f"Policy{words[1]}"}[words[0]]()


def sarif(path, text, runs, words):
    """A SARIF log: a result for each finding at each place, with how many runs show it and which first."""
    found = {}
    for run in runs:
        for finding, file, line, said in described(path, text, run, words):
            if finding not in run.allowed:
                found.setdefault((finding, file, line), []).append((run.name, said))
    rules = sorted({rule_of(finding) for finding, _, _ in found})
    results = []
    for (finding, file, line), shown in found.items():
        more = f" ({len(shown)} runs, the first of {shown[0][0]})"
        results.append({
            "ruleId": rule_of(finding), "ruleIndex": rules.index(rule_of(finding)), "level": "error",
            "message": {"text": shown[0][1] + more},
            "locations": [
                {"physicalLocation": {"artifactLocation": {"uri": quote(file)}, "region": {"startLine": line}}}],
            "partialFingerprints": {"finding/v1": finding}})
    driver = {"name": "secomp", "rules": [
        {"id": rule, "shortDescription": {"text": f"secomp: {rule}"}} for rule in rules]}
    return {"$schema": SCHEMA, "version": "2.1.0", "runs": [{"tool": {"driver": driver}, "results": results}]}
