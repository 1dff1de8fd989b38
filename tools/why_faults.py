"""The faults of a refused text, with what to write instead: for tools/why and tools/language_server. Nothing here is
proved; what is refused, `secomp check` says."""
import re

from c_program import Program
from c_tokens import Fault
from command import Refused
from interface import REFUSED
from sections import secomp
from why_guesses import reasons, without_comments

MOST = 10


def refused(text):
    """The phase and line at which the program refuses a text, or none; what else it says of it stops the tool."""
    _, said, status = secomp(["check"], text)
    found = REFUSED.search(said)
    if status and not found:
        raise Refused(said.strip() or f"secomp: status {status}")
    return (found[1], int(found[2])) if found else None


def faults_of(text):
    """The faults of the first phase that has any. Of lex and syntax a section has one, and the next is found with the
    line of the last one blanked, up to braces whose partner is on another line; one at a blanked line comes from the
    blanking, and is none."""
    found = list(Program(text).faults)
    if not found or found[0].phase not in ("lex", "syntax"):
        return found
    lines, blanked = text.split("\n"), set()
    while len(found) < MOST:
        blanked |= {line for fault in found for line in (fault.line, fault.at)}
        for fault in found:
            # all that stands before the first section is one fault
            blanked |= set(range(1, len(fault.part.section.lines))) if fault.part.section.first == 0 else set()
        for number in blanked:
            line = lines[number - 1]
            is_whole = line.count("{") == line.count("}") and not line.lstrip().startswith("}")
            lines[number - 1] = " " * len(line) if is_whole else re.sub(r"[^{}]", " ", line)
        more = [fault for fault in Program("\n".join(lines)).faults
                if fault.phase == found[0].phase and not blanked & {fault.line, fault.at}]
        if not more:
            break
        found += more
    return sorted(found, key=lambda fault: fault.line)


def blamed(phase, line, lines):
    """The line whose tokens are to blame: at a Syntax refusal often the one before, which lacks its end."""
    before = next((number for number in range(line - 1, 0, -1) if lines[number - 1].strip()), line)
    said = lines[before - 1]
    ends = re.search(r"[;{}>)]\s*$|^#", said) and not re.match(r"\s*(if|while|for)\b.*\)\s*$", said)
    return before if phase == "syntax" and not ends else line


def guessed(phase, line, text):
    """A fault by what its line looks like, and the other reasons that it may have."""
    lines = without_comments(text.split("\n"))
    if line == 0:
        return Fault(phase, 1, 1, "no section defines main, as int main(void)"), []
    at = blamed(phase, min(line, len(lines)), lines)
    said = reasons(phase, lines[at - 1]) or ["what stands here isn't taken, and this tool doesn't know why"]
    if at != line and not re.match(r"\s*(if|while|for)\b", lines[at - 1]):
        said = ["a ; is missing at the end of this line, or what follows can't stand here", *said[:1]]
    indent = len(lines[at - 1]) - len(lines[at - 1].lstrip())
    return Fault(phase, at, indent + 1, said[0]), said[1:]


def looked_at(line, column):
    """The part of a line that tells why no token begins at a column: a sign that is none, or all of the line."""
    sign = line[column - 1:column]
    if sign in "'\"?:\\@$`" or not sign.isascii():
        return sign
    # what stands in a directive's quotes isn't what is wrong with it
    return re.sub("[\"']", " ", line) if sign == "#" else line


def faults(data, text):
    """The faults of a text, each with other reasons that it may have; none where it is accepted."""
    said = refused(data)
    if not said:
        return []
    found = faults_of(text)
    if not found or (found[0].phase, found[0].line) != said:
        return [guessed(*said, text)]
    lines = text.split("\n")
    for fault in found:
        if fault.phase == "lex":
            fault.text = (reasons("lex", looked_at(lines[fault.line - 1], fault.column)) or [fault.text])[0]
    return [(fault, []) for fault in found[:MOST]]
