"""What the compartments of a text export and import, as `secomp check` says it. Nothing here is proved."""
import re

from command import Refused
from sections import secomp, section_of

REFUSED = re.compile(r"^secomp: refused (\w+) line (\d+)$", re.M)
TOO_LARGE = re.compile(r"^secomp: too large (\w+) of (\w+) (?:(\w+) )?(\d+)$", re.M)


class Interface:
    """The exports of each compartment, by name, as (result, parameters), and the imports, as (from, name)."""

    def __init__(self, lines):
        self.exports, self.imports, self.main = {}, {}, None
        name = None
        for line in lines:
            kind, *words = line.split()
            if kind == "compartment":
                name = words[0]
                self.exports[name], self.imports[name] = {}, []
            elif kind == "export":
                self.exports[name][words[0]] = (words[1], words[2:])
            elif kind == "import":
                self.imports[name].append((words[0], words[1]))
            else:
                self.main = words[0]

    def calls(self):
        """Each call that can come between compartments: from, to, function, number of arguments, if it has a result."""
        for caller, imports in self.imports.items():
            for callee, function in imports:
                if callee != "Env":
                    result, parameters = self.exports[callee][function]
                    yield caller, callee, function, len(parameters), result != "void"

    def uses(self, function):
        """The compartments that import this function of the environment."""
        return [name for name, imports in self.imports.items() if ("Env", function) in imports]


def interface_of(path, text):
    """The interface of a text, or a sentence that says why the text is refused."""
    out, said, status = secomp(["check"], text)
    if status:
        raise Refused(refusal(path, said, status))
    return Interface(out.decode("ascii", "replace").splitlines())


def refusal(path, said, status, lines_before=0):
    """What the program says of a text that it doesn't take, in words."""
    if found := REFUSED.search(said):
        line = int(found[2]) - lines_before
        return f"{path}:{max(line, 1)}: refused in the phase {found[1]}; tools/why {path} says the likeliest reason"
    if found := TOO_LARGE.search(said):
        what = {"data": "the globals", "frame": f"the frame of {found[3]}", "code": "the code"}[found[1]]
        most = {"data": "458,752", "frame": "32,768", "code": "1,048,576"}[found[1]]
        return f"{path}: too large: {what} of {found[2]} would take {int(found[4]):,} bytes, and {most} is the most"
    if status in (-4, 132):
        return f"{path}: secomp stopped at a run-time check of its own: a fault of secomp, and not of the text"
    return f"{path}: secomp: status {status} {said.strip()[-200:]}".rstrip()


def section_start(text, name):
    """The line of a compartment in its file, from 1."""
    section = section_of(text, name)
    return section.first if section else 1
