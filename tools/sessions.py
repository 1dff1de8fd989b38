#!/usr/bin/env python3
"""Makes the tests of what the documents show: `sessions.py [--check]`, at the top of the repository.

A session is a line `$ ./secomp WORDS < FILE`, or `$ cat POLICY FILE | ./secomp WORDS`, in a block that is indented by
four spaces, with what the program writes below it. The sessions of each document below are written, with the texts
that they read, to crates/command_tests/src/examples/sessions.rt, whose tests run them over the program. With --check
nothing is written, and the status is 1 where that file isn't what the documents and the examples give.

What follows `> NAME` is kept as NAME. It is known from the document too: `tail -n N NAME` shows its last section,
and all before is as in FILE. What follows `| examples/draw` is drawn here, and compared with the next block
marked `mermaid`.
"""
import re
import subprocess
import sys

from sections import commands, usage

DOCUMENTS = {
    "TUTORIAL": "docs/TUTORIAL.md",
    "EXAMPLES": "examples/README.md",
    "EXPLAIN": "docs/EXPLAIN.md",
    "POLICIES": "examples/policies/README.md",
}
TARGET = "crates/command_tests/src/examples/sessions.rt"
COMMAND = re.compile(r"(?:cat (\S+ \S+) \| )?\./secomp (.*?)(?: < (\S+))?(?: > (\S+)| \| (examples/draw))?$")
HEADING = "#pragma compartment "


def read(path):
    with open(path, encoding="utf-8") as it:
        return it.read()


def joined(paths):
    """The texts of files, one after the other."""
    return "".join(read(path) for path in paths.split())


def replaced(text, section):
    """The text with this as its last section."""
    return text[:text.rindex(HEADING)] + section


def kept(document, name, text):
    """The text that a document keeps under a name: the one whose last section `tail` shows."""
    for command, shown, _ in commands(document):
        if re.fullmatch(rf"tail -n \d+ {re.escape(name)}", command):
            assert shown.startswith(HEADING) and shown.count("\n") == int(command.split()[2]), command
            return replaced(text, shown)
    raise SystemExit(f"{document}: nothing shows {name}")


def drawn(report):
    return subprocess.run(["examples/draw"], input=report, capture_output=True, text=True, check=True).stdout


def sessions(document):
    """The words, the name of the input and the output of each session; and the texts by their names."""
    texts, reports, found = {}, {}, []
    for command, shown, after in commands(document):
        parts = COMMAND.fullmatch(command)
        # No document shows the bytes of an image; tools/foreign_sessions.py runs the sessions that make one.
        if not parts or not (parts[1] or parts[3]) or "--image" in parts[2]:
            continue
        paths, words, path, name, draw = parts.groups()
        path = paths or path
        texts.setdefault(path, joined(path) if path.startswith("examples/") else None)
        if name:
            texts[name] = shown = kept(document, name, texts[path])
        if draw:
            diagram = after.split("```mermaid\n", 1)[1].split("```", 1)[0]
            if drawn(reports[words, path]) != diagram:
                raise SystemExit(f"{document}: the diagram of `{command}` is another one")
        else:
            reports[words, path] = shown
            found.append((words, path, shown))
    return texts, found


def variant(path):
    """The name of a text among `Input`: that of the policy, where one comes first."""
    name = path.split()[0].removeprefix("examples/").removeprefix("policies/")
    return name.removesuffix(".policy").removesuffix(".c").capitalize()


def constant(path):
    return f"{variant(path).upper()}_TEXT"


def literal(text):
    return text.replace("\\", "\\\\").replace('"', '\\"')


def listed(found):
    """The sessions as a list, laid out as `rt fmt` does."""
    items = [
        f'Session {{\nINwords: "{words}",\nINinput: Input::{variant(path)},\nINwant: b"{literal(shown)}",\n'
        for words, path, shown in found
    ]
    if len(items) == 1:
        return "&[" + items[0].replace("\nIN", "\n    ") + "}]"
    return "&[\n" + "".join("    " + item.replace("\nIN", "\n        ") + "    },\n" for item in items) + "]"


INPUTS = """
// The texts that are read.
#[derive(Clone, Copy)]
pub(crate) enum Input {
%s}

impl Input {
    pub(crate) fn text(self) -> &'static [u8] {
        match self {
%s        }
    }
}
"""


def module():
    texts, lists = {}, []
    for name, document in DOCUMENTS.items():
        more, found = sessions(document)
        texts.update(more)
        lists.append(f"\n// Of {document}.\npub(crate) const {name}: &[Session] = {listed(found)};\n")
    paths = sorted(texts)
    inputs = INPUTS % (
        "".join(f"    {variant(path)},\n" for path in paths),
        "".join(f"            Input::{variant(path)} => {constant(path)},\n" for path in paths),
    )
    constants = [f'\nconst {constant(path)}: &[u8] = b"{literal(texts[path])}";\n' for path in paths]
    head = "// What the documents show, written from them by tools/sessions.py.\nuse crate::examples::runs::Session;\n"
    return "".join([head, inputs, *constants, *lists])


def main():
    if sys.argv[1:] == ["--check"]:
        if read(TARGET) != module():
            raise SystemExit(f"{TARGET} isn't what the documents give: run tools/sessions.py")
    elif not sys.argv[1:]:
        with open(TARGET, "w", encoding="utf-8") as it:
            it.write(module())
    else:
        usage(__doc__)


main()
