"""What tools/foreign asks the program about a text: its sections, what they export and import, and their objects."""
import os
import subprocess

import machine_code
from command import Refused
from sections import TOP

MOST_CODE, MOST_GLOBALS = 1048576, 458752
NUMBERS = {"int": "int", "unsigned": "unsigned int", "void": "void"}


class Function:
    """An exported function: its compartment, index there, result and parameters as `check` writes them."""

    def __init__(self, owner, index, name, result, parameters):
        self.owner, self.index, self.name = owner, index, name
        self.result, self.parameters = result, parameters

    def prototype(self):
        given = ", ".join(NUMBERS[kind] for kind in self.parameters) or "void"
        return f"{NUMBERS[self.result]} {self.name}({given})"


class Face:
    """What a section of a text exports and imports, and its number."""

    def __init__(self, number, name):
        self.number, self.name = number, name
        self.exports, self.imports, self.environment = [], [], []

    def code_start(self):
        return machine_code.code_start(self.number)

    def globals_start(self):
        return machine_code.globals_start(self.number)


class Program:
    """The sections of a text that `secomp check` accepts, in order."""

    def __init__(self, path):
        self.path, self.text = path, bytes_of(path)
        self.faces, self.main = faces(path, ran(["check"], self.text, path).decode())

    def face(self, name):
        if name not in self.faces:
            raise Refused(f"{self.path} has no section {name}; it has {', '.join(self.faces)}")
        return self.faces[name]

    def object(self, name):
        return ran(["object", "--section", name], self.text, self.path)


def bytes_of(path):
    try:
        with open(path, "rb") as it:
            return it.read()
    except OSError as error:
        raise Refused(f"{path}: {error.strerror}") from error


def write(path, data):
    try:
        with open(path, "wb") as it:
            it.write(data)
    except OSError as error:
        raise Refused(f"{path}: {error.strerror}") from error


def ran(words, given, what):
    """What the program writes on these words; SECOMP in the environment may name another one than ./secomp."""
    program = os.environ.get("SECOMP") or f"{TOP}/secomp"
    try:
        done = subprocess.run([program, *words], input=given, capture_output=True, check=False)
    except OSError as error:
        raise Refused(f"{program}: {error.strerror}") from error
    if done.returncode:
        said = done.stderr.decode(errors="replace").strip().split("\n")[-1]
        raise Refused(f"{what}: {said or f'secomp ended with status {done.returncode}'}")
    return done.stdout


def faces(path, listing):
    """The faces by their names, and the name of the main section, of what `check` lists."""
    found, main, face, wanted = {}, "", None, []
    for line in listing.splitlines():
        kind, *words = line.split()
        if kind == "compartment":
            face = found[words[0]] = Face(len(found), words[0])
        elif kind == "main":
            main = words[0]
        elif kind == "export":
            face.exports.append(Function(face, len(face.exports), words[0], words[1], words[2:]))
        elif words[0] == "Env":
            face.environment.append(Function(None, 0, words[1], words[2], words[3:]))
        else:
            wanted.append((face, words[0], words[1]))
    for face, owner, name in wanted:
        face.imports.append(next(it for it in found[owner].exports if it.name == name))
    if not found:
        raise Refused(f"{path} has no sections")
    return found, main
