"""Behaviours of attacked sections as machine code. Objects that do as a behaviour says, or that have random code, are
linked with the objects of the other sections, and `explain --image` accounts for their runs.

A behaviour may have "code": ["noise", SEED] puts random instructions between the calls, and ["random", SEED] random
code in place of all. Its "words" are the code itself, with whether there is a heap, by sections. This file stands alone
with those that it imports, since it is copied to other machines. Nothing of it is proved.
"""
import base64
import random
import re
import subprocess

from attack_plan import BOUNDS, Plan
from attack_text import NOTHING, Bad
from machine_code import (A0, A7, ECALL, INPUT, OUTPUT, RA, RETURN, SP, T0, T1, ZERO, Code, add, add_number, branch,
                          call_at, code_start, globals_start, jump, load, load_word, object_of, store, written)

LINK = re.compile(r"replace (\w+) after (\d+) (\w+) line (\d+)")
TRAPPED = re.compile(r"trapped (\w+) (\w+) line (\d+)")
FRAME, KEPT_RA, KEPT_FIRST, KEPT_AT, KEPT_ROUND = 32, 0, 4, 8, 12
AT, RESULT = 0, 4
PLACES = {"argument": KEPT_FIRST, "round": KEPT_ROUND}
MOST_WORDS = 200000
GLOBALS = 64


class Assembler:
    """Writes the code of one section. Its globals have the number of entries so far and what the last call returned."""

    def __init__(self, number, interface, part, entries, noise):
        self.number, self.interface, self.part, self.entries, self.noise = number, interface, part, entries, noise
        self.words = []

    def value(self, register, value, has_round=False):
        """Puts a value into a register; the number of a round only where there are rounds."""
        kind, more = value if isinstance(value, list) else (None, value or 0)
        if not kind or kind == "round" and not has_round:
            return load_word(register, more)
        words = load_word(T0, globals_start(self.number)) + [load(T1, T0, RESULT)] if kind == "result" else \
            [load(T1, SP, PLACES[kind])]
        return words + load_word(register, more) + [add(register, register, T1)]

    def pieces(self):
        """Random instructions between two calls, where that is wanted."""
        if not self.noise or self.noise.draw.random() < 0.6:
            return []
        return [word for _ in range(self.noise.draw.randint(1, 3))
                for word in self.noise.draw.choice([self.noise.memory, self.noise.number_of_any, self.noise.system])()]

    def call(self, call):
        """A call as often as it is wanted."""
        function, values, times = call
        if function not in self.interface.imports or times < 1:
            return []
        owner, result, types = self.interface.imports[function]
        words = self.pieces()
        for at, value in enumerate((values + [0] * len(types))[:len(types)]):
            words += self.value(A0 + at, value, times > 1)
        words += load_word(A7, INPUT if function == "input" else OUTPUT) + [ECALL] if owner == "Env" else \
            call_at(self.entries[owner][function])
        if result != "void":
            words += load_word(T0, globals_start(self.number)) + [store(A0, T0, RESULT)]
        if times == 1:
            return words
        again = [load(T0, SP, KEPT_ROUND), add_number(T0, T0, 1), store(T0, SP, KEPT_ROUND)] + load_word(T1, times)
        again += [branch(1, T0, T1, 8), jump(8)]
        return [store(ZERO, SP, KEPT_ROUND)] + words + again + [jump(-4 * (len(words) + len(again)))]

    def entry(self, entry):
        """The calls of an entry, and its return."""
        words = [word for call in entry[0] for word in self.call(call)] + self.pieces()
        return words + self.value(A0, entry[1]) + [load(RA, SP, KEPT_RA), add_number(SP, SP, FRAME), RETURN]

    def function(self, name):
        """The code of a function that enters the section."""
        words = [add_number(SP, SP, -FRAME), store(RA, SP, KEPT_RA), store(A0, SP, KEPT_FIRST)]
        words += load_word(T0, globals_start(self.number)) + [
            load(T1, T0, AT), store(T1, SP, KEPT_AT), add_number(T1, T1, 1), store(T1, T0, AT)]
        for number, entry in enumerate(self.part["entries"]):
            if entry[2] in (None, name) and len(words) < MOST_WORDS:
                body = self.entry(entry)
                words += [load(T0, SP, KEPT_AT), *load_word(T1, number), branch(0, T0, T1, 8), jump(4 * len(body) + 4)]
                words += body
        return words + self.entry(self.part["rest"].get(name, NOTHING))

    def code(self):
        """The code: first a jump to each function, in the order of the exports and then main."""
        bodies = [self.function(name) for name in self.interface.functions()]
        jumps, at = [], len(bodies)
        for index, body in enumerate(bodies):
            jumps.append(jump(4 * (at - index)))
            at += len(body)
        return jumps + [word for body in bodies for word in body]


class ImagePlan(Plan):
    """An attack whose behaviours are objects."""

    def entry_points(self):
        """The address of each export, by compartments and names."""
        return {name: {function: code_start(number) + 4 * index for index, function in enumerate(functions)}
                for number, (name, functions) in enumerate(self.data["exports"].items())}

    def random_code(self, name, seed):
        """What draws random code for a section."""
        entries = self.entry_points()
        imported = [entries[parts[0]][function] for function, parts in self.faces[name].imports.items()
                    if parts[0] != "Env"]
        every = [list(each.values()) for each in entries.values()]
        return Code(random.Random(f"{seed}.{name}"), self.data["names"].index(name), every, imported)

    def code_of(self, name, behaviour):
        """The code of an attacked section, and whether it has a heap."""
        if "words" in behaviour:
            return behaviour["words"][name]
        kind, seed = behaviour.get("code") or ("", 0)
        face, number = self.faces[name], self.data["names"].index(name)
        source = self.random_code(name, seed) if kind else None
        if kind == "random":
            words = source.words(len(face.exports) + 1)
        else:
            part = behaviour["parts"][name]
            words = Assembler(number, face, part, self.entry_points(), source if kind == "noise" else None).code()
        return words, bool(kind) and source.draw.random() < 0.5

    def object(self, name, own, behaviour):
        """The object of an attacked section."""
        words, has_heap = self.code_of(name, behaviour)
        face, count = self.faces[name], len(self.faces[name].exports)
        return object_of(own, has_heap, written(words), 4 * count if face.main else 0, bytes(GLOBALS))

    def image(self, behaviour, is_marked=False):
        """The image in which the attacked sections have such objects."""
        owns = [base64.b64decode(own) for own in self.data["objects"]["marked" if is_marked else "plain"]]
        names = self.data["names"] + [""] * (len(owns) - len(self.data["names"]))
        given = [self.object(name, own, behaviour) if name in self.faces else own for name, own in zip(names, owns)]
        return self.ran(["link"], b"".join(given))

    def ran(self, words, given):
        ran = subprocess.run([self.data["program"], *words], input=given, capture_output=True, check=False)
        if ran.returncode:
            said = ran.stderr.decode(errors="replace").strip().split("\n")[0]
            raise Bad(f"status {ran.returncode} of `{words[0]}` for an image made here: {said}")
        return ran.stdout

    def report(self, command, behaviour, is_marked=False, bounds=None):
        """What `explain --image` or `judge --image` tells of a behaviour, as the lines of this command: those of
        `meaning` up to what is blamed first."""
        values = self.data["inputs"][behaviour["input"]]
        words = [word.replace("--turns=20000", "--steps=400000") for word in (bounds or BOUNDS[command])]
        words += [f"--in={values}"] if values else []
        text = "".join(piece[0] for piece in self.data["marked" if is_marked else "plain"]).encode("latin-1")
        both = self.image(behaviour, is_marked) + text
        if command == "judge":
            policy = self.data["policy"].encode("latin-1")
            return self.ran(["judge", "--image", *words], policy + both).decode().splitlines()
        lines = self.ran(["explain", "--image", "--trapped", *words], both).decode().splitlines()
        stop = next(at for at, line in enumerate(lines) if line.startswith("stop "))
        return self.blamed(lines, stop) if command == "meaning" else lines[:stop + 1]

    @staticmethod
    def blamed(lines, stop):
        """The events up to the first blame of a section that isn't attacked, and this blame, or all."""
        links = [parts for line in lines[stop:] if (parts := LINK.fullmatch(line))]
        if links:
            name, after, cause, line = links[0].groups()
            return lines[:int(after)] + [f"stop blamed {name} {cause} {line}"]
        # the reason of a trap where no text was replaced before it
        trapped = [parts for line in lines[stop:] if (parts := TRAPPED.fullmatch(line))]
        return lines[:stop] + [f"stop blamed {' '.join(trapped[0].groups())}"] if trapped else lines[:stop + 1]


def plan_of(data):
    """The plan of an attack by texts or by machine code."""
    return ImagePlan(data) if data.get("objects") else Plan(data)
