#!/usr/bin/env python3
"""Checks what `secomp explain --image` says of images in which some compartments have machine code of anybody's.

The texts are those of `outsider_texts.py`. In each image, one to all compartments are given, in one of four ways:

- code: they get instructions from the seed, calls of what they import, returns, loads and stores around their own and
  others' data, system calls, branches, jumps and random words;
- version 1: the same in the first version of the format, where no other compartment has a heap;
- objects: `link` joins objects of the same sections with other constants and operators in them;
- foreign: it joins objects that `tools/foreign` makes of C from the seed, where there is a cross compiler.

Then:

- the given compartments are those that differ, in order;
- the trace and the stop are those that `exec` writes for the image;
- the first text replaces the sections of the given compartments, each later one that of one compartment more, and all
  else stays byte for byte;
- `meaning` of each text but the last is blamed as its link says, after a proper prefix of the trace that is longer than
  the one before;
- `meaning` of the last text begins with the trace, and that of no text in which the given compartments and fewer others
  perform does;
- the program's own image gives the report of `explain`; the image of another text is refused.

usage: bench/given.py [--texts N] [--seed S] [--secomp PROGRAM] [--keep DIR]
"""
import collections
import itertools
import os
import random
import re
import shutil
import struct
import subprocess
import sys
import tempfile
from concurrent.futures import ThreadPoolExecutor

sys.dont_write_bytecode = True
sys.path.append(os.path.join(os.path.dirname(os.path.dirname(os.path.realpath(__file__))), "tools"))
from chains import LINK, MOST_SETS, sections_of
from machine_code import Code, code_start, globals_start, written
from outsider_texts import Maker
from seeds import TOP, arguments, keep

GIVEN = re.compile(r"given (\w+)")
OTHER = b"#pragma compartment Alone\nint main(void) { return 0; }\n"
WAYS = ["code", "version 1", "objects"] + ["foreign"] * bool(shutil.which("riscv64-unknown-elf-gcc"))
SHARES = [6, 6, 7, 1]
PROTOTYPE = re.compile(r"^(\w+(?: int)?) (\w+)\((.*)\);", re.M)
OPERATOR = re.compile(r" [-+*|&] |\b[1-9]\b")
HEAP = 4


class Image:
    """An image's fields, which are read from its bytes and written again."""

    def __init__(self, data):
        self.data, self.at = data, 4
        self.version, count, self.main, self.entry = (self.number(size) for size in (2, 1, 1, 4))
        self.comps = [self.comp() for _ in range(count)]

    def number(self, size):
        self.at += size
        return int.from_bytes(self.data[self.at - size:self.at], "little")

    def bytes(self, size):
        self.at += size
        return self.data[self.at - size:self.at]

    def comp(self):
        """A compartment: its fields up to its code as bytes, the place of its permissions in them, the addresses that
        enter it, what it imports, its parts."""
        start = self.at
        name = self.bytes(self.number(1))
        flags = self.at
        self.at += 1
        exports = [(self.bytes(self.number(1)), self.number(1), self.number(1), self.number(4))
                   for _ in range(self.number(2))]
        imports = [(self.number(1), self.number(2)) for _ in range(self.number(2))]
        head, flags = bytearray(self.data[start:self.at]), flags - start
        code, data = self.bytes(self.number(4)), self.bytes(self.number(4))
        return {"name": name.decode(), "entries": [each[3] for each in exports],
                "imports": imports, "head": head, "flags": flags, "code": code, "globals": data}

    def written(self):
        """The image's bytes."""
        out = b"SCIM" + struct.pack("<HBBI", self.version, len(self.comps), self.main, self.entry)
        for comp in self.comps:
            out += comp["head"] + struct.pack("<I", len(comp["code"])) + comp["code"]
            out += struct.pack("<I", len(comp["globals"])) + comp["globals"]
        return out


class Foreign:
    """C for a section, from random numbers: functions that read and write memory and call what the section imports."""

    def __init__(self, draw, header):
        self.draw = draw
        own, _, others = header.partition("/* Its imports")
        self.own, self.others = PROTOTYPE.findall(own), PROTOTYPE.findall(others)

    def value(self):
        """An expression."""
        return self.draw.choice(["state", "(int)x", "0x7fffffff", str(self.draw.randrange(-9, 300))])

    def call(self):
        """A call of what the section imports or defines."""
        _, name, params = self.draw.choice(self.others or self.own)
        count = 0 if params in ("", "void") else params.count(",") + 1
        return "if (state++ < 40) %s(%s);" % (name, ", ".join(self.value() for _ in range(count)))

    def statement(self):
        """A statement: mostly a call, else an access of the own data or of anybody's."""
        near = globals_start(self.draw.randrange(4)) + 4 * self.draw.randrange(-8, 16)
        kinds = [self.call, lambda: "cells[(unsigned)state % 8] += " + self.value() + ";",
                 lambda: "x = *(volatile int *)0x%xu;" % near, lambda: "*(volatile int *)0x%xu = x;" % near]
        return self.draw.choices(kinds, [8, 4, 1, 1])[0]()

    def text(self):
        """The file."""
        made = ['#include "section.h"', "static int state, cells[8];"]
        for result, name, params in self.own:
            names = "" if params in ("", "void") else ", ".join(
                "%s a%d" % (each.strip(), number) for number, each in enumerate(params.split(",")))
            made += ["%s %s(%s) {" % (result, name, names or "void"), "  volatile int x = 3;"]
            made += ["  " + self.statement() for _ in range(self.draw.randrange(1, 8))]
            made += [] if result == "void" else ["  return %s;" % self.value()]
            made.append("}")
        return "\n".join(made) + "\n"


def drawn_code(draw, image, number):
    """The bytes of random code for a compartment, with a word at least at each of its entries."""
    comp, start = image.comps[number], code_start(number)
    imported = [image.comps[other]["entries"][index] for other, index in comp["imports"]]
    code = Code(draw, number, [each["entries"] for each in image.comps], imported)
    return written(code.words((max(comp["entries"], default=start) - start) // 4 + 1))


class Case:
    """A text and an image of which some compartments are given, with what the program says of them."""

    def __init__(self, seed, program):
        maker = Maker(seed)
        self.way = random.Random("way %d" % seed).choices(WAYS, SHARES[:len(WAYS)])[0]
        self.seed, self.program, self.text, self.draw = seed, program, maker.text(), random.Random(seed)
        self.inputs = ["--in=" + ",".join(map(str, maker.inputs))] if maker.inputs else []

    def run(self, data, *words):
        """The status, and what a command writes for an input."""
        ran = subprocess.run([self.program, *words], input=data, capture_output=True, check=False)
        return ran.returncode, (ran.stdout if ran.returncode == 0 else ran.stderr).decode("latin1")

    def make(self, own):
        """An image of which some compartments are given, and their names."""
        image = Image(own)
        numbers = [each for each in range(len(image.comps)) if self.draw.random() < 0.5]
        numbers = numbers or [self.draw.randrange(len(image.comps))]
        names = [image.comps[number]["name"] for number in numbers]
        heaps = any(comp["head"][comp["flags"]] & HEAP for comp in image.comps if comp["name"] not in names)
        if self.way in ("objects", "foreign"):
            return self.linked(image, names, self.changed if self.way == "objects" else self.foreign)
        if self.way == "version 1" and not heaps:
            image.version = 1
        else:
            self.way = "code"
        for number in numbers:
            self.give(image, number)
        return image.written(), names

    def give(self, image, number):
        """Gives a compartment of an image code from random numbers."""
        comp = image.comps[number]
        comp["code"] = drawn_code(self.draw, image, number)
        if self.draw.random() < 0.2:
            comp["globals"] += bytes(4)
        if image.version == 1 or self.draw.random() < 0.1:
            comp["head"][comp["flags"]] &= ~HEAP
        if number == image.main:
            image.entry = code_start(number) + 4 * self.draw.randrange(len(comp["code"]) // 4)

    def written(self, data, *words):
        """The bytes that a command writes, none where it refuses."""
        return subprocess.run([self.program, *words], input=data, capture_output=True, check=False).stdout

    def linked(self, image, names, object_of):
        """The image that `link` makes of objects, some of them another's, and the names of those that differ."""
        own = {comp["name"]: self.written(self.text.encode(), "object", "--section", comp["name"])
               for comp in image.comps}
        objects = own | {name: made for name in names if (made := object_of(name))}
        order = self.draw.sample(sorted(objects), len(objects))
        return (self.written(b"".join(objects[name] for name in order), "link"),
                [name for name in own if objects[name] != own[name]])

    def changed(self, name):
        """The object of a section in which some constants and operators are others, if it is accepted."""
        preamble, sections = sections_of(self.text)
        head, mark, body = sections[name].partition("{")
        for share in (0.3, 0.1, 0.02):
            other = OPERATOR.sub(lambda found: self.draw.choice([" - ", " + "] if found[0][0] == " " else "123456789")
                                 if self.draw.random() < share else found[0], body)
            text = preamble + "".join({**sections, name: head + mark + other}.values())
            if made := self.written(text.encode(), "object", "--section", name):
                return made
        return b""

    def foreign(self, name):
        """The object of C from the seed for a section."""
        with tempfile.TemporaryDirectory() as folder:
            with open(os.path.join(folder, "text.c"), "w", encoding="utf-8") as out:
                out.write(self.text)
            header = self.tool(folder, "--header", "text.c", name).decode()
            with open(os.path.join(folder, "section.c"), "w", encoding="utf-8") as out:
                out.write(Foreign(self.draw, header).text())
            self.tool(folder, "text.c", name, "section.c", "-o", "object")
            with open(os.path.join(folder, "object"), "rb") as made:
                return made.read()

    def tool(self, folder, *words):
        """What `tools/foreign` writes, which has to accept its input."""
        ran = subprocess.run([os.path.join(TOP, "tools/foreign"), *words], cwd=folder, capture_output=True, check=True,
                             env={**os.environ, "SECOMP": self.program})
        return ran.stdout

    def meaning(self, text):
        """The events of a text's meaning, and how it ends."""
        _, out = self.run(text.encode(), "meaning", "--events", "4096", *self.inputs)
        *events, stop = out.splitlines()
        return events, stop

    def check(self):
        """What is wrong, as a list, with how many links the chain has."""
        status, own = self.compiled()
        if status:
            return [], -1
        self.image, given = self.make(own)
        status, out = self.run(self.image + self.text.encode(), "explain", "--image", *self.inputs)
        if status:
            return ["status %d: %s" % (status, out)], 0
        report = out.splitlines()
        at = next(i for i, line in enumerate(report) if line.startswith("chain "))
        told = [GIVEN.fullmatch(line).group(1) for line in report[:at] if GIVEN.fullmatch(line)]
        before = report[:at - len(told)]
        links = [LINK.fullmatch(line).groups() for line in report[at + 1:]]
        wrong = [] if told == given else ["given are " + " ".join(told)]
        wrong += [] if self.run(self.image, "exec", *self.inputs) == (0, "\n".join(before) + "\n") else ["exec differs"]
        return wrong + self.check_texts(given, links, before[:-1]) + self.check_others(own), len(links)

    def compiled(self):
        """The program's own image."""
        ran = subprocess.run([self.program, "compile"], input=self.text.encode(), capture_output=True, check=False)
        return ran.returncode, ran.stdout

    def check_others(self, own):
        """What is wrong with the answers for the own image and for one of another text."""
        text = self.text.encode()
        same = self.run(own + text, "explain", "--image", *self.inputs) == self.run(text, "explain", *self.inputs)
        other = self.run(self.image + OTHER, "explain", "--image")
        return ([] if same else ["the own image has another report"]) + (
            [] if other == (15, "secomp: image differs\n") else ["another text: %d %s" % other])

    def check_texts(self, given, links, trace):
        """What is wrong with the texts of the chain and what they mean."""
        texts = [self.run(self.image + self.text.encode(), "explain", "--image", "--show", str(count), *self.inputs)[1]
                 for count in range(len(links) + 1)]
        wrong = self.check_changes(self.text, texts[0], given, "the first text")
        last = -1
        for number, (comp, after, cause, line) in enumerate(links):
            events, stop = self.meaning(texts[number])
            if stop.split() != ["stop", "blamed", comp, cause, line] or events != trace[:int(after)]:
                wrong.append("link %d isn't what the meaning blames" % number)
            if not last < int(after) < len(trace):
                wrong.append("link %d comes at %s" % (number, after))
            last = int(after)
            wrong += self.check_changes(texts[number], texts[number + 1], [comp], "link %d" % number)
        events, _ = self.meaning(texts[-1])
        wrong += ["the last text doesn't mean the trace"] if events[:len(trace)] != trace else []
        return wrong + self.check_sets(given, [link[0] for link in links], trace, texts[-1])

    @staticmethod
    def check_changes(text, other, comps, what):
        """What is wrong where sections of these compartments, and nothing else, have to be replaced."""
        before, then = sections_of(text), sections_of(other)
        changed = {name for name in before[1] if before[1][name] != then[1].get(name)}
        good = before[0] == then[0] and list(before[1]) == list(then[1]) and changed == set(comps)
        return [] if good else [what + " replaces something else"]

    def check_sets(self, given, comps, trace, last):
        """What is wrong with the replaced set: a smaller one that has the trace."""
        preamble, own = sections_of(self.text)
        performing = sections_of(last)[1]
        smaller = (each for count in range(len(comps)) for each in itertools.combinations(comps, count))
        for each in itertools.islice(smaller, MOST_SETS):
            text = preamble + "".join(performing[name] if name in each or name in given else own[name] for name in own)
            events, stop = self.meaning(text)
            if events[:len(trace)] == trace and not (events == trace and stop.startswith("stop blamed")):
                return ["fewer are enough: " + (" ".join(each) or "none")]
        return []


def main():
    """Checks the texts of the seeds that the words name; the exit status."""
    words = arguments(__doc__, 1000)
    counts, ways, failed = collections.Counter(), collections.Counter(), 0
    cases = [Case(seed, words.secomp) for seed in range(words.seed, words.seed + words.texts)]
    with ThreadPoolExecutor(2) as pool:
        for case, (wrong, links) in zip(cases, pool.map(Case.check, cases)):
            counts[links] += 1
            ways[case.way] += links >= 0
            if wrong:
                failed += 1
                print("seed %d: %s" % (case.seed, "; ".join(wrong)), flush=True)
                keep(words.keep, case)
    print("images %d, by the length of the chain (-1: too large): %s" % (words.texts, ", ".join(
        "%d of %d" % (count, links) for links, count in sorted(counts.items()))))
    print("given by " + ", ".join("%s: %d" % each for each in sorted(ways.items())))
    print("%d passed, %d failed" % (words.texts - failed, failed))
    return 1 if failed else 0


if __name__ == "__main__":
    sys.exit(main())
