#!/usr/bin/env python3
"""Checks what `secomp run` and `exec` give away of a set of compartments, on pairs that differ inside the set.

The texts are those of `outsider_texts.py`. In the second text of a pair, globals of the set's sections begin with other
numbers, some of their constants are others, and blank lines stand in all sections. Then:

- the sections outside the set have the same objects, and the same compartments in both images;
- the runs of both texts, and of both images after other compartments got machine code from the seed, the set's a
  different code in each, are apart: one trace is a prefix of the other, or the first events that differ are of one and
  the same compartment of the set; a run that stops before the other goes on is out of steps, or traps in the set; and
  where neither is out of steps, both stop in the same way, or both trap in the set;
- between two events with a compartment outside the set active, both runs take as many steps.

usage: bench/apart.py [--texts N] [--seed S] [--secomp PROGRAM] [--keep DIR]
"""
import collections
import random
import re
import subprocess
import sys
from concurrent.futures import ThreadPoolExecutor

sys.dont_write_bytecode = True
from chains import sections_of
from given import Image, code_start, drawn_code
from outsider_texts import CONSTANTS, Maker
from seeds import arguments, keep

GLOBAL = re.compile(r"(?m)^((?:int|unsigned|signed) (?:g\w|b\d)(?:\[(\d+)\])?)(?: = [^;]*)?;$")
CONSTANT = re.compile(r"(?<=[-+*/%&|^<>=] )[1-9]\d*(?=[ ;)])")
MOST_STEPS, INTERVALS = 20000, 2
Run = collections.namedtuple("Run", "trace stop")


def active_after(trace, main):
    """The compartment that is active after these events."""
    if not trace:
        return main
    kind, comp, *more = trace[-1].split()
    return more[0] if kind in ("call", "ret") else comp


def common_length(one, other):
    """How many events two traces begin with in common."""
    return next((at for at, (event, its) in enumerate(zip(one, other)) if event != its), min(len(one), len(other)))


def not_apart(one, other, secret, main):
    """What is wrong with two runs, by the law; nothing where they are apart."""
    common = common_length(one.trace, other.trace)
    active = active_after(one.trace[:common], main)
    inside = active in secret
    if common < len(one.trace) and common < len(other.trace):
        return [] if inside else ["%s outside the set goes on otherwise after %d events" % (active, common)]
    if common == len(one.trace) == len(other.trace):
        stops = {one.stop, other.stop}
        traps = all(stop.startswith("stop trap") for stop in stops)
        good = len(stops) == 1 or "stop steps" in stops or inside and traps
        return [] if good else ["after %d events: %s | %s" % (common, one.stop, other.stop)]
    stop = one.stop if common == len(one.trace) else other.stop
    good = stop == "stop steps" or inside and stop.startswith("stop trap")
    return [] if good else ["only one run has %s after %d events, with %s active" % (stop, common, active)]


class Case:
    """Two texts and a set of compartments, with what the program says of them."""

    def __init__(self, seed, program):
        maker = Maker(seed)
        self.seed, self.program, self.draw = seed, program, random.Random(seed)
        self.inputs = ["--in=" + ",".join(map(str, maker.inputs))] if maker.inputs else []
        self.text = maker.text()
        names = list(sections_of(self.text)[1])
        self.secret = [name for name in names if self.draw.random() < 0.4] or [self.draw.choice(names)]
        self.other = self.changed(self.text)

    def changed(self, text):
        """The text with other numbers in the set's sections, and blank lines in all."""
        preamble, sections = sections_of(text)
        made = [self.with_numbers(section) if name in self.secret else section for name, section in sections.items()]
        return preamble + "".join(self.with_lines(section) for section in made)

    def with_numbers(self, section):
        """The section, whose globals begin with other numbers; and sometimes with other constants in its code."""
        def begins(found):
            if self.draw.random() < 0.3:
                return found.group(0)
            number = self.draw.choice(CONSTANTS)
            return "%s = %s;" % (found.group(1), "{%s}" % number if found.group(2) else number)

        def constant(found):
            return str(self.draw.randrange(256)) if self.draw.random() < 0.2 else found.group(0)
        made = GLOBAL.sub(begins, section)
        return CONSTANT.sub(constant, made) if self.draw.random() < 0.4 else made

    def with_lines(self, section):
        """The section with blank lines in some places after its first line."""
        first, *lines = section.splitlines(keepends=True)
        return first + "".join(("\n" if self.draw.random() < 0.1 else "") + line for line in lines)

    def ask(self, data, *words):
        """The status, and what a command writes for an input."""
        ran = subprocess.run([self.program, *words], input=data, capture_output=True, check=False)
        return ran.returncode, ran.stdout if ran.returncode == 0 else ran.stderr

    def run(self, command, data, steps):
        """A run with so many steps at most."""
        status, out = self.ask(data, command, "--steps", str(steps), "--events", "4096", *self.inputs)
        if status:
            raise RuntimeError("%s: status %d: %s" % (command, status, out.decode("latin1")))
        *trace, stop = out.decode().splitlines()
        return Run(trace, stop)

    def check(self):
        """What is wrong, as a list, and how the traces of `run` and of `exec` differ, if the texts have images."""
        texts = [self.text.encode(), self.other.encode()]
        made = [self.ask(text, "compile") for text in texts]
        if any(status for status, _ in made):
            return [], ["refused"]
        wrong = self.check_objects(texts) + self.check_images(*(Image(image) for _, image in made))
        images = self.with_code(*(Image(image) for _, image in made))
        ran, kind = self.check_runs("run", texts)
        executed, its_kind = self.check_runs("exec", [image.written() for image in images])
        return wrong + ran + executed, ["run " + kind, "exec " + its_kind]

    def check_objects(self, texts):
        """What is wrong with the objects of the sections outside the set."""
        outside = [name for name in sections_of(self.text)[1] if name not in self.secret]
        return ["the object of %s differs" % name for name in outside
                if len({self.ask(text, "object", "--section", name) for text in texts}) > 1]

    def check_images(self, one, other):
        """What is wrong with the images of the texts: they are the same outside the set."""
        self.main = one.comps[one.main]["name"]
        wrong = ["the compartment %s differs" % comp["name"] for comp, its in zip(one.comps, other.comps)
                 if comp["entries"] != its["entries"] or comp["name"] not in self.secret and comp != its]
        entered = one.entry == other.entry or self.main in self.secret
        return wrong + ([] if (len(one.comps), one.main) == (len(other.comps), other.main) and entered
                        else ["the images have another beginning"])

    def with_code(self, one, other):
        """The images with code from the seed in some compartments: outside the set the same in both."""
        for number, comps in enumerate(zip(one.comps, other.comps)):
            if self.draw.random() < 0.5:
                continue
            codes = [drawn_code(self.draw, one, number) for _ in comps]
            inside = comps[0]["name"] in self.secret
            for image, comp, code in zip((one, other), comps, codes if inside else codes[:1] * 2):
                comp["code"] = code
                if number == image.main:
                    image.entry = code_start(number) + 4 * (self.draw.randrange(len(code) // 4) if inside else 0)
        return one, other

    def check_runs(self, command, inputs):
        """What is wrong with the runs on two inputs, and whether their traces differ, or one is longer."""
        steps = [self.draw.choice([MOST_STEPS, MOST_STEPS, self.draw.randrange(MOST_STEPS)]) for _ in inputs]
        one, other = (self.run(command, data, count) for data, count in zip(inputs, steps))
        common = common_length(one.trace, other.trace)
        kind = ("differ" if common < min(len(one.trace), len(other.trace)) else
                "same" if len(one.trace) == len(other.trace) else "longer")
        wrong = not_apart(one, other, self.secret, self.main)
        outside = [at for at in range(common) if active_after(one.trace[:at], self.main) not in self.secret]
        for at in self.draw.sample(outside, min(INTERVALS, len(outside))):
            times = [self.steps_until(command, data, at + 1) - self.steps_until(command, data, at) for data in inputs]
            wrong += [] if times[0] == times[1] else ["event %d comes after %d | %d steps" % (at, *times)]
        return ["%s: %s" % (command, each) for each in wrong], kind

    def steps_until(self, command, data, events):
        """The least number of steps after which a run has so many events."""
        least, most = 0, MOST_STEPS
        while least < most:
            middle = (least + most) // 2
            if len(self.run(command, data, middle).trace) < events:
                least = middle + 1
            else:
                most = middle
        return least


def main():
    """Checks the pairs of the seeds that the words name; the exit status."""
    words = arguments(__doc__, 300)
    counts, failed = collections.Counter(), 0
    cases = [Case(seed, words.secomp) for seed in range(words.seed, words.seed + words.texts)]
    with ThreadPoolExecutor(2) as pool:
        for case, (wrong, kinds) in zip(cases, pool.map(Case.check, cases)):
            counts.update(kinds)
            if wrong:
                failed += 1
                print("seed %d, set %s: %s" % (case.seed, " ".join(case.secret), "; ".join(wrong)), flush=True)
                keep(words.keep, case)
    print("pairs %d, by their traces: %s" % (words.texts, ", ".join(
        "%s %d" % (kind, count) for kind, count in sorted(counts.items()))))
    print("%d passed, %d failed" % (words.texts - failed, failed))
    return 1 if failed else 0


if __name__ == "__main__":
    sys.exit(main())
