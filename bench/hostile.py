#!/usr/bin/env python3
"""Runs `secomp` on inputs that were broken on purpose, made from seeds, and holds every answer to what it may be.

Texts (tokens doubled, dropped, swapped and from another text; sections cut, doubled, joined and swapped; trees and
brackets at their limits; names of 63 bytes that differ in the last), images, objects and policies (bytes changed,
cut, doubled, moved and from another file; numbers at their limits; words and lines of policies). An answer is one of
the stated statuses, whose words have its form, with nothing written but by status 0, whose output has the command's
form. Of images, objects and policies a second reader (`readers.py`) says which answer it has to be. No run takes
longer than `--seconds` of processor time or more memory than `--memory` MiB. At the end stand the slowest and the
largest run of each kind.

usage: bench/hostile.py [--count N] [--seed S] [--kinds KIND,..] [--secomp PROGRAM] [--keep DIR] [--seconds T]
       [--memory M]
"""
import argparse
import collections
import glob
import os
import random
import re
import resource
import sys
from concurrent.futures import ProcessPoolExecutor

sys.dont_write_bytecode = True
from outsider_texts import Maker
from readers import bad_policy_line, form_of, image_cause, link_answer
from seeds import TOP

KINDS = ["texts", "images", "objects", "policies"]
TOKEN = re.compile(rb"//[^\n]*|/\*.*?\*/|[A-Za-z_]\w*|0[xX][0-9a-fA-F]+u?|\d+u?|<<=|>>=|->|\+\+|--|&&|\|\||"
                   rb"[-+*/%&|^<>=!]=|<<|>>|#pragma[^\n]*|\s+|.", re.S)
COMMANDS = [["check"], ["meaning", "--turns", "5000"], ["compile"], ["run", "--steps", "20000"],
            ["object", "--section", "Main"], ["explain", "--steps", "20000", "--events", "64"]]
# Names that a text keeps where others are made long.
KEPT = set(b"""int unsigned void if else while for return struct sizeof break continue main input output malloc free
pragma import export compartment do x u""".split())
NUMBERS = [0, 1, 2 ** 32 - 1, 2 ** 31, 1048576, 1048577, 458752, 458753, 4096]
WORDS = [b"", b"*", b"deny", b"to", b"arg", b"9", b"<", b"2147483648", b"-1"]
Run = collections.namedtuple("Run", "status out err seconds kilobytes")


def file_of(data=b""):
    """A file in memory with these bytes, to be read from the start."""
    file = os.memfd_create("hostile")
    os.write(file, data)
    os.lseek(file, 0, os.SEEK_SET)
    return file


def run(program, words, data, seconds):
    """Runs the program on an input, for at most that many seconds of processor time."""
    files = [file_of(data), file_of(), file_of()]
    actions = [(os.POSIX_SPAWN_DUP2, file, to) for to, file in enumerate(files)]
    process = os.posix_spawn(program, [program, *words], {}, file_actions=actions)
    try:
        resource.prlimit(process, resource.RLIMIT_CPU, (seconds, seconds))
    except ProcessLookupError:
        pass
    _, status, used = os.wait4(process, 0)
    outputs = [os.pread(file, os.fstat(file).st_size, 0) for file in files[1:]]
    for file in files:
        os.close(file)
    return Run(os.waitstatus_to_exitcode(status), *outputs, used.ru_utime + used.ru_stime, used.ru_maxrss)


class Broken:
    """Inputs of each kind that are broken, made from what the program makes of whole texts."""

    def __init__(self, program, seconds, memory):
        self.program, self.seconds, self.memory = program, seconds, memory
        examples = glob.glob(TOP + "/examples/*.c") + glob.glob(TOP + "/examples/*/*.c")
        self.texts = [open(path, "rb").read() for path in sorted(examples)]
        self.texts += [Maker(seed).text().encode() for seed in range(1, 41)]
        self.images = [made.out for made in (self.run(["compile"], text) for text in self.texts) if made.status == 0]
        self.objects = [data for data in (self.objects_of(text) for text in self.texts) if data]
        policies = [open(path, "rb").read() for path in sorted(glob.glob(TOP + "/examples/*/*.policy"))]
        self.policies = [policy + random.Random(at).choice(self.texts) for at, policy in enumerate(policies * 4)]

    def run(self, words, data):
        """A run of the program."""
        return run(self.program, words, data, self.seconds)

    def objects_of(self, text):
        """The objects of all sections of a text, one after the other, or nothing where it is refused."""
        names = re.findall(rb"(?m)^#pragma compartment (\w+)", text)
        made = [self.run(["object", "--section", name.decode()], text) for name in names]
        return b"".join(each.out for each in made) if all(each.status == 0 for each in made) else b""

    def text(self, draw):
        """A text that is broken, and the words of a command."""
        ways = [self.broken_tokens, self.broken_tokens, self.broken_sections, self.high_tree, self.long_names]
        return draw.choice(COMMANDS), draw.choice(ways)(draw)[:1048600]

    def broken_tokens(self, draw):
        """A text with a few tokens doubled, dropped, swapped, or from another text."""
        tokens = TOKEN.findall(draw.choice(self.texts))
        others = TOKEN.findall(draw.choice(self.texts))
        for _ in range(draw.choice([1, 1, 1, 2, 3, 8])):
            at, to = draw.randrange(len(tokens)), draw.randrange(len(tokens))
            change = draw.randrange(5)
            if change == 0:
                tokens.insert(at, tokens[at])
            elif change == 1:
                del tokens[at]
            elif change == 2:
                tokens[at], tokens[to] = tokens[to], tokens[at]
            elif change == 3:
                tokens[at] = draw.choice(others)
            else:
                tokens[at] = bytes([draw.randrange(256)])
        return b"".join(tokens)

    def broken_sections(self, draw):
        """Sections of two texts, some cut, doubled, swapped or joined."""
        parts = re.split(rb"(?m)^(?=#pragma compartment )", draw.choice(self.texts))
        others = re.split(rb"(?m)^(?=#pragma compartment )", draw.choice(self.texts))
        for _ in range(draw.choice([1, 1, 2, 3])):
            at = draw.randrange(len(parts))
            change = draw.randrange(5)
            if change == 0:
                parts[at] = parts[at][:draw.randrange(len(parts[at]) + 1)]
            elif change == 1:
                parts.insert(at, parts[at])
            elif change == 2:
                draw.shuffle(parts)
            elif change == 3:
                parts.insert(at, draw.choice(others))
            else:
                parts[at] = re.sub(rb"^#pragma compartment \w+[^\n]*\n", b"", parts[at])
        return b"".join(parts)

    def high_tree(self, draw):
        """A text with a tree or brackets about as high as they may be."""
        height = draw.choice([254, 255, 256, 257, 1022, 1023, 1024, 1025, 5000])
        one, two = draw.choice([(b"~", b""), (b"(", b")"), (b"1+(", b")"), (b"-", b""), (b"a[", b"]"), (b"*&", b""),
                                (b"!", b""), (b"f(", b")"), (b"s.s", b".s"), (b"1-", b""), (b"(1)&&", b"")])
        shape = draw.choice([b"return %s;", b"if (%s) { }", b"output(%s);", b"a[%s] = 1;",
                             b"while (0) { a[0] = %s; }"])
        nested = shape % (one * height + b"1" + two * height)
        if draw.random() < 0.3:
            opening = draw.choice([b"if (1) ", b"while (0) ", b"{ ", b"for (;0;) "])
            nested = opening * height + b"; " + b"} " * height * draw.randrange(2)
        return (b"#pragma compartment Main\n#pragma import Env output\nvoid output(int v);\n"
                b"int main(void) {\n  int a[4];\n  %s\n  return 0;\n}\n" % nested)

    def long_names(self, draw):
        """A text whose names have 63 bytes, or one more, and differ in the last."""
        text, length = draw.choice(self.texts), draw.choice([62, 62, 62, 63])
        code = re.sub(rb"#pragma (compartment|import Env)[^\n]*", b"", text)
        names = [name for name in sorted(set(re.findall(rb"\b[a-z]\w*\b", code))) if name not in KEPT][:26]
        for at, name in enumerate(names):
            last = 97 + at - (draw.random() < 0.02 and at > 0)
            text = re.sub(rb"\b%s\b" % name, b"n" * length + bytes([last]), text)
        return text

    def broken_bytes(self, draw, files):
        """A file with some bytes changed, cut, doubled, moved, or from another file."""
        data = bytearray(draw.choice(files))
        for _ in range(draw.choice([1, 1, 1, 2, 4])):
            at = draw.randrange(min(len(data), draw.choice([16, 64, 256, 1 << 20])) or 1) if data else 0
            change = draw.randrange(7)
            if change == 0 and data:
                data[at] = draw.randrange(256)
            elif change == 1:
                del data[at:]
            elif change == 2:
                del data[at:at + draw.choice([1, 2, 4, 16])]
            elif change == 3:
                data[at:at] = data[at:at + draw.choice([1, 4, 16, 64])]
            elif change == 4:
                other = draw.choice(files)
                start = draw.randrange(len(other))
                data[at:] = other[start:]
            elif change == 5:
                data[at:at + 4] = draw.choice(NUMBERS).to_bytes(4, "little")
            else:
                data += bytes(draw.randrange(256) for _ in range(draw.randrange(1, 5)))
        return bytes(data)

    def image(self, draw):
        """An image that is broken, for one of the two machines, the one with tags with or without a range."""
        start = draw.choice([0x01000000, 0x01100000, 0x10000000, 0x10004000, draw.randrange(2 ** 32)])
        start = (start + draw.choice([0, 1, 4, 8])) % 2 ** 32
        size = min(draw.choice([0, 1, 4, 64]), 2 ** 32 - start)
        ranged = ["tags", "--data", "%d,%d,%d" % (start, size, draw.randrange(4))]
        words = draw.choice([["exec"], ["tags"], ranged]) + ["--steps", "20000", "--events", "64"]
        return words, self.broken_bytes(draw, self.images)

    def joined(self, draw):
        """Objects that are broken."""
        return ["link"], self.broken_bytes(draw, self.objects)

    def policy(self, draw):
        """A policy that is broken, and a text."""
        words = ["judge", "--steps", "20000", "--events", "64"]
        whole = draw.choice(self.policies)
        if draw.random() < 0.2:
            return words, self.broken_bytes(draw, self.policies)
        lines = whole.split(b"\n")
        last = next(at for at, line in enumerate(lines) if line == b"policy end")
        at = draw.randrange(last + 1)
        parts = lines[at].split(b" ")
        change = draw.randrange(6)
        if change == 0:
            lines[at:at] = [lines[at]] * draw.choice([1, 1, 255, 4096])
        elif change == 1:
            del lines[at]
        elif change == 2:
            parts.insert(draw.randrange(len(parts) + 1), draw.choice(WORDS))
        elif change == 3:
            del parts[draw.randrange(len(parts))]
        elif change == 4:
            parts[draw.randrange(len(parts))] = draw.choice(draw.choice(lines[:last + 1]).split(b" "))
        else:
            other = draw.randrange(last + 1)
            lines[at], lines[other] = lines[other], lines[at]
        if 2 <= change <= 4:
            lines[at] = b" ".join(parts)
        return words, b"\n".join(lines)

    def wrong(self, kind, words, data, ran):
        """What is wrong with an answer, or none."""
        if ran.kilobytes > self.memory << 10:
            return "it takes %d KiB" % ran.kilobytes
        form = form_of(words[0], ran.status, ran.out, ran.err)
        if form:
            return form
        if kind == "images":
            cause = image_cause(data)
            wanted = (0, b"") if cause is None else (6, b"secomp: bad image %d\n" % cause)
            without = words[0] == "tags" and "--data" not in words
            if without and ran[:3] != self.run(["exec", *words[1:]], data)[:3]:
                return "the machine with regions does something else"
        elif kind == "objects":
            status, error = link_answer(data)
            wanted = status, b"secomp: %s\n" % error.encode() if error else b""
        elif kind == "policies":
            line, _ = bad_policy_line(data)
            if (line is None) != (ran.status != 14):
                return "the second reader says %s" % line
            wanted = (14, b"secomp: bad policy line %d\n" % line) if line is not None else (ran.status, ran.err)
        else:
            return None
        return None if (ran.status, ran.err) == wanted else "the second reader says %d %r" % wanted


def share(words):
    """Keeps what all runs need in a process of the pool."""
    global shared
    shared = words


def part_of(kind, first, count):
    """Runs of one kind: statuses, the slowest, the largest, and what went wrong."""
    words, broken = shared, shared.broken
    make = {"texts": broken.text, "images": broken.image, "objects": broken.joined, "policies": broken.policy}[kind]
    statuses, slowest, largest, wrong = collections.Counter(), (0, 0), (0, 0), []
    for seed in range(first, first + count):
        command, data = make(random.Random("%s %d" % (kind, seed)))
        ran = broken.run(command, data)
        statuses[ran.status] += 1
        slowest, largest = max(slowest, (ran.seconds, seed)), max(largest, (ran.kilobytes, seed))
        problem = broken.wrong(kind, command, data, ran)
        if problem:
            wrong.append((seed, " ".join(command), problem))
            if words.keep:
                os.makedirs(words.keep, exist_ok=True)
                with open("%s/%s-%d" % (words.keep, kind, seed), "wb") as out:
                    out.write(data)
    return statuses, slowest, largest, wrong


def main():
    options = argparse.ArgumentParser(description=__doc__.split("\n")[0])
    options.add_argument("--count", type=int, default=1000)
    options.add_argument("--seed", type=int, default=1)
    options.add_argument("--kinds", default=",".join(KINDS))
    options.add_argument("--secomp", default=TOP + "/crates/secomp/out/secomp")
    options.add_argument("--keep")
    options.add_argument("--seconds", type=int, default=10)
    options.add_argument("--memory", type=int, default=512)
    words = options.parse_args()
    words.broken = Broken(words.secomp, words.seconds, words.memory)
    failed = 0
    with ProcessPoolExecutor(initializer=share, initargs=[words]) as pool:
        for kind in words.kinds.split(","):
            size = max(1, words.count // (os.cpu_count() * 4))
            starts = range(0, words.count, size)
            tasks = [(kind, words.seed + at, min(size, words.count - at)) for at in starts]
            parts = list(pool.map(part_of, *zip(*tasks)))
            statuses = sum((part[0] for part in parts), collections.Counter())
            slowest, largest = max(part[1] for part in parts), max(part[2] for part in parts)
            wrong = [each for part in parts for each in part[3]]
            counts = " ".join("%d: %d" % each for each in sorted(statuses.items()))
            print("%s: %d runs, statuses %s; slowest %.2f s (%d), largest %d KiB (%d); %d wrong" % (
                kind, words.count, counts, *slowest, *largest, len(wrong)))
            for seed, command, problem in wrong[:20]:
                print("  %s %d, %s: %s" % (kind, seed, command, problem))
            failed += len(wrong)
    return failed > 0


if __name__ == "__main__":
    sys.exit(main())
