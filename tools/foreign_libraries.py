#!/usr/bin/env python3
"""Runs the programs of examples/foreign over the libraries that `examples/foreign/fetch` has fetched:
`foreign_libraries.py [--secomp PROGRAM] [--libraries FOLDER] [--only PROGRAM]`, at the top of the repository.

Each program gets its library's own test vectors, or what the library on this host makes, then a message that triggers
a fault which was put back into the library: the machine stops there, and the library without the fault answers. Of each
run `judge --image` accounts: the library's compartment alone is given, nobody is replaced, and the program's policy
holds. Without the cross compiler or the libraries it says that it didn't run. The last line counts; the status is 1 if
one failed.
"""
import argparse
import ctypes
import gzip
import os
import re
import subprocess
import sys
import tempfile
import zlib

from foreign_compile import demand
from foreign_program import Refused
from sections import TOP, count, program, read

MOST_EVENTS = 4096
INFLATE = [f"{name}.c" for name in ("adler32", "crc32", "inffast", "inflate", "inftrees", "zutil")]
# Of each program: its section, our file, the library's folder, its files, those of headers, and macros.
PROGRAMS = {
    "key": ("Json", "json.c", "jsmn", [], ".", []),
    "log": ("Zip", "zip.c", "zlib", INFLATE, ".", []),
    "account": ("Json", "orders.c", "cjson", ["cJSON.c"], ".", ["CJSON_NESTING_LIMIT=200"]),
    "blocks": ("Block", "block.c", "lz4", ["lib/lz4.c"], "lib", []),
}
# The state in which each program's policy ends, and that in which it stands where the faulty library is stopped.
STATES = {"key": ("kept", "kept"), "log": ("noted", "unpacking"), "account": ("paying", "paying"),
          "blocks": ("asked", "none")}
LITERAL = r'"(?:[^"\\]|\\.)*"'
PARSE = re.compile(rf"parse\(((?:{LITERAL}\s*)+),\s*(\w+),\s*(\d+)((?:[^()\"]|{LITERAL})*)\)\)")
JSMN = {"JSMN_ERROR_NOMEM": -1, "JSMN_ERROR_INVAL": -2, "JSMN_ERROR_PART": -3, "JSMN_OBJECT": 1, "JSMN_ARRAY": 2,
        "JSMN_STRING": 3, "JSMN_PRIMITIVE": 4}
# A token whose parent lies in another compartment's data, without a byte 0.
TOKEN = b"\x01" * 4 + b"\xff" * 8 + b"\x01" * 7 + b"\x40"


def words(data):
    """Bytes as outputs: four in each, the last filled with zeros, with signs."""
    data += bytes(-len(data) % 4)
    return [int.from_bytes(data[at:at + 4], "big", signed=True) for at in range(0, len(data), 4)]


def counted(data):
    return [len(data), *data]


def of_jsmn(folder):
    """The vectors of jsmn's own tests that fit: the text, and how many tokens of which kinds."""
    text = re.sub(r"#ifdef JSMN_STRICT.*?#(else|endif)", "", read(f"{folder}/test/tests.c").decode(), flags=re.S)
    for literals, status, most, rest in PARSE.findall(re.sub(r"/\*.*?\*/", "", text, flags=re.S)):
        data = "".join(re.findall(LITERAL, literals)).replace('""', "").strip('"').encode().decode("unicode_escape")
        kinds = [JSMN[name] for name in re.findall(r"JSMN_\w+", re.sub(LITERAL, "", rest))]
        found = JSMN[status] if status in JSMN else int(status)
        if found == -1 or len(kinds) > 16 or len(data) > 240 or "\0" in data or int(most) < len(kinds):
            continue
        shown = [value for kind in kinds for value in ([kind, 0] if kind == 4 else [kind])]
        yield data, list(data.encode("latin-1")), [found, *(shown if found > 0 else [])]


def of_zlib(folder):
    """Its test's greeting, and the beginning of its own documents, packed in each way."""
    texts = [b"hello, hello!\0", read(f"{folder}/README")[:1500], b"", bytes(5000)]
    for number, text in enumerate(texts):
        for level in (0, 1, 6, 9):
            for name, data in (("zlib", zlib.compress(text, level)), ("gzip", gzip.compress(text, level, mtime=0))):
                if len(data) < 2000 and len(data) + len(text) < 4500:
                    yield f"text {number}, {name}, level {level}", counted(data), [*words(text), len(text)]


def of_cjson(folder):
    """Its examples of texts, and how it prints them."""
    for number in range(1, 12):
        path = f"{folder}/tests/inputs/test{number}"
        if os.path.exists(path + ".expected"):
            data, wanted = read(path), read(path + ".expected")
            yield f"test{number}", [1, *counted(data)], words(wanted.rstrip(b"\n"))


def of_lz4(folder):
    """What the library, compiled for this host, makes of its documents' beginnings."""
    with tempfile.TemporaryDirectory() as made:
        words_of = ["cc", "-shared", "-fPIC", "-O1", f"{folder}/lib/lz4.c", "-o", f"{made}/lz4.so"]
        if subprocess.run(words_of, check=False).returncode:
            return
        library = ctypes.CDLL(f"{made}/lz4.so")
        texts = (read(f"{folder}/README.md")[:1400], b"hello, hello, hello, hello!", bytes(3000))
        for number, text in enumerate(texts):
            place = ctypes.create_string_buffer(8192)
            size = library.LZ4_compress_default(text, place, len(text), 8192)
            said = words(text)
            yield f"text {number}", [len(text), *counted(place.raw[:size])], [*said, int(said[0] == 1802005297)]


VECTORS = {"key": of_jsmn, "log": of_zlib, "account": of_cjson, "blocks": of_lz4}
EXTRA = b"\x1f\x8b\x08\x04\0\0\0\0\0\x03" + (200).to_bytes(2, "little") + b"x" * 200 + gzip.compress(b"hey!")[10:]
# A message that triggers the fault, and what the library without it answers.
FAULTS = {
    "key": ([*b"]".ljust(220), *TOKEN], [-2]),
    "log": (counted(EXTRA), [*words(b"hey!"), 4]),
    "account": ([0, *counted(b"[" * 3000)], [-1]),
    "blocks": ([-1, *counted(b"\xf0\x20" + b"x" * 40)], [0]),
}


class Runs:
    """The images of a program, with its library and with the faulty one, and their runs."""

    def __init__(self, name, libraries, secomp, made):
        self.name, self.libraries, self.secomp, self.made = name, libraries, secomp, made

    def build(self, fault=""):
        """Why the image couldn't be built."""
        section, ours, library, files, headers, macros = PROGRAMS[self.name]
        folder, here = f"{self.libraries}/{library}{fault}", f"{TOP}/examples/foreign"
        given = ",".join([f"{here}/{ours}", *(f"{folder}/{it}" for it in files)])
        command = [f"{TOP}/tools/foreign", "build", f"{here}/{self.name}.c", f"{section}={given}", "-I",
                   f"{folder}/{headers}", "-o", self.image(fault), *(f"-D{it}" for it in macros)]
        ran = subprocess.run(command, capture_output=True, text=True, check=False)
        return ran.stderr if ran.returncode else ""

    def image(self, fault=""):
        return f"{self.made}/{self.name}{fault}"

    def lines(self, command, numbers, given):
        """What a command writes for these bytes and inputs."""
        words = ["--steps=16777216", f"--events={MOST_EVENTS}", "--in=" + ",".join(map(str, numbers))]
        return subprocess.run([self.secomp, *command, *words], input=given, capture_output=True,
                              check=False).stdout.decode().splitlines()

    def run(self, numbers, fault=""):
        """What a run outputs, and how it stops."""
        lines = self.lines(["exec"], numbers, read(self.image(fault)))
        return [int(line.split()[2]) for line in lines if line.startswith("out ")], lines[-1] if lines else "nothing"

    def account(self, numbers, fault=""):
        """How the account of a run isn't as it must be: given is the library's compartment, nobody is replaced, and the
        policy holds."""
        here = f"{TOP}/examples/foreign/{self.name}"
        lines = self.lines(["judge", "--image"], numbers,
                           read(f"{here}.policy") + read(self.image(fault)) + read(f"{here}.c"))
        ran = self.lines(["exec"], numbers, read(self.image(fault)))
        section, state = PROGRAMS[self.name][0], STATES[self.name][bool(fault)]
        wanted = [f"given {section}", "chain 0", f"verdict holds {state}"]
        return "" if lines == ran + wanted else f"judge --image gives {lines[len(ran):]}, not {wanted}"


def tests(runs):
    """What goes wrong with a program, test by test."""
    if said := runs.build():
        yield f"{runs.name}: {said}"
        return
    for what, numbers, wanted in VECTORS[runs.name](f"{runs.libraries}/{PROGRAMS[runs.name][2]}"):
        if len(numbers) + 3 * len(wanted) + 20 > MOST_EVENTS:
            print(f"{runs.name}, {what} wasn't tried: its run takes more than {MOST_EVENTS} events")
            continue
        yield answer(runs, what, numbers, (wanted, "stop ended"))
    numbers, wanted = FAULTS[runs.name]
    yield answer(runs, "the message", numbers, (wanted, "stop ended"))
    if said := runs.build("-fault"):
        yield f"{runs.name} with its fault: {said}"
        return
    _, stop = runs.run(numbers, "-fault")
    said = runs.account(numbers, "-fault") if stop.startswith("stop trap owner") else stop
    yield said and f"{runs.name} with its fault: {said}"


def answer(runs, what, numbers, wanted):
    """What is wrong with a run, or with its account."""
    came = runs.run(numbers)
    said = f"gives {came}, not {wanted}" if came != wanted else runs.account(numbers)
    return said and f"{runs.name}, {what}: {said}"


def main():
    options = argparse.ArgumentParser(description=__doc__.split("\n", maxsplit=1)[0])
    cache = os.environ.get("XDG_CACHE_HOME") or os.path.expanduser("~/.cache")
    options.add_argument("--secomp", metavar="PROGRAM", help="the program in place of what ./secomp runs")
    options.add_argument("--libraries", metavar="FOLDER", default=f"{cache}/secomp-foreign", help="where they are")
    options.add_argument("--only", choices=list(PROGRAMS), help="only this program")
    given = options.parse_args()
    try:
        demand("gcc")
    except Refused as refused:
        print(f"examples/foreign wasn't run: {refused}")
        return 0
    if not os.path.isdir(f"{given.libraries}/cjson-fault"):
        print(f"examples/foreign wasn't run: {given.libraries} has no libraries; examples/foreign/fetch fetches them")
        return 0
    os.environ["SECOMP"] = os.path.abspath(given.secomp) if given.secomp else program()
    with tempfile.TemporaryDirectory() as made:
        every = [Runs(name, given.libraries, os.environ["SECOMP"], made) for name in PROGRAMS
                 if given.only in (None, name)]
        return count(answer for runs in every for answer in tests(runs))


if __name__ == "__main__":
    sys.exit(main())
