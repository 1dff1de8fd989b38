#!/usr/bin/env python3
"""Times `secomp exec` and `secomp tags` on the three endless loops of bench/machine.sh, on cross calls, and where
they only load.

Usage: exec.py PROGRAM. PROGRAM is a built secomp. A loop runs for 16,777,216 steps; what a run of no step takes,
which reads the image and loads it, is taken off. It prints million instructions a second, the best of six runs of
each, and how many times faster `exec` is. Cross calls are bounded by the 4,096 events of a run: for them it prints
instructions of the processor a step, which valgrind counts. Then the seconds of `--steps 0` on an image of 32
compartments with full globals, the best of three.
"""
import re
import shutil
import subprocess
import tempfile
import time

from seeds import words_of

STEPS = 16_777_216
SOURCE = __file__.rsplit("/", 1)[0] + "/machine_main.txt"
HEAD = b"SCIM\x01\x00\x01\x00\x00\x00\x00\x01\x01A\x03\x00\x00\x00\x00"
TAIL = b"\x00\x00\x00\x00"
COMMANDS = ("exec", "tags")


def number(value, size=4):
    return value.to_bytes(size, "little")


def loops():
    """The words of each loop, as the bench of the machine has them."""
    with open(SOURCE, encoding="utf-8") as it:
        text = it.read()
    for name in ("JUMPS", "MEMORY", "PRODUCTS"):
        words = re.search(rf"const {name}: \[u32; \d+\] = \[(.*?)\];", text, re.DOTALL)[1]
        yield name.lower(), [int(word, 16) for word in re.findall(r"0x[0-9a-f_]+", words)]


def calls():
    """An image that calls another compartment in an endless loop: lui t0,0x1100; jalr ra,0(t0); jal x0,-8; and there
    jalr x0,0(ra)."""
    code = b"".join(number(word) for word in (0x011002B7, 0x000280E7, 0xFF9FF06F))
    main = b"\x01A\x00" + number(0, 2) + number(1, 2) + b"\x01" + number(0, 2) + number(len(code)) + code + number(0)
    other = b"\x01B\x00" + number(1, 2) + b"\x01f\x00\x00" + number(0x01100000) + number(0, 2)
    other += number(4) + number(0x00008067) + number(0)
    return b"SCIM\x01\x00\x02\x00" + number(0x01000000) + main + other


def full():
    """An image of 32 compartments with full globals."""
    names = [b"C%d" % at for at in range(32)]
    rest = b"\x00" + number(0, 2) + number(0, 2) + number(4) + number(0x00008067) + number(458752) + bytes(458752)
    return b"SCIM\x01\x00\x20\x00" + number(0x01000000) + b"".join(bytes([len(name)]) + name + rest for name in names)


def run(words, image):
    with open(image, "rb") as it:
        return subprocess.run(words, stdin=it, capture_output=True, check=False)


def seconds(program, command, image, steps, times=6):
    """The least seconds of a run."""
    spent = []
    for _ in range(times):
        begin = time.perf_counter()
        run([program, command, "--steps", str(steps)], image)
        spent.append(time.perf_counter() - begin)
    return min(spent)


def instructions(program, command, image, events):
    """How many instructions of the processor a run takes."""
    words = ["valgrind", "--tool=callgrind", "--callgrind-out-file=/dev/null"]
    words += [program, command, "--events", str(events)]
    return int(re.search(rb"Collected : (\d+)", run(words, image).stderr)[1])


def main():
    program, = words_of(__doc__, "program")
    with tempfile.NamedTemporaryFile() as image:
        def put(data):
            image.seek(0)
            image.truncate()
            image.write(data)
            image.flush()
        for name, words in loops():
            code = b"".join(number(word) for word in words)
            put(HEAD + number(len(code)) + code + TAIL)
            spent = [[seconds(program, each, image.name, steps) for steps in (0, STEPS)] for each in COMMANDS]
            rates = [STEPS / (whole - start) / 1e6 for start, whole in spent]
            print(f"{name:9} exec {rates[0]:6.1f}  tags {rates[1]:6.1f}  {rates[0] / rates[1]:.1f} times")
        if shutil.which("valgrind"):
            put(calls())
            # a round has four instructions and two events
            counts = [[instructions(program, each, image.name, events) for events in (0, 4096)] for each in COMMANDS]
            plain, tagged = [(whole - start) / (2048 * 4) for start, whole in counts]
            print(f"calls     exec {plain:6.0f}  tags {tagged:6.0f} instructions a step, {tagged / plain:.1f} times")
        put(full())
        print("load      exec %.2f  tags %.2f s" % tuple(seconds(program, each, image.name, 0, 3) for each in COMMANDS))


main()
