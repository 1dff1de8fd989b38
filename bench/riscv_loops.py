#!/usr/bin/env python3
"""Writes the machine's benchmark loops as programs for qemu-riscv32.

Usage: riscv_loops.py FOLDER. Each program runs its loop ITERATIONS times and exits; the file `counts` says how many
instructions each executes. The words are those of LOOPS in machine_main.txt.
"""
import struct

from seeds import words_of

ITERATIONS = 0x20000 << 12

# name: instructions before the loop, instructions in the loop, words
LOOPS = {
    "jumps": (1, 2, [0x20000437, 0xFFF40413, 0xFE041EE3]),
    "memory": (2, 8, [0x20000437, 0xFC010293, 0x0002A303, 0x00130313, 0x0062A023, 0x0042A383, 0x006383B3, 0x0072A423,
                      0xFFF40413, 0xFE0412E3]),
    "products": (3, 6, [0x20000437, 0x00300293, 0x00700313, 0x02530333, 0x026282B3, 0x00130313, 0x025302B3, 0xFFF40413,
                        0xFE0416E3]),
}

# addi a0,x0,0; addi a7,x0,93; ecall: the system's `exit`
EXIT = [0x00000513, 0x05D00893, 0x00000073]

BASE = 0x10000


def elf(words):
    """A static executable of 32 bits with this code."""
    code = b"".join(struct.pack("<I", w) for w in words)
    start = 52 + 32
    size = start + len(code)
    head = b"\x7fELF\x01\x01\x01" + bytes(9)
    head += struct.pack("<HHIIIIIHHHHHH", 2, 243, 1, BASE + start, 52, 0, 0, 52, 32, 1, 0, 0, 0)
    segment = struct.pack("<IIIIIIII", 1, 0, BASE, BASE, size, size, 5, 0x1000)
    return head + segment + code


def main():
    folder, = words_of(__doc__, "folder")
    with open(f"{folder}/counts", "w") as counts:
        for name, (before, inside, words) in LOOPS.items():
            with open(f"{folder}/{name}", "wb") as out:
                out.write(elf(words + EXIT))
            counts.write(f"{name} {before + inside * ITERATIONS + len(EXIT)}\n")


main()
