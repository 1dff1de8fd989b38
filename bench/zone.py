#!/usr/bin/env python3
"""Times the heap of the machine: what a free and an allocation take together where n blocks of a word live, in
microseconds.

Usage: zone.py PROGRAM. PROGRAM is a built secomp. A program for `exec` fills its zone with n blocks, and then frees one
and takes one again in an endless loop; which one, a generator says. What the loop takes without the two calls, and the
filling, are taken off. It prints the best of three runs for each n.
"""
import subprocess
import tempfile
import time

from seeds import words_of

COUNTS = (100, 1_000, 10_000, 60_000)
ROUNDS = 100_000
A0, A1, A7, T0, S0, S1, S2, S3, S4 = 10, 11, 17, 5, 8, 9, 18, 19, 20
ECALL, NOTHING = 0x73, 0x13
FILL, LOOP = 7, 14


def add_imm(rd, rs, imm):
    return (imm & 0xFFF) << 20 | rs << 15 | rd << 7 | 0x13


def op(funct7, rs2, rs1, funct3, rd):
    return funct7 << 25 | rs2 << 20 | rs1 << 15 | funct3 << 12 | rd << 7 | 0x33


def upper(rd, imm):
    return imm << 12 | rd << 7 | 0x37


def loading(rd, word):
    """LUI and ADDI of a word below 2^31."""
    low = word & 0xFFF
    return [upper(rd, (word + 0x800) >> 12), add_imm(rd, rd, low)]


def shift(rd, rs, amount, right):
    return amount << 20 | rs << 15 | (5 if right else 1) << 12 | rd << 7 | 0x13


def load(rd, rs):
    return rs << 15 | 2 << 12 | rd << 7 | 0x03


def store(rs2, rs1):
    return rs2 << 20 | rs1 << 15 | 2 << 12 | 0x23


def back(lines):
    """JAL x0 to this many lines before."""
    to = -4 * lines & 0x1FFFFF
    return (to >> 20 & 1) << 31 | (to >> 1 & 0x3FF) << 21 | (to >> 11 & 1) << 20 | (to >> 12 & 0xFF) << 12 | 0x6F


def back_unless_equal(rs1, rs2, lines):
    to = -4 * lines & 0x1FFF
    return (to >> 12 & 1) << 31 | (to >> 5 & 0x3F) << 25 | rs2 << 20 | rs1 << 15 | 1 << 12 | (to >> 1 & 0xF) << 8 | (
        to >> 11 & 1) << 7 | 0x63


def program(count, calls):
    """The words, and how many steps come before the endless loop."""
    first = loading(S0, 0x1001_0000) + loading(S1, count) + loading(S4, 1_664_525) + [
        add_imm(S2, 0, 1), add_imm(A1, 0, 1), add_imm(A7, 0, 3), add_imm(T0, S0, 0), shift(S3, S1, 2, False),
        op(0, S0, S3, 0, S3)]
    fill = [add_imm(A0, 0, 1), ECALL, store(A0, T0), add_imm(T0, T0, 4), NOTHING, NOTHING, back_unless_equal(T0, S3, 6)]
    call, one = (ECALL, add_imm(A0, 0, 1)) if calls else (NOTHING, NOTHING)
    loop = [op(1, S4, S2, 0, S2), add_imm(S2, S2, 1), shift(T0, S2, 8, True), op(1, S1, T0, 7, T0),
            shift(T0, T0, 2, False), op(0, S0, T0, 0, T0), load(A0, T0), add_imm(A7, 0, 4), call, one,
            add_imm(A7, 0, 3), call, store(A0, T0)]
    return first + fill + loop + [back(len(loop))], len(first) + FILL * count


def image(words, count):
    code = b"".join(word.to_bytes(4, "little") for word in words)
    head = b"SCIM\x02\x00\x01\x00\x00\x00\x00\x01\x01A\x04\x00\x00\x00\x00"
    return head + len(code).to_bytes(4, "little") + code + (4 * count).to_bytes(4, "little") + bytes(4 * count)


def seconds(secomp, data, steps):
    with tempfile.NamedTemporaryFile() as it:
        it.write(data)
        it.flush()
        begin = time.perf_counter()
        with open(it.name, "rb") as source:
            words = [secomp, "exec", "--steps", str(steps)]
            ran = subprocess.run(words, stdin=source, capture_output=True, check=False)
        took = time.perf_counter() - begin
    if ran.stdout != b"stop steps\n":
        raise SystemExit(f"the program stopped: {ran.stdout + ran.stderr}")
    return took


def looping(secomp, count, calls):
    words, before = program(count, calls)
    data = image(words, count)
    filling = min(seconds(secomp, data, before) for _ in range(3))
    return min(seconds(secomp, data, before + LOOP * ROUNDS) for _ in range(3)) - filling


def main():
    program, = words_of(__doc__, "program")
    for count in COUNTS:
        took = looping(program, count, True) - looping(program, count, False)
        print(f"{count:6} {took / ROUNDS * 1e6:.2f}")


main()
