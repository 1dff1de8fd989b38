"""Machine code of RV32IM from numbers, for tools/attack, tools/foreign and bench/given.py: instructions one by
one, pieces of code that are drawn at random, and objects.

This file stands alone, since it is copied to other machines. Nothing of it is proved.
"""
import struct

CODE_START, DATA_START, STRETCH, STACK = 0x01000000, 0x10000000, 0x100000, 0x10000
EBREAK, ECALL, RETURN = 0x00100073, 0x00000073, 0x00008067
ZERO, RA, SP, T0, T1, A0, A7 = 0, 1, 2, 5, 6, 10, 17
INPUT, OUTPUT = 1, 2


def code_start(number):
    return CODE_START + number * STRETCH


def globals_start(number):
    return DATA_START + number * STRETCH + STACK


def load_word(register, value):
    """Two instructions that put a word into a register."""
    low = (value & 0xfff) - (0x1000 if value & 0x800 else 0)
    return [((value - low) & 0xfffff000) | register << 7 | 0x37, add_number(register, register, low)]


def add_number(to, register, value):
    """addi: a register plus a number of 12 bits with its sign."""
    return (value & 0xfff) << 20 | register << 15 | to << 7 | 0x13


def add(to, one, other):
    return other << 20 | one << 15 | to << 7 | 0x33


def load(to, register, offset):
    """lw"""
    return (offset & 0xfff) << 20 | register << 15 | 2 << 12 | to << 7 | 0x03


def store(register, base, offset):
    """sw"""
    return (offset >> 5 & 0x7f) << 25 | register << 20 | base << 15 | 2 << 12 | (offset & 0x1f) << 7 | 0x23


def jump(offset):
    """jal that keeps no return address."""
    imm = offset & 0x1fffff
    return (imm >> 20) << 31 | (imm >> 1 & 0x3ff) << 21 | (imm >> 11 & 1) << 20 | (imm >> 12 & 0xff) << 12 | 0x6f


def branch(kind, one, other, offset):
    """A branch: kind 0 where two registers are equal, 1 where they aren't, 6 where one is below the other."""
    imm = offset & 0x1fff
    return ((imm >> 12) << 31 | (imm >> 5 & 0x3f) << 25 | other << 20 | one << 15 | kind << 12
            | (imm >> 1 & 0xf) << 8 | (imm >> 11 & 1) << 7 | 0x63)


def call_at(address):
    """A call: only a jump that keeps its return address in ra is one."""
    return load_word(T0, address) + [T0 << 15 | RA << 7 | 0x67]


def written(words):
    """The bytes of instructions."""
    return struct.pack("<%dI" % len(words), *(word & 0xffffffff for word in words))


class Code:
    """Instructions of a compartment, from random numbers. It knows the addresses that enter each compartment, and those
    that it imports."""

    def __init__(self, draw, number, entries, imported):
        self.draw, self.number, self.entries, self.imported = draw, number, entries, imported

    def address(self):
        """An address of data: mostly around the compartment's own globals, else around another's or anywhere."""
        owner = self.number if self.draw.random() < 0.6 else self.draw.randrange(len(self.entries))
        near = globals_start(owner) + 4 * self.draw.randrange(-8, 16)
        return near if self.draw.random() < 0.9 else self.draw.getrandbits(32)

    def call(self):
        """A call of what the compartment imports, or of any export."""
        targets = self.imported
        if not targets or self.draw.random() < 0.1:
            targets = [entry for entries in self.entries for entry in entries]
        return call_at(self.draw.choice(targets)) if targets else [EBREAK]

    def memory(self):
        """A load or a store."""
        is_load = self.draw.random() < 0.5
        return load_word(T1, self.address()) + [load(A0, T1, 0) if is_load else store(A0, T1, 0)]

    def system(self):
        """A system call, mostly of input or output."""
        return load_word(A7, self.draw.choice([1, 2, 2, 3, 4, 5])) + [ECALL]

    def near(self):
        """A branch or a jump a few instructions away."""
        offset = 4 * self.draw.randrange(-4, 6)
        if self.draw.random() < 0.5:
            return [branch(self.draw.choice([0, 1]), A0, A0 + 1, offset)]
        return [jump(offset)]

    def number_of_any(self):
        """A number in a register of arguments."""
        small = self.draw.choice([0, 1, 2, 3, 5, 7, 100, -1, 0x7fffffff, 0x80000000])
        return load_word(A0 + self.draw.randrange(8), small)

    def piece(self):
        """A few instructions."""
        kinds = [self.call, self.memory, self.system, self.near, lambda: [RETURN], self.number_of_any,
                 lambda: [EBREAK], lambda: [self.draw.getrandbits(32)]]
        return self.draw.choices(kinds, [6, 5, 4, 3, 4, 8, 0.3, 0.5])[0]()

    def words(self, count):
        """Code with one word at least for each of `count` places."""
        words = []
        while len(words) < count or self.draw.random() < 0.9 and len(words) < 200:
            words += self.piece()
        return words


def head_length(data):
    """How many bytes of an object come before its heap bit: the head, and what each compartment shows."""
    at = 9
    for _ in range(data[6]):
        at += 2 + data[at]
        count, at = int.from_bytes(data[at:at + 2], "little"), at + 2
        for _ in range(count):
            at += 3 + data[at]
        at += 2 + 3 * int.from_bytes(data[at:at + 2], "little")
    return at


def object_of(own, heap, code, main_offset, data):
    """An object with the head of `own` and these parts."""
    words = (len(code).to_bytes(4, "little"), code, main_offset.to_bytes(4, "little"), len(data).to_bytes(4, "little"))
    return own[:head_length(own)] + bytes([heap]) + b"".join(words) + data
