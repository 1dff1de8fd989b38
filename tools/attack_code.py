"""Makes machine code that shows a finding smaller: instructions are left out as long as it shows the same.

Jumps and branches within the code go where they went, or behind it. Nothing of this is proved.
"""
from attack_shrink import TRAP, Shown, compartment_at
from machine_code import branch, jump

BUDGET = 250
JUMP, BRANCH = 0x6f, 0x63


def signed(value, bits):
    return value - (1 << bits) if value >> (bits - 1) & 1 else value


def offset_of(word):
    """How far a jump or a branch goes, in bytes; none of another instruction."""
    if word & 0x7f == JUMP:
        return signed(word >> 31 << 20 | word & 0xff000 | (word >> 20 & 1) << 11 | (word >> 21 & 0x3ff) << 1, 21)
    if word & 0x7f == BRANCH:
        return signed(word >> 31 << 12 | (word >> 7 & 1) << 11 | (word >> 25 & 0x3f) << 5 | (word >> 8 & 0xf) << 1, 13)
    return None


class Instruction:
    """An instruction, its place in the code that it is from, and the place there to which it jumps, if to one."""

    def __init__(self, place, word):
        offset = offset_of(word)
        self.place, self.word = place, word
        self.target = None if offset is None or offset % 4 else place + offset // 4

    def moved(self, here, target):
        """The instruction at this place, with its target at that one."""
        offset = 4 * (target - here)
        if self.word & 0x7f == JUMP:
            return jump(offset) | self.word & 0xf80
        return branch(self.word >> 12 & 7, self.word >> 15 & 31, self.word >> 20 & 31, offset)


def placed(instructions, least):
    """The words of what is left of a code: a jump to what was left out goes to what follows it. At the end stand zeros
    up to a number of words."""
    words = []
    for here, each in enumerate(instructions):
        if each.target is None:
            words.append(each.word)
        else:
            after = (at for at, other in enumerate(instructions) if other.place >= each.target)
            words.append(each.moved(here, next(after, len(instructions))))
    return words + [0] * (least - len(words))


class Fewer:
    """The code so far, and what it shows."""

    def __init__(self, plan, kind, shown):
        self.plan, self.kind, self.shown, self.runs = plan, kind, shown, 0
        self.code, self.heaps, self.end = {}, {}, self.end_of(shown.behaviour)
        for name in plan.faces:
            words, self.heaps[name] = plan.code_of(name, shown.behaviour)
            self.code[name] = [Instruction(place, word & 0xffffffff) for place, word in enumerate(words)]

    def end_of(self, behaviour):
        """How the run ends, and of a trap in whom."""
        last = self.plan.report("run", behaviour)[-1]
        trap = TRAP.fullmatch(last)
        return (trap[1], compartment_at(int(trap[2], 16), self.plan.data["names"])) if trap else last

    def without(self, name, start, stop):
        """Leaves some instructions out, if the rest shows the same after the same events, and ends so."""
        self.runs += 1
        code = {**self.code, name: self.code[name][:start] + self.code[name][stop:]}
        words = {each: [placed(code[each], len(self.plan.faces[each].functions())), self.heaps[each]] for each in code}
        tried = Shown(self.plan, self.kind, {**self.shown.behaviour, "words": words})
        if tried.key != self.shown.key or tried.trace != self.shown.trace or self.end_of(
                tried.behaviour) != self.end:
            return False
        self.code, self.shown = code, tried
        return True

    def less(self, name):
        size = len(self.code[name]) // 2
        while size:
            start = 0
            while start < len(self.code[name]) and self.runs < BUDGET:
                start += 0 if self.without(name, start, start + size) else size
            size //= 2


def fewest(plan, kind, shown):
    """What shows the same with the least code that was found."""
    work, before = Fewer(plan, kind, shown), None
    while before != (before := sum(map(len, work.code.values()))) and work.runs < BUDGET:
        for name in plan.faces:
            work.less(name)
    return work.shown
