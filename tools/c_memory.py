"""The memory of a run, by docs/LANGUAGE.md, with what is known of each block: whose it is, where it was made and
freed. A value is a word from 0 to 2^32 - 1, NULL, or a pointer: a pair of a block and an index in cells. Nothing here
is proved."""
ZONE_WORDS = 65536
NULL = "null"


class Blame(Exception):
    """A cause of undefined behaviour, and what was meant: the block, the index, or words."""

    def __init__(self, cause, text="", block=None, index=None):
        super().__init__(cause)
        self.cause, self.text, self.block, self.index = cause, text, block, index


class Block:
    """The cells of a variable or of what malloc made."""

    def __init__(self, comp, name, cells, line, function=None):
        self.comp, self.name, self.cells, self.line, self.function = comp, name, cells, line, function
        self.ended, self.first, self.is_heap = None, None, False

    def described(self, first_line):
        """What a block is, in words; lines of its section are counted in the file."""
        count = f"{len(self.cells)} cell{'s' * (len(self.cells) != 1)}"
        if self.is_heap:
            line = self.line + first_line - 1
            text = f"a block of {count} that {self.function} of {self.comp} allocated at line {line}"
        elif self.function:
            text = f"{self.name}, a variable of {count} of {self.function} in {self.comp}"
        else:
            text = f"{self.name}, a global of {count} of {self.comp}"
        if self.ended is None:
            return text
        if self.is_heap:
            return f"{text} and that was freed at line {self.ended + first_line - 1}"
        return f"{text}, which ended with the call"


def is_pointer_value(value):
    return isinstance(value, tuple)


def target(value):
    """The block and index of a place that is used."""
    if value is NULL:
        raise Blame("NullUse", "null is used as a pointer")
    if not is_pointer_value(value):
        raise Blame("BadType", "an integer is used as a pointer")
    return value


def moved(place, by):
    """The place `by` cells after another, within its block or one past its end."""
    block, index = target(place)
    if block.ended is not None:
        raise Blame("Dangling", "", block, index)
    if not 0 <= index + by <= len(block.cells):
        raise Blame("OutOfBounds", "", block, index + by)
    return block, index + by


def cell(place):
    block, index = target(place)
    if block.ended is not None:
        raise Blame("Dangling", "", block, index)
    if index >= len(block.cells):
        raise Blame("OutOfBounds", "", block, index)
    return block, index


def load(place, wants_pointer):
    block, index = cell(place)
    value = block.cells[index]
    if value is None:
        raise Blame("Indeterminate", "the cell holds nothing yet", block, index)
    if is_pointer_value(value) and value[0].ended is not None:
        raise Blame("Dangling", "the pointer leads to what has ended", value[0], value[1])
    if wants_pointer != (is_pointer_value(value) or value is NULL):
        raise Blame("BadType", f"{'an integer' if wants_pointer else 'a pointer'} stands there", block, index)
    return value


def store(place, value):
    block, index = cell(place)
    block.cells[index] = value


class Zones:
    """What each compartment allocated."""

    def __init__(self):
        self.of = {}

    def allocate(self, comp, words, line, function):
        live = sorted((block for block in self.of.setdefault(comp, []) if block.ended is None), key=lambda it: it.first)
        first = 0
        for block in live:
            if block.first - first >= words:
                break
            first = block.first + len(block.cells)
        if not words or first + words > ZONE_WORDS:
            return NULL
        made = Block(comp, "", [None] * words, line, function)
        made.is_heap, made.first = True, first
        self.of[comp] = [*live, made]
        return made, 0


def free(value, line):
    if value is NULL:
        return
    block, index = target(value)
    if index or block.ended is not None or not block.is_heap:
        why = "it isn't its start" if block.is_heap else "it is a variable"
        raise Blame("BadFree", f"what is freed is no allocated block: {why}", block, index)
    block.ended = line
