"""What the modules of the porter share: the refusal, and the names that the target language reserves."""
from contextlib import contextmanager

RESERVED = set("""auto break case char const continue default do double else enum extern float for goto if inline int
long register restrict return short signed sizeof static struct switch typedef union unsigned void volatile while
_Alignas _Alignof _Atomic _Bool _Complex _Generic _Imaginary _Noreturn _Static_assert _Thread_local malloc free
""".split())
MOST_NAME = 63
MOST_PARAMETERS = 8


class Refused(Exception):
    """A construct that the porter does not translate, with its place in the user's file."""

    def __init__(self, coord, what):
        super().__init__(what)
        self.coord, self.what = coord, what

    def message(self):
        file = getattr(self.coord, "file", None) or "?"
        return f"{file}:{getattr(self.coord, 'line', None) or 0}: refused: {self.what}"


@contextmanager
def placed(body):
    """A refusal without a place gets that of the statement or declaration at which the translator is."""
    try:
        yield
    except Refused as refusal:
        refusal.coord = refusal.coord or body.coord
        raise


class Names:
    """Hands out names of the target language that are used nowhere else in one section."""

    def __init__(self, taken=(), section=None):
        self.taken, self.section, self.inner = set(RESERVED) | set(taken), section, set()

    def is_taken(self, name):
        return name in self.taken or name in self.inner or self.section is not None and name in self.section.taken

    def fresh(self, wanted):
        wanted = wanted[:MOST_NAME - 6]
        if wanted.startswith("bt_"):
            wanted = "p_" + wanted
        name, number = wanted, 1
        while self.is_taken(name):
            number += 1
            name = f"{wanted}_{number}"
        return name

    def take(self, wanted):
        name = self.fresh(wanted)
        self.taken.add(name)
        if self.section is not None:
            self.section.inner.add(name)
        return name
