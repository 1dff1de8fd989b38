"""What tools/where --full says of a blame, by the tools' own evaluation of the text. Nothing here is proved."""
from c_program import Program
from c_run import Evaluation
from command import MOST_EVENTS, MOST_STEPS, Refused, decoded
from inputs import as_words
from sections import secomp

MOST_TURNS = 2_000_000


class Details:
    """Evaluates the texts of a chain as they are asked for."""

    def __init__(self, path, data, values, events):
        self.path, self.data, self.values, self.events = path, data, values, events
        self.first = {part.name: part.first for part in Program(decoded(data)).parts}
        self.own, self.replaced = None, set()

    def text(self, links):
        """The text after so many replacements; the program's own is the first."""
        if not links:
            return self.data
        words = ["explain", f"--steps={MOST_STEPS}", f"--events={max(len(self.events), 1)}", f"--show={links}",
                 *as_words(self.values)]
        out, said, status = secomp(words, self.data)
        if status:
            raise Refused(f"{self.path}: {said.strip()}")
        return out

    def evaluated(self, links):
        program = Program(decoded(self.text(links)))
        if program.faults:
            raise Refused(f"{self.path}: this tool doesn't understand the text: {program.faults[0].text}")
        turns = min(MOST_STEPS, MOST_TURNS)
        ran = Evaluation(program, self.values, turns, min(len(self.events) + 1, MOST_EVENTS)).run()
        if links == 0:
            self.own = ran
        return ran

    def show(self, links, wanted):
        """Says more of the blame of the text after so many replacements: of whom, for what, at which line; none where
        the machine trapped and the meaning is asked."""
        ran = self.evaluated(links)
        if ran.stop == "stop turns":
            print("    (the tool's own evaluation takes more than 2,000,000 turns: nothing more is said)")
            return
        if ran.blame is None:
            if wanted is None:
                return
            raise Refused(f"the tool's own evaluation ends otherwise: {ran.stop}; the report isn't of this text, or "
                          "the tool is wrong")
        found = (ran.frames[-1].part.name, ran.blame.cause, ran.blamed_line)
        if wanted not in (None, found) or ran.events != self.events[:len(ran.events)]:
            raise Refused(f"the tool's own evaluation ends otherwise: {ran.stop} after {len(ran.events)} events; the "
                          "report isn't of "
                          "this text, or the tool is wrong")
        for line in self.lines(ran):
            print(f"    {line}")
        self.replaced.add(found[0])

    def lines(self, ran):
        """The lines of a blame, by a second evaluation."""
        blame, part = ran.blame, ran.frames[-1].part
        after = len(ran.events)
        yield f"after event {after}" + (f", `{ran.events[-1]}`" if after else "") + ", by the tool's own evaluation:"
        if blame.text:
            yield blame.text
        if blame.block is not None:
            what = blame.block.described(self.first.get(blame.block.comp, part.first))
            yield f"{'index' if blame.cause == 'OutOfBounds' else 'at cell'} {blame.index} of {what}"
        for frame in reversed(ran.frames):
            inside = f"{frame.function.name} of {frame.part.name}"
            yield f"in {inside}, {self.called(ran, frame)}"

    def called(self, ran, frame):
        """From where an open function was called; the lines of a section that was replaced are no lines of the file."""
        at = ran.frames.index(frame)
        if not at:
            return "where the run begins"
        caller = ran.frames[at - 1].part.name
        if caller in self.replaced:
            return f"called by what replaces {caller}"
        return f"called at line {frame.line + self.first.get(caller, 1) - 1}"

    def show_inner(self):
        """Says where the run leaves an inner array and stays in its variable, which is no fault here and one in C."""
        ran = self.own or self.evaluated(0)
        shown = set()
        for after, part, line, name, index, length, block in ran.inner:
            if (part.name, line) not in shown:
                shown.add((part.name, line))
                at = line + self.first.get(part.name, 1) - 1
                print(f"{self.path}:{at}: after event {after}: the index {index} leaves {name} of {length} elements "
                      "and stays in "
                      f"{block.name or 'its block'}: no fault here, and one in C")
