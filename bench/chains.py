#!/usr/bin/env python3
"""Checks the chains of `secomp explain` from outside, on texts from seeds that use the heap, wrongly too.

The texts are those of `outsider_texts.py`. For each, `explain` gives the machine's trace and a chain, and:

- `run` gives the same trace and stop;
- the first text is the program, and each later one is the one before it but for the section of the compartment that
  the link names, byte for byte;
- `meaning` of each text but the last emits just the events before its link, and then blames the link's compartment, for
  its cause at its line; the links come after ever more events, and the compartments are distinct;
- `meaning` of the last text emits the trace;
- it doesn't where fewer sections are replaced, whichever they are.

usage: bench/chains.py [--texts N] [--seed S] [--secomp PROGRAM] [--keep DIR]
"""
import collections
import itertools
import re
import subprocess
import sys
from concurrent.futures import ThreadPoolExecutor

sys.dont_write_bytecode = True
from outsider_texts import Maker
from seeds import arguments, keep

LINK = re.compile(r"replace (\w+) after (\d+) (\w+) line (\d+)")
SECTION = re.compile(r"(?m)^(?=#pragma compartment )")
MOST_SETS = 64


def sections_of(text):
    """The preamble, and the sections by their compartments."""
    preamble, *sections = SECTION.split(text)
    return preamble, {section.split()[2]: section for section in sections}


class Case:
    """A text, with what the program says of it."""

    def __init__(self, seed, program):
        maker = Maker(seed)
        self.seed, self.program, self.text = seed, program, maker.text()
        self.inputs = ["--in=" + ",".join(map(str, maker.inputs))] if maker.inputs else []

    def lines(self, text, *words):
        """What a command writes for a text."""
        command = [self.program, *words, *self.inputs]
        run = subprocess.run(command, input=text.encode(), capture_output=True, check=False)
        return run.stdout.decode().splitlines() if run.returncode == 0 else [run.stderr.decode().strip()]

    def meaning(self, text):
        """The events of a text's meaning, and how it ends."""
        *events, stop = self.lines(text, "meaning", "--turns", "16777216", "--events", "4096")
        return events, stop

    def shown(self, count):
        """The text after so many replacements."""
        run = subprocess.run([self.program, "explain", "--show", str(count), *self.inputs], input=self.text.encode(),
                             capture_output=True, check=False)
        return run.stdout.decode()

    def check(self):
        """What is wrong, as a list; and how many links the chain has."""
        report = self.lines(self.text, "explain")
        at = next((i for i, line in enumerate(report) if line.startswith("chain ")), None)
        if at is None:
            return [" ".join(report)[-200:]], 0
        links = [LINK.fullmatch(line).groups() for line in report[at + 1:]]
        trace = report[:at - 1]
        wrong = [] if self.lines(self.text, "run") == report[:at] else ["run emits something else"]
        texts = [self.shown(count) for count in range(len(links) + 1)]
        wrong += ["the first text isn't the program"] if texts[0] != self.text else []
        wrong += self.check_links(links, trace, texts)
        events, _ = self.meaning(texts[-1])
        wrong += ["the last text doesn't mean the trace"] if events[:len(trace)] != trace else []
        return wrong + self.check_sets([link[0] for link in links], trace, texts[-1]), len(links)

    def check_links(self, links, trace, texts):
        """What is wrong with the links and what stands between them."""
        wrong, last = [], -1
        for number, (comp, after, cause, line) in enumerate(links):
            events, stop = self.meaning(texts[number])
            if stop.split() != ["stop", "blamed", comp, cause, line] or events != trace[:int(after)]:
                wrong.append("link %d isn't what the meaning blames" % number)
            if not last < int(after) < len(trace) + 1:
                wrong.append("link %d comes too early" % number)
            last = int(after)
            before, then = sections_of(texts[number]), sections_of(texts[number + 1])
            changed = [name for name in before[1] if before[1][name] != then[1].get(name)]
            if before[0] != then[0] or list(before[1]) != list(then[1]) or changed != [comp]:
                wrong.append("link %d replaces something else" % number)
        return wrong + (["a compartment is replaced twice"] if len({link[0] for link in links}) < len(links) else [])

    def check_sets(self, comps, trace, last):
        """What is wrong with the replaced set: a smaller one that has the trace."""
        preamble, own = sections_of(self.text)
        performing = sections_of(last)[1]
        smaller = (each for count in range(len(comps)) for each in itertools.combinations(comps, count))
        for each in itertools.islice(smaller, MOST_SETS):
            text = preamble + "".join(performing[name] if name in each else own[name] for name in own)
            events, stop = self.meaning(text)
            if events[:len(trace)] == trace and not (events == trace and stop.startswith("stop blamed")):
                return ["fewer are enough: " + (" ".join(each) or "none")]
        return []


def main():
    """Checks the texts of the seeds that the words name; the exit status."""
    words = arguments(__doc__, 500)
    counts, failed = collections.Counter(), 0
    cases = [Case(seed, words.secomp) for seed in range(words.seed, words.seed + words.texts)]
    with ThreadPoolExecutor(2) as pool:
        for case, (wrong, links) in zip(cases, pool.map(Case.check, cases)):
            counts[links] += 1
            if wrong:
                failed += 1
                print("seed %d: %s" % (case.seed, "; ".join(wrong)), flush=True)
                keep(words.keep, case)
    print("texts %d, by the length of the chain: %s" % (words.texts, ", ".join(
        "%d of %d" % (count, links) for links, count in sorted(counts.items()))))
    print("%d passed, %d failed" % (words.texts - failed, failed))
    return 1 if failed else 0


if __name__ == "__main__":
    sys.exit(main())
