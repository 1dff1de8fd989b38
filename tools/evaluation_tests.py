#!/usr/bin/env python3
"""Compares the tools' own evaluation, which tools/where --full shows, with the program's meaning on 300 texts from
seeds: 270 of bench/outsider_texts.py, which have faults of all causes, and 30 of `secomp make`. Events and ends must
be equal.

The last line counts; the status is 1 if one differed.
"""
import argparse
import os
import sys

from sections import TOP, count, secomp

sys.path.insert(0, os.path.join(TOP, "bench"))
from c_program import Program  # noqa: E402
from c_run import Evaluation  # noqa: E402
from outsider_texts import Maker  # noqa: E402

TURNS = 5000


def text_of(seed):
    if seed % 10 == 9:
        return secomp(["make", "--size=8", f"--seed={seed}"], b"")[0].decode()
    made = Maker(seed).text()
    return made if isinstance(made, str) else made[0]


def differs(seed):
    """How the two evaluations of a text differ, if they do."""
    text, values = text_of(seed), [(seed * 7 + at * 13) % 19 - 5 for at in range(9)]
    out, said, _ = secomp(["meaning", f"--turns={TURNS}", f"--in={','.join(map(str, values))}"], text.encode())
    program = Program(text)
    if program.faults:
        return f"seed {seed}: {program.faults[0].text}; the program says {said or 'nothing'}"
    ran = Evaluation(program, values, TURNS).run()
    wanted = out.decode().splitlines()
    if [*ran.events, ran.stop] == wanted:
        return ""
    return f"seed {seed}: {ran.stop} after {len(ran.events)} events, and the program has {wanted[-1:]}"


def main():
    made = argparse.ArgumentParser(description=__doc__, formatter_class=argparse.RawDescriptionHelpFormatter)
    made.add_argument("--texts", type=int, default=300)
    asked = made.parse_args()
    return count(differs(seed) for seed in range(1, asked.texts + 1))


if __name__ == "__main__":
    sys.exit(main())
