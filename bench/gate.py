#!/usr/bin/env python3
"""Runs the gate in a clone, all of it from nothing, and prints the processor minutes of each crate, split into its
proof, its tests and its edits, the sums, and the longest chain of crates that prove one after another.

It looks at the processes of the run three times a second, so that what lasts less is missed; times are those of the
processors, so other work beside it changes them a little. It takes as long as the gate does. The gate's last line is
printed last. A clone that it made, several GB when the gate has run in it, is removed at the end; the gate's output
stays beside it.

usage: bench/gate.py [FOLDER]     FOLDER: a clone that is there, in place of a new one
"""
import collections
import os
import re
import shutil
import subprocess
import sys
import tempfile
import time

from seeds import words_of

TICKS = os.sysconf("SC_CLK_TCK")
KINDS = ["proof", "tests", "edits"]


def libraries(top):
    """The crates that each crate of crates.txt stands on."""
    below = {}
    for line in open(os.path.join(top, "crates.txt"), encoding="utf-8"):
        name, colon, rest = line.split("#")[0].partition(":")
        if colon:
            below[name.strip().split(" ")[0]] = rest.split()
    return {name: [crate for crate in rest if crate in below] for name, rest in below.items()}


def kind_of(folder, words, tops):
    """The crate that a process works for, and at what, or None. The gate works in the clone or in a copy of it."""
    named = re.search(r" --crate-name (\w+)", words)
    if "/rt-edit-" in folder:
        return (named.group(1), "edits") if named else None
    crate = re.search(r"/crates/(\w+)", folder)
    if not crate or not any(top in folder for top in tops):
        return None
    return crate.group(1), "tests" if " --test" in words else "proof"


def sample(tops, seen):
    """Notes the processor seconds of each process that works for a crate."""
    for process in os.listdir("/proc"):
        if not process.isdigit():
            continue
        try:
            fields = open(f"/proc/{process}/stat", encoding="utf-8").read().rpartition(")")[2].split()
            key = (process, fields[19])
            if key not in seen:
                words = open(f"/proc/{process}/cmdline", encoding="utf-8").read().replace("\0", " ")
                seen[key] = [kind_of(os.readlink(f"/proc/{process}/cwd"), words, tops), 0.0]
            seen[key][1] = (int(fields[11]) + int(fields[12])) / TICKS
        except (OSError, ValueError, UnicodeDecodeError):
            continue


def chain(below, minutes):
    """The crates that prove one after another and take the longest in sum, and that sum."""
    found = {}

    def longest(crate):
        if crate not in found:
            best = max((longest(lower) for lower in below[crate]), default=(0.0, []))
            found[crate] = (best[0] + minutes.get((crate, "proof"), 0.0), best[1] + [crate])
        return found[crate]

    return max(longest(crate) for crate in below)


def main(words):
    top = os.path.dirname(os.path.dirname(os.path.realpath(__file__)))
    clone = os.path.realpath(words[0]) if words else os.path.join(tempfile.mkdtemp(), "clone")
    if not words:
        subprocess.run(["git", "clone", "-q", top, clone], check=True)
    log = open(clone + ".log", "w", encoding="utf-8")
    start = time.time()
    gate = subprocess.Popen(["rt", "ci", "--anew"], cwd=clone, stdout=log, stderr=subprocess.STDOUT)
    seen = {}
    while gate.poll() is None:
        sample([clone + "/", f"/rt-copy-{gate.pid}-"], seen)
        time.sleep(0.3)
    minutes = collections.Counter()
    for kind, seconds in seen.values():
        if kind:
            minutes[kind] += seconds / 60
    below = libraries(clone)
    print("| crate | " + " | ".join(KINDS) + " |\n|---|---|---|---|")
    for crate in below:
        print(f"| `{crate}` | " + " | ".join(f"{minutes[crate, kind]:.1f}" for kind in KINDS) + " |")
    sums = [sum(minutes[crate, kind] for crate in below) for kind in KINDS]
    print("| **sum** | " + " | ".join(f"**{each:.0f}**" for each in sums) + " |")
    length, crates = chain(below, minutes)
    print(f"longest chain: {length:.1f} minutes: {' '.join(crates)}")
    print(f"{(time.time() - start) / 60:.0f} minutes in all on {os.cpu_count()} processors; {clone}.log ends:")
    print(open(clone + ".log", encoding="utf-8").read().strip().splitlines()[-1])
    if not words:
        shutil.rmtree(clone)
    return gate.returncode


if __name__ == "__main__":
    sys.exit(main(words_of(__doc__, "folder?")))
