#!/usr/bin/env python3
"""Tests the tools that read the sources: tools/repeated.py, tools/out_of_memory.py, and the counts that may only fall.

The last line counts; the status is 1 if one failed.
"""
import argparse
import contextlib
import io
import os
import sys
import tempfile

import counts
from out_of_memory import places
from repeated import LEAST, Passages
from sections import count

FIRST = """//! What is there.
use sc_base::Name;
fn total_of(items: &[u32]) -> u32 {
    let mut sum = 0;
    for item in items {
        // the next one
        sum = sum.wrapping_add(*item);
    }
    let twice = sum.wrapping_mul(2);
    report("total", twice);
    check(sum, 3);
    finish(sum);
    finish(twice)
}
"""
RENAMED = FIRST.replace("sum", "total").replace("twice", "double").replace('"total"', '"double"')
LEMMAS = "use Rattle.std.specs.Prelude.{suc}\n" + "".join(
    f"half_{name} : (n : ℕ) → half (twice n) ≡ n\n"
    f"half_{name} zero = refl\nhalf_{name} (suc n) = ap suc (half_{name} n)\n"
    for name in ("one", "two", "three", "one_again", "two_again", "three_again"))
# The text of a file for a kind, what is changed in the copy, and how many pairs that gives.
COPIES = [
    ("the same", ".rt", FIRST, FIRST, 1),
    ("other names", ".rt", FIRST, RENAMED, 1),
    ("another shape after five lines", ".rt", FIRST, FIRST.replace("check(sum, 3)", "check(sum)"), 0),
    ("one name for two", ".rt", FIRST, FIRST.replace("twice", "sum"), 0),
    ("other imports and comments", ".rt", FIRST, FIRST.replace("use sc_base::Name;", "mod name;\n// More."), 1),
    ("nothing kept", ".antt", "f : A → B\n" * LEAST, "g : C → D\n" * LEAST, 0),
    ("within a file", ".antt", LEMMAS, "", 1),
]
SOURCE = """use sc_base::OutOfMemory;
impl From<OutOfMemory> for Fault {
    fn from(_: OutOfMemory) -> Fault { Fault::OutOfMemory }
}
pub fn passed(it: Fault) -> Result<u32, OutOfMemory>
    ensures { IfErr result (λ fault. fault ≡ OutOfMemory) }
{
    match it {
        Fault::OutOfMemory => Err(OutOfMemory),
        Fault::Other(at) => Ok(at),
    }
}
pub fn made(at: Option<u32>) -> Result<u32, OutOfMemory> {
    // OutOfMemory
    load(at).map_err(|Fault::OutOfMemory(_)| OutOfMemory)?;
    store(at).map_err(|_| OutOfMemory)?;
    if is_full(at) {
        return Err(OutOfMemory);
    }
    at.ok_or(OutOfMemory)
}
"""
MADE = ["store(at).map_err(|_| OutOfMemory)?;", "return Err(OutOfMemory);", "at.ok_or(OutOfMemory)"]


def written(folder, name, text):
    path = os.path.join(folder, name)
    with open(path, "w", encoding="utf-8") as it:
        it.write(text)
    return path


def silently(work, *words):
    with contextlib.redirect_stdout(io.StringIO()), contextlib.redirect_stderr(io.StringIO()):
        return work(*words)


def answers():
    with tempfile.TemporaryDirectory() as folder:
        for what, ending, first, second, wanted in COPIES:
            paths = [written(folder, f"{name}{ending}", text) for name, text in (("a", first), ("b", second))]
            found = list(Passages(paths).pairs())
            yield "" if len(found) == wanted else f"repeated, {what}: {found}, and {wanted} wanted"
        found = [place.partition(": ")[2] for place in places(written(folder, "c.rt", SOURCE))]
        yield "" if found == MADE else f"out_of_memory: {found}"
        counts.PATH = written(folder, "counts.txt", "a 3\nb 2\n")
        for numbers, wanted in (({"a": 3}, 0), ({"a": 4}, 1), ({"a": 1, "b": 2}, 0), ({"c": 1}, 1)):
            status = silently(counts.check, numbers, "a tool")
            yield "" if status == wanted else f"check {numbers}: status {status}"
        for numbers, wanted in (({"a": 4}, {"a": 3, "b": 2}), ({"a": 1}, {"a": 1, "b": 2})):
            silently(counts.write, numbers, "a tool")
            yield "" if counts.committed() == wanted else f"write {numbers}: {counts.committed()}"


if __name__ == "__main__":
    argparse.ArgumentParser(description=__doc__, formatter_class=argparse.RawDescriptionHelpFormatter).parse_args()
    sys.exit(count(answers()))
