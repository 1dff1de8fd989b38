#!/usr/bin/env python3
"""Every prefix of three images, two objects and a policy, and each with each other value at each byte, against second
readers.

`secomp` has to answer as the readers of `readers.py` say: with status 6, 11, 12 or 14 and its number, or with none of
these.

usage: bench/each_byte.py [--secomp PROGRAM]
"""
import argparse
import os
import sys
from concurrent.futures import ProcessPoolExecutor

sys.dont_write_bytecode = True
from hostile import run
from readers import bad_policy_line, form_of, image_cause, link_answer
from seeds import TOP

RUN = ["--steps", "200", "--events", "8"]
ONE = b"#pragma compartment Main\nint main(void) {\n  return 0;\n}\n"
HEAP = (b"#pragma compartment Main\nint g = 7;\n"
        b"int main(void) {\n  int *p;\n  p = malloc(sizeof(int));\n  free(p);\n  return g;\n}\n")
TWO = (b"#pragma compartment Main\n#pragma import Net get\nint get(int a);\n"
       b"int main(void) {\n  int x;\n  x = get(1);\n  return x;\n}\n"
       b"#pragma compartment Net\n#pragma export get\nint get(int a) {\n  return a;\n}\n")


def files(program):
    """The files, with the command for each, its reader, and what follows them in the input."""
    made = lambda words, text: run(program, words, text, 10).out
    objects = made(["object", "--section", "Main"], TWO) + made(["object", "--section", "Net"], TWO)
    policy = b"policy P\nstate a\nstate b\non a call Main * get arg 1 >= -5 to b\non b out * = 3 deny\npolicy end\n"
    images = [(["exec", *RUN], image_answer, made(["compile"], text), b"") for text in (ONE, HEAP, TWO)]
    return [*images, (["link"], link_answer, objects, b""), (["judge", *RUN], policy_answer, policy, ONE)]


def image_answer(data):
    """What `exec` has to answer, if it is a refusal."""
    cause = image_cause(data)
    return (0, "") if cause is None else (6, "bad image %d" % cause)


def policy_answer(data):
    """What `judge` has to answer, if it refuses the policy."""
    line, _ = bad_policy_line(data)
    return (0, "") if line is None else (14, "bad policy line %d" % line)


def check(program, words, reader, data):
    """What is wrong with the answer to these bytes, or none."""
    ran = run(program, words, data, 10)
    status, error = reader(data)
    if ran.status != status and not (status == 0 and ran.status == 3 and words[0] == "judge"):
        return "%s: status %d, not %d: %r" % (words[0], ran.status, status, data)
    if status and ran.err != b"secomp: %s\n" % error.encode():
        return "%s: %r, not %s: %r" % (words[0], ran.err, error, data)
    form = form_of(words[0], ran.status, ran.out, ran.err)
    return form and "%s: %s: %r" % (words[0], form, data)


def check_place(program, at, place):
    """What is wrong with what is made of a file at one place: what is before it, and each value there."""
    words, reader, data, rest = files_here[at]
    found = [check(program, words, reader, data[:place])]
    found += [check(program, words, reader, data[:place] + bytes([value]) + data[place + 1:] + rest)
              for value in range(256) if value != data[place]]
    return [each for each in found if each]


def share(here):
    """Keeps the files in a process of the pool."""
    global files_here
    files_here = here


def main():
    options = argparse.ArgumentParser(description=__doc__.split("\n")[0])
    options.add_argument("--secomp", default=os.path.join(TOP, "crates/secomp/out/secomp"))
    program = options.parse_args().secomp
    here = files(program)
    places = [(program, at, place) for at, (_, _, data, _) in enumerate(here) for place in range(len(data))]
    with ProcessPoolExecutor(initializer=share, initargs=[here]) as pool:
        wrong = sum(pool.map(check_place, *zip(*places), chunksize=4), [])
    print("\n".join(wrong[:20] + ["%d inputs, %d wrong" % (256 * len(places), len(wrong))]))
    return bool(wrong)


if __name__ == "__main__":
    sys.exit(main())
