#!/usr/bin/env python3
"""Refuses each allocation of a run in turn, and holds the answers to what they may be.

Usage, at the top of the repository: tools/refuse_allocations.py PROGRAM WORD.. < INPUT
       tools/refuse_allocations.py --all PROGRAM
       tools/refuse_allocations.py --build PROGRAM [CRATE]

The second form takes a run of each command in turn. The last one builds PROGRAM first: CRATE, or else secomp, with
run-time checks in place of proofs, as `rt try --fail-alloc` builds it, with a number of the allocation to refuse that
stands nowhere else in the program. The first form puts each number from 1 on in its place and runs the program on
these words and this input. An answer must be that of the run in which nothing is refused, or status 9 with nothing
written to the output. It ends after 64 numbers in a row that change nothing, since then there are no more
allocations, and prints how many were refused.
"""
import os
import subprocess
import sys
import tempfile
from concurrent.futures import ThreadPoolExecutor

from sections import usage

# The number that the build refuses, and how its bytes stand in the program.
MARK = 0x5EC0_3B1D
STORED = MARK.to_bytes(4, "little")
OUT_OF_MEMORY = 9
QUIET = 64


def kit():
    """The folder of the toolchain."""
    return os.path.dirname(subprocess.run(["rt", "doc"], capture_output=True, text=True, check=True).stdout.strip())


def linked(source, shadow, keep):
    """Makes a folder with links to the toolchain's files, whose linker keeps a copy of what it links."""
    os.makedirs(f"{shadow}/bin")
    os.makedirs(f"{shadow}/toolchain/bin")
    for name in os.listdir(source):
        if name not in ("bin", "toolchain"):
            os.symlink(f"{source}/{name}", f"{shadow}/{name}")
    for name in os.listdir(f"{source}/bin"):
        copy = ["cp"] if name.startswith("rt") else ["ln", "-s"]
        subprocess.run([*copy, f"{source}/bin/{name}", f"{shadow}/bin/{name}"], check=True)
    os.symlink(f"{source}/toolchain/lib", f"{shadow}/toolchain/lib")
    for name in os.listdir(f"{source}/toolchain/bin"):
        if name != "ld.lld":
            os.symlink(f"{source}/toolchain/bin/{name}", f"{shadow}/toolchain/bin/{name}")
    linker = f"{shadow}/toolchain/bin/ld.lld"
    with open(linker, "w", encoding="utf-8") as script:
        script.write(f'#!/bin/bash\n"{source}/toolchain/bin/ld.lld" "$@"; status=$?\nwhile [ $# -gt 0 ]; do\n'
                     f'  [ "$1" = -o ] && cp -f "$2" "{keep}"\n  shift\ndone\nexit $status\n')
    os.chmod(linker, 0o755)


def build(program, crate):
    """Builds the program of a crate into this file."""
    with tempfile.TemporaryDirectory() as room:
        linked(kit(), f"{room}/kit", os.path.abspath(program))
        subprocess.run(["python3", f"{room}/kit/bin/rt", "try", "--fail-alloc", str(MARK)], cwd=f"crates/{crate}",
                       stdin=subprocess.DEVNULL, stdout=subprocess.DEVNULL, stderr=subprocess.DEVNULL)
    if not os.path.exists(program):
        raise SystemExit(f"it was not built: `rt try` in crates/{crate} says why")


def refusing(program, number, to):
    """Writes the program that refuses the allocation of this number."""
    with open(program, "rb") as it:
        code = it.read()
    with open(to, "wb") as it:
        it.write(code.replace(STORED, number.to_bytes(4, "little")))
    os.chmod(to, 0o755)


def answer(program, words, text):
    """The status and the output of a run."""
    lib = f"{kit()}/toolchain/lib"
    command = [f"{lib}/ld-linux-x86-64.so.2", "--inhibit-cache", "--library-path", lib, program, *words]
    ran = subprocess.run(command, input=text, capture_output=True)
    return ran.returncode, ran.stdout


def runs(program):
    """A run of each command: its words and its input."""
    def read(name):
        with open(f"examples/{name}", "rb") as it:
            return it.read()
    store, order = read("store.c"), read("policies/order.policy") + read("policies/order.c")
    image = answer(program, ["compile"], store)[1]
    objects = [answer(program, ["object", "--section", name], store)[1] for name in ("Main", "Net")]
    return [(["check"], store), (["meaning"], store), (["meaning"], read("queue.c")), (["compile"], store),
            (["run"], store), (["run"], read("queue.c")), (["explain"], store), (["explain", "--show", "1"], store),
            (["exec"], image),
            (["tags", "--data", "16777216,4,1"], image),
            (["object", "--section", "Net"], store), (["link"], b"".join(objects)), (["judge"], order),
            (["make", "--size", "2", "--seed", "1"], b""), (["make", "--size", "2", "--seed", "1", "--summary"], b"")]


def main(words):
    if words[:1] == ["--build"] and len(words) in (2, 3):
        return build(words[1], words[2] if len(words) == 3 else "secomp")
    if words[:1] == ["--all"] and len(words) == 2:
        for command, text in runs(words[1]):
            print(f"{' '.join(command)}: ", end="", flush=True)
            refuse(words[1], command, text)
        return
    usage(__doc__, len(words) >= 2 and os.access(words[0], os.X_OK))
    refuse(words[0], words[1:], sys.stdin.buffer.read())


def refuse(program, words, text):
    """Refuses each allocation of a run in turn."""
    whole = answer(program, words, text)
    number, quiet, refused = 0, 0, 0
    with tempfile.TemporaryDirectory() as room, ThreadPoolExecutor() as pool:
        def without(at):
            refusing(program, at, f"{room}/run{at}")
            found = answer(f"{room}/run{at}", words, text)
            os.remove(f"{room}/run{at}")
            return found
        while quiet < QUIET:
            for found in pool.map(without, range(number + 1, number + 17)):
                number += 1
                if found == whole:
                    quiet += 1
                elif found == (OUT_OF_MEMORY, b""):
                    quiet, refused = 0, refused + 1
                else:
                    raise SystemExit(f"allocation {number}: status {found[0]}, {len(found[1])} bytes written")
    print(f"status {whole[0]}: {refused} refused allocations, each answered by status {OUT_OF_MEMORY} and no output")


if __name__ == "__main__":
    main(sys.argv[1:])
