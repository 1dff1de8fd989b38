#!/usr/bin/python3
"""Compares random programs under `tools/port` with gcc: `port_random.py [--secomp PROGRAM] [--seed N] [--count N]`.

Debian's csmith writes the programs, and gcc -m32 (lib32gcc-12-dev, libc6-dev-i386) compiles them. Each outputs all of
its variables at the end. A ported program that `secomp` finds too large, that takes more than 16,777,216 steps, or that
doesn't end under gcc is counted apart; so is what is refused. The status is 1 if one disagreed. It isn't in the gate.
"""
import argparse
import collections
import os
import subprocess
import sys
import tempfile

import sections
from port_sessions import PORT, SHIM, ran

SAFE = "/usr/include/csmith/safe_math.h"
WORDS = ["--no-argc", "--max-funcs", "4", "--max-block-depth", "3", "--max-expr-complexity", "6", "--max-array-dim", "2",
         "--max-array-len-per-dim", "5", "--no-unions", "--concise"]
HEADER = """#include <limits.h>
#include <stdint.h>
void output(int value);
#define printf(...) ((void)0)
#define assert(condition) ((void)0)
#define UNDEFINED(value) value
#define STATIC static
#define FUNC_NAME(name) safe_##name
#define LOG_INDEX
#define LOG_EXEC
%s
#endif
static uint32_t crc32_context;
static void platform_main_begin(void) {}
static void platform_main_end(uint32_t sum, int flag) { output((int)sum); }
static void crc32_gentab(void) {}
static void transparent_crc(uint64_t value, char *name, int flag) {
  output((int)value);
  output((int)(value >> 32));
}
"""


def native(folder):
    """The outputs under gcc, or none where the program doesn't end."""
    words = ["gcc", "-m32", "-w", "-fwrapv", "-fsigned-char", "-I", folder, "-o", f"{folder}/native",
             f"{folder}/random.c", f"{folder}/shim.c"]
    built = subprocess.run(words, capture_output=True, check=False)
    if built.returncode:
        sections.stop(f"gcc -m32 fails: {built.stderr.decode(errors='replace').strip()[:300]}")
    try:
        return subprocess.run([f"{folder}/native"], capture_output=True, check=True, timeout=5).stdout.decode().split()
    except (subprocess.TimeoutExpired, subprocess.CalledProcessError):
        return None


def outcome(secomp, folder, seed):
    """How the program of a seed goes."""
    try:
        subprocess.run(["csmith", "--seed", str(seed), *WORDS, "-o", f"{folder}/random.c"], check=True, timeout=20,
                       capture_output=True, cwd=folder)
    except (subprocess.TimeoutExpired, subprocess.CalledProcessError):
        return "endless", "csmith"
    wanted = native(folder)
    if wanted is None:
        return "endless", ""
    _, err, status = ran([PORT, f"Main={folder}/random.c", "-I", folder, "-o", f"{folder}/ported.c"])
    if status:
        return "refused", err.split("refused: ")[-1].strip()
    with open(f"{folder}/ported.c", encoding="utf-8") as it:
        out, err, status = ran([secomp, "run", "--steps=16777216", "--events=4096"], it.read())
    lines = out.splitlines()
    if status or lines[-1:] in (["stop steps"], ["stop events"]):
        return "too large", err.strip()
    came = [line.split()[2] for line in lines if line.startswith("out ")]
    at = next((at for at, it in enumerate(zip(came, wanted)) if it[0] != it[1]), min(len(came), len(wanted)))
    return ("agrees", "") if came == wanted else ("disagrees", f"at {at}: {came[at:at + 1]}, not {wanted[at:at + 1]}")


def main():
    parser = argparse.ArgumentParser(description=__doc__, formatter_class=argparse.RawDescriptionHelpFormatter)
    parser.add_argument("--secomp", metavar="PROGRAM", help="the program, in place of that of ./secomp")
    parser.add_argument("--seed", type=int, default=1, metavar="N", help="the first seed")
    parser.add_argument("--count", type=int, default=50, metavar="N", help="how many programs")
    found = parser.parse_args()
    os.nice(15)
    if not os.path.exists(SAFE):
        sections.stop(f"{SAFE} isn't there: this takes Debian's csmith and libcsmith-dev")
    secomp, counts = found.secomp or sections.program(), collections.Counter()
    with tempfile.TemporaryDirectory() as folder:
        with open(SAFE, encoding="utf-8") as it:
            text = it.read().split("#ifdef __STDC__")[0]
        for name, content in (("csmith.h", HEADER % text), ("shim.c", SHIM)):
            with open(f"{folder}/{name}", "w", encoding="utf-8") as it:
                it.write(content)
        for seed in range(found.seed, found.seed + found.count):
            kind, what = outcome(secomp, folder, seed)
            counts[kind] += 1
            print(f"{seed}: {kind} {what}".rstrip(), flush=True)
    print(dict(counts))
    return 1 if counts["disagrees"] else 0


if __name__ == "__main__":
    sys.exit(main())
