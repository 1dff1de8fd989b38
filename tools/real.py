#!/usr/bin/env python3
"""Runs the programs of examples/real over their vectors: `real.py [NAME]`, at the top of the repository.

examples/real/vectors.json has two lists. Each of `vectors` is run by `meaning` and by `run`, and wants its `out` from
both, and that they end. Each of `hostile` is run by `explain`, and wants its `out` and its `account`: all lines from
the one that says how the run stops. With a name only those vectors are run whose program begins with it. The sessions
of examples/real/README.md, `$ COMMAND` in blocks that are indented by four spaces, want what is below.

Among `inputs` a number is itself, a text that begins with 0x its bytes by their hexadecimal digits, another text its
bytes, and an object `of` repeated `times`. In `out` a text is words of four bytes each, highest first, as outputs are.
The last line says how many passed; the status is 1 if one failed. Several are run at a time, at low priority.
"""
import concurrent.futures
import json
import os
import re
import subprocess

from sections import TOP, commands, count, read, secomp, start, stop

FOLDER = "examples/real"
MOST = {"meaning": ["--turns=16777216"], "run": ["--steps=16777216"], "explain": []}
PROGRAM = re.compile(rf"{FOLDER}/(\w+\.c)")


def from_hex(digits):
    return bytes.fromhex(digits.removeprefix("0x"))


def numbers(items):
    """The inputs that stand for these items."""
    found = []
    for item in items:
        if isinstance(item, dict):
            found += numbers([item["of"]]) * item["times"]
        elif isinstance(item, str):
            found += from_hex(item) if item.startswith("0x") else item.encode()
        else:
            found.append(item)
    return found


def outputs(items):
    """The values that stand for these items, with their signs."""
    found = []
    for item in items:
        data = from_hex(item) if isinstance(item, str) else b""
        found += [int.from_bytes(data[at:at + 4], "big", signed=True) for at in range(0, len(data), 4)]
        if isinstance(item, int):
            found.append(item)
    return found


def report(command, vector):
    """The lines that a command writes for a vector, with what it says where it fails."""
    words = [command, *MOST[command], "--events=4096", "--in=" + ",".join(map(str, numbers(vector["inputs"])))]
    words += [f"--{name}={value}" for name, value in vector.get("options", {}).items()]
    out, err, status = secomp(words, read(f"{FOLDER}/{vector['program']}"))
    return out.decode().splitlines() if status == 0 else [err]


def differences(command, vector):
    """What a run gives that the vector doesn't want."""
    lines = report(command, vector)
    stop = next((at for at, line in enumerate(lines) if line.startswith("stop ")), 0)
    came = [int(line.split()[2]) for line in lines if line.startswith("out ")], lines[stop:]
    wanted = outputs(vector["out"]), vector.get("account", ["stop ended"])
    return "" if came == wanted else f"gives {came}, and {wanted} is wanted"


def vectors(prefix):
    """The tests by vectors: a name, and what gives the differences."""
    with open(f"{FOLDER}/vectors.json", encoding="utf-8") as it:
        lists = json.load(it)
    for kind, commands in (("vectors", ("meaning", "run")), ("hostile", ("explain",))):
        for vector in lists[kind]:
            for command in commands if vector["program"].startswith(prefix) else ():
                yield f"{command} {vector['program']}, {vector['name']}", lambda c=command, v=vector: differences(c, v)


def session(command, shown):
    ran = subprocess.run(["bash", "-c", command], cwd=TOP, capture_output=True, check=False)
    wrote = (ran.stdout or ran.stderr).decode(errors="replace")
    return "" if wrote == shown else f"writes\n{wrote}"


def sessions(prefix):
    """The tests by what the README shows."""
    for command, shown, _ in commands(f"{FOLDER}/README.md"):
        if PROGRAM.search(command).group(1).startswith(prefix):
            yield f"session {command}", lambda command=command, shown=shown: session(command, shown)


def main(prefix=""):
    os.nice(10)
    with concurrent.futures.ThreadPoolExecutor(os.cpu_count()) as pool:
        running = [(name, pool.submit(test)) for name, test in (*vectors(prefix), *sessions(prefix))]
        if not running:
            stop(f"real: no program begins with {prefix}")
        return count(test.result() and f"{name}: {test.result()}" for name, test in running)


if __name__ == "__main__":
    start(main, __doc__)
