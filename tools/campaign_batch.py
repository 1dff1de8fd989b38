"""Runs some inputs of a campaign: `campaign_batch.py BATCH`, in the folder that tools/campaign laid out.

A line of BATCH is an input's number, a tab and its list. For each, its number, a tab and what its run shows are
written: how it stops, each replacement, the verdict, with semicolons between. It needs nothing but what lies in the
folder, so that it runs on another machine too.
"""
import json
import re
import subprocess
import sys

LINK = re.compile(r"replace (\w+) after \d+ (\w+) line (\d+)")
VERDICT = re.compile(r"verdict (?:holds \w+|violated after \d+ by (\w+) rule (\d+) (\w+))")


def shown(lines):
    """What the lines of a report say that counts: the stop, the replacements, the verdict."""
    for line in lines:
        if parts := LINK.fullmatch(line):
            yield "replace {} {} line {}".format(*parts.groups())
        elif parts := VERDICT.fullmatch(line):
            yield line if parts.group(1) is None else "verdict violated by {} rule {} {}".format(*parts.groups())
        elif line.startswith("stop "):
            yield line


def run(words, values):
    with open("text", "rb") as text:
        ran = subprocess.run(["./program", *words, *([f"--in={values}"] if values else [])], stdin=text,
                             capture_output=True, check=False)
    if ran.returncode:
        return [f"status {ran.returncode} {ran.stderr.decode(errors='replace').strip()}"]
    return shown(ran.stdout.decode().splitlines())


def main(batch):
    with open("words", encoding="utf-8") as it:
        words = json.load(it)
    with open(batch, encoding="utf-8") as it:
        for line in it:
            number, values = line.rstrip("\n").split("\t")
            print(number, "; ".join(run(words, values)), sep="\t")


if __name__ == "__main__":
    if len(sys.argv) != 2 or sys.argv[1].startswith("-"):
        print(__doc__, file=sys.stdout if sys.argv[1:] in (["-h"], ["--help"]) else sys.stderr)
        sys.exit(0 if sys.argv[1:] in (["-h"], ["--help"]) else 2)
    main(sys.argv[1])
