"""The inputs of runs: from files of bytes, numbers or lines. Nothing here is proved.

A run sees at most 4,096 events, and each input is one. So a run reads no more than 4,096 inputs, and a longer list is
handed over up to there: the run is the same, and its argument is as long as Linux allows.
"""
import os
import re

from command import MOST_EVENTS, Refused, check_value, decoded, read_text

FORMS = ("bytes", "numbers", "lines")


def values_of(path, form):
    """The inputs that a file gives in one of the forms."""
    data = read_text(path)
    if form == "bytes":
        return list(data)
    if form == "lines":
        lines = data.split(b"\n")
        return [byte for line in (lines[:-1] if not lines[-1] else lines) for byte in [*line.removesuffix(b"\r"), 0]]
    return numbers(path, decoded(data).splitlines())


def numbers(path, lines):
    """Numbers with commas, blanks or line ends between; what follows a # is left out."""
    values = []
    for at, line in enumerate(lines, 1):
        for word in re.split(r"[\s,]+", line.split("#", 1)[0].strip()):
            try:
                values += [check_value(word)] if word else []
            except ValueError as error:
                raise Refused(f"{path}:{at}: {word[:40]!r} is no number from -2147483648 to 2147483647") from error
    return values


def as_words(values):
    """The option that hands inputs to the program, of those that a run can read."""
    return [f"--in={','.join(map(str, values[:MOST_EVENTS]))}"] if values else []


def named_inputs(path):
    """The inputs of a folder, a file each, or of a file, a list a line: each with its name. None at all is refused."""
    if os.path.isdir(path):
        names = sorted(name for name in os.listdir(path) if os.path.isfile(os.path.join(path, name)))
        found = [(name, values_of(os.path.join(path, name), "bytes")) for name in names]
    else:
        lines = decoded(read_text(path)).splitlines()
        found = [(f"line {at}", list_of(path, at, line)) for at, line in enumerate(lines, 1)]
    if not found:
        raise Refused(f"{path}: no inputs; a file of one empty line is a run without any")
    return found


def list_of(path, at, line):
    try:
        return [check_value(word) for word in line.split(",")] if line.strip() else []
    except ValueError as error:
        raise Refused(f"{path}:{at}: no list of numbers with commas between") from error
