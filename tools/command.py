"""What every tool beside `secomp` has in common as a command: its options, its statuses, and how it ends.

The statuses are 0 where nothing was found, 1 where something was, and 2 for bad use or bad input. A reader that goes
away, as `head` does, ends a tool quietly. Nothing here is part of the proved program.
"""
import argparse
import os
import sys

NOTHING, FOUND, BAD = 0, 1, 2
UNPROVED = ("Nothing of this is proved. The status is 0 where nothing was found, 1 where something was, 2 for bad use "
            "or input.")
FILTER = "Nothing of this is proved. The status is 0, or 2 for bad use or input."
MOST_STEPS, MOST_EVENTS, MOST_NUMBERS = 16_777_216, 4096, 65536
LEAST_VALUE, MOST_VALUE = -2 ** 31, 2 ** 31 - 1


class Refused(Exception):
    """Why a tool can't do what was asked: what is said of it. The status is 2."""


def parser(text, closing=UNPROVED):
    """A parser of words whose help is this text, with what holds of all tools at its end."""
    made = argparse.ArgumentParser(description=text, epilog=closing, allow_abbrev=False,
                                   formatter_class=argparse.RawDescriptionHelpFormatter)
    return made


def number(least, most):
    """The type of an option that takes a number within these bounds."""
    def read(word):
        if not word.isascii() or not word.isdigit() or not least <= int(word) <= most:
            raise argparse.ArgumentTypeError(f"{word!r} is no number from {least} to {most}")
        return int(word)
    return read


def inputs(word):
    """The type of --in: a list of numbers with commas between."""
    try:
        return ",".join(str(check_value(part)) for part in word.split(",")) if word else ""
    except ValueError as error:
        raise argparse.ArgumentTypeError(f"{word[:60]!r} is no list of numbers with commas between") from error


def check_value(word):
    value = int(word) if word.isascii() and word.strip() == word and "_" not in word and "+" not in word else None
    if value is None or not LEAST_VALUE <= value <= MOST_VALUE:
        raise ValueError(word)
    return value


def add_bounds(made):
    """The options of a run that bound it."""
    made.add_argument("--steps", type=number(0, MOST_STEPS), help="the machine's steps, at most 16,777,216")
    made.add_argument("--events", type=number(0, MOST_EVENTS),
                      help="the events of a run, at most 4,096; each input is one")


def bounds(asked):
    """The words that hand these options to the program."""
    return [f"--{name}={getattr(asked, name)}" for name in ("steps", "events") if getattr(asked, name) is not None]


def start(main):
    """Runs a tool, and ends with its status; of what goes wrong there is a sentence and never a traceback."""
    name = os.path.basename(sys.argv[0])
    for stream in (sys.stdin, sys.stdout, sys.stderr):
        if stream is not None:
            # bytes that are no UTF-8 go through as they are
            stream.reconfigure(errors="surrogateescape")
    try:
        status = main() or NOTHING
        sys.stdout.flush()
    except Refused as why:
        status = quietly(f"{name}: {why}")
    except BrokenPipeError:
        # the reader has what it wants; what Python writes at its end goes nowhere
        os.dup2(os.open(os.devnull, os.O_WRONLY), 1)
        status = NOTHING
    except OSError as error:
        status = quietly(f"{name}: {error.filename or 'output'}: {error.strerror}")
    except RecursionError:
        status = quietly(f"{name}: the input is nested too deeply for this tool")
    except KeyboardInterrupt:
        status = 130
    sys.exit(status)


def quietly(text):
    try:
        print(text, file=sys.stderr, flush=True)
    except OSError:
        os.dup2(os.open(os.devnull, os.O_WRONLY), 2)
    try:
        sys.stdout.flush()
    except OSError:
        os.dup2(os.open(os.devnull, os.O_WRONLY), 1)
    return BAD


def read_text(path):
    """A file's bytes; `-` is standard input."""
    try:
        if path == "-":
            return sys.stdin.buffer.read()
        with open(path, "rb") as it:
            return it.read()
    except OSError as error:
        raise Refused(f"{path}: {error.strerror}") from error


def decoded(data):
    return data.decode("utf-8", "surrogateescape")
