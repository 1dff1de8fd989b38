#!/usr/bin/env python3
"""Runs `secomp` with inputs, outputs and errors that fail, and holds each run to its status, with no signal and
within a second.

usage: tools/ends.py [--secomp PROGRAM]
"""
import argparse
import os
import resource
import sys
import tempfile
import threading
import time

TOP = os.path.dirname(os.path.dirname(os.path.realpath(__file__)))
READ_FAULT, WRITE_FAULT, TOO_LONG, REFUSED, DONE = 7, 8, 5, 3, 0
# The most bytes of a file that the runs may write.
MOST = 1 << 30
TEXT = f"{TOP}/examples/seven.c"


def pipe_that_ends():
    """The end of a pipe into which half a text was written."""
    reader, writer = os.pipe()
    os.write(writer, open(TEXT, "rb").read()[:40])
    os.close(writer)
    return reader


def pipe_by_bytes():
    """The end of a pipe into which a text is written a byte at a time, so that a read gives one."""
    reader, writer = os.pipe()

    def write():
        for byte in open(TEXT, "rb").read():
            os.write(writer, bytes([byte]))
            time.sleep(0.0005)
        os.close(writer)
    threading.Thread(target=write).start()
    return reader


def file_with_limit():
    """A file in which there is room for 5 bytes below the limit of a process's files."""
    file, path = tempfile.mkstemp()
    os.unlink(path)
    os.lseek(file, MOST - 5, os.SEEK_SET)
    return file


def pipe_without_reader():
    """The end of a pipe that nobody reads."""
    reader, writer = os.pipe()
    os.close(reader)
    return writer


def opened(path, flags):
    """A file that is opened when it is asked for, or none where it is to be closed."""
    return lambda: os.open(path, flags) if path else None


# What fails, the number of the descriptor, what stands there, and the status of `meaning` on `seven.c`.
ENDS = [
    ("nothing", 0, opened(TEXT, os.O_RDONLY), DONE),
    ("input is a directory", 0, opened(TOP, os.O_RDONLY), READ_FAULT),
    ("input may only be written", 0, opened("/dev/null", os.O_WRONLY), READ_FAULT),
    ("input is closed", 0, opened(None, 0), READ_FAULT),
    ("input is a pipe that ends early", 0, pipe_that_ends, REFUSED),
    ("input is a pipe that gives a byte at a time", 0, pipe_by_bytes, DONE),
    ("input is empty", 0, opened("/dev/null", os.O_RDONLY), REFUSED),
    ("input doesn't end", 0, opened("/dev/zero", os.O_RDONLY), TOO_LONG),
    ("output is full", 1, opened("/dev/full", os.O_WRONLY), WRITE_FAULT),
    ("output is closed", 1, opened(None, 0), WRITE_FAULT),
    ("output may only be read", 1, opened(TEXT, os.O_RDONLY), WRITE_FAULT),
    ("output is a pipe without a reader", 1, pipe_without_reader, WRITE_FAULT),
    ("output takes 5 bytes and no more", 1, file_with_limit, WRITE_FAULT),
    ("error is full", 2, opened("/dev/full", os.O_WRONLY), DONE),
    ("error is closed", 2, opened(None, 0), DONE),
    ("error is a pipe without a reader", 2, pipe_without_reader, DONE),
]


def run(program, words, descriptor, end):
    """The status of a run on `seven.c` with another end at a descriptor, and how long it took."""
    files = {0: os.open(TEXT, os.O_RDONLY), 1: os.open("/dev/null", os.O_WRONLY), 2: os.open("/dev/null", os.O_WRONLY)}
    files[descriptor] = end()
    actions = [(os.POSIX_SPAWN_DUP2, file, to) for to, file in files.items() if file is not None]
    actions += [(os.POSIX_SPAWN_CLOSE, to) for to, file in files.items() if file is None]
    start = time.time()
    process = os.posix_spawn(program, [program, *words], os.environ, file_actions=actions)
    status = os.waitstatus_to_exitcode(os.waitpid(process, 0)[1])
    for file in files.values():
        if file is not None:
            os.close(file)
    return status, time.time() - start


def main():
    options = argparse.ArgumentParser(description=__doc__.split("\n")[0])
    options.add_argument("--secomp", default=f"{TOP}/crates/secomp/out/secomp")
    program = options.parse_args().secomp
    failed = 0
    # A write beyond the limit fails, since SIGXFSZ is ignored by this process and so by those that it starts.
    resource.setrlimit(resource.RLIMIT_FSIZE, (MOST, MOST))
    for command in (["meaning"], ["check"], ["run"], ["explain"], ["compile"]):
        for name, descriptor, end, wanted in ENDS:
            status, seconds = run(program, command, descriptor, end)
            if status != wanted or seconds >= 1:
                failed += 1
                print(f"{command[0]}, {name}: status {status}, not {wanted}, after {seconds:.2f} s")
    # What is refused or no command has the same status where the error can't be written.
    for name, descriptor, end, _ in ENDS[-3:]:
        for words, wanted in ((["nonsense"], 2), (["exec"], 6)):
            status, seconds = run(program, words, descriptor, end)
            if status != wanted or seconds >= 1:
                failed += 1
                print(f"{words[0]}, {name}: status {status}, not {wanted}, after {seconds:.2f} s")
    print(f"{5 * len(ENDS) + 6} runs with failing ends, {failed} wrong")
    return failed > 0


if __name__ == "__main__":
    sys.exit(main())
