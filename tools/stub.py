#!/usr/bin/env python3
"""Puts a body in place of a function's own, in a scratch clone: `stub.py CRATE FILE FUNCTION BODY`, at its top.

    tools/stub.py sc_run run.rt run_source 'Err(OutOfMemory)'

The function's proof folders go with its body. What calls it is then checked against its contract alone, as ever, but
tools/lemmas.py has nothing of it left to prove: what takes an hour over sources takes minutes. A body that answers want
of memory meets a contract that speaks of success. Nothing that was checked so is proved: that is for `rt ci`, on the
sources as they are.
"""
import os
import re
import shutil
import sys

from sections import usage


def stubbed(text, function, body):
    """The text with another body for a function."""
    head = re.search(rf"^( *)(?:pub(?:\(crate\))? )?fn {re.escape(function)}\b", text, re.M)
    if not head:
        sys.exit(f"there is no function {function}")
    margin = head.group(1)
    start = text.index(f"\n{margin}{{\n", head.start())
    end = text.index(f"\n{margin}}}\n", start)
    return f"{text[:start]}\n{margin}{{\n{margin}    {body}{text[end:]}"


def proof_folders(crate, function):
    """The folders of proofs that are for a function of this name."""
    for folder, names, _ in os.walk(f"crates/{crate}/proofs"):
        if function in names:
            yield os.path.join(folder, function)


def main(words):
    usage(__doc__, len(words) == 4 and os.path.isfile(f"crates/{words[0]}/src/{words[1]}"))
    crate, file, function, body = words
    path = f"crates/{crate}/src/{file}"
    with open(path, encoding="utf-8") as it:
        text = stubbed(it.read(), function, body)
    with open(path, "w", encoding="utf-8") as it:
        it.write(text)
    for folder in list(proof_folders(crate, function)):
        shutil.rmtree(folder)
        print(f"without {folder}")


if __name__ == "__main__":
    main(sys.argv[1:])
