"""What the scripts share: their words, and of those over texts from seeds where a text that fails is kept."""
import argparse
import os

TOP = os.path.dirname(os.path.dirname(os.path.realpath(__file__)))


def words_of(text, *names):
    """The words of a script whose help is this text, those whose name ends in `?` if they are there."""
    options = argparse.ArgumentParser(description=text, formatter_class=argparse.RawDescriptionHelpFormatter)
    for name in names:
        options.add_argument(name.rstrip("?"), nargs="?" if name.endswith("?") else None)
    return [word for word in vars(options.parse_args()).values() if word is not None]


def arguments(description, texts):
    """The words: how many texts there are and from which seed, the program, and the folder for texts that fail."""
    options = argparse.ArgumentParser(description=description.split("\n")[0])
    options.add_argument("--texts", type=int, default=texts)
    options.add_argument("--seed", type=int, default=1)
    options.add_argument("--secomp", default=os.path.join(TOP, "crates/secomp/out/secomp"))
    options.add_argument("--keep")
    words = options.parse_args()
    if not os.access(words.secomp, os.X_OK):
        options.error("%s isn't there; build the program first, or name one with --secomp" % words.secomp)
    return words


def keep(folder, case):
    """Keeps the text of a case, if there is a folder for it."""
    if folder:
        os.makedirs(folder, exist_ok=True)
        with open(os.path.join(folder, "%d.c" % case.seed), "w", encoding="utf-8") as out:
            out.write(case.text)
