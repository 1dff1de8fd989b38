"""What tools/attack and tools/secret share: the program that they run, texts, inputs, and how they end.

Their statuses are 0 where nothing was found, 1 where something was, and 2 for bad words and bad input.
"""
import os
import re
import subprocess
import sys

from attack_text import Bad
from command import MOST_NUMBERS
from sections import program

LIST = re.compile(r"-?\d{1,10}(,-?\d{1,10})*|")
COMMANDS = ("check", "meaning", "run", "judge")
# The longest argument that Linux takes, in bytes.
MOST_ARGUMENT = 131071


def read(path):
    """A file's text, each byte as a character."""
    try:
        with open(path, "rb") as it:
            return it.read().decode("latin-1")
    except OSError as error:
        raise Bad(f"{path}: {error.strerror}") from None


def program_path(given):
    """The program to run: this one, that of the environment's SECOMP, or what `./secomp` runs."""
    given = given or os.environ.get("SECOMP")
    path = os.path.abspath(given) if given else program()
    try:
        ran = subprocess.run([path], stdin=subprocess.DEVNULL, capture_output=True, check=False)
    except OSError as error:
        raise Bad(f"{path}: {error.strerror}") from None
    usage = ran.stderr.decode(errors="replace")
    if not usage.startswith("secomp: usage") or not all(re.search(rf"^  {name}\b", usage, re.M) for name in COMMANDS):
        raise Bad(f"{path}: this isn't a program `secomp` with the commands {', '.join(COMMANDS)}")
    return path


def answer(path, words, text):
    """What the program writes, or why it refuses."""
    ran = subprocess.run([path, *words], input=text.encode("latin-1"), capture_output=True, check=False)
    if ran.returncode:
        raise Bad(ran.stderr.decode(errors="replace").strip().split("\n")[0] or f"status {ran.returncode}")
    return ran.stdout.decode()


def checked_list(text, where):
    """A list of inputs as `--in` takes it."""
    text = text.strip()
    if not LIST.fullmatch(text):
        raise Bad(f"{where}: no list of numbers with commas between")
    numbers = [int(number) for number in text.split(",")] if text else []
    if len(numbers) > MOST_NUMBERS or len(text) > MOST_ARGUMENT - len("--in="):
        raise Bad(f"{where}: a run takes at most {MOST_NUMBERS} inputs in {MOST_ARGUMENT - len('--in=')} bytes")
    if any(not -2**31 <= number < 2**31 for number in numbers):
        raise Bad(f"{where}: an input goes from -2147483648 to 2147483647")
    return ",".join(map(str, numbers))


def input_lists(given):
    """The lists that are meant by a list, or by a file with one on each line; without either the empty one."""
    if given is None:
        return [""]
    if LIST.fullmatch(given) and not os.path.exists(given):
        return [checked_list(given, "--in")]
    lines = read(given).splitlines()
    if not lines:
        raise Bad(f"{given}: no lists")
    return [checked_list(line, f"{given}:{number}") for number, line in enumerate(lines, 1)]


def ends(main, name):
    """Runs a tool to its status; 2 also where what it writes to was closed."""
    try:
        status = main()
        sys.stdout.flush()
    except BrokenPipeError:
        os.dup2(os.open(os.devnull, os.O_WRONLY), sys.stdout.fileno())
        status = 2
    except Bad as error:
        print(f"{name}: {error}", file=sys.stderr)
        status = 2
    except OSError as error:
        print(f"{name}: {error.filename or 'output'}: {error.strerror}", file=sys.stderr)
        status = 2
    except KeyboardInterrupt:
        print(f"{name}: stopped", file=sys.stderr)
        status = 2
    sys.exit(status)
