#!/usr/bin/env python3
"""Tests `./secomp`, the script that finds or builds the program: with programs and an `rt` that only pretend.

For each case a folder is laid out as a repository of one crate. The last line counts; the status is 1 if one failed.
"""
import argparse
import os
import shutil
import subprocess
import sys
import tempfile
import time

from sections import TOP, count

SAYS = "secomp: this program has run-time checks, and nothing of it is proved; SECOMP_PROVED=1 ./secomp proves it\n"
STOPPED = "secomp: the program stopped at one of its run-time checks: that is a fault of secomp"
RT = """#!/bin/sh
echo "rt: secomp {proved}"
mkdir -p crates/secomp/out
printf '#!/bin/sh\\necho proved "$@"\\n' > crates/secomp/out/secomp
chmod +x crates/secomp/out/secomp
echo "rt: {last}"
exit {status}
"""


def laid_out(folder):
    """A repository of one crate, with neither a program nor a kit."""
    os.makedirs(f"{folder}/crates/secomp/src")
    os.makedirs(f"{folder}/bin")
    shutil.copy(f"{TOP}/secomp", folder)
    for name, text in (("crates.txt", "secomp:\n"), ("HANDLES", "Handles allowed: none.\n"),
                       ("crates/secomp/src/main.rt", "fn main() {}\n")):
        with open(f"{folder}/{name}", "w", encoding="utf-8") as it:
            it.write(text)
    # what is made from now on is newer
    old = time.time() - 60
    for at, _, files in os.walk(folder):
        for name in files:
            os.utime(f"{at}/{name}", (old, old))


def script(path, text):
    os.makedirs(os.path.dirname(path), exist_ok=True)
    with open(path, "w", encoding="utf-8") as it:
        it.write(text)
    os.chmod(path, 0o755)


def run(folder, words, **variables):
    """What `./secomp` writes, what it says, and its status."""
    places = {**os.environ, "PATH": f"{folder}/bin:/usr/bin:/bin", "TMPDIR": folder, **variables}
    ran = subprocess.run([f"{folder}/secomp", *words], env=places, stdin=subprocess.DEVNULL, capture_output=True,
                         text=True, check=False)
    return ran.stdout, ran.stderr, ran.returncode


def with_fast(folder, text):
    script(f"{folder}/out/fast/secomp", text)


def no_program(folder):
    """Without a program and without a kit."""
    out, said, status = run(folder, ["check"])
    return not out and "rt" in said and status == 1


def builds_once(folder):
    """A program that isn't there is built, and run; the next time it is there."""
    script(f"{folder}/bin/rt", "#!/bin/sh\n")
    script(f"{folder}/tools/fast.py", "import os, sys\nos.makedirs(os.path.dirname(sys.argv[2]))\n"
           "open(sys.argv[2], 'w').write('#!/bin/sh\\necho made\\n')\nos.chmod(sys.argv[2], 0o755)\n")
    first, second = run(folder, ["check"]), run(folder, ["check"])
    begins = "secomp: building the program with run-time checks in place of proofs"
    return first[0] == second[0] == "made\n" and first[1].startswith(begins) and second[1] == SAYS


def fails_to_build(folder):
    """Where no program is built the status says so, and nothing is run."""
    script(f"{folder}/bin/rt", "#!/bin/sh\n")
    script(f"{folder}/tools/fast.py", "import sys\nprint('told', file=sys.stderr)\nsys.exit(2)\n")
    out, said, status = run(folder, ["check"])
    return not out and "told" in said and status == 1


def words_and_status(folder):
    """The words and the status of the program without proofs go through."""
    with_fast(folder, "#!/bin/sh\nprintf '<%s>' \"$@\"\necho told >&2\nexit 3\n")
    return run(folder, ["run", "--in=1 2", ""]) == ("<run><--in=1 2><>", SAYS + "told\n", 3)


def stop_is_said(folder):
    """A stop at a check is a sentence, and nothing else is said of it."""
    with_fast(folder, "#!/bin/sh\nkill -ILL $$\n")
    out, said, status = run(folder, ["explain"])
    return not out and said.startswith(SAYS + STOPPED) and "Illegal" not in said and status == 132


def path_is_written(folder):
    with_fast(folder, "#!/bin/sh\n")
    return run(folder, [], SECOMP_WHICH="1") == (f"{folder}/out/fast/secomp\n", SAYS, 0)


def cannot_write(folder):
    """Where the checkout can't be written the program is kept with the user."""
    with open(f"{folder}/out", "w", encoding="utf-8"):
        pass
    out, said, status = run(folder, ["check"], XDG_CACHE_HOME=f"{folder}/cache")
    found = [f"{at}/{name}" for at, names, _ in os.walk(f"{folder}/cache") for name in names]
    script(f"{found[-1]}/fast/secomp", "#!/bin/sh\necho kept\n")
    return not out and status == 1 and "rt" in said and run(folder, [], XDG_CACHE_HOME=f"{folder}/cache")[0] == "kept\n"


def proved(folder, **says):
    script(f"{folder}/bin/rt", RT.format(**says))
    return run(folder, ["check"], SECOMP_PROVED="1")


def proves(folder):
    out, said, status = proved(folder, proved="proved", last="ok", status=0)
    return out == "proved check\n" and "proved secomp (crate 1 of 1" in said and status == 0


def keeps_proved(folder):
    """Where the proofs are done and a run of the program fails, the program is kept."""
    out, said, status = proved(folder, proved="proved", last="secomp: its run FAILED", status=1)
    return out == "proved check\n" and "its run FAILED" in said and "so the program is kept" in said and status == 0


def keeps_nothing_else(folder):
    """Where a crate isn't proved, no program is kept."""
    out, said, status = proved(folder, proved="FAILED", last="1 failed", status=1)
    is_kept = os.path.exists(f"{folder}/crates/secomp/out/secomp")
    return not out and "isn't proved" in said and status == 1 and not is_kept


CASES = [no_program, builds_once, fails_to_build, cannot_write, words_and_status, stop_is_said, path_is_written, proves,
         keeps_proved, keeps_nothing_else]


def answers():
    for case in CASES:
        with tempfile.TemporaryDirectory() as folder:
            folder = os.path.realpath(folder)
            laid_out(folder)
            yield "" if case(folder) else f"failed: {case.__name__}: {(case.__doc__ or '').strip()}"


if __name__ == "__main__":
    argparse.ArgumentParser(description=__doc__, formatter_class=argparse.RawDescriptionHelpFormatter).parse_args()
    sys.exit(count(answers()))
