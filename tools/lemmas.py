#!/usr/bin/env python3
"""Checks single functions of a crate, and the lemmas that their answers cite, without proving the crates below.

Usage, at the top of the repository: tools/lemmas.py CRATE [FUNCTION ..] [-- flags of rattle]

It runs `rattle check --only` over the sources of the crates below, holes allowed, and prints its errors. Where KEPT
names a checkout in which a run of `rt ci` built crates with the same files, their libraries are taken from there,
which is faster (a run that was given names builds in a copy, /tmp/rt-copy-*/repo, and only while it lasts). A file of
proofs/ is read only if an answer leads to it; with no FUNCTION all lemma files of the crate are read, in a copy, for
a function `probe` that names a rule of each. Nothing is kept as proved: that is for `rt ci`.
"""
import filecmp
import glob
import os
import re
import shutil
import subprocess
import sys
import tempfile

from sections import usage

RULES = "probe_rules"


def crates(top):
    """The libraries of each crate, from crates.txt."""
    deps = {}
    for line in open(os.path.join(top, "crates.txt"), encoding="utf-8"):
        name, colon, libraries = line.split("#")[0].partition(":")
        if colon:
            deps[name.strip()] = libraries.split()
    return deps


def below(crate, deps, order):
    """The crates that this one stands on, lowest first, and at the end itself."""
    for library in deps[crate]:
        if library in deps and library not in order:
            below(library, deps, order)
    if crate not in order:
        order.append(crate)
    return order


def same(one, other):
    """Whether two folders hold the same files, edits and what was built aside."""
    found = filecmp.dircmp(one, other, ignore=["out", "must-fail"])
    if found.left_only or found.right_only or found.diff_files or found.funny_files:
        return False
    return all(same(os.path.join(one, sub), os.path.join(other, sub)) for sub in found.common_dirs)


def add_probe(folder):
    """Adds to a copy of a crate a function whose proof reads each lemma file; no line but a file's first moves."""
    rules = []
    for path in sorted(glob.glob(f"{folder}/proofs/*.antt")):
        name = os.path.basename(path)[:-len(".antt")]
        text = open(path, encoding="utf-8").read()
        if name != "Lib" and text.startswith("-- "):
            text = "use Rattle.std.proofs.Common.{refl as probe_refl}" + text[text.index("\n"):]
            open(path, "w", encoding="utf-8").write(f"{text}\n\npub ruleset {RULES} = (probe_refl)\n")
            rules.append(f"crate::proofs::{name}::{RULES}")
    root = f"{folder}/src/lib.rt"
    code = open(root, encoding="utf-8").read()
    brings = "" if re.search("ghost use[^;]*◌≡◌", code) else "ghost use Rattle.std.specs.Prelude.{◌≡◌};\n"
    uses = ", ".join(rules)
    probe = f"\n{brings}#[tactic(auto, using({uses}))]\npub fn probe(a: u32)\n    ensures {{ a ≡ a }}\n{{\n}}\n"
    open(root, "w", encoding="utf-8").write(code + probe)


def main(words):
    usage(__doc__, words and os.path.isdir(f"crates/{words[0]}/src"))
    flags = []
    if "--" in words:
        flags = words[words.index("--") + 1:]
        words = words[:words.index("--")]
    crate, functions = words[0], words[1:]
    top = os.getcwd()
    kit = os.path.dirname(subprocess.run(["rt", "doc"], capture_output=True, text=True, check=True).stdout.strip())
    deps = crates(top)
    order = below(crate, deps, [])[:-1]
    libraries = {library for name in [*order, crate] for library in deps[name] if library not in deps}
    command = [f"{kit}/bin/rattle", "check", "--crate-name", crate, "src/lib.rt", "-L", f"dependency={kit}/rlibs"]
    for library in sorted(libraries | {"core", "std"}):
        command += ["--extern", f"{library}={kit}/rlibs/{library}.rlib"]
    built = set()
    for name in order:
        folder = os.path.join(os.environ.get("KEPT", top), "crates", name)
        library = f"{folder}/out/rlib/{name}.rlib"
        own = [lower for lower in deps[name] if lower in deps]
        if os.path.exists(library) and built.issuperset(own) and same(folder, f"{top}/crates/{name}"):
            built.add(name)
            command += ["--extern", f"{name}={library}", "-L", f"dependency={folder}/out/rlib"]
        else:
            names = ",".join(["core", "std", *deps[name]])
            command += ["--lib", f"{name}:{names}={top}/crates/{name}/src/lib.rt"]
    command += ["--antt-project", f"{kit}/rattle/logic/antt-project.json", "--logic-built", f"{kit}/logic_built"]
    command += ["--links", f"{crate}=", "--jobs", "2", "--allow-holes"]
    for function in functions or ["probe"]:
        command += ["--only", function]
    with tempfile.TemporaryDirectory() as copied:
        folder = f"{top}/crates/{crate}"
        if not functions:
            folder = shutil.copytree(folder, f"{copied}/{crate}", ignore=shutil.ignore_patterns("out"))
            add_probe(folder)
        sys.exit(subprocess.run(command + flags, cwd=folder, check=False).returncode)


if __name__ == "__main__":
    main(sys.argv[1:])
