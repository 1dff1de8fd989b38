"""The C header of a section, and the section of a text for a C header's prototypes."""
import os
import re
import shutil
import tempfile

from foreign_check import counted, crosses, entries, named, parameters, type_of
from foreign_compile import COMMON, CROSS, TARGET, demand, run
from foreign_program import Refused, write

ORDER = "first second third fourth fifth sixth seventh eighth".split()
IDENTIFIER = re.compile(r"[A-Za-z_]\w{0,62}")
DECLARED = re.compile(r"/\* (.*?):(\d+):(\w+) \*/ (?:extern )?(.*?)\b(\w+) \(")


def header(program, name):
    """The C header of a section: what its files define, and what they may call."""
    face, guard = program.face(name), f"SECTION_{name}_H"
    lines = [f"/* The section {name} of {os.path.basename(program.path)}, written by tools/foreign --header. */",
             f"#ifndef {guard}", f"#define {guard}", "#ifdef __cplusplus", 'extern "C" {', "#endif", ""]
    if face.exports:
        lines += ["/* Its exports, which its files define. */", *(f"{it.prototype()};" for it in face.exports), ""]
    if program.main == name:
        lines += ["int main(void);", ""]
    if face.imports or face.environment:
        lines += ["/* Its imports, which its files may call. */"]
        lines += [f"{it.prototype()}; /* of {it.owner.name} */" for it in face.imports]
        lines += [f"{it.prototype()}; /* of the environment */" for it in face.environment] + [""]
    return "\n".join([*lines, "#ifdef __cplusplus", "}", "#endif", "#endif", ""])


def stub(path, name, folders, names):
    """The section of this name that exports what a header declares."""
    if not IDENTIFIER.fullmatch(name) or name == "Env":
        raise Refused(f"{name} can't be a section's name: it is a letter or _ with letters, digits and _ after, 63 at "
                      "most, and not Env")
    if not os.path.isfile(path):
        raise Refused(f"{path}: there is no such file")
    demand("gcc")
    folder = tempfile.mkdtemp(prefix="secomp-foreign-")
    try:
        options = [*(f"-I{it}" for it in folders), *(f"-D{it}" for it in names)]
        found = list(declared(path, options, folder))
    finally:
        shutil.rmtree(folder, ignore_errors=True)
    exports = [it for it in found if it[0] not in ("input", "output")]
    if not exports:
        raise Refused(f"{path} declares no function")
    lines = [f"#pragma compartment {name}"]
    lines += [f"#pragma import Env {it[0]}" for it in found if it not in exports]
    lines += [f"#pragma export {it[0]}" for it in exports]
    lines += [f"{'int input(void)' if it[0] == 'input' else 'void output(int value)'};" for it in found
              if it not in exports]
    return "\n".join(lines + [f"{result} {it}({given}) {{ while (1) {{ }} }}" for it, result, given in exports]) + "\n"


def declared(path, options, folder):
    """Each function that a header itself declares: its name, its result and its parameters in the text's words."""
    listing, source, made = (os.path.join(folder, name) for name in ("listing", "types.c", "types.o"))
    include = f'#include "{os.path.abspath(path)}"\n'
    compiler = [CROSS + "gcc", *TARGET, *COMMON, "-fmax-errors=5", "--specs=picolibc.specs", *options]
    write(source, include.encode())
    done = run([*compiler, "-aux-info", listing, "-c", source, "-o", made])
    if done.returncode:
        raise Refused(f"{path} isn't accepted by gcc:\n{done.stderr.rstrip()}")
    with open(listing, encoding="utf-8", errors="replace") as it:
        lines = filter(None, map(DECLARED.match, it))
        shown = {it.group(5): it.group(2) for it in lines if os.path.realpath(it.group(1)) == os.path.realpath(path)
                 and not it.group(4).startswith("static")}
    write(source, (include + "".join(f"__typeof__({it}) *secomp_of_{it};\n" for it in shown)).encode())
    run([*compiler, "-c", source, "-o", made])
    found = entries(made)
    pointers = {it.name().removeprefix("secomp_of_"): it for it in found.values() if it.tag == "DW_TAG_variable"}
    for name, line in shown.items():
        yield (name, *words(f"{path}:{line}: {name}", type_of(type_of(pointers[name], found), found), found))


def words(what, function, found):
    """The result and the parameters of a function, or why it can't be called from another section."""
    given, result = parameters(function, found), type_of(function, found)
    if given is None:
        raise Refused(f"{what} takes any number of parameters: declare those that cross, with (void) for none")
    if len(given) > len(ORDER):
        raise Refused(f"{what} takes {counted(len(given))}, and at most {len(ORDER)} cross")
    for number, kind in enumerate(given, 1):
        if not crosses(kind):
            raise Refused(f"{what} takes {named(kind)} as parameter {number}, and only numbers of 32 bits cross")
    if result and not crosses(result):
        raise Refused(f"{what} gives {named(result)}, and only numbers of 32 bits cross")
    said = ", ".join(f"{number_type(kind)} {name}" for kind, name in zip(given, ORDER)) or "void"
    return number_type(result) if result else "void", said


def number_type(kind):
    unsigned = kind.fields.get("DW_AT_encoding", "7").split("\t")[0] == "7"
    return "unsigned int" if unsigned and kind.tag == "DW_TAG_base_type" else "int"
