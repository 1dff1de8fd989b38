"""How tools/foreign compiles and links the files of a foreign compartment: by the cross compiler of Debian, for RV32IM,
with the code, the globals and the entries where the machine wants them."""
import functools
import os
import re
import shutil
import subprocess

from foreign_program import MOST_CODE, MOST_GLOBALS, Refused, write

PARTS = os.path.join(os.path.dirname(os.path.abspath(__file__)), "foreign_parts")
CROSS = "riscv64-unknown-elf-"
PACKAGES = {CROSS + "gcc": "gcc-riscv64-unknown-elf", CROSS + "g++": "gcc-riscv64-unknown-elf",
            CROSS + "ld": "binutils-riscv64-unknown-elf", "clang": "clang", "clang++": "clang"}
LIBRARY = "/usr/lib/picolibc/riscv64-unknown-elf"
KINDS = {".c": "C", ".cc": "C++", ".cpp": "C++", ".cxx": "C++", ".C": "C++", ".s": "assembly", ".S": "assembly"}
TARGET = ["-march=rv32im", "-mabi=ilp32", "-mno-relax"]
COMMON = ["-gdwarf-4", "-O2", "-ffunction-sections", "-fdata-sections", "-fno-pic", "-fno-stack-protector",
          "-fno-exceptions", "-fno-asynchronous-unwind-tables"]
PLUS = ["-fno-rtti", "-fno-threadsafe-statics"]
SAVED = ["ra", *[f"s{number}" for number in range(12)], "gp", "tp"]
LAYOUT = """SECTIONS {
  . = %(code)#x;
  .text : { KEEP(*(.entries)) *(.text .text.*) }
  . = %(data)#x;
  secomp_thread = .;
  .tdata : { *(.tdata .tdata.*) }
  .tbss : { *(.tbss .tbss.* .tcommon) }
  .data ALIGN(%(data)#x + SIZEOF(.tdata) + SIZEOF(.tbss), 16) : {
    secomp_constructors = .;
    KEEP(*(SORT_BY_INIT_PRIORITY(.init_array.*))) KEEP(*(.init_array))
    secomp_constructors_end = .;
    *(.rodata .rodata.* .srodata .srodata.*) *(.data .data.* .sdata .sdata.*)
    *(.bss .bss.* .sbss .sbss.* COMMON)
    BYTE(0) . = ALIGN(4);
  }
  /DISCARD/ : { *(.eh_frame .eh_frame_hdr .fini_array .fini_array.* .comment .riscv.attributes .note .note.*) }
}
"""


def run(words, folder=None):
    return subprocess.run(words, capture_output=True, text=True, errors="replace", check=False, cwd=folder)


def demand(compiler):
    """Refuses where the compiler or its library isn't here, with the Debian package that has it."""
    needed = [CROSS + "gcc", *(["clang"] if compiler == "clang" else [])]
    for name in needed:
        if not shutil.which(name):
            raise Refused(f"{name} is missing: apt-get install {PACKAGES[name]}")
    if not os.path.isdir(LIBRARY):
        raise Refused("picolibc is missing: apt-get install picolibc-riscv64-unknown-elf")


def compiler_words(compiler, kind):
    """The compiler of such a file, with its options."""
    plus = kind == "C++"
    if compiler == "clang":
        words = ["clang++" if plus else "clang", "--target=riscv32-unknown-elf", *TARGET, *COMMON,
                 "-ftls-model=local-exec", "-ferror-limit=5", "-Wno-unused-command-line-argument",
                 "-isystem", f"{LIBRARY}/include"]
    else:
        words = [CROSS + ("g++" if plus else "gcc"), *TARGET, *COMMON, "-mstrict-align", "-msmall-data-limit=0",
                 "-fmax-errors=5", f"--specs=picolibc{'pp' if plus else ''}.specs"]
    return words + (PLUS if plus else [])


class Build:
    """One foreign compartment as it is compiled, in a folder of its own: the compiler, its options and the objects."""

    def __init__(self, compiler, folders, names, folder):
        demand(compiler)
        self.compiler, self.folder = compiler, folder
        self.options = [*(f"-I{it}" for it in folders), *(f"-D{it}" for it in names), "-idirafter", folder]
        self.objects = []

    def compile(self, path):
        """Makes a file's object, or refuses with what the compiler says."""
        kind = KINDS.get(os.path.splitext(path)[1])
        if not kind:
            raise Refused(f"{path} is neither C, C++ nor assembly: its name ends in none of {' '.join(KINDS)}")
        if not os.path.isfile(path):
            raise Refused(f"{path}: there is no such file")
        made = os.path.join(self.folder, f"{len(self.objects)}.o")
        done = run([*compiler_words(self.compiler, kind), *self.options, "-c", path, "-o", made])
        if done.returncode:
            raise Refused(f"{path} isn't accepted by {self.compiler}:\n{done.stderr.rstrip()}")
        self.objects.append((path, made))
        check_object(path, made)

    def link(self, face, is_main):
        """The linked file; where constructors or thread-local data are, the entries go through a start."""
        parts = os.path.join(self.folder, "parts.o")
        # Without -fno-builtin gcc would make a call of calloc of what calloc does.
        done = run([*compiler_words("gcc", "C"), "-fno-builtin", f"-Wa,-I{PARTS}", "-c", f"{PARTS}/all.c", "-o", parts])
        if done.returncode:
            raise Refused(f"{PARTS}/all.c isn't accepted: {done.stderr.rstrip()}")
        elf = self.link_once(face, is_main, parts, set())
        wanted = {"thread"} if section_sizes(elf).get(".tdata") or section_sizes(elf).get(".tbss") else set()
        if symbols(elf)["secomp_constructors"] != symbols(elf)["secomp_constructors_end"]:
            wanted.add("constructors")
        return self.link_once(face, is_main, parts, wanted) if wanted else elf

    def link_once(self, face, is_main, parts, wanted):
        names = ("veneers.s", "layout.ld", "linked" + "-".join(["", *sorted(wanted)]))
        veneers, script, elf = (os.path.join(self.folder, name) for name in names)
        write(veneers, veneers_of(face, is_main, wanted).encode())
        write(script, (LAYOUT % {"code": face.code_start(), "data": face.globals_start()}).encode())
        words = [CROSS + "gcc", *TARGET, "--specs=picolibc.specs", "-nostdlib", "-static", "-Wl,--no-relax",
                 "-Wl,--gc-sections", "-Wl,--no-warn-rwx-segments", f"-T{script}", "-Wl,-e,secomp_entries", "-o", elf,
                 veneers, *(made for _, made in self.objects), parts,
                 "-Wl,--start-group", "-lc", "-lm", "-lgcc", "-Wl,--end-group"]
        done = run(words)
        if done.returncode:
            raise Refused(link_fault(done.stderr, face, dict((made, path) for path, made in self.objects)))
        return elf


def veneers_of(face, is_main, wanted):
    """The assembly of the entries, of calls to other compartments, and of input and output."""
    entered = [function.name for function in face.exports] + (["main"] if is_main else [])
    lines = [".option norelax", ".option norvc", '.section .entries, "ax"', ".globl secomp_entries", "secomp_entries:"]
    lines += [f"  jal x0, {'secomp_first_' if wanted else ''}{name}" for name in entered]
    for name in entered if wanted else []:
        lines += first(name, wanted)
    for function in face.imports:
        entry = function.owner.code_start() + 4 * function.index
        lines += code(function.name) + ["  addi sp, sp, -64"]
        lines += [f"  sw {name}, {4 * at}(sp)" for at, name in enumerate(SAVED)]
        lines += [f"  li t0, {entry:#x}", "  jalr ra, t0"]
        lines += [f"  lw {name}, {4 * at}(sp)" for at, name in enumerate(SAVED)] + ["  addi sp, sp, 64", "  ret"]
    for function in face.environment:
        lines += code(function.name) + [f"  li a7, {1 if function.name == 'input' else 2}", "  ecall", "  ret"]
    return "\n".join(lines) + "\n"


def code(name):
    return [f'.section .text.secomp_{name}, "ax"', f".globl {name}", f".type {name}, @function", f"{name}:"]


def first(name, wanted):
    """What an entry does before its function: tp, and the constructors, with all arguments kept."""
    kept = ["ra", *[f"a{number}" for number in range(8)]]
    lines = code(f"secomp_first_{name}")
    if "thread" in wanted:
        lines += ["  lui tp, %hi(secomp_thread)", "  addi tp, tp, %lo(secomp_thread)"]
    if "constructors" in wanted:
        lines += ["  addi sp, sp, -48"] + [f"  sw {it}, {4 * at}(sp)" for at, it in enumerate(kept)]
        lines += ["  call secomp_construct"]
        lines += [f"  lw {it}, {4 * at}(sp)" for at, it in enumerate(kept)] + ["  addi sp, sp, 48"]
    return lines + [f"  tail {name}"]


def link_fault(said, face, paths):
    """What the linker says, in a sentence."""
    for made, path in paths.items():
        said = said.replace(made, path)
    if parts := re.search(r"undefined reference to `([^']+)'", said):
        return unknown(parts.group(1), said, face)
    if parts := re.search(r"multiple definition of `([^']+)'", said):
        name = parts.group(1)
        if any(function.name == name for function in face.imports + face.environment):
            return f"{name} is defined by a file, and {face.name} imports a function of that name"
        return f"{name} is defined by two files"
    if "overflow" in said or "truncated to fit" in said or "overlaps section" in said:
        return f"the code or the globals of {face.name} are too large: {MOST_CODE} bytes of code and " \
               f"{MOST_GLOBALS} bytes of globals are the most"
    return f"the files of {face.name} can't be linked:\n{said.rstrip()}"


def unknown(name, said, face):
    """Of a name that nothing defines, what to do."""
    user = re.search(rf"(\S+?):(?:\d+|\(\S+\)): undefined reference to `{re.escape(name)}'", said)
    used = f" is used in {os.path.relpath(user.group(1)) if os.path.isabs(user.group(1)) else user.group(1)}, and" \
        if user else ""
    if name in ("input", "output"):
        return f"{name}{used} isn't imported: add `#pragma import Env {name}` to the section {face.name}"
    if name.startswith("__atomic_") or name.startswith("__sync_"):
        return f"{name}{used} is atomic, and RV32IM has no atomic instructions: use a plain variable"
    return f"{name}{used} is defined nowhere: give the file that defines it, or let {face.name} import it"


@functools.cache
def headers(path):
    """What readelf says of a file's header and sections."""
    return run([CROSS + "readelf", "-hSW", path]).stdout


def section_sizes(path):
    """The sizes of a file's sections that take memory."""
    found = {}
    for line in headers(path).splitlines():
        parts = re.match(r"\s*\[\s*\d+\]\s+(\S+)\s+\S+\s+[0-9a-f]+\s+[0-9a-f]+\s+([0-9a-f]+)\s+\S+\s+(\S*)", line)
        if parts and "A" in parts.group(3):
            found[parts.group(1)] = int(parts.group(2), 16)
    return found


def check_object(path, made):
    """Refuses an object with compressed instructions, other floats, or thread-local data."""
    if re.search(r"Flags:.*RVC", headers(made)):
        raise Refused(f"{path} has compressed instructions, and the machine has none: leave `.option rvc` out")
    local = [name for name, size in section_sizes(made).items() if size and re.match(r"\.t(data|bss)\b", name)]
    if local:
        name = local[0].split(".")[-1]
        said = f"{path} has thread-local data" + (f", {name}" if name not in ("tdata", "tbss") else "")
        raise Refused(f"{said}: a compartment has no threads, so compile it with -D _Thread_local= -D __thread=")


@functools.cache
def listed(path):
    """The symbols that a file defines, by their addresses: address, kind and name."""
    rows = (line.split() for line in run([CROSS + "nm", "-n", "--defined-only", path]).stdout.splitlines())
    return [(int(row[0], 16), row[1], row[2]) for row in rows if len(row) == 3]


def symbols(path):
    """The addresses of a linked file's symbols."""
    return {name: address for address, _, name in listed(path)}


def defined(path):
    """The functions and data that an object shows to others."""
    return {name for _, kind, name in listed(path) if kind.isupper()}


def contents(elf, name):
    """The bytes of a section of a linked file."""
    made = elf + ".bytes"
    done = run([CROSS + "objcopy", "-O", "binary", "-j", name, elf, made])
    if done.returncode:
        raise Refused(done.stderr.strip())
    with open(made, "rb") as it:
        return it.read()


def parts_of(elf, face):
    """The code and the globals of a linked file, which are within their limits."""
    sizes = section_sizes(elf)
    for name, size in sizes.items():
        if size and name not in (".text", ".tdata", ".tbss", ".data"):
            raise Refused(f"the section {name} has no place in a compartment: leave its attribute out")
    before = -(-(sizes.get(".tdata", 0) + sizes.get(".tbss", 0)) // 16) * 16
    for what, size, most in (("code", sizes[".text"], MOST_CODE), ("globals", before + sizes[".data"], MOST_GLOBALS)):
        if size > most:
            raise Refused(f"the {what} of {face.name} {'take' if what == 'globals' else 'takes'} {size} bytes, more "
                          f"than {most}")
    local = contents(elf, ".tdata") if sizes.get(".tdata") else b""
    text = contents(elf, ".text")
    return text + bytes(-len(text) % 4), local + bytes(before - len(local)) + contents(elf, ".data")
