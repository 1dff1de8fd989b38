"""From a C file to pycparser's tree: `cc -E` with headers of the porter's own, then attributes are taken out."""
import os
import re
import subprocess

from pycparser import c_parser
from pycparser.c_parser import ParseError

from .common import Refused

HEADERS = os.path.join(os.path.dirname(os.path.abspath(__file__)), "headers")
DEFINED = {
    "__CHAR_BIT__": "8", "__SCHAR_MAX__": "127", "__SHRT_MAX__": "32767", "__INT_MAX__": "2147483647",
    "__LONG_MAX__": "2147483647L", "__LONG_LONG_MAX__": "9223372036854775807LL", "__SIZEOF_SHORT__": "2",
    "__SIZEOF_INT__": "4", "__SIZEOF_LONG__": "4", "__SIZEOF_LONG_LONG__": "8", "__SIZEOF_POINTER__": "4",
    "__SIZEOF_SIZE_T__": "4", "__SIZE_TYPE__": "unsigned int", "__PTRDIFF_TYPE__": "int", "__WCHAR_TYPE__": "int",
    "__SIZE_MAX__": "4294967295U", "__PTRDIFF_MAX__": "2147483647", "__ORDER_LITTLE_ENDIAN__": "1234",
    "__ORDER_BIG_ENDIAN__": "4321", "__BYTE_ORDER__": "1234", "__INT8_TYPE__": "signed char",
    "__UINT8_TYPE__": "unsigned char", "__INT16_TYPE__": "short", "__UINT16_TYPE__": "unsigned short",
    "__INT32_TYPE__": "int", "__UINT32_TYPE__": "unsigned int", "__INT64_TYPE__": "long long",
    "__UINT64_TYPE__": "unsigned long long", "__INTPTR_TYPE__": "int", "__UINTPTR_TYPE__": "unsigned int",
    "__INT8_MAX__": "127", "__INT16_MAX__": "32767", "__INT32_MAX__": "2147483647", "__UINT8_MAX__": "255",
    "__UINT16_MAX__": "65535", "__UINT32_MAX__": "4294967295U", "__INT64_MAX__": "9223372036854775807LL",
    "__UINT64_MAX__": "18446744073709551615ULL",
    "__const": "const", "__const__": "const", "__volatile": "volatile", "__volatile__": "volatile",
    "__signed__": "signed", "__signed": "signed", "__restrict": "restrict", "__restrict__": "restrict",
    "__inline": "inline", "__inline__": "inline", "__extension__": "",
    "__builtin_abort": "abort", "__builtin_exit": "exit", "__builtin_memcpy": "memcpy", "__builtin_memset": "memset",
    "__builtin_memmove": "memmove", "__builtin_memcmp": "memcmp", "__builtin_strlen": "strlen",
    "__builtin_strcmp": "strcmp", "__builtin_strcpy": "strcpy", "__builtin_strncmp": "strncmp",
    "__builtin_strncpy": "strncpy", "__builtin_strcat": "strcat", "__builtin_strchr": "strchr",
    "__builtin_strrchr": "strrchr", "__builtin_malloc": "malloc", "__builtin_free": "free",
    "__builtin_calloc": "calloc", "__builtin_abs": "abs", "__builtin_labs": "labs",
    "__builtin_offsetof(t,m)": "offsetof(t,m)", "__builtin_expect": "port_expect",
    "__builtin_ffs": "ffs", "__builtin_ffsl": "ffs", "__builtin_clz": "port_clz", "__builtin_ctz": "port_ctz",
    "__builtin_clzl": "port_clz", "__builtin_ctzl": "port_ctz", "__builtin_popcount": "port_popcount",
    "__builtin_popcountl": "port_popcount", "__builtin_parity": "port_parity", "__builtin_parityl": "port_parity",
    "__builtin_bswap32": "port_bswap32", "__builtin_bswap16": "port_bswap16", "__builtin_strstr": "strstr",
    "__builtin_isdigit": "isdigit", "__builtin_toupper": "toupper", "__builtin_tolower": "tolower",
    "__builtin_memchr": "memchr", "__builtin_strncat": "strncat", "__builtin_strspn": "strspn",
    "__builtin_strcspn": "strcspn", "__builtin_strpbrk": "strpbrk", "__builtin_prefetch": "port_prefetch",
    "__builtin_putchar": "putchar", "__builtin_puts": "puts", "__builtin_llabs": "llabs",
    "__builtin_clzll": "port_clzll", "__builtin_ctzll": "port_ctzll", "__builtin_popcountll": "port_popcountll",
    "__builtin_bswap64": "port_bswap64", "__builtin_ffsll": "port_ffsll", "__builtin_parityll": "port_parityll",
    "__builtin_trap": "abort", "__builtin_unreachable": "abort", "__builtin_assume_aligned": "port_assume_aligned",
}
HARMLESS = set("""noinline noclone unused used const pure noreturn always_inline noipa cold hot nothrow leaf malloc
returns_nonnull nonnull warn_unused_result deprecated optimize gnu_inline artificial flatten
format no_reorder noplt externally_visible no_icf stack_protect no_sanitize_undefined may_alias_none fallthrough
alloc_size access visibility""".split())
PACKED = "char port_packed;"
UNKNOWN = {"__typeof__", "typeof", "__typeof", "__label__", "__alignof__", "__alignof", "_Alignas", "_Alignof",
           "_Generic", "_Thread_local", "__thread", "_Atomic", "va_arg", "__builtin_va_arg", "__builtin_choose_expr",
           "__builtin_types_compatible_p"}
PRAGMAS = re.compile(r"#\s*pragma\s*($|(once|message|mark|region|endregion|omp|clang|STDC FP_CONTRACT|"
                     r"GCC (diagnostic|ivdep|unroll|optimize|poison|system_header|push_options|pop_options|visibility|"
                     r"warning|error|target))\b)")
MARKER = re.compile(r'#\s*(?:line\s+)?(\d+)\s+"((?:[^"\\]|\\.)*)"')
EFFECT = re.compile(r"\+\+|--|[\w)\]]\s*\(|=")
WORD = re.compile(r'"(?:[^"\\\n]|\\.)*"|\'(?:[^\'\\\n]|\\.)*\'|[A-Za-z_]\w*|[()]|\n|[^\w"\'()\n]+|\d\w*|.', re.S)


class Place:
    def __init__(self, file, line):
        self.file, self.line = file, line


def preprocessed(path, folders, defines):
    words = ["cc", "-E", "-undef", "-nostdinc", "-std=gnu11", "-D__STDC_HOSTED__=1", "-I", HEADERS]
    words += [f"-D{name}={text}" for name, text in DEFINED.items()]
    words += [word for folder in folders for word in ("-I", folder)] + [f"-D{it}" for it in defines]
    ran = subprocess.run([*words, path], capture_output=True, check=False)
    if ran.returncode:
        said = ran.stderr.decode(errors="replace").strip().split("\n")
        fault = next((line for line in said if "error" in line), said[0])
        parts = re.match(r"([^:]+):(\d+):(?:\d+:)?\s*(?:fatal )?(?:error: )?(.*)", fault)
        if parts:
            raise Refused(Place(parts.group(1), int(parts.group(2))), f"the preprocessor says: {parts.group(3)}")
        raise Refused(Place(path, 1), f"the preprocessor says: {fault}")
    return ran.stdout.decode("latin-1")


def attribute_names(text):
    """The names of the attributes in the inner parentheses, without their arguments."""
    depth, names = 0, []
    for word in WORD.findall(text):
        depth += (word == "(") - (word == ")")
        if depth == 2 and re.match(r"[A-Za-z_]", word):
            names.append(word.strip("_"))
    return names


def empty_assembler(words, at):
    """How many words an asm statement takes that does nothing: its text is empty, each output is its own input, and no
    operand has an effect."""
    taken, depth = [], 0
    while at < len(words) and len(taken) < 400:
        taken.append(words[at])
        depth += (words[at] == "(") - (words[at] == ")")
        at += 1
        if depth == 0 and taken[-1] == ")":
            break
    text = re.sub(r"\b(volatile|__volatile__|__volatile)\b", "", "".join(taken))
    parts = re.fullmatch(r'\s*\(\s*((?:""\s*)+)(:(?P<out>[^:]*)(:.*)?)?\)', text, re.S)
    if not parts or EFFECT.search(re.sub(r'"[^"]*"\s*\(', "(", text)):
        return 0
    outputs = re.findall(r'"([^"]*)"', parts.group("out") or "")
    return len(taken) if all(it.startswith("+") for it in outputs) else 0


class Context:
    """Whether a declaration is one of objects, where an alignment changes nothing that a program can see; and which
    structures are packed: these get a member of the name PACKED."""

    def __init__(self):
        self.structs, self.words, self.packs, self.is_packed = [], [], [False], False

    def pragma(self, text):
        """Whether this is a `#pragma pack` that is understood: of one byte, or back to what was."""
        parts = re.fullmatch(r"#\s*pragma\s+pack\s*\(\s*(?:(push)\s*,\s*)?(1|push|pop|)\s*\)", text)
        if not parts or parts.group(2) == "pop" and len(self.packs) == 1:
            return False
        if "push" in parts.groups():
            self.packs.append(self.packs[-1])
        if parts.group(2) == "pop":
            self.packs.pop()
        elif parts.group(2) != "push":
            self.packs[-1] = parts.group(2) == "1"
        return True

    def packs_here(self, kept):
        """Takes the attribute `packed` of a structure, before its members or right after them."""
        if self.words[-1:] == ["}"]:
            at = next(at for at in range(len(kept) - 1, -1, -1) if "}" in kept[at] and kept[at][0] not in "\"'")
            before, _, after = kept[at].rpartition("}")
            kept[at] = f"{before} {PACKED} }}{after}"
            return True
        self.is_packed = self.words[-1:] in (["struct"], ["union"])
        return self.is_packed

    def begins_members(self):
        """Whether a brace would follow `struct`, or it and a tag."""
        last = self.words[-2:]
        return bool(last) and (last[-1] in ("struct", "union") or last[0] in ("struct", "union") and last[1].isidentifier())

    def marked(self, word):
        """The word, with the mark behind the brace of a packed structure."""
        if "{" in word and word[0] not in "\"'" and self.begins_members() and (self.is_packed or self.packs[-1]):
            word, self.is_packed = word.replace("{", f"{{ {PACKED}", 1), False
        return word

    def see(self, word):
        for mark in word if not word[0].isalnum() and word[0] not in "_\"'" else (word,):
            if mark == "{":
                self.structs.append(self.begins_members())
                self.words = []
            elif mark == "}":
                if self.structs:
                    self.words = ["}"] if self.structs.pop() else []
            elif mark == ";":
                self.words = []
            elif not mark.isspace():
                self.words.append(mark)

    def is_object(self):
        last = self.words[-1] if self.words else ""
        return not any(self.structs) and "typedef" not in self.words and last not in ("struct", "union", "}")


def without_attributes(text, path):
    """The text with attributes blanked; one that may change what the program means is refused."""
    words, at, place, kept, context = WORD.findall(text), 0, Place(path, 1), [], Context()
    while at < len(words):
        word = words[at]
        at += 1
        if word == "\n":
            place = Place(place.file, place.line + 1)
        elif word in ("__attribute__", "__attribute", "asm", "__asm__", "__asm"):
            end = after_attribute(words, at, place, context, kept) if "attr" in word else \
                at + empty_assembler(words, at)
            if end == at:
                raise Refused(place, "asm")
            word, at = "\n" * "".join(words[at:end]).count("\n"), end
            place = Place(place.file, place.line + len(word))
        elif word in UNKNOWN:
            raise Refused(place, word)
        elif word.lstrip().startswith("#") and (not kept or kept[-1].endswith("\n")):
            end = next((it for it in range(at, len(words)) if words[it] == "\n"), len(words))
            word, at = "".join(words[at - 1:end]), end
            marker = MARKER.match(word.strip())
            if marker:
                place = Place(marker.group(2), int(marker.group(1)) - 1)
            elif not PRAGMAS.match(word.strip()) and not context.pragma(word.strip()):
                raise Refused(place, word.strip())
        else:
            marked = context.marked(word)
            context.see(word)
            word = marked
        kept.append(word)
    return "".join(kept)


def after_attribute(words, at, place, context, kept):
    """Where the words after an attribute begin; one that may change what the program means is refused."""
    depth, end = 0, at
    while end < len(words):
        depth += (words[end] == "(") - (words[end] == ")")
        end += 1
        if depth == 0 and words[end - 1] == ")":
            break
    for name in attribute_names("".join(words[at:end])):
        if name not in HARMLESS and not (name == "aligned" and context.is_object()) and \
                not (name == "packed" and context.packs_here(kept)):
            raise Refused(place, f"attribute {name}")
    return end


def tree_of(path, folders, defines):
    """pycparser's tree of a file. What it can't parse is refused at its line."""
    text = without_attributes(preprocessed(path, folders, defines), path)
    text = "\n".join("" if line.lstrip().startswith("#pragma") else line for line in text.split("\n"))
    parser = c_parser.CParser()
    try:
        return parser.parse(text, path)
    except ParseError as error:
        parts = re.match(r"(.*?):(\d+)(?::\d+)?: (.*)", str(error))
        if parts:
            raise Refused(Place(parts.group(1), int(parts.group(2))), f"no C11 that pycparser reads: {parts.group(3)}")
        raise Refused(reached(parser, path), f"no C11 that pycparser reads: {str(error).split(': ')[-1]}")
    except RecursionError:
        raise Refused(reached(parser, path), "nested too deep for the parser")


def reached(parser, path):
    """The place up to which the parser has read."""
    lexer = getattr(parser.clex, "lexer", parser.clex)
    line = getattr(lexer, "lineno", None) or getattr(lexer, "_lineno", 1)
    return Place(parser.clex.filename or path, line)
