"""What the debug information of a compiled file says of its functions, compared with what a section declares."""
import re

from foreign_compile import CROSS, defined, run
from foreign_program import Refused

ENTRY = re.compile(r"\s*<(\d+)><([0-9a-f]+)>: Abbrev Number: (\d+)(?: \((\w+)\))?")
FIELD = re.compile(r"\s*<[0-9a-f]+>\s+(DW_AT_\w+)\s*:\s*(.*)")
SIGNED, UNSIGNED = "5", "7"


class Entry:
    """An entry of the debug information, with its fields and what stands below it."""

    def __init__(self, depth, tag):
        self.depth, self.tag, self.fields, self.below = depth, tag, {}, []

    def name(self):
        return self.fields.get("DW_AT_name", "")


def entries(path):
    """All entries of a file by their offsets."""
    found, open_ones, last = {}, [], None
    for line in run([CROSS + "readelf", "--debug-dump=info", path]).stdout.splitlines():
        if parts := ENTRY.match(line):
            depth, last = int(parts.group(1)), None
            if parts.group(4):
                last = found[parts.group(2)] = Entry(depth, parts.group(4))
                del open_ones[depth:]
                if open_ones:
                    open_ones[-1].below.append(last)
                open_ones.append(last)
        elif last and (parts := FIELD.match(line)):
            last.fields[parts.group(1)] = parts.group(2).split("): ")[-1] if "string" in parts.group(2) \
                else parts.group(2).strip()
    return found


def type_of(entry, found):
    """The type to which an entry refers, without names and qualifiers; nothing for void."""
    while entry and (to := entry.fields.get("DW_AT_type")):
        entry = found.get(to.strip("<>").removeprefix("0x"))
        if entry and entry.tag not in ("DW_TAG_typedef", "DW_TAG_const_type", "DW_TAG_volatile_type"):
            return entry
    return None


def crosses(kind):
    """Whether values of a type are numbers of 32 bits."""
    if not kind or kind.fields.get("DW_AT_byte_size") != "4":
        return False
    encoding = kind.fields.get("DW_AT_encoding", "").split("\t")[0]
    return kind.tag == "DW_TAG_enumeration_type" or kind.tag == "DW_TAG_base_type" and encoding in (SIGNED, UNSIGNED)


def named(kind):
    """A type in words."""
    if not kind:
        return "void"
    if kind.tag == "DW_TAG_pointer_type":
        return "a pointer"
    if kind.tag == "DW_TAG_base_type":
        return kind.name()
    return f"{kind.tag.removeprefix('DW_TAG_').removesuffix('_type')} {kind.name()}".strip()


def parameters(entry, found):
    """The types of a function's parameters; nothing where it doesn't say them."""
    tags = [it.tag for it in entry.below]
    declares = "DW_AT_declaration" in entry.fields and "DW_AT_prototyped" not in entry.fields
    if "DW_TAG_unspecified_parameters" in tags or declares and "DW_TAG_formal_parameter" not in tags:
        return None
    return [type_of(it, found) for it in entry.below if it.tag == "DW_TAG_formal_parameter"]


def differs(function, entry, found):
    """How a function of C isn't the one that a section declares, in words."""
    given, wanted = parameters(entry, found), len(function.parameters)
    result = type_of(entry, found)
    if given is None:
        return ""
    if len(given) != wanted:
        return f"takes {counted(len(given))}, and the text's takes {counted(wanted)}"
    for number, kind in enumerate(given, 1):
        if not crosses(kind):
            return f"takes {named(kind)} as parameter {number}, and only numbers of 32 bits cross"
    if result and not crosses(result):
        return f"gives {named(result)}, and only numbers of 32 bits cross"
    if bool(result) != (function.result != "void"):
        return f"gives {named(result)}, and the text's gives {function.result}"
    return ""


def counted(number):
    return f"{number or 'no'} parameter{'' if number == 1 else 's'}"


def functions(path):
    """The functions of C that a compiled file defines or declares for others, and all entries."""
    found = entries(path)
    shown = [it for it in found.values() if it.tag == "DW_TAG_subprogram" and it.name()
             and "DW_AT_external" in it.fields and it.fields.get("DW_AT_linkage_name", it.name()) == it.name()]
    return shown, found


def check(face, objects, is_main):
    """Refuses files that lack an export, or in which a function isn't as the section declares it."""
    here = {made: defined(made) for _, made in objects}
    entered = [function.name for function in face.exports] + (["main"] if is_main else [])
    for name in entered:
        if not any(name in names for names in here.values()):
            mangled = any(re.match(rf"_Z{len(name)}{name}", it) for names in here.values() for it in names)
            raise Refused(missing(face, name, mangled))
    for path, made in objects:
        shown, found = functions(made)
        for entry in shown:
            for function in face.exports if "DW_AT_declaration" not in entry.fields else face.imports + \
                    face.environment:
                said = differs(function, entry, found) if function.name == entry.name() else ""
                if said:
                    raise Refused(f"{path}:{entry.fields.get('DW_AT_decl_line', '?')}: {function.name} {said}")


def missing(face, name, mangled):
    if mangled:
        return f"{name} has a name of C++: write extern \"C\" before it"
    what = f"{face.name} exports {name}" if name != "main" else f"{face.name} has main"
    return f"{what}, and no file defines it for others"
