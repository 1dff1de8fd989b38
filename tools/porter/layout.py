"""How structures are written: in an order in which each is defined before it is used, and structures that point to
each other as one, which has the members of all."""
from .common import Names, Refused
from .ctypes import base_of, cells_of, is_function_pointer, known, target_of, unify

MOST_CELLS = 1 << 20


def mentioned(kind):
    """The structures that the spelling of a type needs: those kept in it, and those that it points to."""
    kind = base_of(kind)[0]
    is_kept = True
    while kind.is_pointer:
        if is_function_pointer(kind):
            return []
        kind, is_kept = base_of(kind.to)[0], False
    return [(kind, is_kept)] if kind.is_struct and kind.members is not None else []


class Layout:
    """A part of a section."""

    def begin_layout(self):
        if not hasattr(self, "tags"):
            self.tags = Names({"wide_word"})

    def fits(self, kind, coord):
        if cells_of(kind) > MOST_CELLS:
            raise Refused(coord, f"an object of {cells_of(kind)} cells, more than {MOST_CELLS}")

    def defined(self, struct):
        if struct.target is None:
            struct.target = self.tags.take(struct.tag)
        names = Names()
        for it in struct.members:
            if it.name:
                it.target = names.take(it.name)

    def sees(self, struct, member, coord):
        """A member of a union is used: all that are have to be kept alike."""
        if struct.seen is None:
            struct.seen = member
        first, second = base_of(struct.seen.type), base_of(member.type)
        alike = target_of(first[0]) == target_of(second[0]) and first[1] == second[1] and \
            known(struct.seen.type).is_array == known(member.type).is_array
        if alike and first[0].is_integer and second[0].is_integer:
            alike = first[0].size == second[0].size and first[0].is_bool == second[0].is_bool
        elif alike and struct.seen is not member:
            alike = first[0].is_pointer and second[0].is_pointer and unify(first[0], second[0])
        if not alike:
            raise Refused(coord, f"a union whose members {struct.seen.name} and {member.name} are both used")
        return struct.seen.target

    def wants_complete(self, kind, coord):
        if kind.is_struct and kind.members is None:
            raise Refused(coord, f"the incomplete {kind!r}")

    def complete(self):
        return [it for it in self.structs_at.values() if it.members is not None]

    def group(self):
        """Puts structures that point to each other together, after all are known."""
        for parts in self.ordered_groups():
            leader = parts[0]
            if len(parts) > 1:
                names = Names()
                for struct in parts:
                    for member in struct.members:
                        for inner, is_kept in mentioned(member.type):
                            if is_kept and inner in parts:
                                raise Refused(struct.coord, f"{struct!r} has {inner!r} as a member, which points "
                                                            "back to it")
                        if member.name:
                            member.target = names.take(member.name)
            for struct in parts:
                struct.group = leader

    def ordered_groups(self):
        """Tarjan's strongly connected components: what a structure needs comes before it."""
        index, low, stack, found = {}, {}, [], []

        def visit(struct):
            index[struct] = low[struct] = len(index)
            stack.append(struct)
            for member in struct.members:
                for inner, _ in mentioned(member.type):
                    if inner not in index:
                        visit(inner)
                        low[struct] = min(low[struct], low[inner])
                    elif inner in stack:
                        low[struct] = min(low[struct], index[inner])
            if low[struct] == index[struct]:
                at = stack.index(struct)
                found.append(stack[at:])
                del stack[at:]
        for struct in self.complete():
            if struct not in index:
                visit(struct)
        return found

    def struct_lines(self):
        lines = []
        for parts in self.ordered_groups():
            lines.append(f"struct {parts[0].group.target} {{")
            for struct in parts:
                for member in struct.kept():
                    if member.name:
                        lines.append("  " + self.declarator(member.type, member.target) + ";")
            if not any(member.name for struct in parts for member in struct.members):
                lines.append("  int nothing;")
            lines.append("};")
        return lines

    def declarator(self, kind, name):
        kind = known(kind)
        base, count = base_of(kind)
        text = f"{target_of(base)} {name}".replace("* ", "*")
        return f"{text}[{count}]" if kind.is_array else text
