"""Functions that the porter writes into a section: copies and fills of whole objects, calls by number, the stop."""
from .ctypes import Void, base_of, known, target_of, target_of_value
from .values import number


def overlapping_text(name, lines):
    """Where the end of the source would be overwritten before it is read, elements go from the last to the first."""
    inside = "\n".join(f"          {it}" for it in lines)
    return f"""  for (i = 1u; i < count; i++) {{
    if (from + i == to) {{
      for (i = count; i > 0u;) {{
        i = i - 1u;
{inside}
      }}
      return;
    }}
  }}
"""


class Helpers:
    """A part of a section; `generated` has the text of each helper by its key."""

    def generate(self, key, wanted, text):
        """The name of a helper; `text` writes it, given its name."""
        if key not in self.generated:
            name = self.names.take(wanted)
            self.generated[key] = [name, ""]
            self.generated[key][1] = text(name)
        return self.generated[key][0]

    def helper_abort(self):
        return self.generate("abort", "port_abort", lambda name: f"""void {name}(void) {{
  int *nowhere;
  nowhere = 0;
  *nowhere = 0;
  while (1) {{
  }}
}}""")

    def word_of(self, kind):
        """What names the cells of a type in the names of helpers."""
        kind = known(kind)
        if kind.is_struct:
            return kind.group.target
        return "wide" if kind.is_wide else "pointer" if target_of(kind).endswith("*") else "int"

    def assigned(self, kind, to, source):
        """Statements that copy one object of a type; the source may be none: then it becomes 0."""
        kind = known(kind)
        if kind.is_struct:
            self.wants_complete(kind, None)
            lines = []
            for it in kind.kept():
                if it.name:
                    lines += self.assigned_member(it, to, source)
            return lines
        if kind.is_wide:
            return [f"{to}.{half} = {f'{source}.{half}' if source else '0u'};" for half in ("low", "high")]
        return [f"{to} = {source or '0'};"]

    def assigned_member(self, member, to, source):
        base, count = base_of(member.type)
        to, source = f"{to}.{member.target}", f"{source}.{member.target}" if source else None
        if not known(member.type).is_array:
            return self.assigned(base, to, source)
        if source:
            return [f"{self.mover(base)}({to}, {source}, {count}u);"]
        fill = ", 0" if base.is_integer and not base.is_wide else ""
        return [f"{self.filler(base, None)}({to}, {count}u{fill});"]

    def copier(self, kind):
        self.copied_now.add(id(kind))
        spelling = target_of(kind)

        def text(name):
            lines = self.assigned(kind, "(*to)", "(*from)")
            inside = "\n".join(f"  {it}".replace("(*to).", "to->").replace("(*from).", "from->") for it in lines)
            return f"void {name}({spelling} *to, {spelling} *from) {{\n{inside}\n}}"
        return self.generate(("copy", id(kind)), f"copy_{self.word_of(kind)}", text)

    def mover(self, kind, overlapping=False):
        """memcpy of elements, or memmove."""
        kind = known(kind)
        if kind.is_struct:
            self.copied_now.add(id(kind))
        spelling = self.spelled(kind)

        def text(name):
            lines = self.assigned(kind, "to[i]", "from[i]")
            down = overlapping_text(name, lines) if overlapping else ""
            inside = "\n".join(f"    {it}" for it in lines)
            return f"""void {name}({spelling} *to, {spelling} *from, unsigned int count) {{
  unsigned int i;
{down}  for (i = 0u; i < count; i++) {{
{inside}
  }}
}}""".replace("* *", "**")
        return self.generate((overlapping, spelling, id(kind) if kind.is_struct else 0),
                             f"{'move' if overlapping else 'copy'}_{self.word_of(kind)}s", text)

    def byte_mover(self, kind):
        """memcpy of a number of bytes that may end within an element, whose low bytes are copied."""
        def text(name):
            return f"""void {name}(int *to, int *from, unsigned int bytes) {{
  unsigned int count;
  unsigned int mask;
  count = bytes / {kind.size}u;
  {self.mover(kind)}(to, from, count);
  if (bytes % {kind.size}u != 0u) {{
    mask = (1u << bytes % {kind.size}u * 8u) - 1u;
    to[count] = to[count] & ~mask | from[count] & mask;
  }}
}}"""
        return self.generate(("bytes", kind.size), f"copy_bytes_of_{8 * kind.size}_bits", text)

    def spelled(self, kind):
        return target_of(kind)

    def filler(self, kind, coord):
        """memset of elements: integers get a value, everything else becomes 0."""
        kind = known(kind)
        if kind.is_struct:
            self.wants_complete(kind, coord)
        spelling = self.spelled(kind)
        value = ", int value" if kind.is_integer and not kind.is_wide or isinstance(kind, Void) else ""

        def text(name):
            if value:
                inside = "    to[i] = value;"
            else:
                inside = "\n".join(f"    {it}" for it in self.assigned(kind, "to[i]", None))
            return f"""void {name}({spelling} *to, unsigned int count{value}) {{
  unsigned int i;
  for (i = 0u; i < count; i++) {{
{inside}
  }}
}}""".replace("* *", "**")
        return self.generate(("fill", spelling, id(kind) if kind.is_struct else 0), f"fill_{self.word_of(kind)}s", text)

    def sorter(self, kind, order):
        """qsort of elements, as a heap."""
        kind = known(kind)
        spelling = self.spelled(kind)

        def text(name):
            swap = [*self.assigned(kind, "held", "at[child]"), *self.assigned(kind, "at[child]", "at[root]"),
                    *self.assigned(kind, "at[root]", "held")]
            inside, outside = ("\n".join(f"{' ' * depth}{it}" for it in swap) for depth in (4, 4))
            return f"""void {name}_sift({spelling} *at, unsigned int root, unsigned int count, int order) {{
  unsigned int child;
  int compared;
  {spelling} held;
  while (root * 2u + 1u < count) {{
    child = root * 2u + 1u;
    if (child + 1u < count) {{
      compared = {order}(order, at + child, at + (child + 1u));
      if (compared < 0) {{
        child = child + 1u;
      }}
    }}
    compared = {order}(order, at + root, at + child);
    if (compared >= 0) {{
      return;
    }}
{inside}
    root = child;
  }}
}}
void {name}({spelling} *at, unsigned int count, int order) {{
  unsigned int root;
  unsigned int child;
  {spelling} held;
  for (root = count / 2u; root > 0u;) {{
    root = root - 1u;
    {name}_sift(at, root, count, order);
  }}
  for (child = count; child > 1u;) {{
    child = child - 1u;
    root = 0u;
{outside}
    {name}_sift(at, 0u, child, order);
  }}
}}""".replace("* *", "**")
        return self.generate(("sort", spelling, id(kind) if kind.is_struct else 0, order),
                             f"sort_{self.word_of(kind)}s", text)

    # Calls by number

    def signature(self, result, parameters):
        def word(kind):
            kind = known(kind)
            if kind.is_struct:
                return f"struct {id(kind)}"
            if kind.is_integer:
                return kind.name if kind.is_bool or kind.size == 2 or kind.size == 1 else str(kind.size)
            return "void" if isinstance(kind, Void) else target_of(kind)
        return word(result), tuple(word(it) for it in parameters)

    def dispatcher(self, kind, given, coord):
        parameters = kind.parameters if kind.parameters is not None else given
        key = self.signature(kind.result, parameters)
        if key not in self.dispatchers:
            self.dispatchers[key] = (self.names.take("call_by_number"), kind.result, list(parameters))
        return self.dispatchers[key][0]

    def dispatcher_text(self, key):
        name, result, parameters = self.dispatchers[key]
        result = known(result)
        spellings = [it for kind in parameters for it in self.passed(kind)]
        spelling = "void" if isinstance(result, Void) else "unsigned int" if result.is_wide else \
            target_of_value(result)
        given = [f"{of} port_a{at}".replace("* ", "*") for at, of in enumerate(spellings)]
        head = ", ".join(["int port_which", *given])
        texts = ", ".join(f"port_a{at}" for at in range(len(spellings)))
        lines = []
        for number_, entity in enumerate(self.numbered, 1):
            if entity.type.parameters is None or self.signature(entity.type.result, entity.type.parameters) != key:
                continue
            call = f"{self.called(entity, None)[0]}({texts});"
            if isinstance(result, Void):
                lines += [f"  if (port_which == {number_}) {{", f"    {call}", "    return;", "  }"]
            else:
                lines += [f"  if (port_which == {number_}) {{", f"    return {call}", "  }"]
        end = "" if isinstance(result, Void) else "\n  return 0;"
        inside = "\n".join([*lines, f"  {self.helper_abort()}();"])
        return f"{spelling} {name}({head}) {{\n{inside}{end}\n}}".replace("* call", "*call")

    def passed(self, kind):
        """How a parameter of this type is spelled; a long long takes two."""
        kind = known(kind)
        if kind.is_struct:
            return [f"{target_of(kind)} *"]
        return ["unsigned int", "unsigned int"] if kind.is_wide else [target_of_value(kind)]
