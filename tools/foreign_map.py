"""The map of a foreign compartment, which tools/foreign writes and tools/where and tools/image read: which addresses
are whose, which functions begin where, and which line of which file each instruction comes from.

A map has lines `compartment NAME START END`, `function ADDRESS NAME`, and `from ADDRESS LINE FUNCTION FILE`, which
speaks of all instructions from that address to the next such line or the end. What comes from no file has line 0.
"""
import os
import re
import subprocess

from foreign_program import Refused, bytes_of

HEAD = "secomp map 1"


class Map:
    """Addresses of foreign compartments, and what stands there."""

    def __init__(self):
        self.compartments, self.functions, self.places = [], {}, []

    def compartment(self, address):
        return next((name for name, start, end in self.compartments if start <= address < end), None)

    def function(self, address):
        """The function that begins last before an address, or none."""
        begins = [start for start in self.functions if start <= address]
        return self.functions[max(begins)] if begins and self.compartment(address) else None

    def place(self, address):
        """The file, line and function of an instruction, or none."""
        if not self.compartment(address):
            return None
        before = [it for it in self.places if it[0] <= address]
        return before[-1][1:] if before and before[-1][1] else None

    def said(self, address):
        """An instruction's place in words, with the lines around it where the file is here."""
        found = self.place(address)
        if not found:
            name = self.compartment(address)
            return f"{self.function(address) or 'entries'} of {name}, from no file" if name else ""
        line, function, path = found
        return f"{path}:{line} in {function}"

    def around(self, address, most=1):
        """The lines of the file around that of an instruction, the line itself marked."""
        found = self.place(address)
        if not found or not os.path.isfile(found[2]):
            return []
        with open(found[2], encoding="utf-8", errors="replace") as it:
            lines = it.read().split("\n")
        return [f"  {'>' if number == found[0] else ' '} {number:5} {lines[number - 1]}"
                for number in range(max(1, found[0] - most), min(len(lines), found[0] + most) + 1)]


def read_map(path):
    """The map in a file."""
    found = Map()
    head, *lines = bytes_of(path).decode("utf-8", "replace").split("\n")
    if head != HEAD:
        raise Refused(f"{path} is no map: it doesn't begin with `{HEAD}`")
    for number, line in enumerate(lines, 2):
        words = line.split(" ")
        try:
            if words[0] == "compartment":
                found.compartments.append((words[1], int(words[2], 16), int(words[3], 16)))
            elif words[0] == "function":
                found.functions[int(words[1], 16)] = words[2]
            elif words[0] == "from":
                found.places.append((int(words[1], 16), int(words[2]), words[3], " ".join(words[4:])))
            elif line:
                raise ValueError
        except (ValueError, IndexError):
            raise Refused(f"{path}:{number}: no line of a map") from None
    found.places.sort()
    return found


def map_lines(face, elf, size, tool, symbols, cross):
    """The lines of a linked compartment's map."""
    start = face.code_start()
    yield f"compartment {face.name} {start:#010x} {start + size:#010x}"
    seen = set()
    for address, kind, name in symbols:
        if kind in "TtWw" and start <= address < start + size and address not in seen:
            seen.add(address)
            yield f"function {address:#010x} {name}"
    last = None
    for address, function, path, line in instructions(elf, range(start, start + size, 4), cross):
        own = path.startswith(tool) or path == "??"
        place = (0, "-", "-") if own or not line else (line, function, near(path))
        if place != last:
            last = place
            yield f"from {address:#010x} {place[0]} {place[1]} {place[2]}"


def instructions(elf, addresses, cross):
    """Of each address its function, file and line, as the debug information has them."""
    asked = "".join(f"{address:#x}\n" for address in addresses)
    said = subprocess.run([cross + "addr2line", "-f", "-e", elf], input=asked, capture_output=True, text=True,
                          errors="replace", check=False).stdout.split("\n")
    for number, address in enumerate(addresses):
        path, _, line = re.sub(r" \(discriminator \d+\)$", "", said[2 * number + 1]).rpartition(":")
        yield address, said[2 * number], path, int(line) if line.isdigit() else 0


def near(path):
    """A path from here where it is below this folder."""
    path = os.path.normpath(path)
    other = os.path.relpath(path)
    return path if other.startswith("..") else other
