#!/usr/bin/python3
"""Ports the libraries of examples/ported: `port_libraries.py [--secomp PROGRAM] [--sources FOLDER] [NAME]`.

FOLDER has the sources of libb64, h2o (for picohttpparser) and zlib, as `apt-get source` unpacks them; jsmn.h is that of
libjsmn-dev. Each driver is ported with its library and run over vectors, and outputs what the same files output under
gcc. Then a fault is put into the library, and a hostile input leads to the blame of that line. What isn't there isn't
tried, and that is said. The last line counts; the status is 1 if one failed.
"""
import argparse
import glob
import os
import re
import shutil
import subprocess
import sys
import tempfile
import zlib

import sections
from port_sessions import SHIM, ran

TOP = os.path.dirname(os.path.dirname(os.path.abspath(__file__)))
PORT, DRIVERS = f"{TOP}/tools/port", f"{TOP}/examples/ported"

REQUEST = b"GET /a/b HTTP/1.1\r\nHost: x.org\r\nCookie:  a=b \r\n\r\n"
MANY = b"GET / HTTP/1.0\r\n" + b"".join(b"h%d: v\r\n" % at for at in range(6)) + b"\r\n"
TEXTS = [b"", b"a", b"ab", b"abc", b"hello, world of bytes", bytes(range(32, 127)) * 2, bytes(range(128, 256))]
# A block whose first match goes back before the first byte.
TOO_FAR = bytes.fromhex("789c4b04620000000000")


def packed():
    texts = [b"", b"hello hello hello, world " * 20, bytes(range(256)) * 8, bytes(at * at % 251 for at in range(2500))]
    return [zlib.compress(text, level) for text in texts for level in (0, 1, 9)] + [b"", b"x", b"\x78\x9c\xff",
                                                                                    zlib.compress(texts[1])[:-9]]


LIBRARIES = {
    "json": {
        "files": [], "folders": ["/usr/include"], "home": "/usr/include/jsmn.h", "end": 0,
        "vectors": [b'{"a": [1, "xy", true]}', b"[]", b'{"k": {"l": null}, "m": -1.5e3}', b'["\\u00e4\\n"]', b"[1, 2",
                    b'{"a" 1}', b"[" * 12, b"]", b'"\\x"', b"[1,2,3,4,5,6,7,8,9,0,1,2,3,4,5,6,7,8,9,0]"],
        "fault": ("jsmn.h", "if (parser->toknext >= num_tokens)", "if (parser->toknext > num_tokens)"),
        "hostile": b"[1,2,3,4,5,6,7,8,9,0,1,2,3,4,5,6,7,8,9,0]"},
    "base64": {
        "files": ["libb64-*/src/cencode.c", "libb64-*/src/cdecode.c"], "folders": ["libb64-*/include"],
        "home": "libb64-*/src/cdecode.c", "end": -1, "vectors": TEXTS, "fault": None},
    "http": {
        "files": ["h2o-*/deps/picohttpparser/picohttpparser.c"], "folders": ["h2o-*/deps/picohttpparser"],
        "home": "h2o-*/deps/picohttpparser/picohttpparser.h", "end": -1,
        "vectors": [REQUEST, MANY, b"GET / HTTP/1.0\r\n\r\n", b"GET / HTTP/1.0\r\n", b"\r\nPUT /x HTTP/1.1\nA:b\n\n",
                    b"GET  HTTP/1.1\r\n\r\n", b"G\x00T / HTTP/1.1\r\n\r\n", b"GET /\x7f HTTP/1.1\r\n\r\n",
                    b"GET / HTTP/1.1\r\nA: b\r\n c\r\n\r\n", b"GET / HTTP/1.2x\r\n\r\n"],
        "fault": ("picohttpparser.c", "if (*num_headers == max_headers) {", "if (0) {"), "hostile": MANY},
    "inflate": {
        "files": [f"zlib-*/{name}.c" for name in ("inflate", "inftrees", "inffast", "zutil", "adler32")],
        "folders": ["zlib-*"], "home": "zlib-*/inflate.c", "end": -1, "vectors": packed(),
        "words": ["-DNO_GZIP", "-DZ_SOLO", "-DNO_GZCOMPRESS", "-Dinternal_state=inflate_state"],
        "changes": [("zutil.h", "#define ZALLOC(strm, items, size) \\\n           (*((strm)->zalloc))((strm)->opaque, "
                                "(items), (size))", "#define ZALLOC(strm, items, size) malloc((items) * (size))\n"),
                    ("zutil.h", "#define ZFREE(strm, addr)  (*((strm)->zfree))((strm)->opaque, (voidpf)(addr))",
                     "#define ZFREE(strm, addr) free(addr)")],
        "fault": ("inflate.c", "    state->sane = 1;", "    state->sane = 0;"), "hostile": TOO_FAR},
}


class Library:
    def __init__(self, name, parts, sources, folder):
        self.name, self.parts, self.folder, self.copy = name, parts, folder, f"{folder}/{name}"
        self.found = self.paths([parts["home"]], sources)
        self.sources = sources

    def paths(self, patterns, base):
        return [path for it in patterns for path in sorted(glob.glob(os.path.join(base, it)))]

    def prepare(self):
        """A copy of the library's folders, with the stated changes."""
        home = os.path.dirname(self.found[0])
        if self.parts["folders"] == ["/usr/include"]:
            os.makedirs(self.copy)
            shutil.copy(self.found[0], self.copy)
        else:
            root = os.path.join(self.sources, os.path.relpath(home, self.sources).split(os.sep)[0])
            shutil.copytree(root, f"{self.copy}/{os.path.basename(root)}", symlinks=True)
        for change in self.parts.get("changes", []):
            self.change(*change)

    def change(self, name, old, new):
        path = next(iter(glob.glob(f"{self.copy}/**/{name}", recursive=True)))
        with open(path, encoding="latin-1") as it:
            text = it.read()
        if old not in text:
            raise ValueError(f"{path}: has no {old!r}")
        with open(path, "w", encoding="latin-1") as it:
            it.write(text.replace(old, new, 1))
        return path

    def words(self):
        """The C files with the driver, and the options for headers and macros."""
        files = [f"{DRIVERS}/{self.name}.c", *self.paths(self.parts["files"], self.copy)]
        folders = [self.copy] if self.parts["folders"] == ["/usr/include"] else \
            self.paths(self.parts["folders"], self.copy)
        return files, [f"-I{it}" for it in folders] + self.parts.get("words", [])

    def port(self):
        files, words = self.words()
        _, err, status = ran([PORT, "Main=" + ",".join(files), *words, "-o", f"{self.folder}/{self.name}.c"])
        return err if status else ""

    def native(self):
        files, words = self.words()
        with open(f"{self.folder}/shim.c", "w", encoding="utf-8") as it:
            it.write(SHIM + "#include <stdlib.h>\n")
        _, err, status = ran(["gcc", "-w", "-O1", *words, "-include", "stdlib.h", "-o", f"{self.folder}/native", *files,
                              f"{self.folder}/shim.c"])
        return err if status else ""


def run(secomp, library, command, vector):
    with open(f"{library.folder}/{library.name}.c", encoding="utf-8") as it:
        text = it.read()
    numbers = ",".join(map(str, [*vector, library.parts["end"]]))
    most = "--turns=16777216" if command == "meaning" else "--steps=16777216"
    return ran([secomp, command, most, "--events=4096", f"--in={numbers}"], text)[0].splitlines()


def vectors(secomp, library):
    """What fails of a library: nothing where each vector agrees."""
    fault = library.port() or library.native()
    if fault:
        yield f"{library.name}: {fault}"
        return
    for at, vector in enumerate(library.parts["vectors"]):
        lines = run(secomp, library, "run", vector)
        came = [line.split()[2] for line in lines if line.startswith("out ")]
        done = ran([f"{library.folder}/native"], " ".join(map(str, [*vector, library.parts["end"]])))[0].split()
        ended = lines[-1:] == ["stop ended"] or lines[-1:] == ["stop events"] and len(done) > len(came)
        yield "" if ended and came == done[:len(came)] and (came == done or lines[-1] == "stop events") else \
            f"{library.name}: vector {at}: {came[:9]} {lines[-1:]} in place of {done[:9]}"


def put_back(secomp, library):
    """A fault is put into the library, and the blame has to lead into its function's file."""
    if not library.parts["fault"]:
        return
    path = library.change(*library.parts["fault"])
    fault = library.port()
    if fault:
        yield f"{library.name}: {fault}"
        return
    lines = run(secomp, library, "meaning", library.parts["hostile"])
    parts = re.fullmatch(r"stop blamed Main (\w+) (\d+)", lines[-1])
    place = sections.origin(f"{library.folder}/{library.name}.c", parts.group(2)) if parts else ""
    print(f"{library.name}: {lines[-1]} at {place}")
    yield "" if os.path.dirname(path) in place else f"{library.name}: {lines[-1:]} at {place!r}"


def main():
    parser = argparse.ArgumentParser(description=__doc__, formatter_class=argparse.RawDescriptionHelpFormatter)
    parser.add_argument("name", nargs="?", default="")
    parser.add_argument("--secomp", metavar="PROGRAM", help="the program, in place of that of ./secomp")
    parser.add_argument("--sources", default=os.environ.get("PORT_SOURCES", ""), metavar="FOLDER")
    found = parser.parse_args()
    if ran([PORT, "--help"])[2] or not shutil.which("gcc"):
        print("examples/ported wasn't tried: it takes python3-pycparser and gcc")
        return 0
    answers = []
    with tempfile.TemporaryDirectory() as folder:
        for name, parts in LIBRARIES.items():
            library = Library(name, parts, os.path.abspath(found.sources or folder), folder)
            if found.name not in name:
                continue
            if not library.found:
                print(f"{name} wasn't tried: its sources aren't there")
                continue
            library.prepare()
            secomp = found.secomp or sections.program()
            answers += [*vectors(secomp, library), *put_back(secomp, library)]
        return sections.count(answers)


if __name__ == "__main__":
    sys.exit(main())
