#!/usr/bin/env python3
"""Tests tools/language_server: an editor's messages and what must come back, all at once and step by step, and the
recipes of docs/TOOLS.md in Neovim and Vim where these are installed. The last line counts; the status is 1 if one
failed.
"""
import argparse
import json
import os
import re
import shutil
import subprocess
import sys
import tempfile

from sections import TOP, count, program, read

STORE = read(f"{TOP}/examples/store.c").decode()
BROKEN = STORE.replace("buf[i] = v;", "buf[i] = w;")
WARNED = ("#pragma compartment Main\nstruct s { int a[2]; int b; };\nstruct s x;\nint main(void) {\n  x.a[2] = 1;\n"
          "  return x.b;\n}\n")


def framed(message):
    data = message if isinstance(message, bytes) else json.dumps({"jsonrpc": "2.0", **message}).encode()
    return b"Content-Length: %d\r\n\r\n" % len(data) + data


def talk(messages):
    """What the server sends for these messages, and its status."""
    ran = subprocess.run([f"{TOP}/tools/language_server"], input=b"".join(map(framed, messages)), capture_output=True,
                         env={**os.environ, "SECOMP": program()}, check=False)
    found, rest = [], ran.stdout
    while rest:
        head, _, rest = rest.partition(b"\r\n\r\n")
        length = int(head.split(b":")[1])
        found.append(json.loads(rest[:length]))
        rest = rest[length:]
    return found, ran.returncode, ran.stderr.decode(errors="replace")


def opened(text, name="text.c"):
    return {"method": "textDocument/didOpen", "params": {"textDocument": {"uri": f"file:///{name}", "text": text}}}


def asked(number, method, text, word, nth=0):
    """A request at a word of a text."""
    at = [it for it in range(len(text)) if text.startswith(word, it)][nth]
    before = text[:at]
    place = {"line": before.count("\n"), "character": at - before.rfind("\n") - 1}
    return {"id": number, "method": f"textDocument/{method}",
            "params": {"textDocument": {"uri": "file:///text.c"}, "position": place}}


class Client:
    """An editor that waits for each answer, as editors do."""

    def __init__(self):
        self.server = subprocess.Popen([f"{TOP}/tools/language_server"], stdin=subprocess.PIPE, stdout=subprocess.PIPE,
                                       env={**os.environ, "SECOMP": program()})

    def send(self, message):
        self.server.stdin.write(framed(message))
        self.server.stdin.flush()

    def receive(self):
        head = self.server.stdout.readline()
        assert self.server.stdout.readline() == b"\r\n"
        return json.loads(self.server.stdout.read(int(head.split(b":")[1])))

    def ask(self, message):
        """The result of a request."""
        self.send(message)
        return self.receive()["result"]

    def open(self, message):
        """What is marked of a text that is opened or changed."""
        self.send(message)
        return [mark["message"] for mark in self.receive()["params"]["diagnostics"]]


def session():
    """What an editor gets at each step of a session; false where that is wrong."""
    client, name = Client(), {"uri": "file:///text.c", "version": 1}
    change = {"textDocument": name, "contentChanges": [{"text": BROKEN}]}
    yield "initialize", client.ask({"id": 1, "method": "initialize", "params": {}})["capabilities"]["hoverProvider"]
    client.send({"method": "initialized", "params": {}})
    yield "didOpen", client.open(opened(STORE)) == []
    symbols = {"id": 2, "method": "textDocument/documentSymbol", "params": {"textDocument": name}}
    put = client.ask(symbols)[1]["children"][2]
    yield "documentSymbol", put["name"] == "put" and put["range"]["end"]["line"] > put["range"]["start"]["line"]
    found = client.ask(asked(3, "definition", STORE, "put(4"))
    yield "definition", found["range"]["start"]["line"] == line_of(STORE, "int put(int i, int v) {")
    yield "hover", "exported by Net" in client.ask(asked(4, "hover", STORE, "put(4"))["contents"]["value"]
    yield "didChange", "w isn't" in client.open({"method": "textDocument/didChange", "params": change})[0]
    yield "didClose", client.open({"method": "textDocument/didClose", "params": {"textDocument": name}}) == []
    yield "shutdown", client.ask({"id": 5, "method": "shutdown"}) is None
    client.send({"method": "exit"})
    yield "exit", client.server.wait(20) == 0


def recipe(language):
    """The block of docs/TOOLS.md with the recipe for an editor, for the server of this checkout."""
    blocks = re.findall(r"(?:^    .*\n|^\n(?=    ))+", read(f"{TOP}/docs/TOOLS.md").decode(), re.M)
    found = next(block for block in blocks if language in block)
    return re.sub("^    ", "", found, flags=re.M).replace("/path/to/secomp", TOP)


PROBE = """
vim.wait(20000, function() return #vim.diagnostic.get(0) > 0 end, 50)
for _, it in ipairs(vim.diagnostic.get(0)) do print(it.lnum + 1, it.message) end
vim.api.nvim_win_set_cursor(0, {%d, 6})
local found = vim.lsp.buf_request_sync(0, "textDocument/definition", vim.lsp.util.make_position_params(), 20000)
print("defined at " .. found[1].result.range.start.line + 1)
vim.cmd("qa!")
"""


def with_editors():
    """The recipes of docs/TOOLS.md in the editors that are installed."""
    with tempfile.TemporaryDirectory() as folder:
        call = line_of(BROKEN, "put(4") + 1
        for name, text in (("text.c", BROKEN), ("init.lua", recipe("vim.lsp.start(")), ("probe.lua", PROBE % call),
                           ("vimrc", "syntax on\nfiletype on\n" + recipe("makeprg"))):
            with open(f"{folder}/{name}", "w", encoding="utf-8") as it:
                it.write(text)
        wanted = f"{line_of(BROKEN, 'buf[i] = w;') + 1} names: "
        for words, parts in (
                ("nvim --headless -u init.lua text.c +luafile\\ probe.lua",
                 [wanted, f"defined at {line_of(BROKEN, 'int put(int i, int v) {') + 1}"]),
                ("vim -es -u vimrc text.c '+silent! make' '+call writefile([getline(\".\")], \"at\")' +qa!; cat at",
                 ["buf[i] = w;"])):
            yield words.split()[0], tried(words, parts, folder)


def tried(words, parts, folder):
    """Whether an editor shows these parts; one that isn't installed is none of the gate's faults."""
    if not shutil.which(words.split()[0]):
        print(f"wasn't tried: {words.split()[0]} isn't installed")
        return True
    ran = subprocess.run(["bash", "-c", words], cwd=folder, env={**os.environ, "SECOMP": program(), "HOME": folder},
                         stdin=subprocess.DEVNULL, stdout=subprocess.PIPE, stderr=subprocess.STDOUT, check=False)
    wrote = re.sub(r"\s+", " ", ran.stdout.decode(errors="replace"))
    if wrong := [part for part in parts if part not in wrote]:
        print(f"$ {words}\nwrote {wrote[-600:]}\nwithout {wrong}")
    return not wrong


def line_of(text, part):
    return text[:text.index(part)].count("\n")


def answers():
    symbols = {"id": 9, "method": "textDocument/documentSymbol", "params": {"textDocument": {"uri": "file:///text.c"}}}
    sent, status, said = talk([
        {"id": 1, "method": "initialize", "params": {}}, {"method": "initialized", "params": {}}, opened(STORE),
        asked(2, "definition", STORE, "put(4"), asked(3, "hover", STORE, "put(4"), asked(4, "hover", STORE, "buf[i]"),
        symbols, asked(5, "definition", STORE, "Net"), {"id": 6, "method": "textDocument/rename", "params": {}},
        {"id": 7, "method": "textDocument/hover", "params": {}}, b"{no json",
        opened(BROKEN, "broken.c"), opened(WARNED, "warned.c"),
        {"id": 8, "method": "shutdown"}, {"method": "exit"}])
    by_id = {it["id"]: it for it in sent if it.get("id") is not None}
    marks = {it["params"]["uri"][8:]: it["params"]["diagnostics"] for it in sent if it.get("method")}
    outline = [[child["name"] for child in it["children"]] for it in by_id[9]["result"]]
    begin = line_of(STORE, "int put(int i, int v) {")
    checks = [
        ("the abilities", by_id[1]["result"]["capabilities"]["hoverProvider"] is True),
        ("no fault", marks["text.c"] == []),
        ("a definition in another section", by_id[2]["result"]["range"]["start"]["line"] == begin),
        ("a hover of an import", "exported by Net, imported by Main" in by_id[3]["result"]["contents"]["value"]),
        ("a hover of a global", "int buf[4]" in by_id[4]["result"]["contents"]["value"]),
        ("the outline", outline == [["main"], ["buf", "key", "put"]]),
        ("a section's line", by_id[5]["result"]["range"]["start"]["line"] == line_of(STORE, "#pragma compartment Net")),
        ("what isn't served", by_id[6]["error"]["code"] == -32601),
        ("a request without a place", by_id[7]["error"]["code"] == -32603),
        ("no JSON", any(it.get("error", {}).get("code") == -32700 for it in sent)),
        ("a fault", [(it["range"]["start"], it["severity"]) for it in marks["broken.c"]] ==
         [({"line": line_of(BROKEN, "buf[i] = w;"), "character": 11}, 1)]),
        ("its reason", "w isn't" in marks["broken.c"][0]["message"]),
        ("a warning", [(it["range"]["start"]["line"], it["severity"]) for it in marks["warned.c"]] == [(4, 2)]),
        ("the end", status == 0 and "Traceback" not in said),
    ]
    for what, is_right in checks:
        yield "" if is_right else f"{what}: wrong: {sent}\n{said}"
    for what, is_right in [*session(), *with_editors()]:
        yield "" if is_right else f"{what}: wrong"
    _, status, said = talk([b"x"])
    yield "" if status == 1 and "Traceback" not in said else f"an editor that goes away: status {status}, {said}"


if __name__ == "__main__":
    argparse.ArgumentParser(description=__doc__, formatter_class=argparse.RawDescriptionHelpFormatter).parse_args()
    sys.exit(count(answers()))
