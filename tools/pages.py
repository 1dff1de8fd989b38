#!/usr/bin/env python3
"""Tests the pages of `examples/draw --html` in a browser: `pages.py`, at the top of the repository.

Each page is laid out by headless chromium, which reaches no network, in light and in dark. A script that is added to a
copy tells where everything came to lie, and these places are compared with what a reader has to see: columns, each
replacement marked over its blamed line, and a loop that is drawn once. Without chromium (in Debian the package
`chromium`) it says so, and tests nothing. The last line counts.
"""
import html
import json
import os
import re
import shutil
import subprocess
import sys
import tempfile

from sections import count, read, secomp, usage

MEASURE = """
<script>
const at = node => { const box = node.getBoundingClientRect();
  return { kind: node.getAttribute("class") || "", text: node.textContent, fill: getComputedStyle(node).fill,
           left: box.left, right: box.right, top: box.top, bottom: box.bottom }; };
const all = name => [...document.querySelectorAll(name)].map(at);
document.body.setAttribute("data-measured", JSON.stringify({
  texts: all("svg text"), boxes: all("svg rect"), arrows: all("svg path.arrow[marker-end]"), page: all("svg")[0],
  back: getComputedStyle(document.body).backgroundColor, loaded: performance.getEntriesByType("resource").length }));
</script>
"""
# Of the page and its text, in light and in dark.
COLOURS = [("rgb(255, 255, 255)", "rgb(28, 28, 28)"), ("rgb(22, 22, 22)", "rgb(236, 236, 236)")]
# A program, the words of its run, and what a reader sees of it.
PAGES = [
    ("store", [], {"columns": ["Main", "Net", "Env"], "arrows": 4, "folds": [],
                   "notes": [("Net is blamed for OutOfBounds at line 6, and replaced", "line 17: buf[i] = v;")]}),
    ("two", [], {"columns": ["Main", "A", "B", "Env"], "arrows": 7, "folds": [],
                 "notes": [("A is blamed for OutOfBounds at line 6, and replaced", "line 21: x[i] = 5;"),
                           ("B is blamed for OutOfBounds at line 6, and replaced", "line 29: x[i] = 5;")]}),
    ("endless", ["--events=30"], {"columns": ["Main", "Env"], "arrows": 3, "folds": ["10 times"], "notes": []}),
]


def browser():
    return next((path for path in map(shutil.which, ("chromium", "chromium-browser", "google-chrome")) if path), None)


def page(name, words):
    path = f"examples/{name}.c"
    report, said, _ = secomp(["explain", *words], read(path))
    drawn = subprocess.run(["examples/draw", "--html", path], input=report, capture_output=True, check=False)
    return drawn.stdout.decode() or said + drawn.stderr.decode()


def measured(program, text, scheme, folder):
    """Where everything lies, in a browser that asks for light (1) or dark (0)."""
    path = os.path.join(folder, "page.html")
    with open(path, "w", encoding="utf-8") as it:
        it.write(text.replace("</body>", MEASURE + "</body>"))
    words = [program, "--headless", "--no-sandbox", "--disable-gpu", f"--user-data-dir={folder}/profile"]
    words += ["--proxy-server=http://127.0.0.1:9", f"--blink-settings=preferredColorScheme={scheme}", "--dump-dom"]
    ran = subprocess.run([*words, f"file://{path}"], capture_output=True, text=True, check=False, timeout=120)
    found = re.search(r'data-measured="([^"]*)"', ran.stdout)
    if not found:
        raise SystemExit(f"{program} showed no page: {ran.stderr[-500:]}")
    return json.loads(html.unescape(found.group(1)))


def within(inner, outer):
    return all(inner[low] >= outer[low] - 1 and inner[high] <= outer[high] + 1
               for low, high in (("left", "right"), ("top", "bottom")))


def beside(boxes):
    """Each has a width, and the next begins where it has ended."""
    return all(box["right"] > box["left"] for box in boxes) and \
        all(one["right"] < other["left"] for one, other in zip(boxes, boxes[1:]))


def notes(seen):
    """Of each box of a replacement, the words that lie in it."""
    boxes = [box for box in seen["boxes"] if box["kind"] == "note"]
    return [tuple(text["text"] for text in seen["texts"] if within(text, box)) for box in boxes]


def faults(seen, wanted):
    """What a reader doesn't see as it should be."""
    columns = [text for text in seen["texts"] if text["kind"] == "name" and text["top"] < 60]
    folds = [box for box in seen["boxes"] if box["kind"] == "fold"]
    if [text["text"] for text in columns] != wanted["columns"] or not beside(columns):
        yield f"its columns are {[text['text'] for text in columns]}"
    if len(seen["arrows"]) != wanted["arrows"]:
        yield f"it has {len(seen['arrows'])} arrows"
    if notes(seen) != wanted["notes"]:
        yield f"its notes are {notes(seen)}"
    inside = [[text["text"] for text in seen["texts"] if within(text, box)] for box in folds]
    if len(folds) != len(wanted["folds"]) or any(times not in texts for times, texts in zip(wanted["folds"], inside)):
        yield f"what is drawn once is {inside}"
    for text in seen["texts"]:
        if not within(text, seen["page"]):
            yield f"{text['text']!r} isn't all on the page"
    if seen["loaded"]:
        yield f"it loads {seen['loaded']} other files"


def tested(program, folder, name, words, wanted):
    """What is wrong with a page, in light and in dark."""
    text, colours, found = page(name, words), [], []
    for scheme in (1, 0):
        seen = measured(program, text, scheme, folder)
        colours.append((seen["back"], seen["texts"][0]["fill"]))
        found += faults(seen, wanted)
    return [*dict.fromkeys(found), *([] if colours == COLOURS else [f"in light and dark its colours are {colours}"])]


def main():
    usage(__doc__, len(sys.argv) == 1)
    program = browser()
    if not program:
        print("no page was tested: there is no chromium")
        return 0
    with tempfile.TemporaryDirectory() as folder:
        return count("\n".join(f"the page of {name}.c: {fault}"
                               for fault in tested(program, folder, name, words, wanted))
                     for name, words, wanted in PAGES)


if __name__ == "__main__":
    sys.exit(main())
