#!/usr/bin/env python3
"""Gives the tools texts, reports, policies and images that are broken on purpose, from seeds, and holds each answer to
a stated status, without a traceback and within a minute. The first fault that tools/why shows is of the phase of the
program's refusal. `explain --image` and `judge --image` refuse what isn't an image and the text of its program, with
the status for that and nothing on standard output.

The last line counts; the status is 1 if a test failed.
"""
import argparse
import os
import random
import re
import subprocess
import sys
import tempfile

from sections import TOP, count, program, read, secomp

PIECES = [b"(", b")", b"{", b"}", b"[", b"]", b"int ", b"*", b"/*", b"#pragma compartment X\n", b"#pragma import A b\n",
          b"0x", b"=", b";", b",", b"\xff", b"\x00", b"\r", b"\n", b" -1", b" 99999999999", b"struct ", b"&", b"."]
TEXTS = ["store.c", "messages.c", "two.c", "leak.c", "policies/order.c", "policies/sealed.c"]
POLICIES = ["bounds", "budget", "order", "sealed"]
REFUSED = re.compile(r"refused (\w+) line (\d+)")
PAIR = b"""#pragma compartment Main
#pragma import Net first
#pragma import Net second
#pragma import Env output
int first(int n);
int second(void);
void output(int v);
int main(void) {
  int a;
  int b;
  a = first(1);
  b = second();
  output(a + b);
  return 0;
}
#pragma compartment Net
#pragma export first
#pragma export second
int first(int n) { return n; }
int second(void) { return 2; }
"""
ALONE = b"#pragma compartment Main\nint main(void) { return 0; }\n"
SEEN = b"policy Seen\nstate s\non s out Main > 5 deny\npolicy end\n"
DONE, REFUSES, TOO_LARGE, TOO_LONG, BAD_IMAGE, BAD_POLICY, DIFFERS = 0, 3, 4, 5, 6, 14, 15


def broken(data, draw):
    """The same bytes with one to three changes."""
    made = bytearray(data)
    for _ in range(draw.randint(1, 3)):
        at = draw.randrange(len(made) or 1)
        kind = draw.randrange(4)
        if kind == 0 and made:
            made[at] = draw.randrange(256)
        elif kind == 1:
            del made[at:at + draw.randint(1, 12)]
        elif kind == 2:
            made[at:at] = draw.choice(PIECES)
        else:
            there = draw.randrange(len(made) or 1)
            made[at:at] = made[there:there + draw.randint(1, 20)]
    return bytes(made)


def answer(words, data, folder, statuses=(0, 1, 2)):
    """What is wrong with a tool's answer, and what it wrote."""
    try:
        ran = subprocess.run([f"{TOP}/{words[0]}", *words[1:]], input=data, cwd=folder, capture_output=True, timeout=60,
                             env={**os.environ, "SECOMP": program()}, check=False)
    except subprocess.TimeoutExpired:
        return f"{words}: no answer within a minute", ""
    said = ran.stderr.decode(errors="replace")
    if "Traceback" in said or ran.returncode not in statuses:
        return f"{words}: status {ran.returncode}: {said[-600:]}", ""
    return "", ran.stdout.decode(errors="replace")


def texts(folder, number):
    """Broken texts: tools/why and its warnings, many at once."""
    draw, names = random.Random(1), []
    for at in range(number):
        names.append(f"{at}.c")
        with open(f"{folder}/{at}.c", "wb") as it:
            it.write(broken(read(f"{TOP}/examples/{draw.choice(TEXTS)}"), draw))
    yield answer(["tools/why", "--lint", *names], b"", folder)[0]
    wrong, wrote = answer(["tools/why", *names], b"", folder)
    yield wrong
    for name in names:
        found = REFUSED.search(secomp(["check"], read(f"{folder}/{name}"))[1])
        first = re.search(rf"^{name}:(\d+):\d+: (\w+): |^{name}: (?:accepted|too large)", wrote, re.M)
        if not first or bool(found) != bool(first[2]) or found and found[1] != first[2]:
            yield f"tools/why {name}: {first and first[0]!r}, and the program {found and found[0]!r}"
        else:
            yield ""


def others(folder, number):
    """Broken reports, policies, lists and images."""
    draw = random.Random(2)
    text = read(f"{TOP}/examples/store.c")
    report, image = secomp(["explain"], text)[0], secomp(["compile"], text)[0]
    store = f"{TOP}/examples/store.c"
    for at in range(number):
        yield answer(["tools/where", "--full", "--number", store], broken(report, draw), folder)[0]
        yield answer(["examples/draw", "--html", store], broken(report, draw), folder)[0]
        yield answer(["tools/image", store], broken(image, draw), folder)[0]
        for name, data in (("policy", read(f"{TOP}/examples/policies/{draw.choice(POLICIES)}.policy")),
                           ("lists", b"1,2,3\n\n-5\n"), ("allow", b"replace Net OutOfBounds line 6\nstop events\n")):
            with open(f"{folder}/{name}", "wb") as it:
                it.write(broken(data, draw))
        yield answer(["tools/policy", store, "policy"], b"", folder)[0]
        yield answer(["tools/check-runs", store, "lists", *["policy"] * (at % 2), "--allow", "allow"], b"", folder)[0]
        yield answer(["tools/run", store, "lists"], b"", folder)[0]


def fields(image):
    """Where the fields of each compartment of an image stand that the other compartments see, and its code: a list of
    (what, place, size) for each compartment."""
    at, found = 12, []

    def field(what, size):
        nonlocal at
        found[-1].append((what, at, size))
        at += size
        return int.from_bytes(image[at - size:at], "little")

    for _ in range(image[6]):
        found.append([])
        field("name", field("length", 1))
        field("permissions", 1)
        for _ in range(field("exports", 2)):
            field("export", field("length", 1))
            field("parameters", 1)
            field("result", 1)
            field("entry", 4)
        for _ in range(field("imports", 2)):
            field("import", 1)
            field("index", 2)
        field("code", field("size", 4))
        field("globals", field("size", 4))
    return found


def put(image, place, size, value):
    """The image with another number in a field."""
    return image[:place] + value.to_bytes(size, "little") + image[place + size:]


def differing(image):
    """Well-formed images that another compartment of PAIR could tell from its own, with what differs."""
    main, net = ({what: (at, size) for what, at, size in reversed(comp)} for comp in fields(image))
    entries = [at for what, at, size in fields(image)[1] if what == "entry"]
    first, second = image[entries[0]:entries[0] + 4], image[entries[1]:entries[1] + 4]
    imports, size = main["imports"][0], main["size"][0]
    for name, (at, _) in (("name", net["name"]), ("export", net["export"])):
        yield "another " + name, put(image, at, 1, ord("Q"))
    for what in ("permissions", "parameters", "result"):
        at = (main if what == "permissions" else net)[what][0]
        yield "other " + what, put(image, at, 1, image[at] ^ 1)
    yield "swapped entries", (image[:entries[0]] + second + image[entries[0] + 4:entries[1]] + first
                              + image[entries[1] + 4:])
    yield "an entry further on", put(image, entries[1], 4, int.from_bytes(second, "little") + 4)
    yield "no import", put(image, imports, 2, 0)[:imports + 2] + image[size:]
    yield "imports in another order", image[:imports + 2] + image[imports + 5:imports + 8] + image[
        imports + 2:imports + 5] + image[imports + 8:]
    yield "another main compartment", put(put(image, 7, 1, 1), 8, 4, 0x01100000)


def refusals():
    """Input of `explain --image` and `judge --image` that has no report: what it is, the bytes, and the status."""
    own = secomp(["compile"], PAIR)[0]
    other = secomp(["compile"], read(f"{TOP}/examples/store.c"))[0]
    for length in sorted({*range(0, 24), *range(24, len(own), 37), len(own) - 1}):
        yield f"{length} bytes of an image", own[:length], BAD_IMAGE
    yield "a text without an image", PAIR, BAD_IMAGE
    yield "an image without a text", own, REFUSES
    yield "an image twice", own + own + PAIR, REFUSES
    yield "a text and then the image", PAIR + own, BAD_IMAGE
    yield "an image and a text that ends early", own + PAIR[:-30], REFUSES
    yield "the image of another program", other + PAIR, DIFFERS
    yield "the image of a program of one compartment", secomp(["compile"], ALONE)[0] + PAIR, DIFFERS
    for what, image in differing(own):
        yield what, image + PAIR, DIFFERS
        yield what + ", which runs", image, None
    blanks = 1048576 - len(PAIR)
    yield "the longest text", own + PAIR + b" " * blanks, DONE
    yield "a text too long after an image", own + PAIR + b" " * (blanks + 1), TOO_LONG
    yield "all too long", own + PAIR + b" " * 67108864, TOO_LONG


def accounts():
    """What is wrong with the answers to such input."""
    for what, data, status in refusals():
        words = (["explain", "--image"], b""), (["judge", "--image"], SEEN)
        if status is None:
            words, status = ((["exec"], b""),), DONE
        for command, before in words:
            out, said, got = secomp(command, before + data)
            good = got == status and (got == DONE) == bool(out) and (got == DONE) == (not said)
            yield "" if good else f"{command} on {what}: status {got} in place of {status}: {said}{out[-200:]!r}"
    image = secomp(["compile"], PAIR)[0]
    for length in range(len(SEEN)):
        out, said, got = secomp(["judge", "--image"], SEEN[:length] + image + PAIR)
        yield "" if got == BAD_POLICY and not out else f"judge --image on {length} bytes of a policy: {got} {said}"


def mixed(number):
    """What is wrong with the answers to images and texts with a few changes: a report or a refusal."""
    draw, image = random.Random(3), secomp(["compile"], PAIR)[0]
    refused = (REFUSES, TOO_LARGE, TOO_LONG, BAD_IMAGE, BAD_POLICY, DIFFERS)
    for _ in range(number):
        for command, before in (["explain", "--image"], b""), (["judge", "--image"], SEEN):
            data = draw.choice([broken(before + image, draw) + PAIR, before + image + broken(PAIR, draw)])
            out, said, got = secomp(command, data)
            good = got == DONE and out and not said or got in refused and not out
            yield "" if good else f"{command} on {data!r}: status {got}: {said}"


def main():
    made = argparse.ArgumentParser(description=__doc__, formatter_class=argparse.RawDescriptionHelpFormatter)
    made.add_argument("--texts", type=int, default=150)
    made.add_argument("--others", type=int, default=15)
    made.add_argument("--mixed", type=int, default=300)
    asked = made.parse_args()
    with tempfile.TemporaryDirectory() as folder:
        steps = accounts(), mixed(asked.mixed), texts(folder, asked.texts), others(folder, asked.others)
        return count(answer for step in steps for answer in step)


if __name__ == "__main__":
    sys.exit(main())
