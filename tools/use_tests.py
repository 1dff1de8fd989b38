#!/usr/bin/env python3
"""Tests how the tools are used: for each bad use and bad input the status 2 and a sentence, and for good ones the
status and a part of what is written. No traceback may come, also where the reader goes away or the checkout can't be
written.

The last line counts; the status is 1 if a test failed.
"""
import argparse
import json
import os
import re
import subprocess
import sys
import tempfile
from concurrent.futures import ThreadPoolExecutor

from sections import TOP, count, program

STORE, MESSAGES, REFUSED = "examples/store.c", "examples/messages.c", "examples/refused.c"
FILES = {
    "lists": "1,1,2,7,0,0\n3,497,1,847,2,774,0\n1,68,5,429,2,805,0\n",
    "good": "1,1,2,7,0,0\n",
    "words": "1,two,3\n",
    "none": "",
    "empty_line": "\n",
    "numbers": "1 1, 2\n7 # the key\n0 0\n",
    "bad.policy": "policy P\nstate s\non s call * Net put arg 8 = 0 deny\npolicy end\n",
    "typo.policy": "policy P\nstate s\non s call * Keyz set deny\npolicy end\n",
    "hidden.policy": "policy P\nstate s\nstate t\non s out * deny\non s out Log > 3 deny\npolicy end\n",
    "cut.policy": "policy P\nstate s\n",
    "one_name.policy": "policy P\nstate s\non s ret Net > 0 deny\npolicy end\n",
    "two.policy": "policy First\nstate a\non a out * deny\npolicy end\n\npolicy Second\nstate a\non a call * Net put "
                  "arg 1 > 3 deny\npolicy end\n",
    "function.policy": "policy P\nstate s\non s ret Net put Main deny\npolicy end\n",
    "friendly.policy": "# what Net may be asked\r\npolicy Bounds\r\n\r\n  state all  // one\r\n"
                       "  on all call * Net put arg 1 < 0 or arg 1 > 3 deny\r\npolicy end\r\n"
                       "policy Inside\nstate a\non a call * Net put arg 1 >= 0 and arg 1 <= 3 to a\non a call * Net "
                       "put deny\npolicy end\n",
    "and.policy": "policy P\nstate a\nstate b\non a call * Net put arg 1 > 0 and arg 2 > 0 to b\n"
                  "on a call * Net put arg 1 = 0 deny\npolicy end\n",
    "allow": "line 2: replace Parser OutOfBounds line 15  # known\nstop trap owner 0x0130006c\n",
    "bad_allow": "replace Parser\n",
    "inner.c": "#pragma compartment Main\nstruct lock { int pin[4]; int trusted; };\nstruct lock door;\nint "
               "main(void) {\n"
               "  door.pin[4] = 1;\n  return door.trusted;\n}\n",
    "bounds.c": "#pragma compartment Main\nstruct s { int a[4]; int b; };\nstruct s x;\nint f(int i, int n) {\n"
                "  if (i < 0 || i >= 4) { return 0; }\n  return x.a[i];\n}\nint g(int n) {\n  int i;\n"
                "  for (i = 0; i <= 4; i++) { x.a[i] = 0; }\n  if (n < 0) { return 0; }\n  return x.a[n];\n}\n"
                "int main(void) { return 0; }\n",
    "eat.c": "#pragma compartment Main\n#pragma import Env input\nint input(void);\nint main(void) {\n  int a;\n  a = "
             "input();\n"
             "  while (a != 0) { a = input(); }\n  return 0;\n}\n",
    "many": "".join(f"{number}\n" for number in range(1, 70001)),
    "after.c": "#pragma compartment Main\n#pragma import Env input\n#pragma import Net put\nint input(void);\n"
               "int put(int at);\nint main(void) {\n  int *place, answer, at;\n  answer = put(4); at = input(); "
               "if (at > 0) { answer = put(at); } place = 0;\n  *place = answer;\n  return 0;\n}\n#pragma compartment "
               "Net\n#pragma export put\nint few[4], more[4];\nint put(int at) { few[at] = 9; return more[0]; }\n",
    "far": "0\n100000000\n",
    "frame.c": "#pragma compartment Main\nint main(void) {\n  int a[9000];\n  a[0] = 1;\n  return 0;\n}\n",
}

# The folder trial_cases has three programs of 250 to 350 lines, as a new user writes them. Each has four faults, which
# its file `.found` names: past the end of a heap block, after free, an uninitialised read, and one of a single value.
#
# A command for bash, in a folder with these files, `tools`, `examples` and the program's folder; its status, and parts
# of what it writes on both streams. $S is the program.
TRAPPED = ("printf 'call Main Parser next_kind\\nin Parser -524288\\nin Parser 5\\nstop trap owner 0x0130006c\\nchain "
           "0\\ntrapped Parser OutOfBounds line 15\\n' | ")
GIVEN = (f"sed 's/= v;/= v + 1;/' {STORE} > other.c; ($S compile < other.c; cat {STORE}) | $S explain --image | ")
EXPLAIN = f"$S explain --in=-524288,5,0 < {MESSAGES} | "
USES = [
    # check-runs
    (f"tools/check-runs {MESSAGES} good examples/policies/key.policy", 0, ["1 runs, 0 with findings, 1 policies"]),
    (f"tools/check-runs {MESSAGES} lists", 1, ["messages.c:76: line 2: Parser is blamed after event 3, OutOfBounds",
                                              "3 runs, 2 with findings"]),
    (f"tools/check-runs {MESSAGES} lists --allow allow", 0, ["3 runs, 0 with findings"]),
    (f"tools/check-runs {MESSAGES} good --allow allow", 0, ["allow:1: no run shows this"]),
    (f"tools/check-runs {STORE} empty_line friendly.policy", 1,
     ["friendly.policy:5: line 1: Bounds is violated by event 1, `call Main Net put 4 9`",
                                                               "friendly.policy:10: line 1: Inside is violated"]),
    (f"tools/check-runs {MESSAGES} lists --allow bad_allow", 2, ["bad_allow:1: no finding"]),
    (f"tools/check-runs {MESSAGES} none", 2, ["no inputs"]),
    ("mkdir -p folder; tools/check-runs examples/messages.c folder", 2, ["no inputs"]),
    (f"tools/check-runs {MESSAGES} words", 2, ["words:1: no list of numbers"]),
    (f"tools/check-runs {REFUSED} good", 2, ["refused.c:6: refused in the phase types"]),
    ("tools/check-runs frame.c empty_line", 2, ["too large: the frame of main of Main"]),
    (f"tools/check-runs {MESSAGES} good typo.policy", 2, ["typo.policy:3: the program has no compartment Keyz"]),
    ("tools/check-runs nosuch.c good", 2, ["nosuch.c: No such file"]),
    (f"tools/check-runs {MESSAGES} good --steps 99999999", 2, ["no number from 0 to 16777216"]),
    (f"tools/check-runs {MESSAGES} good --json --sarif", 2, ["not allowed with"]),
    ("tools/check-runs", 2, ["required"]),
    ("tools/check-runs eat.c many2", 2, ["many2"]),
    (f"tools/check-runs {MESSAGES} lists | head -n 1", 0, ["line 2"]),
    ("tools/check-runs examples/full.c empty_line", 1, ["Sum is blamed for nothing: its stack is full"]),
    ("tools/check-runs after.c far", 1,
     ["after.c:9: line 1: the machine stops where Main is blamed, NullUse: *place = answer;",
      "after.c:1: line 2: the machine stops in Net, after the events that the chain accounts for"]),
    ("tools/check-runs examples/endless.c empty_line", 1, ["the run doesn't end: raise --events"]),
    *((f"tools/check-runs $CASES/{it}.c $CASES/{it}.in --allow $CASES/{it}.found", 0, ["runs, 0 with findings\n"])
      for it in ("gate", "vm", "book")),
    *((f"tools/check-runs $CASES/{it}.c $CASES/{it}.in", 1, ["4 with findings"]) for it in ("gate", "vm", "book")),
    ("tools/check-runs $CASES/gate.c good $CASES/gate.policy", 0, ["1 runs, 0 with findings, 2 policies"]),
    ("tools/check-runs $CASES/gate.c $CASES/gate.in $CASES/gate.policy", 1,
     ["gate.policy:6: line 4: LoggedIn is violated by event 29, `call Main Keys set_key 0 1 2`"]),
    # policy
    (f"tools/policy {STORE} friendly.policy", 0, ["Bounds: 1 states, 2 rules, no faults", "Inside: 1 states, 3 rules"]),
    (f"tools/policy --plain --name Inside {STORE} friendly.policy | cat - {STORE} | $S judge | tail -n 1", 0,
     ["verdict violated after 0 by Main rule 3 clean"]),
    (f"tools/policy --plain {STORE} friendly.policy", 2, ["choose one with --name"]),
    (f"tools/policy {STORE} bad.policy", 1, ["bad.policy:3: put has 2 arguments, and no argument 8"]),
    (f"tools/policy {STORE} typo.policy", 1, ["no compartment Keyz"]),
    (f"tools/policy {MESSAGES} hidden.policy", 1, ["hidden.policy:3: the state t can't be reached",
                                                  "hidden.policy:5: no event comes to this rule"]),
    (f"tools/policy {STORE} cut.policy", 2, ["cut.policy:1: the policy P has no line `policy end`"]),
    (f"tools/policy {STORE} one_name.policy", 2,
     ["one_name.policy:3: '>' is no name: the event is `ret CALLEE CALLER`"]),
    (f"tools/policy {STORE} function.policy", 2, ["a policy can't tell by which function is returned"]),
    (f"tools/policy {STORE} and.policy", 2, ["and.policy:4: `and` can't be put into the plain form here, as the rule "
                                             "of line 5"]),
    (f"tools/policy {STORE} {MESSAGES}", 2, ["outside a policy"]),
    ("tools/policy examples/store.c", 2, ["required"]),
    # campaign
    (f"tools/campaign --events 99999 {MESSAGES} good", 2, ["no number from 0 to 4096"]),
    (f"tools/campaign {REFUSED} good", 2, ["refused in the phase types"]),
    (f"tools/campaign {MESSAGES} good typo.policy", 2, ["no compartment Keyz"]),
    (f"tools/campaign {MESSAGES} none", 2, ["no inputs"]),
    (f"tools/campaign {MESSAGES} nosuch", 2, ["No such file"]),
    (f"tools/campaign {MESSAGES} good", 0, ["1 runs"]),
    (f"tools/campaign {MESSAGES} lists", 1, ["replace Parser OutOfBounds examples/messages.c:76"]),
    (f"mkdir copy; cp -r tools/ copy/tools; touch copy/out; copy/tools/campaign {MESSAGES} good && "
     "ls cache/secomp/campaign | wc -l", 0, ["1 runs", "\n1\n"]),
    # run, bytes
    (f"tools/run {MESSAGES} numbers", 0, ["out Log 10", "chain 0"]),
    (f"printf '1,1,2,7341,0,0' | tools/run {MESSAGES} -", 0, ["out Log 11"]),
    ("tools/run eat.c many", 1, ["raise --events", "read 1,024 of 70,000"]),
    ("tools/run eat.c many --events 4096", 1, ["a run has at most 4,096 events", "read 4,096 of 70,000"]),
    ("printf 'a\\nb' | tools/run eat.c - --as lines", 0, ["in Main 97\nin Main 0\n"]),
    ("tools/run eat.c words", 2, ["words:1: 'two' is no number"]),
    (f"tools/run {REFUSED}", 2, ["refused in the phase types"]),
    ("tools/run", 2, ["required"]),
    ("tools/run eat.c many | head -n 1", 0, ["in Main 1"]),
    ("tools/bytes good", 0, ["--in=49,44,49"]),
    ("tools/bytes many | wc -c", 0, ["are left out"]),
    ("tools/bytes folder; tools/bytes nosuch", 2, ["nosuch: No such file"]),
    # where
    (f"$S explain < {STORE} | tools/where {STORE} --full --number", 0,
     ["    2  ret Net Main 9", "store.c:17: buf[i] = v;", "index 4 of buf, a global of 4 cells of Net",
      "called at line 8"]),
    (EXPLAIN + f"tools/where {MESSAGES} --full", 0, ["the run ended where Parser is blamed, OutOfBounds",
                                                     "index -524288 of fields, a global of 3 cells"]),
    (EXPLAIN + f"tools/where {MESSAGES} --in=-524288,5,0", 0, ["the run ended where Parser is blamed"]),
    (EXPLAIN + f"tools/where {MESSAGES} --in=1,2", 2, ["the report shows other inputs than --in"]),
    (EXPLAIN + f"tools/where {STORE}", 2, ["the report isn't one of examples/store.c"]),
    (EXPLAIN + f"tools/where {MESSAGES} --in", 2, ["expected one argument"]),
    (EXPLAIN + "tools/where", 2, ["required"]),
    (EXPLAIN + f"tools/where {MESSAGES} | head -n 1", 0, ["call Main Parser next_kind"]),
    ("cat examples/policies/bounds.policy examples/store.c | $S judge | tools/where examples/store.c --full --policy "
     "examples/policies/bounds.policy", 0,
     ["event 1: call Main Net put 4 9", "bounds.policy:4: on all call * Net put arg 1 > 3 deny"]),
    (f"tools/policy --plain --name Second {STORE} two.policy | cat - {STORE} | $S judge | tools/where {STORE} --full "
     "--policy two.policy --name Second", 0, ["two.policy:8: on a call * Net put arg 1 > 3 deny"]),
    (f"tools/policy --plain --name Second {STORE} two.policy | cat - {STORE} | $S judge | tools/where {STORE} --full "
     "--policy two.policy", 2, ["two.policy: 2 policies; choose one with --name"]),
    ("$S explain < inner.c | tools/where --full inner.c", 0,
     ["inner.c:5: after event 0: the index 4 leaves pin of 4 elements"]),
    (f"tools/where --full {STORE} < none", 2, ["standard input has no report: ./secomp explain < examples/store.c"]),
    (f"$S explain < inner.c | head -n 0 | tools/where --full {STORE}", 2, ["standard input has no report"]),
    (TRAPPED + f"tools/where --full {MESSAGES}", 0,
     ["trapped Parser OutOfBounds line 15    examples/messages.c:76: fields[field] = input();",
      "index -524288 of fields, a global of 3 cells"]),
    (GIVEN + f"tools/where --full {STORE}", 0, ["given Net\nchain 0", "nothing more is said"]),
    # sanitized
    ("tools/sanitized inner.c", 1, ["inner.c:5: runtime error: index 4 out of bounds"]),
    (f"tools/sanitized {MESSAGES} numbers", 0, ["out Log 10"]),
    (f"tools/sanitized {REFUSED}", 2, ["refused in the phase types"]),
    ("tools/sanitized inner.c --compiler cc1", 2, ["invalid choice"]),
    # why
    ("tools/why --lint inner.c", 1, ["inner.c:5: pin has 4 elements, and the index 4 is past them"]),
    ("tools/why --lint bounds.c; tools/why --lint bounds.c | wc -l", 1,
     ["bounds.c:10: a lies within a larger variable and has 4 elements, but i may be up to 4", "\n2\n",
      "bounds.c:12: a lies within a larger variable and has 4 elements, but n isn't bounded from above"]),
    ("tools/why inner.c", 0, ["inner.c: accepted"]),
    (f"tools/why {REFUSED}", 1, ["refused.c:6:3: types"]),
    (f"tools/why {REFUSED} | head -n 1", 0, ["refused.c:6:3"]),
    ("tools/why frame.c", 1, ["make the arrays of main globals"]),
    ("tools/why nosuch.c", 2, ["nosuch.c: No such file"]),
    ("tools/why folder", 2, ["folder: Is a directory"]),
    ("tools/why", 2, ["required"]),
    # image, draw
    (f"$S compile < {MESSAGES} | tools/image {MESSAGES} --pc 0x0130006c", 0, ["Parser, next_kind: sw gp, 0(tp)"]),
    (f"$S compile < {MESSAGES} | tools/image | head -n 1", 0, ["main Main"]),
    (f"$S compile < {MESSAGES} | tools/image --pc", 2, ["expected one argument"]),
    (f"$S compile < {MESSAGES} | tools/image --pc zz", 2, ["'zz' is no address"]),
    (f"$S compile < {MESSAGES} | tools/image --pc 0x5", 2, ["0x00000005 is nobody's code"]),
    (f"$S compile < {MESSAGES} | head -c 90 | tools/image", 2, ["no image: it ends early"]),
    ("tools/image < good", 2, ["no image"]),
    ("cat examples/policies/bounds.policy examples/store.c | $S judge | examples/draw", 0,
     ["against the policy, rule 2, clean"]),
    (f"$S explain < {STORE} | examples/draw --html nosuch.c", 2, ["nosuch.c: No such file"]),
    ("examples/draw < good", 2, ["draw: line 1"]),
    (GIVEN + "examples/draw", 0, ["Note over C1: given: other code than the program's"]),
    (TRAPPED + "examples/draw", 0, ["stop trap owner 0x0130006c, trapped Parser OutOfBounds line 15"]),
    ("printf 'stop ended\\nchain 0\\ntrapped Main stack\\n' | examples/draw", 2, ["draw: line 3"]),
    (f"$S explain < {STORE} | examples/draw --html {STORE} | head -n 1", 0, ["<!doctype html>"]),
]
HELPED = ["tools/check-runs", "tools/policy", "tools/campaign", "tools/run", "tools/bytes", "tools/where", "tools/why",
          "tools/image", "tools/sanitized", "tools/language_server", "tools/attack", "tools/secret", "tools/foreign",
          "tools/port", "tools/check-documents", "tools/release", "examples/draw"]
HELPED += [f"tools/{name}.py" for name in (
    "attack_sessions bad_input_tests checked document_faults elide ends evaluation_tests fast fast_tests "
    "foreign_libraries foreign_sessions language_tests lemmas mistakes out_of_memory pages policy_tests port_libraries "
    "port_sessions port_torture quotes real refuse_allocations repeated sessions source_tests stub tool_sessions trusted "
    "unused use_tests wrapper_tests").split()]
HELPED += [f"bench/{name}.py" for name in (
    "chains each_byte exec folding gate given hostile judge limits outsider riscv_loops trapped turns zone").split()]
for TOOL in HELPED:
    WORDS = f"{'python3 ' * TOOL.endswith('.py')}{TOOL}"
    USES += [(f"{WORDS} --help", 0, [os.path.basename(TOOL)]), (f"{WORDS} --no-such-option", 2, [])]


def run(command, folder):
    places = {**os.environ, "S": program(), "SECOMP": program(), "CASES": f"{TOP}/tools/trial_cases",
              "XDG_CACHE_HOME": f"{folder}/cache"}
    ran = subprocess.run(["bash", "-o", "pipefail", "-c", command], cwd=folder, env=places, stdin=subprocess.DEVNULL,
                         stdout=subprocess.PIPE, stderr=subprocess.STDOUT, check=False)
    return ran.stdout.decode(errors="replace"), ran.returncode


def answer(use, folder):
    """What is wrong of a use; nothing where all is as it must be."""
    command, status, parts = use
    wrote, came = run(command, folder)
    if "this takes GNU parallel" in wrote:
        print(f"{command}\nwasn't tried: {wrote}", end="")
        return ""
    wrong = [part for part in parts if part not in wrote]
    # where `head` goes away first, the program before it may have the status of a pipe without a reader
    is_cut = "| head" in command and came in (0, 1, 2, 8, 141)
    if "Traceback" in wrote or wrong or came != status and not is_cut:
        return f"$ {command}\nstatus {came}, wanted {status}, without {wrong}:\n{wrote[-1500:]}"
    return ""


def formats(folder):
    """The two formats for machines, as their readers see them."""
    wrote, _ = run(f"tools/check-runs {MESSAGES} lists examples/policies/key.policy --json", folder)
    runs = [json.loads(line) for line in wrote.splitlines() if line.startswith("{")]
    right = [it["passed"] for it in runs] == [True, False, False] and runs[1]["chain"][0]["file_line"] == 76
    right = right and runs[2]["blame"]["cause"] == "OutOfBounds" and runs[0]["verdicts"][0]["holds"]
    yield "" if right else f"--json: {wrote}"
    wrote, _ = run(f"tools/check-runs {MESSAGES} lists --sarif", folder)
    log = json.loads(wrote[wrote.index("{"):])
    results = log["runs"][0]["results"]
    rules = [rule["id"] for rule in log["runs"][0]["tool"]["driver"]["rules"]]
    lines = [it["locations"][0]["physicalLocation"]["region"]["startLine"] for it in results]
    named = all(rules[it["ruleIndex"]] == it["ruleId"] for it in results)
    right = log["version"] == "2.1.0" and lines == [76, 76] and named
    yield "" if right else f"--sarif: {wrote}"
    wrote, _ = run(f"cp {MESSAGES} 'a text.c'; tools/check-runs 'a text.c' lists --sarif", folder)
    yield "" if '"uri": "a%20text.c"' in wrote else f"--sarif, a path with a blank: {wrote}"


def hook(folder):
    """The hook of docs/BUILD.md, in a repository of its own: it lets no fault through, and then the mended text."""
    with open(f"{TOP}/docs/BUILD.md", encoding="utf-8") as it:
        script = re.search(r"(    #!/bin/sh\n(?:    .*\n)+)", it.read())[1].replace("/opt/secomp", TOP)
    os.makedirs(f"{folder}/repository")
    run("cd repository; git init -q .; mkdir policies; cp ../examples/policies/key.policy policies; cp ../good inputs; "
        "cp ../examples/messages.c program.c; git add .", folder)
    with open(f"{folder}/repository/.git/hooks/pre-commit", "w", encoding="utf-8") as it:
        it.write(re.sub("^    ", "", script, flags=re.M))
    os.chmod(f"{folder}/repository/.git/hooks/pre-commit", 0o755)
    commit = "git -c user.name=a -c user.email=a@b commit -qam next"
    for change, wanted in (("true", 0), ("sed -n 2p ../lists > inputs", 1),
                           ("cp ../good inputs; echo '}' >> program.c", 1)):
        wrote, status = run(f"cd repository; {change}; {commit}", folder)
        yield "" if status == wanted else f"the hook, after `{change}`: status {status}\n{wrote}"


def answers():
    with tempfile.TemporaryDirectory() as folder:
        for name in ("tools", "examples", "bench"):
            os.symlink(f"{TOP}/{name}", f"{folder}/{name}")
        for name, text in FILES.items():
            with open(f"{folder}/{name}", "w", encoding="utf-8", newline="") as it:
                it.write(text)
        with ThreadPoolExecutor(2) as pool:
            yield from pool.map(lambda use: answer(use, folder), USES)
        yield from formats(folder)
        yield from hook(folder)


if __name__ == "__main__":
    argparse.ArgumentParser(description=__doc__, formatter_class=argparse.RawDescriptionHelpFormatter).parse_args()
    sys.exit(count(answers()))
