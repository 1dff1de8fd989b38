#!/usr/bin/env python3
"""Compares `secomp meaning` with gcc and with clang's sanitizers, on texts from seeds.

The texts are those of `outsider_texts.py`. Each is turned into C by its tokens: names get a prefix for their
compartment, imports become functions that print the events, and `#line` keeps the lines of the sections. It is compiled
by `gcc -O0`, `gcc -O2` and `clang -O0 -fsanitize=address,undefined`, which ends the run at the first error, and
compared with the meaning:

- Where the meaning isn't blamed, all three have its trace to the end, and the sanitizers report nothing.
- Where it is blamed for a cause that the sanitizers look for, they report this cause at this line, after the same
  events.
- Where it is blamed for another cause, the sanitizers' run has the events up to there without an error between them.

The sanitizers don't look for Dangling, Indeterminate, BadType, BadPointer and NoReturn, for OutOfBounds other than in
`a[i]`, `&a[i]` and `a + i` of an array `a`, and for NullUse where pointers are ordered or subtracted. Lines in which
one of the latter two may come are marked, `// bounds unchecked` and `// null unchecked`: there they may report nothing.
In lines marked `// heap checked` an allocated block is used after its end or beyond its bounds, or what can't be is
freed; there they report Dangling, OutOfBounds and BadFree.

Where the language fixes what C leaves open or says otherwise, the texts keep clear of the difference:

- A pointer to a member isn't moved, and an index of an array that is a member is always in it: the bounds here are
  those of the whole variable, in C those of the member. Only BadType is had by leaving a member.
- The difference of two pointers is of a wider type in C, so it only stands where it becomes an integer of 32 bits.
- The place for a call's result doesn't depend on what the call changes.
- Expressions have no effects, so the order of evaluation only matters for which of two errors of one line is the first.
  Clang goes as the meaning does, but in `x op= e` it begins with `e`: on such lines the cause isn't compared.
- A right shift of a negative value keeps the sign, and conversions to `int` keep the bits: both compilers choose so.
- An inner call of `main` doesn't come, and a local doesn't hide a function.
- `sizeof` is an `unsigned int` here and wider in C, so it gets a cast; a `malloc` of nothing is null in both.

usage: bench/outsider.py [--texts N] [--seed S] [--secomp PROGRAM] [--keep DIR]
"""
import collections
import os
import re
import shutil
import subprocess
import sys
import tempfile
from concurrent.futures import ThreadPoolExecutor

sys.dont_write_bytecode = True
from outsider_texts import BOUNDS, HEAP, NULL, Maker
from seeds import arguments, keep

BATCH = 20
NEVER = {"Dangling", "Indeterminate", "BadType", "BadPointer", "NoReturn"}
KINDS = [("Dangling", "use-after-free|double-free"), ("BadFree", "not malloc"),
         ("OutOfBounds", "out of bounds|buffer-overflow"),
         ("ZeroDivisor", "division by zero"), ("BadShift", "shift exponent"),
         ("NullUse", "null pointer"), ("Overflow", "signed integer overflow|cannot be represented|left shift of")]
RUNTIME = """int dprintf(int, const char *, ...);
int atoi(const char *);
unsigned alarm(unsigned);
void _exit(int);
void *malloc(unsigned long);
void free(void *);
#define malloc(bytes) ((bytes) ? malloc(bytes) : 0)
static int taken, events;
static void count(void) { if (++events > 5000) _exit(3); }
#define SAY(...) (count(), dprintf(1, __VA_ARGS__))
#define TAKE(values, number) (taken < (number) ? (values)[taken++] : 0)
"""
COMMANDS = {
    "gcc -O0": ["gcc", "-O0"],
    "gcc -O2": ["gcc", "-O2"],
    "clang": ["clang", "-O0", "-gline-tables-only", "-fsanitize=address,undefined", "-fno-sanitize-recover=undefined"],
}
KEYWORDS = set("int signed unsigned void struct if else while for break continue return sizeof malloc free".split())


def wrapper(body, section, owner, name, mark):
    """The C function for an import: what it calls, between its events."""
    mine, here = "%s%s_%s" % (mark, section, name), "%s %s" % (section, name)
    if owner == "Env" and name == "output":
        return 'void %s(int v) { SAY("out %s %%d\\n", v); }' % (mine, section)
    if owner == "Env":
        form = 'int %s(void) { int v = TAKE(%sinputs, %scount); SAY("in %s %%d\\n", v); return v; }'
        return form % (mine, mark, mark, section)
    result, parameters = re.search(r"(?m)^([a-z ]+) %s\((.*)\);$" % name, body).groups()
    types = ["unsigned" if "unsigned" in each else "int" for each in parameters.split(",") if each != "void"]
    names = ["v%d" % i for i in range(len(types))]
    heads = ", ".join(map(" ".join, zip(types, names))) or "void"
    call = "%s%s_%s(%s)" % (mark, owner, name, ", ".join(names))
    begin = 'SAY(%s);' % ", ".join(['"call %s %s %s%s\\n"' % (section, owner, name, " %d" * len(names))] + names)
    if result == "void":
        return 'void %s(%s) { %s %s; SAY("ret %s %s\\n"); }' % (mine, heads, begin, call, owner, section)
    return '%s %s(%s) { %s %s r = %s; SAY("ret %s %s %%d\\n", r); return r; }' % (
        result, mine, heads, begin, result, call, owner, section)


def named(token, start):
    """A token as C: a name gets what stands before it."""
    return start + token if re.match("[A-Za-z_]", token) and token not in KEYWORDS else token


def translate(text, inputs, mark):
    """A text as C: what stands before its names is the mark and the compartment. `#line` names both, too."""
    out, ends = [], []
    for part in re.split(r"(?m)^#pragma compartment ", text)[1:]:
        name, rest = part.split("\n", 1)
        body = re.sub(r"(?m)^#pragma .*$", "", rest)
        ends += [wrapper(body, name, *each, mark) for each in re.findall(r"(?m)^#pragma import (\w+) (\w+)$", rest)]
        tokens = r"(?s)/\*.*?\*/|//[^\n]*|\d\w*|[A-Za-z_]\w*"
        body = re.sub(tokens, lambda found, start=mark + name + "_": named(found[0], start), body)
        body = body.replace("sizeof(", "(unsigned)sizeof(")
        body = re.sub(r"(?ms)^(int \w+_main\(void\) \{\n.*?)^\}$", r"\1return 0; }", body, count=1)
        out.append('#line 2 "%s%s"\n%s' % (mark, name, body))
        if "_main(void) {" in body:
            ends.append('void %srun(void) { int v = %s%s_main(); SAY("end %s %%d\\n", v); }' % (mark, mark, name, name))
    values = ", ".join(map(str, inputs)) or "0"
    lists = "static int %sinputs[] = {%s}, %scount = %d;" % (mark, values, mark, len(inputs))
    return "\n".join(out + ['#line 1 "runtime"', lists] + ends) + "\n"


class Case:
    """A text with what the meaning says of it: the events, and how it ends."""

    def __init__(self, seed, program):
        maker = Maker(seed)
        self.seed, self.text, self.inputs, self.mark = seed, maker.text(), maker.inputs, "t%d" % seed
        words = ["--in=" + ",".join(map(str, self.inputs))] if self.inputs else []
        run = subprocess.run([program, "meaning", "--turns", "16777216", "--events", "4096"] + words,
                             input=self.text.encode(), capture_output=True, check=False)
        self.refused = (run.stderr.decode().strip() or "status %d" % run.returncode) if run.returncode else ""
        self.events = run.stdout.decode().splitlines() or ["stop none"]
        self.stop = self.events.pop().split()[1:]

    def unfit(self):
        """Why the text can't be compared, as a list of reasons."""
        if self.refused:
            return [self.refused]
        return [] if self.stop[0] in ("ended", "blamed") else ["too long"]

    def line(self, section, number):
        """A line of a section, counted from its compartment line."""
        return self.text.split("#pragma compartment %s\n" % section)[1].split("\n")[int(number) - 2]

    def compare_plain(self, lines):
        """What is wrong with the run of a plain compiler, where the meaning isn't blamed."""
        return "" if lines == self.events + ["status 0"] else "trace"

    def compare_checked(self, lines):
        """What is wrong with the sanitizer's run; where nothing is, whether it reported what the meaning blames."""
        at = next((i for i, line in enumerate(lines) if "runtime error:" in line), None)
        if self.stop == ["ended"]:
            return ("reported: " + lines[at] if at is not None else self.compare_plain(lines)), False
        section, cause, number = self.stop[1:]
        if lines[:len(self.events)] != self.events or at is not None and at < len(self.events):
            return "trace before the blame", False
        line = self.line(section, number)
        silent = cause in NEVER or cause == "OutOfBounds" and BOUNDS in line or cause == "NullUse" and NULL in line
        silent = silent and HEAP not in line
        if at != len(self.events):
            return ("" if silent else "nothing reported"), False
        place, message = lines[at].split(": runtime error: ")
        kind = next((name for name, pattern in KINDS if re.search(pattern, message)), message)
        alike = kind == cause or re.search(r" ([-+*/%&|^]|<<|>>)= ", line)
        if place.split(":")[:2] == [self.mark + section, number] and alike:
            return "", kind == cause
        return ("" if silent else "reported elsewhere or otherwise: " + lines[at]), False


def compiled(command, cases, folder, name):
    """Compiles some texts as one C program; its path, or what the compiler says."""
    path = os.path.join(folder, name)
    with open(path + ".c", "w", encoding="utf-8") as out:
        out.write(RUNTIME + "".join(translate(case.text, case.inputs, case.mark) for case in cases))
        out.write("int main(int argc, char **argv) {\n  alarm(5);\n  switch (atoi(argv[1])) {\n")
        out.write("".join("  case %d: %srun(); break;\n" % (case.seed, case.mark) for case in cases))
        out.write("  }\n  return 0;\n}\n")
    made = subprocess.run(command + ["-w", "-o", path, path + ".c"], capture_output=True, text=True, check=False)
    return path, made.stderr if made.returncode else ""


def lines_of(path, case):
    """What a compiled text prints, and its status."""
    options = "handle_segv=0:handle_sigbus=0:handle_sigfpe=0:print_summary=0:detect_leaks=0:allow_addr2line=1"
    run = subprocess.run([path, str(case.seed)], stdout=subprocess.PIPE, stderr=subprocess.STDOUT,
                         env=dict(os.environ, ASAN_OPTIONS=options, UBSAN_OPTIONS=options), check=False)
    return one_line(run.stdout.decode(errors="replace"), case.mark) + ["status %d" % run.returncode]


def one_line(text, mark):
    """The lines of a run; a report of the address sanitizer as one line of the form that the other one's have."""
    events, found, report = text.partition("ERROR: AddressSanitizer: ")
    place = re.search(r"/(%s[A-Za-z]\w*:\d+)" % mark, report)
    lines = [line for line in events.splitlines() if not re.match("=+$|==[0-9]+==$", line)]
    return lines + (["%s: runtime error: %s" % (place[1] if place else "", report.splitlines()[0])] if found else [])


def judge(seeds, program):
    """Compares the texts of some seeds; for each its case, what is wrong, and whether the sanitizer saw the blame."""
    cases = [Case(seed, program) for seed in seeds]
    wrong = {case.seed: case.unfit() for case in cases}
    good = [case for case in cases if not wrong[case.seed]]
    plain = [case for case in good if case.stop == ["ended"]]
    seen = set()
    with tempfile.TemporaryDirectory() as folder:
        for name, command in COMMANDS.items():
            chosen = good if name == "clang" else plain
            path, error = compiled(command, chosen, folder, name.replace(" ", ""))
            for case in chosen:
                if error:
                    found = "doesn't compile: " + error.split("error: ")[-1].split("\n")[0]
                elif name == "clang":
                    found, saw = case.compare_checked(lines_of(path, case))
                    seen |= {case.seed} if saw else set()
                else:
                    found = case.compare_plain(lines_of(path, case))
                wrong[case.seed] += [name + ": " + found] if found else []
    return [(case, wrong[case.seed], case.seed in seen) for case in cases]


def main():
    """Compares the texts of the seeds that the words name; the exit status."""
    words = arguments(__doc__, 200)
    absent = [name for name in ("gcc", "clang") if not shutil.which(name)]
    if absent:
        print("outsider: compared nothing, for want of %s on the path" % " and ".join(absent))
        return 0
    seeds = range(words.seed, words.seed + words.texts)
    batches = [seeds[i:i + BATCH] for i in range(0, len(seeds), BATCH)]
    summary = Summary(words.keep)
    with ThreadPoolExecutor(2) as pool:
        for results in pool.map(lambda batch: judge(batch, words.secomp), batches):
            for each in results:
                summary.add(*each)
    return summary.tell()


class Summary:
    """What was found, by kind; texts that fail are told and kept at once."""

    def __init__(self, folder):
        self.folder, self.texts, self.events, self.equal, self.failed = folder, 0, 0, 0, 0
        self.seen, self.unseen = collections.Counter(), collections.Counter()

    def add(self, case, wrong, saw):
        self.texts += 1
        self.events += len(case.events)
        if wrong:
            self.failed += 1
            print("seed %d: stop %s: %s" % (case.seed, " ".join(case.stop), "; ".join(wrong)), flush=True)
            keep(self.folder, case)
        elif case.stop == ["ended"]:
            self.equal += 1
        else:
            (self.seen if saw else self.unseen)[case.stop[2]] += 1

    def tell(self):
        """Prints the summary; the status of the run."""
        print("texts %d, events %d" % (self.texts, self.events))
        print("not blamed, traces equal: %d" % self.equal)
        for title, counts in [("reported at the same line", self.seen), ("not looked for", self.unseen)]:
            by_cause = ", ".join("%s %d" % each for each in sorted(counts.items()))
            print("blamed, %s: %d%s" % (title, sum(counts.values()), " (%s)" % by_cause if by_cause else ""))
        print("mismatches: %d" % self.failed)
        print("%d passed, %d failed" % (self.texts - self.failed, self.failed))
        return 1 if self.failed else 0


if __name__ == "__main__":
    sys.exit(main())
