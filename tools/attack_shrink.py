"""Makes a behaviour that shows a finding smaller: fewer events, fewer calls, smaller numbers.

Each smaller behaviour is run on the text without marks, and taken only where it shows the same. Nothing of this is
proved.
"""
import copy
import re

from attack_text import events, replayed

LONG = 300
BUDGET = 400
BLAMED = re.compile(r"stop blamed (\w+) (\w+) (\d+)")
TRAP = re.compile(r"stop trap (\w+) 0x([0-9a-f]{8})")
VIOLATED = re.compile(r"verdict violated after (\d+) by (\w+) rule (\d+) clean")
CODE_START, STRETCH = 0x01000000, 0x100000
BOUNDS = {"fault": ["--turns=20000", "--events=1024"], "trap": ["--steps=400000", "--events=4096"],
          "violation": ["--steps=400000", "--events=1024"]}
COMMAND = {"fault": "meaning", "trap": "run", "violation": "judge"}


def compartment_at(place, names):
    """In which compartment's code a place of the machine lies."""
    number = (place - CODE_START) // STRETCH
    return names[number] if 0 <= number < len(names) else None


def found(kind, lines, plan):
    """What a report shows of this kind, with how many events it takes, or nothing."""
    attacked, names = plan.data["attacked"], plan.data["names"]
    last = next((line for line in lines if line.startswith("stop ")), "")
    if kind == "fault" and (parts := BLAMED.fullmatch(last)) and parts.group(1) not in attacked:
        return ("fault", parts.group(1), parts.group(2), int(parts.group(3))), None
    if kind == "trap" and (parts := TRAP.fullmatch(last)):
        name = compartment_at(int(parts.group(2), 16), names)
        if name and name not in attacked:
            return ("trap", name, parts.group(1)), None
    if kind == "violation" and (parts := VIOLATED.fullmatch(lines[-1])):
        return ("violation", parts.group(2), int(parts.group(3))), int(parts.group(1)) + 1
    return None, None


class Shown:
    """What a behaviour shows: the finding, the trace up to it, and what it costs to say."""

    def __init__(self, plan, kind, behaviour):
        self.behaviour = behaviour
        lines = plan.report(COMMAND[kind], behaviour, bounds=BOUNDS[kind])
        self.key, length = found(kind, lines, plan)
        if kind == "trap" and self.key and self.is_blamed(plan):
            self.key = None
        self.trace = events(lines)[:length]
        self.cost = (min(len(self.trace), LONG), *weight(behaviour))

    def is_blamed(self, plan):
        return plan.report("meaning", self.behaviour, bounds=BOUNDS["fault"])[-1].startswith("stop blamed")


def entries_of(behaviour):
    """Its entries, those of the rest too."""
    for part in behaviour["parts"].values():
        yield from part["entries"]
        yield from part["rest"].values()


def number_weight(value):
    return 3 if isinstance(value, list) else 2 * abs(value or 0) + ((value or 0) < 0)


def weight(behaviour):
    """How many entries and calls it has, and how large its numbers are."""
    count = size = 0
    for calls, value, _ in entries_of(behaviour):
        count += 1
        size += number_weight(value)
        for _, values, times in calls:
            count += 1
            size += times + sum(map(number_weight, values))
    return count, size


def spans(count):
    """All, then halves, quarters and so on down to single ones: where to begin and to end."""
    size = count
    while size:
        for start in range(0, count, size):
            yield start, min(start + size, count)
        size //= 2


def smaller(behaviour):
    """Behaviours with less in them."""
    for name, part in behaviour["parts"].items():
        for start, stop in spans(len(part["entries"])):
            child = copy.deepcopy(behaviour)
            del child["parts"][name]["entries"][start:stop]
            for entry in child["parts"][name]["entries"]:
                entry[2] = None
            yield child
        for function in part["rest"]:
            child = copy.deepcopy(behaviour)
            del child["parts"][name]["rest"][function]
            yield child
    for number, entry in enumerate(entries_of(behaviour)):
        for start, stop in spans(len(entry[0])):
            child = copy.deepcopy(behaviour)
            del list(entries_of(child))[number][0][start:stop]
            yield child


class Shrinking:
    """The smallest behaviour so far, and how many runs were spent."""

    def __init__(self, plan, kind, key, behaviour):
        self.plan, self.kind, self.key, self.runs = plan, kind, key, 1
        self.best = Shown(plan, kind, behaviour)

    def holds(self, behaviour):
        """Whether this one shows the same and is smaller; it is the best one then."""
        if self.runs >= BUDGET:
            return False
        self.runs += 1
        tried = Shown(self.plan, self.kind, behaviour)
        if tried.key != self.key or tried.cost >= self.best.cost:
            return False
        self.best = tried
        return True

    def replay(self):
        """Only what the trace has, in place of what gave it."""
        data = self.plan.data
        if len(self.best.trace) > LONG:
            return
        self.runs += 1
        behaviour = replayed(self.best.trace, data["attacked"], data["main"], self.best.behaviour["input"])
        tried = Shown(self.plan, self.kind, behaviour)
        if tried.key == self.key and len(tried.trace) <= len(self.best.trace):
            self.best = tried

    def less(self):
        """One step to fewer entries or calls."""
        return any(self.holds(child) for child in smaller(self.best.behaviour))

    def fewer_times(self):
        for number, entry in enumerate(entries_of(self.best.behaviour)):
            for at in range(len(entry[0])):
                self.bisect(lambda it, place=(number, at): list(entries_of(it))[place[0]][0][place[1]], 2, 1)

    def smaller_numbers(self):
        for number, entry in enumerate(entries_of(self.best.behaviour)):
            self.bisect(lambda it, place=number: list(entries_of(it))[place], 1, 0)
            for at, call in enumerate(entry[0]):
                for argument in range(len(call[1])):
                    self.bisect(lambda it, place=(number, at): list(entries_of(it))[place[0]][0][place[1]][1],
                                argument, 0)

    def bisect(self, holder, slot, least):
        """Brings a number as close to the least as it goes, on the assumption that from there on all show the same."""
        value = holder(self.best.behaviour)[slot]
        if value in (least, None):
            return
        tries = [least, 1, -1] if least == 0 else [least]
        if any(self.with_number(holder, slot, number) for number in tries) or isinstance(value, list):
            return
        bad, good = least, value
        while abs(good - bad) > 1:
            middle = bad + (good - bad) // 2
            if self.with_number(holder, slot, middle):
                good = middle
            else:
                bad = middle

    def with_number(self, holder, slot, number):
        child = copy.deepcopy(self.best.behaviour)
        holder(child)[slot] = number
        return self.holds(child)


def smallest(plan, kind, key, behaviour):
    """What shows the same with less, or nothing where the text without marks doesn't show it."""
    work = Shrinking(plan, kind, key, behaviour)
    if work.best.key != key:
        return None
    work.replay()
    before = None
    while before != work.best.cost and work.runs < BUDGET:
        before = work.best.cost
        while work.less():
            pass
        work.fewer_times()
        work.smaller_numbers()
        work.replay()
    return work.best
