"""Which behaviours an attack tries: boundary values first, then variations of those that reached something new.

All choices come from seeds, and results are taken in order: the same attack tries the same behaviours, on however many
processors it runs. Nothing of this is proved.
"""
import copy
import random
import re

from attack_text import LEAST, MOST, NOTHING, wrapped

ROUND = 100
MOST_SLOTS = 12
CORE = [0, 1, -1, 2, MOST, LEAST]
LIMITS = [3, 4, 5, 7, 8, 9, 15, 16, 31, 32, 33, 63, 64, 65, 100, 127, 128, 255, 256, 257, 1000, 4096, 32767, 32768,
          65535, 65536, 70000, 1 << 20, 1 << 30, MOST - 1, LEAST + 1, -2, -3, -16, -100, -65536]
TIMES = [2, 3, 4, 5, 8, 9, 16, 17, 32, 33, 64, 65, 100, 128, 129, 256, 257, 300]
NUMBER = re.compile(r"(?<![\w.])(0[xX][0-9a-fA-F]+|\d+)[uU]?\b")


def constants(text):
    """The numbers of a text as words, in order, each once."""
    code = re.sub(r"/\*.*?\*/|//[^\n]*|^#[^\n]*", " ", text, flags=re.S | re.M)
    found = {}
    for digits in NUMBER.findall(code):
        octal = digits.startswith("0") and digits.isdigit()
        try:
            found[wrapped(int(digits, 8 if octal else 0))] = True
        except ValueError:
            continue
    return list(found)


def seen(trace):
    """The values of a trace's events, each once."""
    found = {}
    for words in trace:
        given = words[4:] if words[0] == "call" else words[3:] if words[0] == "ret" else words[2:]
        found.update((int(value), True) for value in given)
    return list(found)


class Values:
    """Values worth a try."""

    def __init__(self, numbers, traced):
        near = [wrapped(number + by) for number in numbers[:64] for by in (0, 1, -1)]
        sums = [wrapped(limit - number) for number in (numbers + traced)[:24] for limit in (MOST, LEAST)]
        signs = [wrapped(-number) for number in numbers[:24]]
        self.first = list(dict.fromkeys(CORE + near))
        self.traced = list(dict.fromkeys(traced))[:200]
        self.all = list(dict.fromkeys(self.first + LIMITS + sums + signs))

    def draw(self, chance):
        """One of them, a number from anywhere, or what depends on what the run gave."""
        kind = chance.random()
        if kind < 0.35:
            return chance.choice(self.first)
        if kind < 0.65:
            return chance.choice(self.all)
        if kind < 0.77 and self.traced:
            return chance.choice(self.traced)
        if kind < 0.85:
            return [chance.choice(["result", "argument", "round"]), chance.choice([0, 0, 0, 1, -1])]
        if kind < 0.93:
            return chance.randint(0, 12)
        return wrapped(chance.getrandbits(32))

    def near(self, value, chance):
        """Another value, close to one where it is a number."""
        if isinstance(value, list) or value is None or chance.random() < 0.5:
            return self.draw(chance)
        near = [value + 1, value - 1, -value, value * 2, value // 2, value ^ 1, ~value, MOST - value]
        return wrapped(chance.choice(near))


class Search:
    """The behaviours that are kept, and the next ones."""

    def __init__(self, faces, values, recorded, seed, has_code=False):
        self.faces, self.values, self.recorded, self.seed = faces, values, recorded, seed
        self.has_code = has_code
        self.pool, self.reached, self.round = [], set(), 0
        self.waiting = list(self.first_ones())

    def first_ones(self):
        """The recorded runs; with each return and each argument changed to each of the first values; and with one more
        call of each import."""
        yield from self.recorded
        for value in self.values.first[:24]:
            for base in self.recorded:
                for name, face in self.faces.items():
                    yield from self.with_value(base, name, face, value)

    def with_value(self, base, name, face, value):
        for function, (result, _) in face.exports.items():
            if result != "void":
                plain = self.without_entries(base)
                plain["parts"][name]["rest"][function] = [[], value, None]
                yield plain
        for number, entry in enumerate(base["parts"][name]["entries"][:MOST_SLOTS]):
            for at, call in enumerate(entry[0][:MOST_SLOTS]):
                for argument in range(len(call[1])):
                    changed = copy.deepcopy(base)
                    changed["parts"][name]["entries"][number][0][at][1][argument] = value
                    yield changed
        for function, (_, _, types) in face.imports.items():
            if types or function != "input":
                call = [function, [value] * len(types), 1]
                yield self.with_call(base, name, call)
                if value in CORE:
                    yield from self.with_calls(base, name, call)

    def with_call(self, base, name, call):
        """A recorded behaviour with one more call, at the end of the first entry."""
        changed = copy.deepcopy(base)
        part = changed["parts"][name]
        function = next(iter(self.faces[name].functions()))
        entry = part["entries"][0] if part["entries"] else part["rest"].setdefault(function, copy.deepcopy(NOTHING))
        entry[0].append(call)
        return changed

    def with_calls(self, base, name, call):
        """Behaviours that do this call each time that an export is called."""
        for function in self.faces[name].exports:
            changed = self.without_entries(base)
            changed["parts"][name]["rest"].setdefault(function, copy.deepcopy(NOTHING))[0].append(call)
            yield changed

    def without_entries(self, base):
        """A behaviour that returns the value that each function returned last, and does nothing."""
        parts = {}
        for name, face in self.faces.items():
            parts[name] = {"entries": [], "rest": {}}
            for _, value, function in base["parts"][name]["entries"]:
                if function in face.functions():
                    parts[name]["rest"][function] = [[], value, None]
        return {"input": base["input"], "parts": parts}

    def batch(self, count):
        """The next behaviours. A third of each round varies what was kept, as soon as something was."""
        chance = random.Random(f"{self.seed}.{self.round}")
        self.round += 1
        found = []
        while len(found) < count:
            if self.waiting and (not self.pool or chance.random() < 0.6):
                found.append(self.waiting.pop(0))
            else:
                found.append(self.varied(chance))
        return found

    def take(self, behaviour, features):
        """Keeps a behaviour that reached something new; whether it did."""
        fresh = set(features) - self.reached
        if fresh:
            self.reached |= fresh
            self.pool.append(behaviour)
        return bool(fresh)

    def parent(self, chance):
        if not self.pool:
            return chance.choice(self.recorded)
        if chance.random() < 0.5:
            return chance.choice(self.pool[-12:])
        return chance.choice(self.pool)

    def varied(self, chance):
        child = copy.deepcopy(self.parent(chance))
        if chance.random() < 0.1:
            name, other = chance.choice(list(self.faces)), copy.deepcopy(self.parent(chance))
            child["parts"][name] = other["parts"][name]
        for _ in range(chance.choice([1, 1, 2, 3, 5])):
            name = chance.choice(list(self.faces))
            self.change(child["parts"][name], self.faces[name], chance)
        if len(self.recorded) > 1 and chance.random() < 0.1:
            child["input"] = chance.choice(self.recorded)["input"]
        if self.has_code and (kind := chance.random()) < 0.3:
            child["code"] = ["random" if kind < 0.1 else "noise", chance.getrandbits(32)]
        return child

    def drawn_call(self, face, chance):
        names = [name for name, parts in face.imports.items() if parts[0] != "Env" or chance.random() < 0.3]
        function = chance.choice(names or list(face.imports))
        times = chance.choice(TIMES) if chance.random() < 0.12 else 1
        return [function, [self.values.draw(chance) for _ in face.imports[function][2]], times]

    def drawn_entry(self, face, chance):
        """An entry; one of `main` would be the only one, so it calls more."""
        calls = []
        if face.imports and (face.main or chance.random() < 0.3):
            count = chance.choice([1, 2, 3, 6] if face.main else [1, 1, 2])
            calls = [self.drawn_call(face, chance) for _ in range(count)]
        return [calls, self.values.draw(chance), None]

    def chosen(self, part, face, chance):
        """An entry to change: one of the list, or of the rest."""
        entries, names = part["entries"], list(face.functions())
        if entries and (not names or chance.random() < 0.7):
            return chance.choice(entries)
        name = chance.choice(names) if names else "main"
        return part["rest"].setdefault(name, copy.deepcopy(NOTHING))

    def change(self, part, face, chance):
        """One small change of a section's behaviour."""
        entries, kind = part["entries"], chance.random()
        if kind < 0.1:
            entries.insert(chance.randint(0, len(entries)), self.drawn_entry(face, chance))
        elif kind < 0.16 and entries:
            del entries[chance.randrange(len(entries))]
        elif kind < 0.22 and entries:
            at = chance.randrange(len(entries))
            entries[at:at] = [copy.deepcopy(entries[at]) for _ in range(chance.choice([1, 1, 2, 8]))]
            del entries[300:]
        elif kind < 0.27 and entries:
            chance.choice(entries)[2] = None
        else:
            self.change_entry(self.chosen(part, face, chance), face, chance)

    def change_entry(self, entry, face, chance):
        calls, kind = entry[0], chance.random()
        if not face.imports or kind < 0.3 and not face.main:
            entry[1] = self.values.near(entry[1], chance)
        elif kind < 0.5 or not calls:
            calls.insert(chance.randint(0, len(calls)), self.drawn_call(face, chance))
        elif kind < 0.58:
            del calls[chance.randrange(len(calls))]
        elif kind < 0.66:
            calls.insert(chance.randint(0, len(calls)), copy.deepcopy(chance.choice(calls)))
        elif kind < 0.72:
            chance.shuffle(calls)
        elif kind < 0.8:
            chance.choice(calls)[2] = chance.choice(TIMES)
        else:
            self.change_argument(chance.choice(calls), face, chance)
        del calls[300:]

    def change_argument(self, call, face, chance):
        if call[1]:
            at = chance.randrange(len(call[1]))
            call[1][at] = self.values.near(call[1][at], chance)
        else:
            call[:] = self.drawn_call(face, chance)
