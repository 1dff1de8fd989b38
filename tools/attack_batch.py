"""Runs some behaviours of an attack: `attack_batch.py BATCH`, in the folder that tools/attack laid out.

BATCH is a list of behaviours in JSON. What each run shows goes to BATCH.out, a line each: how the meaning stops, and
the features that it reached; with a policy also how the machine stops, and the verdict. It needs nothing but what lies
in the folder, so that it runs on another machine too. Nothing of this is proved.
"""
import json
import os
import sys

from attack_image import plan_of
from attack_text import Bad, events, replayed


def size_class(value):
    """A number by its sign and how large it is, coarsely."""
    number = int(value)
    return ("-" if number < 0 else "") + str((abs(number).bit_length() + 1) // 2)


def kinds(line, marks):
    """What an event counts as."""
    words = line.split()
    if words[0] == "call":
        if words[2:4] == marks:
            return [f"place {words[4]}"]
        return [f"{words[1]} {words[2]} {words[3]}"]
    if words[0] == "ret" and words[1] != marks[0]:
        return [f"ret {words[1]} {size_class(words[3])}" if len(words) == 4 else f"ret {words[1]}"]
    return [f"out {words[1]} {size_class(words[2])}"] if words[0] == "out" else []


def features(lines, marks):
    """What a trace reached: each kind of event the first, second, fourth, eighth time and so on."""
    counts, found = {}, []
    for line in lines[:-1]:
        for kind in kinds(line, marks):
            counts[kind] = count = counts.get(kind, 0) + 1
            if count & (count - 1) == 0:
                found.append(f"{kind} x{count}")
    return found


def replay(lines, plan, number):
    """What the attacked sections did in a trace with marks, as a behaviour."""
    marks = plan.data["marks"]
    trace = [words for words in events(lines) if words[2:4] != marks and words[:2] != ["ret", marks[0]]]
    return replayed(trace, plan.data["attacked"], plan.data["main"], number)


def unmarked(stop, plan):
    """How the meaning stops, with the line that the text without marks has."""
    words = stop.split()
    if words[1] == "blamed" and words[2] not in plan.faces:
        words[4] = str(int(words[4]) - plan.data["lines"])
    return " ".join(words)


def shown(plan, behaviour):
    lines = plan.report("meaning", behaviour, is_marked=True)
    answer = {"stop": unmarked(lines[-1], plan), "features": features(lines, plan.data["marks"])}
    if behaviour.get("code", [""])[0] == "random":
        answer["replay"] = replay(lines, plan, behaviour["input"])
    if plan.data["policy"]:
        judged = plan.report("judge", behaviour)
        answer["machine"] = next(line for line in judged if line.startswith("stop "))
        answer["verdict"] = judged[-1]
        if judged[-1].startswith("verdict holds"):
            answer["features"].append(judged[-1])
    return answer


def main(batch):
    with open("plan.json", encoding="utf-8") as it:
        plan = plan_of(json.load(it))
    with open(batch, encoding="utf-8") as it:
        behaviours = json.load(it)
    with open(f"{batch}.new", "w", encoding="utf-8") as it:
        for behaviour in behaviours:
            it.write(json.dumps(shown(plan, behaviour)) + "\n")
    os.replace(f"{batch}.new", f"{batch}.out")


if __name__ == "__main__":
    try:
        main(sys.argv[1])
    except Bad as error:
        raise SystemExit(str(error)) from None
