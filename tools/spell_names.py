#!/usr/bin/env python3
"""Brings the repository's own definitions and lemmas to the spelling of today's library.

usage: python3 tools/spell_names.py            at the top of a checkout, once, right after the kit's port.py

A name that specs/ or proofs/ declare and that begins with a small letter is put into snake case. A dash stays only
between two names of definitions, as in `length-stops`. Names of src/, strings, inputs and outputs are left alone.
Prints each change, and the names that would fall together, which it leaves as they are.
"""
import os
import re

WORD = r"[A-Za-z_«][A-Za-z0-9_'»-]*"
TOKEN = re.compile(r'--[^\n]*|//[^\n]*|"(?:[^"\\\n]|\\.)*"|' + WORD)
SIGNATURE = re.compile(r"(?m)^[ \t]*((?:(?:abbrev|unfoldable|pub|let|record|data|module) )*)(" + WORD + r")((?: [({][^\n]*?[)}])*) :(?!=)([^\n]*)")
# names that would fall together with a function of the same file, or with one another
CHOSEN = {
    "answerText": "text_of_answer",
    "digitCount": "count_of_digits",
    "holdFault": "fault_of_hold",
    "leftBefore": "is_left_before",
    "meetingOf": "meeting_between",
    "movedWord": "word_of_moved",
    "nextStop": "next_stop",
    "on-paths": "scene_on_paths",
    "onPaths": "on_paths",
    "onPlan": "on_plan",
    "planText": "text_of_plan",
    "sameStop": "is_same_stop",
    "stayAt": "stay_of_stop",
    "stopCount": "count_of_stops",
    "stopIs": "stop_or_none",
    "tablesAt": "tables_at",
    "takesPart": "has_part",
    "wait-in": "wait_in",
    "wait-is": "wait_is",
    "waitAt": "nth_wait",
    "waitIn": "wait_by_number",
    "waitIs": "wait_or_none",
    "waitOf": "wait_under",
}
LIBRARY = {"length", "take", "drop", "map", "sum", "append", "suc", "cond", "insert"}


def files(ending):
    for folder, dirs, names in os.walk("crates"):
        dirs[:] = sorted(d for d in dirs if d != "out")
        for name in sorted(names):
            if name.endswith(ending):
                yield os.path.join(folder, name)


def read(path):
    with open(path, encoding="utf-8") as f:
        return f.read()


def snake(name):
    return re.sub(r"(?<=[a-z0-9])([A-Z])", lambda m: "_" + m.group(1).lower(), name)


def declared():
    """The names that are declared, the definitions among them, and the names that Rattle gives to goals."""
    names, definitions, goals = set(), set(), set()
    for path in files(".antt"):
        for m in SIGNATURE.finditer(read(path)):
            if re.match(r"\s*(goal|need)\.", m.group(4)):
                goals.add(m.group(2))
            elif m.group(2)[0].islower():
                names.add(m.group(2))
                if "abbrev" in m.group(1) or "unfoldable" in m.group(1):
                    definitions.add(snake(m.group(2)))
    return names - goals, definitions, goals


def spelling(name, definitions):
    parts = [snake(p) for p in name.split("-")]
    joint = "-" if all(p in definitions | LIBRARY for p in parts) else "_"
    return joint.join(parts)


def main():
    names, definitions, goals = declared()
    used = set()
    for path in list(files(".antt")) + list(files(".rt")):
        used.update(t for t in TOKEN.findall(read(path)) if not t.startswith(("--", "//", '"')))
    turned = {n: spelling(n, definitions) for n in names if re.search(r"[A-Z]|-", n)}
    turned = {n: s for n, s in turned.items() if n != s}
    turned.update({n: s for n, s in CHOSEN.items() if n in turned})
    together = {n: s for n, s in turned.items() if n not in CHOSEN and s in used or list(turned.values()).count(s) > 1}
    for n in together:
        turned.pop(n)
    for path in list(files(".antt")) + list(files(".rt")) + list(files(".edit")):
        text = read(path)
        new = TOKEN.sub(lambda m: turned.get(m.group(0), m.group(0)), text)
        if new != text:
            with open(path, "w", encoding="utf-8") as f:
                f.write(new)
    for n in sorted(turned):
        print(n, turned[n])
    for n in sorted(together):
        print("falls together:", n, together[n])
    for n in sorted(n for n in turned if n in goals):
        print("also a goal:", n)


if __name__ == "__main__":
    main()
