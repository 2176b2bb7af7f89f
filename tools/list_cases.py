#!/usr/bin/env python3
"""Writes the cases of crates/list_cases: stdin (calls of waiting lists) and stdout (what has to be printed of each line).

The expected text comes from the rules over plain lists: one list of nodes for the memory, and one for each dive."""
import pathlib, random

HERE = pathlib.Path(__file__).resolve().parent.parent / "crates" / "list_cases"
LISTS = ("heap", "stack", "dive-heap", "dive-stack", "dive-dive-heap", "dive-dive-stack")
KEPT = 8
GREATEST = 2 ** 64 - 1


class List:
    """Rows from the front: those of the dives, the outer first, and that of the heap or stack."""

    def __init__(self, name, places):
        *dives, self.base = name.split("-")
        self.rows = [[] for _ in dives] + [[]]
        self.rooms = [KEPT for _ in dives] + [places]

    def put(self, node):
        for row, room in zip(self.rows, self.rooms):
            if len(row) < room:
                row.insert(0, node)
                if row is self.rows[-1] and self.base == "heap":
                    row.sort()
                return True
        return False

    def take(self):
        for row in self.rows:
            if row:
                return row.pop(0)
        return None

    def clear(self):
        for row in self.rows:
            row.clear()

    def length(self):
        return sum(len(row) for row in self.rows)


def spelled(node):
    return "none" if node is None else "%d.%d.%d" % node


def answer(name, places, words):
    held, out = List(name, places), ["answers"]
    for word in words:
        if word == "-":
            out.append(spelled(held.take()))
        elif word == "x":
            held.clear()
        elif word == "?":
            out.append(str(held.length()))
        elif not held.put(tuple(int(part) for part in word.split("."))):
            out.append("full")
    while held.length():
        out.append(spelled(held.take()))
    return " ".join(out + ["none"])


def puts(nodes):
    return ["%d.%d.%d" % node for node in nodes]


def drawn(rng, calls):
    words = []
    for _ in range(calls):
        draw = rng.random()
        if draw < 0.02:
            words.append("x")
        elif draw < 0.1:
            words.append("?")
        elif draw < 0.4:
            words.append("-")
        else:
            words += puts([(rng.randrange(6), rng.randrange(3), rng.randrange(3))])
    return words


def lines(rng):
    for name in LISTS:
        dives = name.count("dive")
        for places in (0, 1, 2, 7, 256):
            room = KEPT * dives + places
            rising = [(bound, 0, 0) for bound in range(room)]
            yield "%s of %d places, filled, and one more" % (name, places), name, places, ["?"] + puts(rising) + ["?", "9.9.9", "?"]
            yield "%s of %d places, filled falling, refused, cleared, filled again" % (name, places), name, places, puts(rising[::-1]) + ["1.1.1", "x", "?", "-"] + puts(rising) + ["1.1.1"]
        equal = [(5, 2, 0), (5, 1, 1), (5, 0, 2), (5, 1, 0), (4, 9, 9), (5, 1, 1)]
        yield "%s, equal bounds" % name, name, 256, puts(equal * 4)
        ends = [(GREATEST, GREATEST, GREATEST), (0, GREATEST, 0), (0, 0, GREATEST), (GREATEST, 0, 0), (0, 0, 0)]
        yield "%s, numbers at their ends" % name, name, 5, puts(ends)
        yield "%s, taken from nothing" % name, name, 3, ["-", "?", "-", "2.0.0", "-", "-", "x", "-"]
        full = puts([(bound, 0, 0) for bound in range(KEPT * dives + 2)])
        yield "%s, a list below that is full and then has room" % name, name, 2, full + ["8.8.8", "-", "-", "-", "7.7.7", "6.6.6", "5.5.5", "4.4.4", "?"]
        for turn in range(4):
            yield "%s, drawn %d" % (name, turn), name, (3, 10, 40, 256)[turn], drawn(rng, 120)


def main():
    rng = random.Random(6)
    stdin, stdout = [], []
    for heading, name, places, words in lines(rng):
        stdin += ["# " + heading, " ".join([name, str(places)] + words)]
        stdout += ["# " + heading, answer(name, places, words)]
    (HERE / "stdin").write_text("".join(line + "\n" for line in stdin))
    (HERE / "stdout").write_text("".join(line + "\n" for line in stdout))


if __name__ == "__main__":
    main()
