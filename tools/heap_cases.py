#!/usr/bin/env python3
"""Writes the cases of crates/heap_cases: stdin (numbers to put into a heap of 256 places) and stdout (what has to be printed of each line).

The expected text comes from sorted lists, with no heap in them."""
import pathlib, random

HERE = pathlib.Path(__file__).resolve().parent.parent / "crates" / "heap_cases"
PLACES = 256
SIZES = (0, 1, 2, 3, 7, 8, 256, 257)


def answer(words):
    held, out = [], []
    for place, word in enumerate(words):
        if word != "-" and len(held) == PLACES:
            out.append("full")
        elif word != "-":
            held = sorted(held + [(int(word), place)])
        elif held:
            out.append("%d.%d" % held.pop(0))
        else:
            out.append("none")
    out += ["%d.%d" % one for one in held] + ["none"]
    return " ".join(["answers"] + out)


def lines(rng):
    for n in SIZES:
        yield "# %d rising" % n, range(n)
        yield "# %d falling" % n, range(n, 0, -1)
        yield "# %d equal" % n, [4294967295] * n
        yield "# %d mixed" % n, [rng.randrange(2 * n) for _ in range(n)]
    yield "# many equal among 100", [rng.randrange(4) for _ in range(100)]
    yield "# taken from an empty heap", "- 5 - - 7 3 -".split()
    yield "# taken in between", "9 4 7 - 1 - 8 - 2 2 - 6 - 3 - - 5".split()
    yield "# refused, taken, and put again", list(range(300, 44, -1)) + ["1", "-", "2", "3", "-", "-", "4", "5", "6", "7"]
    words = []
    for _ in range(600):
        words.append("-" if rng.random() < 0.3 else str(rng.randrange(1000)))
    yield "# 600 calls, some beyond the last place", words


def main():
    rng = random.Random(1)
    stdin, stdout = [], []
    for heading, words in lines(rng):
        words = [str(word) for word in words]
        stdin += [heading, " ".join(words)]
        stdout += [heading, answer(words)]
    (HERE / "stdin").write_text("".join(line + "\n" for line in stdin))
    (HERE / "stdout").write_text("".join(line + "\n" for line in stdout))


main()
