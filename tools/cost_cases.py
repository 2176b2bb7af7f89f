#!/usr/bin/env python3
"""Writes the cases of crates/cost_cases: stdin (figures and arrivals) and stdout (the totals that have to be printed).

Drawn totals come from a sum or a maximum over all arrivals; none of them reaches 2 ** 64. The cases of one step are stated by hand."""
import pathlib, random

HERE = pathlib.Path(__file__).resolve().parent.parent / "crates" / "cost_cases"
COSTS = ("sum", "last", "due-sum", "due-last", "weight-sum", "weight-last", "due-weight-sum", "weight-due-sum")
TOTAL, ARRIVAL, HEAVIEST = 2 ** 64 - 1, 2 ** 32 - 1, 1000

# figures, lines and answers, worked out by hand
BY_HAND = [
    ("dues", [3], ""),
    ("weights", [500] + [1000] * 31, ""),
    ("total due-weight-sum", [2, 4], 4000),  # 0 * 500 + 4 * 1000
    ("total due-weight-sum", [7, 9], 11000),  # 4 * 500 + 9 * 1000
    ("total weight-due-sum", [2, 4], 4997),  # 2 * 500 - 3 + 4 * 1000
    ("total sum", [2, 4], 6),
    ("total sum", [7, 9], 16),
    ("total last", [7, 9], 9),
    ("total last", [9, 7], 9),
    ("next sum", [TOTAL, 0, 0], TOTAL),
    ("next sum", [TOTAL, 0, 1], TOTAL),
    ("next sum", [TOTAL - 1, 0, 1], TOTAL),
    ("next sum", [TOTAL - 2, 0, 1], TOTAL - 1),
    ("next sum", [TOTAL - ARRIVAL, 0, ARRIVAL], TOTAL),
    ("next sum", [TOTAL - ARRIVAL + 1, 0, ARRIVAL], TOTAL),
    ("next last", [TOTAL, 0, ARRIVAL], TOTAL),
    ("next last", [0, 0, ARRIVAL], ARRIVAL),
    ("next last", [8, 0, 7], 8),
    ("next last", [7, 0, 8], 8),
    ("dues", [5] * 30 + [6, 9], ""),
    ("next due-sum", [0, 29, 5], 0),
    ("next due-sum", [0, 29, 4], 0),
    ("next due-sum", [0, 29, 6], 1),
    ("next due-sum", [0, 30, 9], 3),
    ("next due-sum", [0, 31, 10], 1),
    ("next due-sum", [0, 32, 10], 1),
    ("next due-sum", [0, 33, 10], 1),
    ("next due-sum", [0, TOTAL, 10], 1),
    ("dues", [ARRIVAL, 0], ""),
    ("next due-sum", [1, 0, ARRIVAL], 1),
    ("next due-sum", [1, 1, ARRIVAL], ARRIVAL + 1),
    ("weights", [0, 1, 1000, 1001, ARRIVAL] + [2] * 26 + [3], ""),
    ("next weight-sum", [9, 0, ARRIVAL], 9),
    ("next weight-sum", [9, 1, ARRIVAL], 9 + ARRIVAL),
    ("next weight-sum", [0, 2, 4294967], 4294967000),
    ("next weight-sum", [0, 2, 4294968], ARRIVAL),
    ("next weight-sum", [0, 3, 4], 4000),
    ("next weight-sum", [0, 4, 4], 4000),
    ("next weight-sum", [0, 4, ARRIVAL], ARRIVAL),
    ("next weight-last", [5, 31, 2], 6),
    ("next weight-last", [5, 32, 2], 6),
    ("next weight-last", [7, 40, 2], 7),
    ("total sum", [], 0),
    ("total last", [], 0),
    ("total due-weight-sum", [], 0),
]


def figure(figures, shuttle):
    return figures[min(shuttle, 31)]


def handed_on(layers, dues, weights, shuttle, arrival):
    for layer in layers:
        if layer == "due":
            arrival = max(0, arrival - figure(dues, shuttle))
        else:
            arrival = min(ARRIVAL, arrival * min(HEAVIEST, figure(weights, shuttle)))
    return arrival


def total(name, dues, weights, arrivals):
    *layers, base = name.split("-")
    handed = [handed_on(layers, dues, weights, s, a) for s, a in enumerate(arrivals)]
    return min(TOTAL, sum(handed)) if base == "sum" else max([0] + handed)


def drawn(rng):
    for turn in range(12):
        high = rng.choice((10, 2000, ARRIVAL))
        dues = [rng.randint(0, high) for _ in range(32)]
        weights = [rng.choice((0, 1, 2, 999, 1000, 1001, ARRIVAL)) for _ in range(32)]
        yield "dues", dues, ""
        yield "weights", weights, ""
        for name in COSTS:
            arrivals = [rng.randint(0, high) for _ in range(rng.choice((1, 2, 31, 32, 33, 40)))]
            yield "total " + name, arrivals, total(name, dues, weights, arrivals)


def main():
    rng = random.Random(6)
    stdin, stdout = ["# worked out by hand"], ["# worked out by hand"]
    for heading, cases in (("", BY_HAND), ("# drawn", drawn(rng))):
        if heading:
            stdin.append(heading)
            stdout.append(heading)
        for words, numbers, answer in cases:
            stdin.append(" ".join([words] + [str(n) for n in numbers]))
            if answer != "":
                stdout.append(str(answer))
    (HERE / "stdin").write_text("".join(line + "\n" for line in stdin))
    (HERE / "stdout").write_text("".join(line + "\n" for line in stdout))


if __name__ == "__main__":
    main()
