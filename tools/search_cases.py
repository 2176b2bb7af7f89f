#!/usr/bin/env python3
"""Writes the cases of crates/search_cases: stdin (runs, and searches for their orders) and stdout (what has to be printed of each line).

The expected text comes from the steps of the search in searches.py, on the runs of runs.py and over the plain lists of
list_cases.py; nothing is shared with the crates. What is found is held to the run, with few open meetings to all orders
that there are, and where a case states an answer by hand, to that too."""
import copy, pathlib, random, sys

sys.dont_write_bytecode = True
from cost_cases import total
from drawn import drawn_plan, pair
from list_cases import List
from plan_cases import encode
from runs import Run
from searches import FEW, MOST_OPEN, Ways, searched

HERE = pathlib.Path(__file__).resolve().parent.parent / "crates" / "search_cases"
PLACES = 1024  # of the memory that the program has for heaps and stacks
COSTS = ("sum", "last", "due-sum", "weight-sum", "due-weight-sum", "due-last")
LISTS = ("heap", "stack", "dive-heap", "dive-stack")


class State:
    """A run and the figures of the costs; and as long as these stand, the ways of the run, and what orders cost at least."""

    def __init__(self):
        self.run, self.dues, self.weights = Run(), [0] * 32, [0] * 32
        self.forget()

    def forget(self):
        self.ways, self.least = None, {}

    def price(self, cost):
        return lambda arrivals: total(cost, self.dues, self.weights, arrivals)

    def search(self, cost, name, places, budget):
        """The answer of a search, and the longest row."""
        self.ways, price = self.ways or Ways(self.run), self.price(cost)
        answer, longest = searched(self.ways, price, List(name, places), budget)
        assert answer[2] <= 2 * self.ways.every + 1 and longest <= (len(self.ways.open) + 1 if name == "stack" else self.ways.every + 1)
        if answer[0] == "R":
            _, least, taken, turned = answer
            orders = self.ways.orders(self.ways.every, turned)
            assert self.run.lawful(orders) and price(self.run.arrivals(orders)) == least
            if cost not in self.least:
                self.least[cost] = min(map(price, self.ways.lawful())) if len(self.ways.open) <= FEW else least
            assert least == self.least[cost]
            answer = "R", least, taken, orders or "-"
        return answer, longest


state = State()


def answer(line):
    """What the program prints of a line; nothing of a line of figures."""
    letter, *rest = line.split()
    if letter == "#":
        return line
    if letter in ("dues", "weights"):
        setattr(state, letter, ([int(n) for n in rest] + [0] * 32)[:32])
        state.least = {}
        return None
    if letter == "P":
        state.run = Run()
        state.forget()
        return state.run.open(bytes.fromhex(rest[0]))
    run = state.run
    if not run.paths:
        return "no 1"
    if letter == "H":
        state.forget()
        return run.hold(*map(int, rest))
    if letter == "T":
        state.forget()
        return run.tick(int(rest[0]))
    if letter == "I":
        if not run.lawful(rest[0]):
            return "I no"
        state.forget()
        run.orders = rest[0]
        return "I"
    if letter == "C":
        return f"C {state.price(rest[0])(run.arrivals(run.orders))}"
    if letter == "R":
        cost, name, *numbers = rest
        places, budget, _ = map(int, numbers)
        if len(run.open_meetings()) > MOST_OPEN:
            return "no 10"
        return " ".join(map(str, state.search(cost, name, places, budget)[0]))


asked, told = [], []


def do(line, by_hand=None):
    said = answer(line)
    assert by_hand is None or said == by_hand, (line, said, by_hand)
    asked.append(line)
    if said is not None:
        told.append(said)


def case(name, *lines):
    """Lines are commands; `command => answer` states the answer by hand."""
    do("# " + name)
    for one in lines:
        do(*one.split(" => "))


def fresh(paths, tables=()):
    return "P " + encode(paths, sorted(tables)).hex() + " => P"


most = 2**32 - 1
P = [[(1, 0), (5, 1), (2, 2)], [(3, 0), (5, 3), (4, 4)]]
Q = [[(1, 0), (5, 1), (6, 2), (2, 3)], [(3, 0), (6, 5), (5, 6), (4, 7)]]
clash = [[(1, 0), (5, 1), (2, 2)], [(3, 0), (5, 2), (4, 3)]]

case("no plan yet", "C sum => no 1", "R sum heap 8 100 0 => no 1", "R last stack 0 0 0 => no 1", "H 0 1 => no 1", "T 0 => no 1")
case("a refused plan", "P " + encode(clash, []).hex() + " => no 5", "C sum => no 1", f"R sum dive-heap {PLACES} {most} 1 => no 1")

# the plan P
case("P, fresh", fresh(P), "C sum => C 6", "R sum heap 8 100 0 => R 6 3 L", "R sum stack 8 100 0 => R 6 3 L",
     "R sum dive-heap 8 100 0 => R 6 3 L", "R sum dive-stack 8 100 0 => R 6 3 L", "C last => C 4", "R last heap 8 100 0 => R 4 3 L")
case("P, shuttle 0 held", "H 0 5 => H", "C sum => C 16", "R sum heap 8 100 0 => R 9 3 O", "R sum stack 8 100 0 => R 9 3 O",
     "R sum dive-heap 8 100 0 => R 9 3 O", "R sum dive-stack 8 100 0 => R 9 3 O", "C sum => C 16")
case("P, the last arrival", "C last => C 9", "R last heap 8 100 0 => R 7 3 O", "R last stack 8 100 0 => R 7 3 O")
case("P, budgets", "R sum heap 8 0 0 => no 13 0", "R sum heap 8 1 0 => no 13 1", "R sum heap 8 2 0 => no 13 2", "R sum heap 8 3 0 => R 9 3 O",
     f"R sum heap 8 {most} 0 => R 9 3 O", "R sum stack 8 2 0 => no 13 2", "R sum stack 8 3 0 => R 9 3 O", "R sum dive-heap 0 2 0 => no 13 2")
case("P, capacities", "R sum heap 0 100 0 => no 12 0", "R sum heap 1 100 0 => no 12 1", "R sum heap 2 100 0 => R 9 3 O", "R sum stack 0 100 0 => no 12 0",
     "R sum stack 1 100 0 => no 12 1", "R sum stack 2 100 0 => R 9 3 O", "R sum dive-heap 0 100 0 => R 9 3 O", "R sum dive-stack 0 100 0 => R 9 3 O",
     f"R sum heap {PLACES} 100 0 => R 9 3 O")
case("P, neither room nor budget", "R sum heap 0 0 0 => no 12 0", "R sum stack 0 0 0 => no 12 0", "R sum heap 1 0 0 => no 13 0", "R sum heap 1 1 0 => no 12 1")
case("P, lists that have nodes", "R sum heap 8 100 8 => R 9 3 O", "R sum stack 8 100 1 => R 9 3 O", "R sum dive-heap 1 100 9 => R 9 3 O",
     "R sum dive-stack 3 100 11 => R 9 3 O", "R sum heap 1 100 1 => no 12 1", "R sum stack 2 2 2 => no 13 2", "R sum heap 0 0 3 => no 12 0")
case("P, a hold of 4 or less", "H 0 1 => H", "C sum => C 8", "R sum heap 8 100 0 => R 6 3 O", "H 0 0 => H", "H 1 2 => H", "C sum => C 6",
     "R sum heap 8 100 0 => R 6 1 L", "H 1 1 => H", "C sum => C 6", "R sum heap 8 100 0 => R 6 3 L")
case("P, held after one tick", fresh(P), "T 0 => T 1", "H 0 5 => H", "C sum => C 14", "R sum heap 8 100 0 => R 14 1 L", "R sum stack 1 1 0 => R 14 1 L",
     "R sum heap 8 0 0 => no 13 0", "R sum heap 0 0 0 => no 12 0")
case("P, place 5 a table", fresh(P, [5]), "H 0 5 => H", "C sum => C 16", "R sum heap 8 100 0 => R 16 1 L", "R last stack 8 100 0 => R 9 1 L")
case("P, other tables", fresh(P, [1, 2, 6]), "H 0 5 => H", "R sum heap 8 100 0 => R 9 3 O")
case("P, weighed lateness", fresh(P), "H 0 5 => H", "dues 3", "weights 500 1000", "C due-weight-sum => C 11000", "R due-weight-sum heap 8 100 0 => R 4000 3 O",
     "R due-weight-sum dive-heap 8 100 0 => R 4000 3 O", "weights 500 1001", "C due-weight-sum => C 11000", "C due-sum => C 13",
     "R due-sum stack 8 100 0 => R 6 3 O", "C weight-sum => C 12500", "R weight-sum stack 8 100 0 => R 5500 3 O")
case("P, nothing to be had", "weights 500 0", "C due-weight-sum => C 2000", "R due-weight-sum heap 8 100 0 => R 2000 1 L", "dues 4000 4000", "C due-sum => C 0",
     "R due-sum stack 8 100 0 => R 0 1 L", "dues 0 9", "C due-sum => C 7", "R due-sum heap 8 100 0 => R 7 1 L")
case("P, home", fresh(P), "T 0 => T 1", "T 0 => T 1", "T 0 => T 2", "T 0 => T 2", "C sum => C 0", "R sum heap 8 100 0 => R 0 1 L", "R sum stack 8 0 0 => no 13 0")
case("one shuttle with one stop", fresh([[(7, 0)]]), "C sum => C 0", "R sum heap 1 1 0 => R 0 1 -", "R last dive-stack 0 1 0 => R 0 1 -", "R sum heap 0 1 0 => no 12 0")
case("one shuttle, held", fresh([[(7, 0), (8, 1)]]), "H 0 4095 => H", "C sum => C 4096", "R sum stack 1 1 0 => R 4096 1 -")

case("P, turned orders in force", fresh(P), "I O => I", "C sum => C 6", "R sum heap 8 100 0 => R 6 3 O", "H 0 5 => H", "C sum => C 9", "R sum heap 8 100 0 => R 9 1 O",
     "H 0 0 => H", "H 1 5 => H", "C sum => C 16", "R sum heap 8 100 0 => R 9 3 L", "R sum stack 8 100 0 => R 9 3 L", "T 3 => T 0", "I L => I", "C sum => C 8",
     "R sum heap 8 100 0 => R 8 1 L")

# the plan Q
case("Q, fresh", fresh(Q), "C sum => C 9", "R sum heap 8 100 0 => R 9 5 LL")
case("Q, shuttle 0 held", "H 0 5 => H", "C sum => C 19", "R sum heap 8 100 0 => R 11 7 OO", "R sum stack 8 100 0 => R 11 5 OO",
     "R sum dive-heap 8 100 0 => R 11 5 OO", "R sum dive-stack 8 100 0 => R 11 5 OO", "C last => C 11", "R last heap 8 100 0 => R 8 7 OO")
case("Q, both turned in force", "I OL => I no", "I OO => I", "C sum => C 11", "R sum heap 8 100 0 => R 11 1 OO", "H 0 0 => H", "H 1 9 => H", "C sum => C 27",
     "R sum heap 8 100 0 => R 15 5 LL", "R sum stack 8 100 0 => R 15 5 LL", "I LL => I", "C sum => C 15", "H 1 0 => H", "H 0 5 => H")
case("Q, budgets and capacities", "R sum heap 8 6 0 => no 13 6", "R sum heap 8 7 0 => R 11 7 OO", "R sum stack 8 4 0 => no 13 4", "R sum stack 8 5 0 => R 11 5 OO",
     "R sum heap 2 100 0 => no 12 2", "R sum heap 3 100 0 => no 12 3", "R sum heap 4 100 0 => R 11 7 OO", "R sum stack 2 100 0 => no 12 2", "R sum stack 3 100 0 => R 11 5 OO",
     "R sum heap 2 1 0 => no 13 1", "R sum heap 2 2 0 => no 12 2")

# several meetings
three = [[(1, 0), (5, 1), (2, 2)], [(3, 0), (5, 3), (4, 4)], [(6, 0), (5, 5), (7, 6)]]
case("three at one place, two ways that cost least", fresh(three), "H 0 5 => H", "C sum => C 27", "R sum heap 8 100 0 => R 13 9 OOL",
     "R sum stack 8 100 0 => R 13 7 OOO", "R sum dive-heap 8 100 0 => R 13 7 OOO", "R sum heap 8 8 0 => no 13 8")
case("three at one place, a table", fresh(three, [5]), "H 0 5 => H", "R sum heap 8 100 0 => R 27 1 LLL")
case("three at one place, the first is in it", fresh(three), "T 0 => T 1", "H 0 5 => H", "C sum => C 24", "R sum heap 8 100 0 => R 24 3 LLL",
     "H 1 9 => H", "C sum => C 30", "R sum heap 8 100 0 => R 25 3 LLO")
twice = [[(1, 0), (5, 1), (2, 2), (5, 8), (9, 9)], [(3, 0), (5, 4), (4, 5)]]
case("one place twice on a path", fresh(twice), "H 0 5 => H", "C sum => C 20", "R sum heap 8 100 0 => R 11 5 OO", "R sum stack 8 100 0 => R 11 3 OO")
case("a meeting at a last stop", fresh([[(1, 0), (5, 9)], [(3, 0), (5, 2), (4, 3)]]), "H 1 5 => H", "C sum => C 15", "R sum heap 8 100 0 => R 15 1 O")
ring = [[(1, 0), (21, 1), (2, 2), (20, 3), (3, 4)], [(4, 0), (20, 1), (5, 2), (22, 3), (6, 4)], [(7, 0), (22, 1), (8, 2), (21, 3), (9, 4)]]
case("a ring of three", fresh(ring), *[line for held in ("H 0 6", "H 1 6", "H 2 6", "H 0 0", "H 1 0") for line in (held, "C sum", *(f"R sum {one} 8 100 0" for one in LISTS))])

sixteen = [path for k in range(16) for path in pair(k, 4)]
case("64 open meetings", fresh(sixteen), "C sum => C 304", "R sum heap 8 100 0 => R 304 1 " + 64 * "L", "H 30 5 => H", "C sum => C 313",
     "R sum heap 8 100 0 => R 309 9 " + 60 * "L" + "OOOO", "R sum stack 8 100 0 => R 309 9 " + 60 * "L" + "OOOO",
     "R sum dive-heap 0 100 0 => R 309 9 " + 60 * "L" + "OOOO", "R sum stack 4 100 0 => no 12 4", "R sum heap 2 100 0 => R 309 9 " + 60 * "L" + "OOOO")
sixteen[0] = sixteen[0] + [(50000, 9), (50001, 10)]
sixteen[3] = sixteen[3] + [(50000, 12), (50002, 13)]
case("65 open meetings", fresh(sixteen), "C sum => C 308", "R sum heap 8 100 0 => no 10", "R sum stack 0 0 0 => no 10", f"R last dive-heap {PLACES} {most} 9 => no 10",
     f"T {2**32 - 2} => T 1", "R sum heap 8 100 0 => R 307 1 " + 65 * "L", "H 30 5 => H", "C sum => C 316", "R sum heap 8 100 0 => R 312 9 " + 61 * "L" + "OOOO")
crowd = [[(10 + s, 0), (5, 1 + 2 * s), (30 + s, 2 + 2 * s)] for s in range(12)]
P_aside = [[(place + 60, t) for place, t in path] for path in P]
case("the meeting of number 66 is open alone", fresh(crowd + P_aside, [5]), "C sum => C 162", "H 12 5 => H", "C sum => C 172",
     "R sum heap 8 100 0 => R 165 3 " + 66 * "L" + "O", "R sum stack 8 100 0 => R 165 3 " + 66 * "L" + "O")

# drawn runs
dice = random.Random(16)


def drawn_drive(run):
    """Ticks and holds of a run, in the end a hold."""
    n, lines = len(run.paths), []
    for kind in dice.choice(["H", "H", "HH", "TH", "HTH", "TTTH", "TTHTTH", "HHHTTTTTHH"]):
        short = [s for s in range(n) if run.next(s) != "none"]
        if kind == "H" and short:
            s, d = dice.choice(short), dice.choice([1, 2, 3, 5, 8, 13, 20, 40])
            lines.append(f"H {s} {d}")
            run.hold(s, d)
        if kind == "T":
            word = dice.choice([0, 0, dice.randrange(2**n)])
            lines.append(f"T {word}")
            run.tick(word)
    return lines


def drawn_run(low, high, nodes, shuttles, sizes):
    """The first lines of a run with so many open meetings, at which a search takes no fewer nodes."""
    while True:
        kind = dice.choice(list(sizes))
        paths, tables = drawn_plan(dice, dice.choice(shuttles), kind, dice.choice(sizes[kind]))
        trial = State()
        if trial.run.open(encode(paths, sorted(tables))) == "P":
            drive = drawn_drive(trial.run)
            if low <= len(trial.run.open_meetings()) <= high and trial.search("sum", "heap", PLACES, nodes)[0][2] >= nodes:
                return [fresh(paths, tables)] + drive


def draw_figures():
    """Due ticks about the arrivals, and weights."""
    arrivals = state.run.arrivals(state.run.orders)
    dues = [max(0, a - dice.choice([-2, 0, 1, 3, 8])) for a in arrivals]
    weights = [dice.choice([0, 1, 1, 2, 5, 1000, 1001, most]) for _ in arrivals]
    for name, figures in ("dues", dues), ("weights", weights):
        do(" ".join([name] + [str(n) for n in figures[:dice.choice([len(figures), len(figures), 1])]]))


def ask(cost, budget):
    """A search over each of the lists, and then at the ends of room and budget."""
    do(f"C {cost}")
    for name in LISTS:
        do(f"R {cost} {name} {PLACES} {budget} 0")
    name = dice.choice(LISTS)
    found, longest = state.search(cost, name, PLACES, budget)
    if found[0] == "R":
        room = max(0, longest - 8 * name.count("dive"))
        left = dice.choice([0, 0, 1, 9, room])
        do(f"R {cost} {name} {room} {found[2]} {left}", " ".join(map(str, found)))
        do(f"R {cost} {name} {room} {dice.choice([found[2] - 1, dice.randrange(found[2])])} {left}")
        if room:
            do(f"R {cost} {name} {room - 1} {most} {left}")


for low, high, nodes, count, budget, shuttles, sizes in (
    (0, 8, 1, 40, most, range(1, 6), {"yard": (3, 4, 5), "lane": (2, 4, 6), "grid": (2, 3)}),
    (2, 8, 5, 150, most, range(2, 6), {"yard": (3, 4, 5), "lane": (2, 4, 6), "grid": (2, 3)}),
    (9, 20, 7, 50, 2000, range(3, 9), {"yard": (4, 6), "lane": (4, 6, 9), "grid": (3, 4)}),
    (21, 64, 9, 30, 500, range(5, 20), {"yard": (6, 9, 12), "lane": (5, 8), "grid": (4, 5)}),
    (21, 64, 300, 6, 2000, range(5, 20), {"yard": (6, 9, 12), "lane": (5, 8), "grid": (4, 5)}),
):
    for k in range(count):
        case(f"{low} to {high} open meetings, {nodes} nodes or more, drawn {k}", *drawn_run(low, high, nodes, shuttles, sizes))
        draw_figures()
        ask(dice.choice(COSTS + ("sum", "sum")), budget)
        do(f"R {dice.choice(COSTS)} {dice.choice(LISTS)} {dice.choice([1, 3, 10, PLACES])} {dice.choice([3, 10, 30, budget])} 0")
        if k % 3 == 0:
            found, _ = state.search("sum", "heap", PLACES, budget)
            if found[0] == "R" and found[3] != "-":
                do(f"I {found[3]}", "I")
            for line in drawn_drive(copy.deepcopy(state.run)):
                do(line)
            do("C sum")
            do(f"R sum {dice.choice(LISTS)} {PLACES} {budget} 0")

(HERE / "stdin").write_text("".join(one + "\n" for one in asked))
(HERE / "stdout").write_text("".join(one + "\n" for one in told))
print(sum(one[0] == "#" for one in asked), "cases of searches,", len(asked), "lines")
