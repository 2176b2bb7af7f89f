#!/usr/bin/env python3
"""Writes the cases of crates/dispatch_cases: stdin (runs with their drafts, and lists of calls) and stdout (what has to be printed of each line).

The expected text comes from the tally below, over the runs of runs.py, the search of searches.py and the plain lists of
list_cases.py; nothing is shared with the crates. Each draft is held to the run, and with few open meetings to all orders
that there are; what an adoption puts in force is held to the cost that it answers; and where a case states answers by
hand, they are held to those too."""
import pathlib, random, sys
from collections import Counter

sys.dont_write_bytecode = True
from cost_cases import COSTS, total
from drawn import drawn_plan, pair
from list_cases import LISTS, List
from plan_cases import encode, grid, order_file, text
from runs import Run
from searches import FEW, MOST_OPEN, Ways, searched

HERE = pathlib.Path(__file__).resolve().parent.parent / "crates" / "dispatch_cases"
DISPATCHERS, POCKETS = 3, 6
PLACES = 256  # the most places of memory that the program has for a list
MOST_DRAFTS = 60000
most = 2**32 - 1


class Figures:
    """The figures of the costs."""

    def __init__(self):
        self.dues, self.weights = [0] * 32, [0] * 32

    def price(self, cost):
        dues, weights = tuple(self.dues), tuple(self.weights)
        return lambda arrivals: total(cost, dues, weights, arrivals)


class Tally:
    """A run, the count of the drafts that it gave, and the draft in hand: its number, cost and orders, whether it is overtaken, and what it was priced by."""

    def __init__(self):
        self.run, self.number, self.drafts, self.hand = Run(), None, 0, None
        self.forget()

    def forget(self):
        """What was worked out of the state."""
        self.ways, self.least = None, {}

    def open(self, number, bs):
        said = self.run.open(bs)
        if said == "P":
            self.number = number
            return "opened"
        return said if said == "no 2" else text(bs).strip()

    def carried_out(self, said):
        """After a hold or a tick."""
        self.forget()
        if self.hand:
            self.hand["overtaken"] = True
        return said

    def hold(self, s, ticks):
        said = self.run.hold(s, ticks)
        return self.carried_out("held") if said == "H" else said

    def tick(self, word):
        said = self.run.tick(word)
        return self.carried_out("moved" + said[1:]) if said[0] == "T" else said

    def found(self, cost, figures, held, budget):
        """What a search comes to, and the longest row."""
        self.ways = self.ways or Ways(self.run)
        answer, longest = searched(self.ways, figures.price(cost), held, budget)
        assert answer[2] <= 2 * self.ways.every + 1
        return answer, longest

    def check(self, cost, figures, least, orders):
        """The orders are lawful and cost this; and where few meetings are open, none cost less."""
        key = cost, tuple(figures.dues), tuple(figures.weights)
        price = figures.price(cost)
        if (key, orders) not in self.least:
            assert self.run.lawful(orders) and price(self.run.arrivals(orders)) == least
            self.least[key, orders] = True
        if key not in self.least:
            self.least[key] = min(map(price, self.ways.lawful())) if len(self.ways.open) <= FEW else least
        assert least == self.least[key]

    def draft(self, cost, figures, held, budget):
        if len(self.run.open_meetings()) > MOST_OPEN:
            return "no 10", None
        if self.drafts >= MOST_DRAFTS:
            return "no 11", None
        answer, _ = self.found(cost, figures, held, budget)
        if answer[0] == "no":
            return " ".join(map(str, answer)), None
        _, least, taken, turned = answer
        orders = self.ways.orders(self.ways.every, turned)
        self.check(cost, figures, least, orders)
        self.drafts += 1
        self.hand = {"number": self.drafts, "cost": least, "orders": orders, "overtaken": False, "price": figures.price(cost)}
        return f"draft {least} {taken} {self.number} {self.drafts}", (self.number, self.drafts)

    def refused(self, slip):
        if not self.run.paths:
            return "no 1"
        if not self.hand or slip != (self.number, self.hand["number"]):
            return "no 14"

    def adopt(self, slip):
        why = self.refused(slip)
        if why or self.hand["overtaken"]:
            return why or "no 15"
        hand, self.hand = self.hand, None
        assert self.run.lawful(hand["orders"])
        self.run.orders = hand["orders"]
        self.forget()
        assert hand["price"](self.run.arrivals(self.run.orders)) == hand["cost"]
        return f"adopted {hand['cost']}"

    def dismiss(self, slip):
        why = self.refused(slip)
        if why:
            return why
        self.hand = None
        return "dismissed"


class Stage:
    """What a case has."""

    def __init__(self):
        self.tallies, self.pockets, self.figures = [Tally() for _ in range(DISPATCHERS)], [None] * POCKETS, Figures()


stage = Stage()
counted = Counter()


def left_in(name, places, nodes):
    """A list in which so many nodes are left, or as many as there is room for."""
    held = List(name, places)
    while held.length() < nodes and held.put((0, 0, 0)):
        pass
    return held


def pocket_of(word):
    p = int(word)
    return p if p < POCKETS else None


def call(tally, word, held):
    """What a call answers; nothing if it has no usable pocket."""
    kind, *parts = word.split(":")
    pockets, has_plan = stage.pockets, bool(tally.run.paths)
    if kind == "hold":
        return tally.hold(*map(int, parts)) if has_plan else "no 1"
    if kind == "tick":
        return tally.tick(int(parts[0])) if has_plan else "no 1"
    p = pocket_of(parts[-1])
    if p is None or (pockets[p] is None) != (kind == "draft"):
        return None
    if kind == "draft":
        if not has_plan:
            return "no 1"
        said, pockets[p] = tally.draft(parts[0], stage.figures, held, int(parts[3]))
        return said
    slip, pockets[p] = pockets[p], None
    return tally.adopt(slip) if kind == "adopt" else tally.dismiss(slip)


def shown(tally, said):
    """An answer, with the draft that is in hand after it."""
    counted[said.split()[0] if said[:2] != "no" else " ".join(said.split()[:2])] += 1
    if not tally.hand:
        return said
    return f"{said}, {tally.hand['number']} {'overtaken' if tally.hand['overtaken'] else 'in hand'}"


def carried(tally, times, words):
    """What is printed of a list of calls that is carried out so many times."""
    lists = [left_in(parts[2], int(parts[3]), int(parts[5])) if parts[0] == "draft" else None for parts in (w.split(":") for w in words)]
    out = []
    for _ in range(times):
        out = []
        for word, held in zip(words, lists):
            said = call(tally, word, held)
            if said is None:
                counted["no call"] += 1
            else:
                out.append(shown(tally, said))
    lengths = [str(held.length()) for held in lists if held]
    return out + ([" ".join(["lists"] + lengths)] if lengths else [])


def asked_of(tally, question):
    run = tally.run
    if question == "hand":
        if not tally.hand:
            return ["hand none"]
        hand = tally.hand
        return [f"hand {hand['number']} {hand['cost']} {hand['orders'] or '-'}" + (" overtaken" if hand["overtaken"] else "")]
    if not run.paths:
        return ["no 1"]
    if question == "orders":
        return [order_file(run.paths, ["lower" if c == "L" else "other" for c in run.orders]).hex()]
    arrivals = run.arrivals(run.orders)
    if question == "sheet":
        rows = [f"{a} {s}" for a, s in sorted((a, s) for s, a in enumerate(arrivals) if a)]
        return [f"sheet {sum(len(row) + 1 for row in rows)}"] + rows
    if question == "state":
        records = [f"{i}:{h}" for i, h in zip(run.stops, run.holds)]
        return [" ".join([f"run {tally.number}:"] + records + [run.orders or "-"] + [str(a) for a in arrivals])]


def end_case():
    """The slips left are dismissed on the first dispatcher."""
    slips = [slip for slip in stage.pockets if slip]
    stage.pockets = [None] * POCKETS
    return ["left: " + stage.tallies[0].dismiss(slip) for slip in slips]


def answers(line):
    """What the program prints of a line."""
    global stage
    head, *rest = line.split()
    if head == "#":
        out = end_case() + [line]
        stage = Stage()
        return out
    if head in ("dues", "weights"):
        setattr(stage.figures, head, ([int(n) for n in rest] + [0] * 32)[:32])
        return []
    if head == "open":
        return [stage.tallies[int(rest[0])].open(int(rest[1]), bytes.fromhex(rest[2]))]
    if head == "calls":
        return carried(stage.tallies[int(rest[0])], 1, rest[1:])
    if head == "often":
        return carried(stage.tallies[int(rest[1])], int(rest[0]), rest[2:])
    return asked_of(stage.tallies[int(rest[0])], head)


asked, told = [], []


def agrees(said, by_hand):
    """What is stated by hand may leave out the draft in hand, and the lists if all are empty."""
    stated = by_hand.split(" / ")
    if len(said) == len(stated) + 1 and not set(said[-1].split()) - {"lists", "0"}:
        said = said[:-1]
    return len(said) == len(stated) and all(short in (whole, whole.split(",")[0]) for whole, short in zip(said, stated))


def do(line, by_hand=None):
    said = answers(line)
    assert by_hand is None or agrees(said, by_hand), (line, said, by_hand)
    asked.append(line)
    told.extend(said)


def case(name, *lines):
    """Lines are commands; `command => answer / answer` states the answers by hand."""
    do("# " + name)
    for one in lines:
        do(*one.split(" => "))


def opened(d, number, paths, tables=()):
    return f"open {d} {number} {encode(paths, sorted(tables)).hex()} => opened"


def draft(pocket, cost="sum", name="heap", places=8, budget=100, left=0):
    return f"draft:{cost}:{name}:{places}:{budget}:{left}:{pocket}"


P = [[(1, 0), (5, 1), (2, 2)], [(3, 0), (5, 3), (4, 4)]]
Q = [[(1, 0), (5, 1), (6, 2), (2, 3)], [(3, 0), (6, 5), (5, 6), (4, 7)]]
p, q = encode(P, []).hex(), encode(Q, []).hex()
clash = encode([[(1, 0), (5, 1), (2, 2)], [(3, 0), (5, 2), (4, 3)]], []).hex()
late = encode([[(1, 0), (5, 1)], [(3, 0), (4, 4), (5, 4)]], []).hex()
crowd = grid(16, [[(900, 0), (715, 5000), (901, 5001)]]).hex()
held_P = opened(0, 7, P), f"calls 0 hold:0:5 {draft(0)} => held / draft 9 3 7 1"
beyond = 2**64 - 1  # the greatest index

# without a plan
every = f"hold:0:1 hold:{beyond}:{most} tick:0 tick:{most} {draft(0)} {draft(5, 'weight-due-last', 'dive-dive-heap', 0, 0)} adopt:0 dismiss:1"
case("no plan yet", f"calls 0 {every} => " + " / ".join(6 * ["no 1"]), "state 0 => no 1", "sheet 0 => no 1", "orders 0 => no 1", "hand 0 => hand none",
     "calls 0", "calls 1 adopt:0 dismiss:5", f"calls 2 {draft(0, left=3)} => no 1 / lists 3")
case("no plan, and slips of another run", opened(0, 7, P), f"calls 0 {draft(0)} {draft(1)} => draft 6 3 7 1 / draft 6 3 7 2",
     "calls 1 adopt:0 dismiss:1 adopt:0 dismiss:1 => no 1 / no 1", "hand 0 => hand 2 6 L", "calls 0 adopt:0 adopt:1")

# opening
case("refused plans, then a good one", f"open 0 7 {p[:-2]} => no 3 35", f"calls 0 tick:0 {draft(0)} => no 1 / no 1", f"open 0 7 {late} => no 4 1 2",
     f"open 0 7 {clash} => no 5 0 1 1 1", f"open 0 7 {crowd} => no 6", f"open 0 7 {p}00 => no 3 36", "state 0 => no 1", opened(0, 8, P),
     "state 0 => run 8: 0:0 0:0 L 2 4", f"calls 0 {draft(0)} => draft 6 3 8 1")
case("opened twice", *held_P, f"open 0 7 {p} => no 2", f"open 0 9 {q} => no 2", f"open 0 9 {clash} => no 2", "hand 0 => hand 1 9 O",
     "state 0 => run 7: 0:5 0:0 L 7 9", "calls 0 adopt:0 => adopted 9", f"open 0 7 {p} => no 2", f"calls 0 {draft(2)} => draft 9 1 7 2")
case("run numbers at their ends", opened(0, 0, P), opened(1, most, P), f"calls 0 {draft(0)} => draft 6 3 0 1", f"calls 1 {draft(1)} => draft 6 3 {most} 1",
     "calls 1 adopt:0 => no 14, 1 in hand", "calls 1 adopt:1 => adopted 6", f"state 1 => run {most}: 0:0 0:0 L 2 4")

# the worked plans, 1 to 9
fresh_P, held = opened(0, 7, P), "calls 0 hold:0:5"
case("worked plan 1", fresh_P, "state 0 => run 7: 0:0 0:0 L 2 4", f"calls 0 {draft(0)} => draft 6 3 7 1", "hand 0 => hand 1 6 L")
case("worked plan 2", fresh_P, held, "state 0 => run 7: 0:5 0:0 L 7 9", "sheet 0 => sheet 8 / 7 0 / 9 1")
case("worked plan 3", fresh_P, f"{held} {draft(0)} {draft(1, 'sum', 'stack')} => held / draft 9 3 7 1 / draft 9 3 7 2", "hand 0 => hand 2 9 O")
case("worked plan 4", fresh_P, f"{held} {draft(0, budget=2)} => held / no 13 2")
case("worked plan 5", fresh_P, f"{held} {draft(0, places=1)} => held / no 12 1")
case("worked plan 6", fresh_P, f"calls 0 tick:0 hold:0:5 {draft(0)} => moved 1 / held / draft 14 1 7 1", "hand 0 => hand 1 14 L")
case("worked plan 7", opened(0, 7, P, [5]), f"{held} {draft(0)} => held / draft 16 1 7 1", "hand 0 => hand 1 16 L")
case("worked plan 8", fresh_P, "orders 0 => 0002000a0000000a0001000100000002")
case("worked plan 9", opened(0, 7, Q), f"{held} {draft(0)} {draft(1, 'sum', 'stack')} => held / draft 11 7 7 1 / draft 11 5 7 2", "hand 0 => hand 2 11 OO")

# the plan P
case("a draft adopted", *held_P, "hand 0 => hand 1 9 O", "state 0 => run 7: 0:5 0:0 L 7 9", "sheet 0 => sheet 8 / 7 0 / 9 1",
     "orders 0 => 0002000a0000000a0001000100000002", "calls 0 adopt:0 => adopted 9", "hand 0 => hand none", "state 0 => run 7: 0:5 0:0 O 7 2",
     "sheet 0 => sheet 8 / 2 1 / 7 0", "orders 0 => 0002000a000100100000000100010002",
     "calls 0 tick:0 tick:0 tick:0 tick:0 tick:0 => moved 2 / moved 2 / moved 0 / moved 0 / moved 0",
     "calls 0 tick:0 tick:0 tick:0 tick:0 => moved 1 / moved 1 / moved 0 / moved 0", "sheet 0 => sheet 0", "state 0 => run 7: 2:0 2:0 O 0 0",
     f"calls 0 {draft(0)} adopt:0 => draft 0 1 7 2 / adopted 0")
case("the same in one list", opened(0, 7, P), f"calls 0 hold:0:5 {draft(0)} adopt:0 {' '.join(7 * ['tick:0'])} {draft(0)} dismiss:0 hold:0:0 => "
     "held / draft 9 3 7 1, 1 in hand / adopted 9 / moved 2 / moved 2 / moved 0 / moved 0 / moved 0 / moved 1 / moved 1 / draft 0 1 7 2 / dismissed / no 8 / lists 0 0")
case("Q drafted, adopted and driven to its end", opened(0, 7, Q), f"calls 0 hold:0:5 {draft(0)} adopt:0 {' '.join(8 * ['tick:0'])} => "
     "held / draft 11 7 7 1 / adopted 11 / moved 2 / moved 2 / moved 2 / moved 0 / moved 0 / moved 1 / moved 1 / moved 1", "state 0 => run 7: 3:0 3:0 OO 0 0")
case("a draft dismissed", *held_P, "calls 0 dismiss:0 => dismissed", "hand 0 => hand none", "state 0 => run 7: 0:5 0:0 L 7 9", f"calls 0 {draft(4)} => draft 9 3 7 2",
     "calls 0 adopt:4 => adopted 9", "calls 0 adopt:4 dismiss:4")
case("a draft that nobody adopts", opened(0, 7, P), f"calls 0 {draft(0)} {draft(3)} => draft 6 3 7 1 / draft 6 3 7 2, 2 in hand")

# slips
case("a newer draft replaces the older", *held_P, f"calls 0 {draft(1, 'last')} => draft 7 3 7 2, 2 in hand", "calls 0 adopt:0 => no 14, 2 in hand",
     "calls 0 adopt:0", "calls 0 adopt:1 => adopted 7", "calls 0 adopt:1", "state 0 => run 7: 0:5 0:0 O 7 2")
case("an older slip dismissed", opened(0, 7, P), f"calls 0 {draft(0)} {draft(1)} dismiss:0 dismiss:1 => draft 6 3 7 1 / draft 6 3 7 2 / no 14, 2 in hand / dismissed")
case("a slip of the same two numbers is good, once", *held_P, opened(1, 7, P), f"calls 1 {draft(1)} => draft 6 3 7 1", "calls 0 adopt:1 => adopted 9",
     "calls 0 adopt:0 => no 14", "calls 1 dismiss:1", "hand 1 => hand 1 6 L")
case("slips of two runs of one number, changed for each other", *held_P, opened(1, 7, Q), f"calls 1 hold:0:5 {draft(1)} => held / draft 11 7 7 1",
     "calls 0 adopt:1 => adopted 9", "calls 1 dismiss:0 => dismissed", "state 0 => run 7: 0:5 0:0 O 7 2", "state 1 => run 7: 0:5 0:0 LL 8 11")
case("slips of a run of another number", opened(0, 7, P), opened(1, 8, P), opened(2, 7, P), f"calls 0 {draft(0)} {draft(1)} => draft 6 3 7 1 / draft 6 3 7 2",
     f"calls 1 {draft(2)} {draft(3)} => draft 6 3 8 1 / draft 6 3 8 2", "calls 0 adopt:3 dismiss:2 => no 14, 2 in hand / no 14, 2 in hand", "calls 2 adopt:1 => no 14",
     "calls 1 adopt:0 => no 14, 2 in hand", f"calls 2 {draft(5)} => draft 6 3 7 1", "calls 0 adopt:5 => no 14, 2 in hand")
case("no draft in hand", opened(0, 7, P), opened(1, 7, P), f"calls 1 {draft(0)} {draft(1)}", "calls 0 adopt:0 dismiss:1 => no 14 / no 14", f"calls 1 {draft(0)} dismiss:0 adopt:0")
case("pockets that are full, empty, or not there", opened(0, 7, P),
     f"calls 0 {draft(0)} {draft(0, left=2)} {draft(6, left=1)} {draft(beyond, left=9)} => draft 6 3 7 1 / lists 0 2 1 8",
     f"calls 0 adopt:6 dismiss:{beyond} adopt:1 dismiss:5", f"calls 0 adopt:0 {draft(0)} => adopted 6 / draft 6 3 7 2",
     f"calls 0 {draft(0)} dismiss:0 {draft(0)} {draft(0, left=4)} adopt:0 => dismissed / draft 6 3 7 3 / adopted 6 / lists 0 0 4")
case("all pockets full", opened(0, 7, P), *["calls 0 " + " ".join(draft(k, left=left * k) for k in range(POCKETS)) for left in (0, 1)],
     "calls 0 " + " ".join(f"dismiss:{k}" for k in range(POCKETS)) + " => " + "no 14, 6 in hand / " * 5 + "dismissed")

# drafts that are overtaken
case("overtaken by a tick", *held_P, "calls 0 tick:0 adopt:0 => moved 0, 1 overtaken / no 15, 1 overtaken", "hand 0 => hand 1 9 O overtaken", "calls 0 adopt:0",
     "state 0 => run 7: 0:4 0:0 L 6 8", f"calls 0 {draft(0)} adopt:0 => draft 8 3 7 2, 2 in hand / adopted 8")
case("overtaken by a tick at which all stand", opened(0, 7, P), f"calls 0 {draft(0)} tick:3 adopt:0 => draft 6 3 7 1 / moved 0, 1 overtaken / no 15, 1 overtaken")
case("overtaken by a hold, even of as many ticks", *held_P, "calls 0 hold:0:5 adopt:0 => held, 1 overtaken / no 15, 1 overtaken",
     f"calls 0 {draft(1)} hold:1:0 dismiss:1 => draft 9 3 7 2, 2 in hand / held, 2 overtaken / dismissed", "hand 0 => hand none")
case("not overtaken by what is refused", *held_P, f"calls 0 hold:2:0 hold:0:4096 tick:4 hold:{beyond}:{most} tick:{most} {draft(1, budget=2)} {draft(1, places=1)} adopt:9 adopt:0 => "
     "no 7, 1 in hand / no 9, 1 in hand / no 7, 1 in hand / no 7, 1 in hand / no 7, 1 in hand / no 13 2, 1 in hand / no 12 1, 1 in hand / adopted 9")
case("overtaken, and then a newer draft", *held_P, f"calls 0 hold:0:4 {draft(1)} adopt:0 adopt:1 => held, 1 overtaken / draft 8 3 7 2, 2 in hand / no 14, 2 in hand / adopted 8")
case("an overtaken draft stays in hand when another is refused", *held_P, f"calls 0 tick:3 {draft(1, budget=0)} dismiss:0 => moved 0, 1 overtaken / no 13 0, 1 overtaken / dismissed")
case("14 before 15", *held_P, f"calls 0 {draft(1)} tick:0 adopt:0 dismiss:1 => draft 9 3 7 2 / moved 0, 2 overtaken / no 14, 2 overtaken / dismissed")

# holds and ticks
case("refused holds and ticks", opened(0, 7, P), f"calls 0 hold:2:4096 hold:0:4096 hold:1:{most} tick:4 tick:{most} hold:0:4095 tick:3 => "
     "no 7 / no 9 / no 9 / no 7 / no 7 / held / moved 0", "state 0 => run 7: 0:4094 0:0 L 4096 4098",
     "calls 0 hold:0:0 tick:0 tick:0 tick:0 tick:0 hold:0:4096 hold:1:1 hold:2:1 => held / moved 1 / moved 1 / moved 2 / moved 2 / no 8 / no 8 / no 7")
case("32 shuttles and every bit of a word", opened(0, 7, [[(s, 0), (100 + s, 1)] for s in range(32)]),
     f"calls 0 tick:{most} tick:{2**31} tick:0 tick:0 => moved 0 / moved {2**31 - 1} / moved {2**31} / moved 0", "calls 0 hold:31:1 hold:32:0 => no 8 / no 7")

# budgets and capacities
for name in LISTS:
    case(f"P over {name}, budgets and capacities", *held_P,
         "calls 0 " + " ".join(draft(5, "sum", name, 8, budget) for budget in range(3)) + " => no 13 0, 1 in hand / no 13 1, 1 in hand / no 13 2, 1 in hand",
         "calls 0 " + " ".join(draft(1, "sum", name, places, 100, left) for places in (0, 1) for left in (0, 3, 30)), "calls 0 adopt:0 hold:0:0 hold:1:5",
         f"calls 0 {draft(3, 'sum', name, 2, 3)} {draft(4, 'last', name, 2, most)} {draft(5, 'sum', name, PLACES, most, PLACES + 20)} adopt:5 adopt:3")
    case(f"Q over {name}, budgets and capacities", opened(0, 7, Q), "calls 0 hold:0:5",
         "calls 0 " + " ".join(draft(0, "sum", name, 8, budget) + " dismiss:0" for budget in range(9)),
         "calls 0 " + " ".join(draft(0, "sum", name, places, 100, 2) + " dismiss:0" for places in range(5)),
         f"calls 0 {draft(0, 'sum', name, 4, 7)} adopt:0", "state 0 => run 7: 0:5 0:0 OO 8 3")
ends = " ".join(draft(1, places=places, budget=budget) for places, budget in ((0, 0), (1, 0), (1, 1), (2, 1), (2, 2)))
case("12 before 13, and both leave the older draft", opened(0, 7, Q), f"calls 0 hold:0:5 {draft(0)} => held / draft 11 7 7 1", f"calls 0 {ends} adopt:0 => "
     "no 12 0, 1 in hand / no 13 0, 1 in hand / no 12 1, 1 in hand / no 13 1, 1 in hand / no 12 2, 1 in hand / adopted 11")
case("a refused draft uses up no number", opened(0, 7, Q), f"calls 0 {draft(0, budget=0)} {draft(0, places=0)} {draft(0)} => no 13 0 / no 12 0 / draft 9 5 7 1",
     f"calls 0 {draft(1, budget=4)} {draft(1)} => no 13 4, 1 in hand / draft 9 5 7 2, 2 in hand")
case("one shuttle with one stop", opened(0, 7, [[(7, 0)]]), f"calls 0 {draft(0, places=1, budget=1)} tick:0 hold:0:1 adopt:0 => "
     "draft 0 1 7 1 / moved 0, 1 overtaken / no 8, 1 overtaken / no 15, 1 overtaken", f"calls 0 {draft(1, 'last', 'stack', 0, 1)} {draft(1, 'last', 'dive-stack', 0, 1)} adopt:1 => "
     "no 12 0, 1 overtaken / draft 0 1 7 2, 2 in hand / adopted 0", "state 0 => run 7: 0:0 - 0", "orders 0 => 000100060000", "hand 0 => hand none")

# costs
case("weighed lateness", opened(0, 7, P), "dues 3", "weights 500 1000", "calls 0 hold:0:5",
     f"calls 0 {draft(0, 'due-weight-sum')} {draft(1, 'due-sum')} {draft(2, 'weight-sum')} {draft(3, 'weight-due-sum')} => "
     "draft 4000 3 7 1 / draft 6 3 7 2 / draft 5500 3 7 3 / draft 5497 3 7 4", "weights 500 0", f"calls 0 {draft(4, 'due-weight-sum')} => draft 2000 1 7 5",
     "hand 0 => hand 5 2000 L", f"dues {most} {most}", f"calls 0 {draft(5, 'due-last')} adopt:5 => draft 0 1 7 6 / adopted 0", "state 0 => run 7: 0:5 0:0 L 7 9")
case("every cost over every list", opened(0, 7, Q), "dues 4 2", "weights 3 1001", "calls 0 hold:0:5",
     *["calls 0 " + " ".join(f"{draft(k, cost, name, 8)} dismiss:{k}" for k, name in enumerate(LISTS)) for cost in COSTS])
case("adopted by one cost, drafted by another", opened(0, 7, Q), "calls 0 hold:0:5", f"calls 0 {draft(0, 'last')} adopt:0 {draft(1, 'sum')} adopt:1",
     f"calls 0 hold:0:0 hold:1:9 {draft(0)} {draft(1, 'last', 'stack')} adopt:1", "state 0")

# many open meetings
sixteen = [path for k in range(16) for path in pair(k, 4)]
case("64 open meetings", opened(0, 7, sixteen), f"calls 0 hold:30:5 {draft(0)} {draft(1, 'sum', 'dive-heap', 0)} => held / draft 309 9 7 1 / draft 309 9 7 2",
     f"calls 0 {draft(2, 'sum', 'stack', 4)} {draft(2, 'sum', 'stack', 5, 8)} adopt:1 => no 12 4, 2 in hand / no 13 8, 2 in hand / adopted 309", "state 0")
sixteen[0] = sixteen[0] + [(50000, 9), (50001, 10)]
sixteen[3] = sixteen[3] + [(50000, 12), (50002, 13)]
refused = " ".join([draft(0, left=3), draft(0, budget=0, left=1), draft(0, places=0), draft(0, "last", "dive-dive-heap", 0, 0, 99)])
case("65 open meetings: 10 before 12 and 13", opened(0, 7, sixteen), f"calls 0 {refused} => no 10 / no 10 / no 10 / no 10 / lists 3 1 0 16", f"calls 0 hold:30:5 {draft(0)} => held / no 10",
     f"calls 0 tick:{2**32 - 2} {draft(0)} tick:{2**32 - 2} adopt:0 => moved 1 / draft 312 9 7 1 / moved 1, 1 overtaken / no 15, 1 overtaken", "hand 0", "sheet 0")


def place(s, i):
    return 257 * (8 * (s % 32) + i)


# stop i of each shuttle below 8 is at a place of its own, where another passes with its stop 8 + i
big = [[(place(s, i), i) for i in range(8)] + [(place(s + 5 * i + 1, i), 8 + i) for i in range(8)] for s in range(32)]
case("the largest plan, driven until few enough meetings are open", opened(0, most, big, [257 * 4 * k for k in range(64)]), f"calls 0 hold:3:40 {draft(0)} => held / no 10",
     *[f"calls 0 tick:0 tick:{word} {draft(k % POCKETS, 'sum', 'stack', PLACES, 60)} adopt:{k % POCKETS}" for k, word in enumerate((0, 5, 2**31, 0, 0, 0, 0, 0, 0))],
     "state 0", "sheet 0", "orders 0", *4 * ["calls 0 " + " ".join(16 * ["tick:0"])], "state 0")

# as many drafts as there are
case("60,000 drafts", opened(0, 7, P), opened(1, 7, P), "calls 0 hold:1:2",
     f"often {MOST_DRAFTS - 2} 0 {draft(0, places=1, budget=1)} dismiss:0 => draft 6 1 7 59998, 59998 in hand / dismissed",
     f"calls 0 hold:0:5 {draft(0)} {draft(1, budget=0)} {draft(1)} => held / draft 11 3 7 59999 / no 13 0, 59999 in hand / draft 11 3 7 60000",
     f"calls 0 {draft(2)} {draft(2, budget=0, left=2)} {draft(2, places=0)} => no 11, 60000 in hand / no 11, 60000 in hand / no 11, 60000 in hand / lists 0 2 0",
     "calls 0 dismiss:0 adopt:1 => no 14, 60000 in hand / adopted 11", f"calls 0 {draft(0)} hold:0:6 tick:0 {draft(0)} => no 11 / held / moved 0 / no 11",
     f"open 0 8 {q} => no 2", f"calls 0 {draft(0)} => no 11", f"calls 1 {draft(0)} => draft 6 3 7 1")
case("often not at all", opened(0, 7, P), f"often 0 0 tick:0 {draft(0, left=1)} => lists 1", "often 3 0 tick:0 => moved 2", "state 0 => run 7: 2:0 1:0 L 0 1")

# drawn runs
dice = random.Random(18)


def plan_with_open(low, high, shuttles, sizes):
    """The plan of a run with so many open meetings."""
    while True:
        kind = dice.choice(list(sizes))
        paths, tables = drawn_plan(dice, dice.choice(shuttles), kind, dice.choice(sizes[kind]))
        trial = Run()
        if trial.open(encode(paths, sorted(tables))) == "P" and low <= len(trial.open_meetings()) <= high:
            return paths, tables


def draw_figures(tally):
    """Due ticks about the arrivals, and weights."""
    arrivals = tally.run.arrivals(tally.run.orders)
    dues = [max(0, a - dice.choice([-2, 0, 1, 3, 8])) for a in arrivals]
    weights = [dice.choice([0, 1, 1, 2, 5, 1000, 1001, most]) for _ in arrivals]
    for name, figures in ("dues", dues), ("weights", weights):
        do(" ".join([name] + [str(n) for n in figures]))


def drawn_draft(pocket, budgets):
    name = dice.choice(LISTS)
    places = dice.choice([0, 1, 2, 5, 9, 20, 64, PLACES, PLACES, PLACES, PLACES])
    return draft(pocket, dice.choice(COSTS + ("sum", "sum", "sum")), name, places, dice.choice(budgets), dice.choice([0, 0, 0, 1, 3, 30]))


def drawn_calls(tally, budgets):
    """A list of calls, with most pockets such that they can be used."""
    n, words, filled = len(tally.run.paths), [], [k for k, slip in enumerate(stage.pockets) if slip]
    while len(words) < dice.randint(4, 12):
        kind = dice.choice("HHTTDDDDAAX")
        empty = [k for k in range(POCKETS) if k not in filled]
        if kind == "H":
            words.append(f"hold:{dice.choice(list(range(n)) * 3 + [n])}:{dice.choice([0, 1, 2, 3, 5, 8, 13, 20, 40, 4096])}")
            kind = dice.choice("HD")
        if kind == "T":
            words.append(f"tick:{dice.choice([0, 0, 0, dice.randrange(2**n), dice.randrange(2**n), dice.randrange(2 ** min(n + 1, 32))])}")
        if kind == "D":
            k = dice.choice(empty * 6 + [POCKETS] + filled)
            words.append(drawn_draft(k, budgets))
            filled = sorted({*filled, k})
            if dice.random() < 0.5:
                words.append(f"{dice.choice(('adopt', 'adopt', 'dismiss'))}:{k}")
                filled.remove(k)
        if kind in "AX" and filled:
            k = dice.choice(filled * 6 + empty)
            words.append(f"{'adopt' if kind == 'A' else 'dismiss'}:{k}")
            filled = [j for j in filled if j != k]
    return words


def drawn_case(name, plans, budgets, home):
    numbers = [dice.choice((7, 7, 7, 8, most)) for _ in plans]
    case(name, *[opened(d, number, *plan) for d, (number, plan) in enumerate(zip(numbers, plans))])
    for k in range(dice.randint(4, 7)):
        d = dice.randrange(len(plans))
        if k % 3 == 0:
            draw_figures(stage.tallies[d])
        do(" ".join([f"calls {d}"] + drawn_calls(stage.tallies[d], budgets)))
        for question in dice.sample(("state", "hand", "sheet", "orders"), dice.choice((0, 1, 1, 2))):
            do(f"{question} {d}")
    for d in range(len(plans)) if home else ():
        run = stage.tallies[d].run
        while any(run.next(s) != "none" for s in range(len(run.paths))):
            do(f"calls {d} {drawn_draft(0, budgets)} adopt:0 " + " ".join(dice.randint(1, 12) * ["tick:0"]))
        do(f"calls {d} {drawn_draft(0, budgets)} adopt:0 tick:0")
        do(f"state {d}")


small = {"yard": (3, 4, 5), "lane": (2, 4, 6), "grid": (2, 3)}
for low, high, count, budgets, shuttles, sizes in (
    (2, 8, 40, (0, 1, 3, 5, 9, 30, most, most, most), range(2, 6), small),
    (9, 20, 30, (1, 9, 50, 500, 1000, 1000), range(3, 9), {"yard": (4, 6), "lane": (4, 6, 9), "grid": (3, 4)}),
    (21, 70, 12, (1, 9, 50, 200, 200, 200), range(5, 20), {"yard": (6, 9, 12), "lane": (5, 8), "grid": (4, 5)}),
):
    for k in range(count):
        plans = [plan_with_open(low, high, shuttles, sizes)]
        plans = plans + [dice.choice([plans[0], plan_with_open(2, 8, range(2, 6), small)]) for _ in range(k % 3)]
        drawn_case(f"{low} to {high} open meetings, drawn {k}", plans, budgets, k % 4 == 0)

told += end_case()
(HERE / "stdin").write_text("".join(one + "\n" for one in asked))
(HERE / "stdout").write_text("".join(one + "\n" for one in told))
lists = sum(one.split()[0] in ("calls", "often") for one in asked)
print(sum(one[0] == "#" for one in asked), "cases of runs with drafts,", lists, "lists of calls,", dict(sorted(counted.items())))
