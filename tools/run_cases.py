#!/usr/bin/env python3
"""Writes the cases of crates/run_cases: stdin (commands to runs of plans) and stdout (what has to be printed of each).

The expected text comes from the small run of runs.py, which shares nothing with the crates; where a case states an
answer by hand, it is held to that too."""
import pathlib, random, sys

sys.dont_write_bytecode = True
from plan_cases import collides, encode, grid
from runs import Run, meetings, planned

HERE = pathlib.Path(__file__).resolve().parent.parent / "crates" / "run_cases"


def listed(head, found):
    return head + " ring" if found is None else " ".join([head] + [str(n) for n in found])


run = Run()


def answer(line):
    """What the program prints of a line."""
    global run
    letter, rest = line[0], line[2:]
    if letter == "#":
        return line
    if letter == "P":
        run = Run()
    if letter in "Pp":
        return run.open(bytes.fromhex(rest))
    if not run.paths:
        return {"O": "O", "N": "N none"}.get(letter, "no 1")
    if letter == "H":
        return run.hold(*map(int, rest.split()))
    if letter == "T":
        return run.tick(int(rest))
    if letter == "S":
        return listed("S", [f"{i}:{h}" for i, h in zip(run.stops, run.holds)] + ["|", run.orders or "-"])
    if letter == "A":
        return listed("A", run.arrivals(rest))
    if letter == "E":
        found = run.entries(rest)
        return listed("E", found and [",".join(map(str, e)) for e in found])
    if letter == "F":
        assert run.lawful(run.orders)
        return listed("F", run.arrivals(run.orders))
    if letter == "O":
        return listed("O", run.open_meetings())
    if letter == "W":
        return "W yes" if run.lawful(rest) else "W no"
    if letter == "N":
        return f"N {run.next(int(rest))}"
    if letter == "I":
        if not run.lawful(rest):
            return "I no"
        run.orders = rest
        return "I"


asked, told = [], []


def do(line, by_hand=None):
    said = answer(line)
    assert by_hand is None or said == by_hand, (line, said, by_hand)
    asked.append(line)
    told.append(said)


def case(name, *lines):
    """Lines are commands; `command => answer` states the answer by hand."""
    do("# " + name)
    for one in lines:
        do(*one.split(" => "))


def total():
    """The sum of the numbers printed last."""
    return sum(map(int, told[-1].split()[1:]))


def fresh(paths, tables=()):
    return "P " + encode(paths, list(tables)).hex() + " => P"


def again(bs):
    return "p " + bs.hex()


def turned(orders, *ks):
    return "".join("LO"[c == "L"] if k in ks else c for k, c in enumerate(orders))


def ordering(letter, orders):
    """A command with orders; without a space if there are none."""
    return f"{letter} {orders}".rstrip()


P = [[(1, 0), (5, 1), (2, 2)], [(3, 0), (5, 3), (4, 4)]]
Q = [[(1, 0), (5, 1), (6, 2), (2, 3)], [(3, 0), (6, 5), (5, 6), (4, 7)]]
most = 2**32 - 1
every = ["H 0 1", f"H {most} {most}", "T 0", f"T {most}", "S", "A", "A L", "E", "E O", "F", "W", "W L"]
none = [f"{one} => no 1" for one in every] + ["O => O", "N 0 => N none", f"N {most} => N none"]
p, q = encode(P, []), encode(Q, [])
clash = encode([[(1, 0), (5, 1), (2, 2)], [(3, 0), (5, 2), (4, 3)]], [])
late = encode([[(1, 1), (5, 2)]], [])
crowd = grid(16, [[(900, 0), (715, 5000), (901, 5001)]])

# opening
case("no plan yet", *none)
case("the first plan, opened on the run that is there", again(p) + " => P", "S => S 0:0 0:0 | L")
case("opened twice", "T 0 => T 1", "H 1 3", again(q) + " => no 2", "S => S 1:0 0:3 | L", again(p) + " => no 2", "S => S 1:0 0:3 | L")
case("a refused plan on a run with a plan", again(p[:-1]) + " => no 2", again(clash) + " => no 2", "S => S 1:0 0:3 | L", "F => F 1 5")
case("torn, then good", f"P {p[:-1].hex()} => no 3", "S => no 1", again(p) + " => P", "S => S 0:0 0:0 | L")
case("a first tick of 1, then good", f"P {late.hex()} => no 4", "T 0 => no 1", again(q) + " => P", "S => S 0:0 0:0 | LL")
case("257 meetings, then good", f"P {crowd.hex()} => no 6", "F => no 1", again(p) + " => P", "T 3 => T 0")
case("colliding paths, then torn, then good", f"P {clash.hex()} => no 5", "W L => no 1", again(p + b"\0") + " => no 3",
     "N 0 => N none", again(p) + " => P", "N 0 => N 1")
case("every letter after a refused plan", f"P {clash.hex()}", *none)
case("a fresh run forgets the one before", fresh(P), "T 0", "H 0 9", fresh(P), "S => S 0:0 0:0 | L")
case("a refused fresh run forgets it too", f"P {clash.hex()} => no 5", "S => no 1")
case("one shuttle with one stop", fresh([[(7, 0)]]), "S => S 0:0 | -", "F => F 0", "A => A 0", "A LO- => A 0", "E => E 0",
     "O => O", "W => W yes", "W L => W no", "N 0 => N none", "T 0 => T 0", "T 1 => T 0", "T 2 => no 7", "H 0 0 => no 8",
     "H 0 4096 => no 8", "H 1 0 => no 7")
case("one shuttle with two stops", fresh([[(65535, 0), (0, 65535)]], [65535]), "F => F 1", "H 0 2 => H", "E => E 0,3",
     "T 1 => T 0", "T 0 => T 0", "T 1 => T 0", "T 0 => T 1", "S => S 1:0 | -")

# the plan P
case("P, fresh", fresh(P), "F => F 2 4", "E L => E 0,1,2 0,3,4", "E O => E 0,3,4 0,1,2", "E - => E 0,1,2 0,1,2",
     "E => E 0,1,2 0,1,2", "O => O 0", "N 0 => N 1", "N 1 => N 1", "N 2 => N none")
case("P, shuttle 0 held", "H 0 5 => H", "F => F 7 9", "A L => A 7 9", "A O")
assert total() == 9
case("P, shuttle 0 held: lawful orders", "W L => W yes", "W O => W yes", "W => W no", "W LL => W no", "W OL => W no")
case("P, left out, too long", "A => A 7 2", "A - => A 7 2", "A -L => A 7 2", "A LO => A 7 9", "A O-LLO => A 7 2")
case("P, held after one tick", fresh(P), "T 0 => T 1", "H 0 5", "F")
assert total() == 14
case("P, no longer open", "O => O", "W L => W yes", "W O => W no", "A O => A 6 2", "N 0 => N 2")
case("P, place 5 a table", fresh(P, [5]), "O => O", "H 0 5", "W L => W yes", "W O => W no", "A O => A 7 2")
case("P, other tables", fresh(P, [1, 4, 6]), "O => O 0", "W O => W yes")
case("P, no entering at the tick of leaving", fresh(P), "T 0 => T 1", "T 0 => T 1", "S => S 2:0 0:0 | L", "T 0 => T 2",
     "T 0 => T 2", "T 0 => T 0", "S => S 2:0 2:0 | L", "F => F 0 0", "N 1 => N none", "O => O", "W O => W no",
     "E O => E 0,0,0 0,0,0")
case("P, first stands", fresh(P), "T 1 => T 0", "T 1 => T 0", "T 2 => T 1", "T 1 => T 0", "T 3 => T 0", "T 0 => T 1", "T 2 => T 0", "T 0 => T 2")

# the plan Q
case("Q, shuttle 0 held", fresh(Q), "F => F 3 6", "O => O 0 1", "H 0 5", "F")
assert total() == 19
case("Q, one turned", "A OL => A ring", "A LO => A ring", "E OL => E ring", "W OL => W no", "W LO => W no")
case("Q, both turned", "W OO => W yes", "E OO => E 0,6,7,8 0,1,2,3", "A OO")
assert total() == 11
case("Q, one left out", "A -L => A 8 11", "A L- => A 8 9", "A -O => A 8 3", "A O- => A 8 3", "A O => A 8 3", "A -- => A 8 3",
     "A LL- => A 8 11", "A OLO => A ring")
case("Q, after a tick", fresh(Q), "T 0 => T 1", "O => O 1", "W LL => W yes", "W LO => W no", "W OO => W no", "A OO => A 4 3",
     "A OL => A 2 5", "T 0 => T 1", "O => O", "A OL => A 1 4")
case("Q, home", "T 0 => T 1", "T 0 => T 2", "T 0 => T 2", "T 0 => T 2", "S => S 3:0 3:0 | LL")

# holds
case("refusals of holds", fresh(P), "H 2 0 => no 7", "H 2 4096 => no 7", "H 32 1 => no 7", f"H {most} {most} => no 7",
     "H 0 4096 => no 9", f"H 1 {most} => no 9", "H 1 65536 => no 9", "S => S 0:0 0:0 | L")
case("the longest hold", "H 0 4095 => H", "H 0 4096 => no 9", "S => S 0:4095 0:0 | L", "F => F 4097 4099", "T 0 => T 0",
     "S => S 0:4094 0:0 | L", "H 1 4095 => H", "F => F 4096 4098", "A O => A 4099 4097")
case("holds replaced", "H 0 3 => H", "S => S 0:3 0:4095 | L", "H 0 7 => H", "H 1 0 => H", "S => S 0:7 0:0 | L", "H 0 0 => H",
     "H 0 0 => H", "T 0 => T 1", "S => S 1:0 0:0 | L")
case("at the last stop", "T 0 => T 1", "H 0 0 => no 8", "H 0 1 => no 8", "H 0 4096 => no 8", f"H 0 {most} => no 8",
     "H 2 4096 => no 7", "H 1 4096 => no 9", "H 1 1 => H", "S => S 2:0 0:1 | L")
case("a hold longer than the wait", fresh(P), "H 1 2", "F => F 2 4", "H 1 3", "F => F 2 5", "H 0 1", "F => F 3 5", "H 0 2", "F => F 4 6")
case("holds fall while others move", fresh(P), "H 1 2", "T 0 => T 1", "S => S 1:0 0:1 | L", "T 0 => T 1", "S => S 2:0 0:0 | L", "T 0 => T 2")

# standing words
case("a named shuttle's hold falls", fresh(P), "H 0 2", "T 1 => T 0", "S => S 0:1 0:0 | L", "T 3 => T 0", "S => S 0:0 0:0 | L",
     "T 1 => T 0", "T 0 => T 1")
case("a bit too many", "H 0 2", "T 4 => no 7", "T 5 => no 7", f"T {most} => no 7", "T 2147483648 => no 7", "S => S 1:2 0:0 | L",
     "T 3 => T 0", "S => S 1:1 0:0 | L")
case("31 shuttles", fresh([[(2 * s, 0), (2 * s + 1, 1)] for s in range(31)]), f"T {2**31} => no 7", f"T {2**31 + 1} => no 7",
     f"T {most} => no 7", f"T {2**31 - 1} => T 0", f"T {2**30} => T {2**30 - 1}", f"T 0 => T {2**30}", "N 30 => N none",
     "N 31 => N none")
case("32 shuttles", fresh([[(2 * s, 0), (2 * s + 1, 1), (100 + s, 2)] for s in range(32)]), f"T {most} => T 0", "H 31 1 => H",
     "H 32 1 => no 7", f"T {2**31 - 1} => T 0", f"T {2**31 - 1} => T {2**31}", f"T {2**31} => T {2**31 - 1}",
     f"T 1 => T {most - 1}", "T 0 => T 1", "T 0 => T 0", f"T {most} => T 0", "H 31 4096 => no 8", "A => A" + 32 * " 0")

# rings, and meetings that are not open
ring = [[(1, 0), (21, 1), (2, 2), (20, 3), (3, 4)], [(4, 0), (20, 1), (5, 2), (22, 3), (6, 4)], [(7, 0), (22, 1), (8, 2), (21, 3), (9, 4)]]
case("three shuttles, three meetings", fresh(ring), "S => S 0:0 0:0 0:0 | LOO", "F => F 4 4 4", "O => O 0 1 2")
case("one or two turned", "A LLO => A 4 8 4", "A LOL => A 4 4 8", "A OOO => A 8 4 4", "A LLL => A 4 8 12", "A OLO => A 8 12 4",
     "A OOL => A 12 4 8", "W LLO => W yes", "W LLL => W yes", "W OLO => W yes", "W OOL => W yes")
case("all three turned close a ring", "A OLL => A ring", "E OLL => E ring", "W OLL => W no", "A OL- => A 8 12 4",
     "A -LL => A 4 8 12", "A O-L => A 12 4 8", "A OL => A 8 12 4")
case("the ring and a tick", "T 3 => T 4", "S => S 0:0 0:0 1:0 | LOO", "O => O 0 1", "A OLL => A 7 11 3", "W OLL => W no",
     "W OLO => W yes", "W OOO => W yes")
lower_last = [[(1, 0), (5, 9)], [(3, 0), (5, 2), (4, 3)]]
case("the lower shuttle ends at the meeting", fresh(lower_last), "S => S 0:0 0:0 | O", "F => F 3 2", "O => O", "A L => A ring",
     "E L => E ring", "W L => W no", "W O => W yes", "A => A 1 2")
case("the waiting stop is entered", "T 0 => T 2", "A L => A 1 1", "E L => E 0,1 0,0,1", "E O => E 0,2 0,0,1", "W L => W no", "W O => W yes")
case("the other ends at the meeting", fresh(lower_last[::-1]), "S => S 0:0 0:0 | L", "F => F 2 3", "O => O", "A O => A ring",
     "W O => W no", "H 1 9", "T 0 => T 1", "A O => A 1 9", "E L => E 0,0,1 0,9")
case("one after another, from the start", fresh([[(1, 0), (2, 1), (3, 2)], [(9, 0), (1, 2), (2, 3)]]), "S => S 0:0 0:0 | LL",
     "F => F 2 3", "O => O", "A OL => A 2 3", "A LO => A ring", "A OO => A ring", "A O => A 2 2", "H 0 4", "F => F 6 7",
     "A OL => A 6 7", "A O => A 6 2")
case("one place twice on a path", fresh([[(1, 0), (5, 1), (2, 2), (5, 8), (9, 9)], [(3, 0), (5, 4), (4, 5)]]),
     "S => S 0:0 0:0 | LO", "F => F 6 4", "A OO => A 6 2", "A LL => A 4 6", "A OL => A ring", "W OO => W yes", "W LL => W yes",
     "W OL => W no", "T 0 => T 1", "O => O 1", "W LL => W yes", "W OO => W no")
queue = [[(10 + s, 0), (5, 1 + 2 * s), (30 + s, 2 + 2 * s)] for s in range(8)]
back = "O" * 28
case("eight through one place", fresh(queue), "F => F 2 4 6 8 10 12 14 16", f"A {back} => A 16 14 12 10 8 6 4 2", "H 0 3",
     "F => F 5 7 9 11 13 15 17 19", f"A {back} => A 16 14 12 10 8 6 4 2", f"W {back} => W yes", f"W {turned(back, 0)} => W yes",
     f"W {turned(back, 1)} => W no", "A LLLLLLL => A 5" + 7 * " 7", "H 3 20", "F => F 5 7 9 22 24 26 28 30", "T 254 => T 0")
case("eight through one place, home", "H 0 0", "H 3 0", *["T 0"] * 17, "S => S" + 8 * " 2:0" + " | " + 28 * "L")

# limits
long = [[(i, i) for i in range(64)], [(63, 0), (40, 1), (20, 30), (62, 65), (0, 66)]]
case("64 stops on a path", fresh(long), "S => S 0:0 0:0 | LLOLO", "O => O 1 2 3", "F => F 63 65", "A LLLLO => A 63 65",
     "A LOOLO => A ring", "A LOOOO => A 63 4", "W LOOOO => W yes", "W LOOLO => W no", "E LLOLO", "T 0 => T 3", "H 0 4095 => H",
     "F => F 4157 4159", "A LOOOO => A 4157 3", "A LOOLO => A ring", "A LOOOL => A 4157 3", "A LOOO => A 4157 3")
case("64 stops, home", "H 0 0", *["T 0"] * 61, "S => S 62:0 2:0 | LLOLO", "T 0 => T 1", "T 0 => T 2", "T 0 => T 2", "T 0 => T 0",
     "F => F 0 0", "N 0 => N none")
late_one = 16 * "L" + 240 * "O"  # shuttle 0 is in the place already, and after that goes second
case("256 meetings of two shuttles", "P " + grid(16, []).hex() + " => P", "F => F 31 63", f"W {late_one} => W yes",
     f"A {late_one} => A 63 33", f"W {late_one}O => W no", f"W {late_one[1:]} => W no", f"W {late_one[:-1]} => W no",
     "W " + 256 * "O" + " => W no", "A " + 256 * "O" + " => A 62 32", "H 1 7", f"A {late_one} => A 69 39",
     f"A {late_one}LO- => A 69 39", "A " + 300 * "-" + " => A 31 39")


def place(s, i):
    return 257 * (8 * (s % 32) + i)


# stop i of each shuttle below 8 is at a place of its own, where another passes with its stop 8 + i
big = [[(place(s, i), i) for i in range(8)] + [(place(s + 5 * i + 1, i), 8 + i) for i in range(8)] for s in range(32)]
tables = [257 * 4 * k for k in range(64)]
assert len(encode(big, tables)) == 2308 and len(meetings(big)) == 256
own = planned(big, meetings(big))
case("the largest plan", fresh(big, tables), "F => F" + 32 * " 15", "O")
assert len(told[-1].split()) - 1 == 160  # stops 1, 2, 3, 5 and 6 of each; stop 0 is entered, 4 a table, 7 met by a last stop
opened = [int(k) for k in told[-1].split()[1:]]
case("the largest plan, one meeting turned", f"W {own} => W yes",
     *[f"W {turned(own, k)} => W yes" for k in (opened[0], opened[-1])], f"W {turned(own, 0)} => W no",
     f"A {turned(own, opened[0])}", f"W {turned(own, *opened)} => W no", f"W {own}L => W no")
case("the largest plan, driven", f"T {most} => T 0", "H 3 40", f"T 0 => T {most - 8}",
     f"T {2**31 + 16} => T {2**31 - 1 - 8 - 16}", "S", "H 31 4095", "H 32 1 => no 7", "H 0 4096 => no 9", "T 0", "E " + own, "O",
     "F", "H 31 2", "H 3 0", *["T 0"] * 5, "S", *["T 0"] * 11, "F => F" + 32 * " 0", "H 31 1 => no 8")

# drawn plans
dice = random.Random(20)


def drawn_path(start, places):
    path = [(start, 0)]
    for _ in range(dice.choice([0, 1, 2, 3, 3, 4, 4, 5])):
        a, t = path[-1]
        path.append((dice.choice([b for b in range(places) if b != a]), t + dice.choice([1, 1, 1, 2, 3, 6, 10])))
    return path


def drawn_plan(shuttles):
    """Draws until a plan is taken with an open meeting; tables come after that. Paths are drawn one by one, until they do not collide."""
    while True:
        places = dice.randint(max(3, shuttles), 8)
        paths = []
        for start in dice.sample(range(places), shuttles):
            tries = (paths + [drawn_path(start, places)] for _ in range(20))
            paths = next((some for some in tries if not collides(some)), None)
            if not paths:
                break
        trial = Run()
        if paths and trial.open(encode(paths, [])) == "P" and trial.open_meetings():
            return encode(paths, sorted(dice.sample(range(places), dice.choice([0, 0, 0, 1, 2]))))


def loosened(orders):
    """Some letters changed or left out, and sometimes some at the end too few or too many."""
    some = "".join(dice.choice("LO-") if dice.random() < 0.4 else c for c in orders)
    return dice.choice([some, some, some, some[:-1], some + "OL"])


def command(kind):
    n = len(run.paths)
    if kind == "H":
        return f"H {dice.randrange(n)} {dice.choice([0, 1, 2, 3, 5, 8])}"
    if kind == "T":
        return f"T {dice.choice([0, 0, dice.randrange(2**n), dice.randrange(2**n), dice.randrange(2**n + 2)])}"
    if kind in "AE":
        return ordering(kind, loosened(run.orders))
    if kind == "W":
        return ordering("W", "".join(dice.choice("LO") for _ in run.orders))
    if kind == "1":
        return ordering("W", turned(run.orders, dice.choice(run.open_meetings() or range(len(run.met)))))
    if kind == "2":
        return ordering("W", turned(run.orders, *dice.choices(run.open_meetings() or range(len(run.met)), k=2)))
    if kind == "I":
        return ordering("I", turned(run.orders, *dice.choices(run.open_meetings() or range(len(run.met)), k=2)))
    if kind == "N":
        return f"N {dice.randrange(n + 1)}"
    return kind


for k in range(60):
    case(f"drawn plan {k}", f"P {drawn_plan(2 + k % 4).hex()} => P", "S", "O")
    for kind in dice.sample("HHHTTTTTTAAAEEW112OONFFS", 13):
        do(command(kind))
    do("S")
    if k % 3 == 0:
        while any(run.next(s) != "none" for s in range(len(run.paths))):
            do("T 0")
        case(f"drawn plan {k}, home", "F => F" + len(run.paths) * " 0", "O => O", "S", "T 0 => T 0")

# orders put in force
case("no orders without a plan", f"P {clash.hex()} => no 5", "I => no 1", "I L => no 1")
case("P, turned", fresh(P), "H 0 5", "I O => I", "S => S 0:5 0:0 | O", "F => F 7 2", "I L => I", "F => F 7 9", "I O => I", "T 0 => T 2",
     "T 0 => T 2", "O => O", "I L => I no", "S => S 0:3 2:0 | O", "I O => I", "F => F 5 0")
case("P, not lawful", fresh(P), "I => I no", "I LL => I no", "T 0 => T 1", "I O => I no", "I L => I", "S => S 1:0 0:0 | L")
case("P, place 5 a table", fresh(P, [5]), "H 0 5", "I O => I no", "I L => I", "F => F 7 9")
case("Q, both turned", fresh(Q), "H 0 5", "I OL => I no", "I LO => I no", "I OO => I", "F => F 8 3", "I LL => I", "F")
assert total() == 19
for k in range(20):
    case(f"drawn plan {k}, orders put in force", f"P {drawn_plan(2 + k % 4).hex()} => P", "S")
    for kind in dice.sample("HHTTTIIIIIIIIFFOE", 12):
        do(command(kind))
    while any(run.next(s) != "none" for s in range(len(run.paths))):
        do("T 0")
    do("S")

(HERE / "stdin").write_text("".join(one + "\n" for one in asked))
(HERE / "stdout").write_text("".join(one + "\n" for one in told))
print(sum(one[0] == "#" for one in asked), "cases of runs,", len(asked), "lines")
