"""Runs of plans by the rules, for the scripts that write cases; they share nothing with the crates. Facts that can be worked out in two ways are, and the two are held to each other."""
import plan_cases
from plan_cases import collides, read, text


def meetings(paths):
    """(lower shuttle, its stop, other shuttle, its stop), in meeting order."""
    stops = [(s, i) for s, p in enumerate(paths) for i in range(len(p))]
    met = [(s, i, r, j) for s, i in stops for r, j in stops if s < r and paths[s][i][0] == paths[r][j][0]]
    assert met == [x[:2] + y[:2] for x, y in plan_cases.meetings(paths)]
    return met


def leaves_before(paths, s, i, r, j):
    return i + 1 < len(paths[s]) and paths[s][i + 1][1] < paths[r][j][1]


def planned(paths, met):
    """The plan's orders: L where the lower shuttle is first, O where the other is."""
    for s, i, r, j in met:
        lower, other = leaves_before(paths, s, i, r, j), leaves_before(paths, r, j, s, i)
        assert lower != other and lower == (paths[s][i][1] < paths[r][j][1])
    return "".join("L" if leaves_before(paths, *m) else "O" for m in met)


def waits(met, orders):
    """For each stop that waits, the stops that it waits for. Missing letters leave meetings out, further ones are ignored."""
    out = {}
    for (s, i, r, j), first in zip(met, orders):
        if first == "L":
            out.setdefault((r, j), []).append((s, i + 1))
        if first == "O":
            out.setdefault((s, i), []).append((r, j + 1))
    return out


def tick(paths, stops, holds, wait, standing):
    """The shuttles that move, the stops after the tick, and the holds after it."""
    moved = []
    for s, p in enumerate(paths):
        following = stops[s] + 1
        entered = [stops[r] >= j for r, j in wait.get((s, following), [])]
        if holds[s] == 0 and following < len(p) and all(entered) and not standing >> s & 1:
            moved.append(s)
    return moved, [i + 1 if s in moved else i for s, i in enumerate(stops)], [max(h - 1, 0) for h in holds]


def entries_by_rule(paths, stops, holds, wait):
    """Each entry tick as soon as all that it is worked out from are known; None if that comes to no end."""
    known = {(s, i): 0 for s, last in enumerate(stops) for i in range(last + 1)}
    left = [(s, i) for s, p in enumerate(paths) for i in range(stops[s] + 1, len(p))]
    while left:
        ready = [(s, i) for s, i in left if (s, i - 1) in known and all(x in known for x in wait.get((s, i), []))]
        if not ready:
            return None
        for s, i in ready:
            before = known[s, i - 1] + (holds[s] if i == stops[s] + 1 else 0)
            known[s, i] = 1 + max([before] + [known[x] for x in wait.get((s, i), [])])
        left = [x for x in left if x not in known]
    return known


def entries_by_ticks(paths, stops, holds, wait):
    """The undisturbed ticks at which stops are entered; None if the shuttles get stuck."""
    known = {(s, i): 0 for s, last in enumerate(stops) for i in range(last + 1)}
    now = 0
    while len(known) < sum(map(len, paths)):
        now += 1
        held = any(holds)
        moved, stops, holds = tick(paths, stops, holds, wait, 0)
        if not moved and not held:
            return None
        known.update({(s, stops[s]): now for s in moved})
    return known


class Run:
    """The plan, and for each shuttle the last stop entered and its hold, and for each meeting L or O."""

    paths = None

    def open(self, bs):
        if self.paths:
            return "no 2"
        said = text(bs).split()
        if said[0] == "no":
            return f"no {said[1]}"
        self.paths, self.tables = read(bs)
        self.met = meetings(self.paths)
        self.orders = planned(self.paths, self.met)
        self.stops = [0 for _ in self.paths]
        self.holds = [0 for _ in self.paths]
        assert self.arrivals(self.orders) is not None
        return "P"

    def at_last(self, s, i):
        return i + 1 == len(self.paths[s])

    def entries(self, orders):
        """For each shuttle the entry ticks of its stops; None for a ring."""
        state = self.paths, self.stops, self.holds, waits(self.met, orders)
        known = entries_by_rule(*state)
        assert known == entries_by_ticks(*state)
        return known and [[known[s, i] for i in range(len(p))] for s, p in enumerate(self.paths)]

    def arrivals(self, orders):
        found = self.entries(orders)
        return found and [e[-1] for e in found]

    def open_meetings(self):
        def is_open(s, i, r, j):
            entered = self.stops[s] >= i or self.stops[r] >= j
            return not entered and not self.at_last(s, i) and not self.at_last(r, j) and self.paths[s][i][0] not in self.tables

        return [k for k, m in enumerate(self.met) if is_open(*m)]

    def lawful(self, orders):
        kept = set(range(len(self.met))) - set(self.open_meetings())
        if len(orders) != len(self.met) or any(orders[k] != self.orders[k] for k in kept):
            return False
        found = self.entries(orders)
        if found:  # what is left of the run has to be a plan without collisions
            assert not collides([[(a, t) for (a, _), t in zip(p, e)][i:] for p, e, i in zip(self.paths, found, self.stops)])
        return found is not None

    def hold(self, s, d):
        if s >= len(self.paths):
            return "no 7"
        if self.at_last(s, self.stops[s]):
            return "no 8"
        if d > 4095:
            return "no 9"
        self.holds[s] = d
        return "H"

    def tick(self, word):
        if word >= 1 << len(self.paths):
            return "no 7"
        old, found = self.stops, self.entries(self.orders)
        moved, self.stops, self.holds = tick(self.paths, old, self.holds, waits(self.met, self.orders), word)
        # those whose next entry tick is 1 move, unless named; nobody comes to where another is or was
        assert moved == [s for s, e in enumerate(found) if 1 in e and not word >> s & 1]
        was, now = ([self.paths[s][i][0] for s, i in enumerate(stops)] for stops in (old, self.stops))
        assert len(set(now)) == len(now) and not any(now[s] in was[:s] + was[s + 1:] for s in moved)
        return f"T {sum(1 << s for s in moved)}"

    def next(self, s):
        return "none" if s >= len(self.paths) or self.at_last(s, self.stops[s]) else self.stops[s] + 1
