"""The search for the orders that cost least, by its steps, over the runs of runs.py and the plain lists of list_cases.py; it shares nothing with the crates."""
from runs import entries_by_rule, waits

MOST_OPEN = 64
FEW = 8  # open meetings up to which all orders are tried
SHORT = 40  # stops up to which the entry ticks of each node are worked out by the rule too


class Ways:
    """Entry ticks as longest ways through the unentered stops of a run, of which some open meetings are left out."""

    def __init__(self, run):
        self.run, self.open = run, run.open_meetings()
        self.every = 2 ** len(self.open) - 1
        stops = [(s, i) for s, p in enumerate(run.paths) for i in range(run.stops[s] + 1, len(p))]
        self.at = {stop: v for v, stop in enumerate(stops)}
        self.least = [1 + (run.holds[s] if i == run.stops[s] + 1 else 0) for s, i in stops]
        closed = waits(run.met, "".join("-" if k in self.open else c for k, c in enumerate(run.orders)))
        ahead = [[self.at[x] for x in [(s, i - 1)] + closed.get((s, i), []) if x in self.at] for s, i in stops]
        self.behind = [[w for w, vs in enumerate(ahead) for u in vs if u == v] for v in range(len(stops))]
        self.ahead = [len(vs) for vs in ahead]
        # of each open meeting the stop waited for and the stop that waits, as in force and turned
        self.waits, self.known = [], {}
        for k in self.open:
            s, i, r, j = run.met[k]
            both = (self.at[s, i + 1], self.at[r, j]), (self.at[r, j + 1], self.at[s, i])
            self.waits.append(both if run.orders[k] == "L" else both[::-1])

    def orders(self, decided, turned):
        """Orders by their letters, as in force or turned where decided, and left out where not."""
        orders = list(self.run.orders)
        for j, k in enumerate(self.open):
            if not decided >> j & 1:
                orders[k] = "-"
            elif turned >> j & 1:
                orders[k] = "LO"[orders[k] == "L"]
        return "".join(orders)

    def ticks(self, decided, turned):
        """The entry ticks of the unentered stops; None for a ring."""
        if (decided, turned) not in self.known:
            self.known[decided, turned] = self.worked_out(decided, turned)
        return self.known[decided, turned]

    def worked_out(self, decided, turned):
        """Each entry tick after all that its stop follows."""
        ticks, ahead, behind = self.least[:], self.ahead[:], self.behind[:]
        for j, both in enumerate(self.waits):
            if decided >> j & 1:
                awaited, second = both[turned >> j & 1]
                behind[awaited] = behind[awaited] + [second]
                ahead[second] += 1
        ready = [v for v, n in enumerate(ahead) if n == 0]
        for v in ready:
            for w in behind[v]:
                ticks[w] = max(ticks[w], ticks[v] + 1)
                ahead[w] -= 1
                if ahead[w] == 0:
                    ready.append(w)
        ticks = ticks if len(ready) == len(ticks) else None
        if len(ahead) <= SHORT:
            run = self.run
            ruled = entries_by_rule(run.paths, run.stops, run.holds, waits(run.met, self.orders(decided, turned)))
            assert ticks == (ruled and [ruled[x] for x in self.at])
        return ticks

    def arrivals(self, ticks):
        last = [(s, len(p) - 1) for s, p in enumerate(self.run.paths)]
        return [ticks[self.at[x]] if x in self.at else 0 for x in last]

    def lawful(self):
        """The arrivals under all lawful orders."""
        found = [self.ticks(self.every, turned) for turned in range(self.every + 1)]
        return [self.arrivals(ticks) for ticks in found if ticks is not None]

    def violated(self, decided, ticks):
        """The lowest undecided open meeting at which the first in force does not leave before the second enters."""
        for j, ((leaves, enters), _) in enumerate(self.waits):
            if not decided >> j & 1 and ticks[leaves] >= ticks[enters]:
                return j
        return None


def searched(ways, price, held, budget):
    """The search by its steps: cost, nodes taken and the word of those turned, or the refusal and nodes taken; then the longest row. The list is empty at the end."""
    cost, turned = price(ways.arrivals(ways.ticks(ways.every, 0))), 0
    held.clear()
    taken, longest = 0, 1

    def refused(number):
        held.clear()
        return ("no", number, taken), longest

    if not held.put((0, 0, 0)):
        return refused(12)
    while held.length():
        if taken == budget:
            return refused(13)
        bound, decided, turns = held.take()
        taken += 1
        if bound >= cost:
            continue
        ticks = ways.ticks(decided, turns)
        if ticks is None or price(ways.arrivals(ticks)) >= cost:
            continue
        bound, j = price(ways.arrivals(ticks)), ways.violated(decided, ticks)
        if j is None:
            cost, turned = bound, turns
            continue
        decided |= 1 << j
        if not (held.put((bound, decided, turns)) and held.put((bound, decided, turns | 1 << j))):
            return refused(12)
        longest = max(longest, held.length())
    return ("R", cost, taken, turned), longest
