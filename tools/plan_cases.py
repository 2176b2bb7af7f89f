#!/usr/bin/env python3
"""Writes the cases of crates/plan_cases: stdin (plan files in hexadecimal) and stdout (what has to be printed of each).

The expected text comes from the small reading below, which shares nothing with the crates; where a case states
its first line by hand, the two are held to each other."""
import struct, pathlib

HERE = pathlib.Path(__file__).resolve().parent.parent / "crates" / "plan_cases"


def words(*ns):
    return b"".join(struct.pack(">H", n) for n in ns)


def encode(paths, tables):
    at = 4 + 4 * len(paths) + 2 * len(tables)
    out = words(len(paths), len(tables))
    for p in paths:
        out += words(at, len(p))
        at += 4 * len(p)
    out += words(*tables)
    for p in paths:
        for place, tick in p:
            out += words(place, tick)
    return out


class Torn(Exception):
    pass


def read(bs):
    at = 0

    def number(test):
        nonlocal at
        for k in (at, at + 1):
            if k >= len(bs):
                raise Torn(k)
        n = bs[at] << 8 | bs[at + 1]
        if not test(n):
            raise Torn(at)
        at += 2
        return n

    shuttles = number(lambda n: 1 <= n <= 32)
    places = number(lambda n: n <= 64)
    begin, total, counts = 4 + 4 * shuttles + 2 * places, 0, []
    for _ in range(shuttles):
        number(lambda n: n == begin)
        counts.append(number(lambda n: 1 <= n <= 64 and total + n <= 512))
        begin += 4 * counts[-1]
        total += counts[-1]
    tables = []
    for _ in range(places):
        tables.append(number(lambda n: not tables or n > tables[-1]))
    paths = [[(number(lambda n: True), number(lambda n: True)) for _ in range(c)] for c in counts]
    if at < len(bs):
        raise Torn(at)
    return paths, tables


def offence(paths):
    for s, p in enumerate(paths):
        for i, (place, tick) in enumerate(p):
            if i == 0 and tick != 0:
                return s, 0
            if i > 0 and (tick <= p[i - 1][1] or place == p[i - 1][0]):
                return s, i
    return None


def stays(paths):
    """(shuttle, stop, place, enters, leaves), in shuttle and stop order; leaves is None at a last stop."""
    return [(s, i, p[i][0], p[i][1], p[i + 1][1] if i + 1 < len(p) else None) for s, p in enumerate(paths) for i in range(len(p))]


def over_before(x, y):
    return x[4] is not None and x[4] < y[3]


def meetings(paths):
    st = stays(paths)
    return [(x, y) for a, x in enumerate(st) for y in st[a + 1:] if x[0] != y[0] and x[2] == y[2]]


def collides(paths):
    """By the ticks alone: two in one place, or one entering a place at the tick at which another leaves it."""
    end = max(t for p in paths for _, t in p) + 1
    where = [[max((t, a) for t, a in ((t, a) for a, t in p) if t <= now)[1] for now in range(end)] for p in paths]
    enter = [{(t, a) for a, t in p} for p in paths]
    leave = [{(p[i + 1][1], p[i][0]) for i in range(len(p) - 1)} for p in paths]
    n = len(paths)
    return any(where[s][t] == where[r][t] for s in range(n) for r in range(s) for t in range(end)) or any(enter[s] & leave[r] for s in range(n) for r in range(n) if s != r)


def waits(paths, firsts=None):
    """(shuttle, stop, other shuttle, stop waited for), in meeting order."""
    out = []
    for k, (x, y) in enumerate(meetings(paths)):
        lower_first = over_before(x, y) if firsts is None else firsts[k] == "lower"
        a, b = (x, y) if lower_first else (y, x)
        out.append((b[0], b[1], a[0], a[1] + 1))
    return out


def order_file(paths, firsts=None):
    bodies = [[w for w in waits(paths, firsts) if w[0] == s] for s in range(len(paths))]
    at = 2 + 4 * len(paths)
    out = words(len(paths))
    for b in bodies:
        out += words(at, len(b))
        at += 6 * len(b)
    for b in bodies:
        for w in b:
            out += words(w[1], w[2], w[3])
    return out


def text(bs):
    try:
        paths, tables = read(bs)
    except Torn as t:
        return f"no 3 {t.args[0]}\n"
    bad = offence(paths)
    if bad:
        return f"no 4 {bad[0]} {bad[1]}\n"
    met = meetings(paths)
    if len(met) > 256:
        return "no 6\n"
    clash = next(((x, y) for x, y in met if not over_before(x, y) and not over_before(y, x)), None)
    if max(t for p in paths for _, t in p) < 2000:
        assert (clash is not None) == collides(paths)
    if clash:
        return "no 5 %d %d %d %d\n" % (clash[0][:2] + clash[1][:2])
    out = f"plan {len(paths)} {sum(map(len, paths))} {len(tables)} {len(met)}\n"
    for s, p in enumerate(paths):
        out += f"shuttle {s}:" + "".join(f" place {a} (tick {t})" for a, t in p) + "\n"
    for s, i, r, j in waits(paths):
        out += f"stop {i} of shuttle {s} waits for stop {j} of shuttle {r}\n"
    return out


P = [[(1, 0), (5, 1), (2, 2)], [(3, 0), (5, 3), (4, 4)]]


def line(s, n):
    """A path of n stops at places of its own."""
    return [(64 * s + i, i) for i in range(n)]


def patched(bs, at, n):
    return bs[:at] + words(n) + bs[at + 2:]


cases = []


def case(name, bs, first=None):
    t = text(bs)
    if first is not None:
        assert t.split("\n")[0] == first, (name, t.split("\n")[0], first)
    cases.append((name, bs, t))


small = encode([[(7, 0)]], [])
p = encode(P, [9])
case("the smallest plan", small, "plan 1 1 0 0")
case("two shuttles and a table", p, "plan 2 6 1 1")
case("empty file", b"", "no 3 0")
case("no shuttles", patched(small, 0, 0), "no 3 0")
case("33 shuttles", patched(small, 0, 33), "no 3 0")
case("65 tables", patched(small, 2, 65), "no 3 2")
case("offset one low", patched(p, 4, 13), "no 3 4")
case("offset one high", patched(p, 4, 15), "no 3 4")
case("second offset one off", patched(p, 8, 27), "no 3 8")
case("stop count 0", patched(p, 6, 0), "no 3 6")
case("stop count 65", patched(p, 6, 65), "no 3 6")
case("second stop count 0", patched(p, 10, 0), "no 3 10")
three = encode([[(7, 0)]], [3, 8, 9])
case("three tables", three, "plan 1 1 3 0")
case("equal tables", patched(three, 10, 3), "no 3 10")
case("falling tables", patched(three, 12, 7), "no 3 12")
case("table 65535, then none greater", patched(three, 10, 65535), "no 3 12")
case("tables from 0", encode([[(7, 0)]], [0, 65535]), "plan 1 1 2 0")
full = [line(s, 64) for s in range(8)]
case("512 stops on 8 paths of 64", encode(full, []), "plan 8 512 0 0")
case("the 513th stop", encode(full + [[(600, 0)]], []), f"no 3 {4 + 4 * 8 + 2}")
nine = [line(s, 60) for s in range(8)] + [line(8, 33)]
case("the count that passes 512", encode(nine, []), f"no 3 {4 + 4 * 8 + 2}")
nine[8] = line(8, 32)
case("the count that meets 512", encode(nine, []), "plan 9 512 0 0")
most = [line(s, 16) for s in range(32)]
big = encode(most, list(range(1000, 1064)))
assert len(big) == 2308
case("all limits met", big, "plan 32 512 64 0")
case("all limits met, and a byte more", big + b"\0", "no 3 2308")
case("greatest place and tick", encode([[(65535, 0), (0, 65535)]], [65535]), "plan 1 2 1 0")
for n in range(len(p)):
    case(f"cut after {n} bytes", p[:n], f"no 3 {n}")
case("one byte more", p + b"\0", f"no 3 {len(p)}")
case("cut, with a torn count before", patched(p, 6, 65)[:20], "no 3 6")
case("torn table before a cut", patched(three, 10, 3)[:14], "no 3 10")


def broken(s, i, place, tick, base=P):
    q = [list(x) for x in base]
    q[s][i] = (place, tick)
    return encode(q, [])


case("first tick 1", broken(0, 0, 1, 1), "no 4 0 0")
case("first tick 1 of the second shuttle", broken(1, 0, 3, 1), "no 4 1 0")
case("tick that stays", broken(0, 1, 5, 0), "no 4 0 1")
case("tick that falls at the end", broken(0, 2, 2, 0), "no 4 0 2")
case("tick that stays, second shuttle", broken(1, 2, 4, 3), "no 4 1 2")
case("neighbours in one place", broken(0, 1, 1, 1), "no 4 0 1")
case("neighbours in one place at the end", broken(1, 2, 5, 4), "no 4 1 2")
case("tick and place both break", broken(1, 1, 3, 0), "no 4 1 1")
two = [list(P[0]), list(P[1])]
two[0][2] = (5, 2)
two[1][0] = (3, 7)
case("the earlier shuttle first", encode(two, []), "no 4 0 2")
case("layout before path rules", broken(0, 0, 1, 1) + b"\0", f"no 3 {len(encode(P, []))}")
case("a place again, not as neighbour", encode([[(1, 0), (5, 1), (1, 2)]], []), "plan 1 3 0 0")



def orders_case(name, paths, firsts=None, damage=None):
    """An order file for the plan of the case before."""
    bs = order_file(paths, firsts)
    bs = damage(bs) if damage else bs
    taken = damage is None
    own = firsts or ["lower" if over_before(x, y) else "other" for x, y in meetings(paths)]
    cases.append((name, "> " + bs.hex(), "".join(["first"] + [" " + f for f in own]) + "\n" if taken else "no order file of the plan\n"))


def buffer_case(name, paths, size):
    bs = order_file(paths)
    old = b"\xaa" * size
    new = bs + old[len(bs):] if len(bs) <= size else old
    said = f"{len(bs)} bytes" if len(bs) <= size else "no 16"
    cases.append((name, f"= {size}", f"{said} {new.hex()}\n"))


# clashes of each kind; places 1 to 9 apart unless shared
case("both enter a place at one tick", encode([[(1, 0), (5, 1), (2, 2)], [(3, 0), (5, 1), (4, 2)]], []), "no 5 0 1 1 1")
case("enters at the tick of leaving", encode([[(1, 0), (5, 1), (2, 2)], [(3, 0), (5, 2), (4, 3)]], []), "no 5 0 1 1 1")
case("enters one tick after", encode([[(1, 0), (5, 1), (2, 2)], [(3, 0), (5, 3), (4, 4)]], []), "plan 2 6 0 1")
case("the other enters at the tick of leaving", encode([[(3, 0), (5, 2), (4, 3)], [(1, 0), (5, 1), (2, 2)]], []), "no 5 0 1 1 1")
case("stays while the other is inside", encode([[(1, 0), (5, 1), (2, 9)], [(3, 0), (5, 4), (4, 5)]], []), "no 5 0 1 1 1")
case("through a last stop before it is taken", encode([[(1, 0), (5, 9)], [(3, 0), (5, 2), (4, 3)]], []), "plan 2 5 0 1")
case("through a last stop after it is taken", encode([[(1, 0), (5, 1)], [(3, 0), (5, 20), (4, 21)]], []), "no 5 0 1 1 1")
case("one last stop for two", encode([[(1, 0), (5, 1)], [(3, 0), (5, 9)]], []), "no 5 0 1 1 1")
case("one start for two", encode([[(1, 0), (5, 1)], [(1, 0), (4, 1)]], []), "no 5 0 0 1 0")
case("swapped places", encode([[(1, 0), (2, 1)], [(2, 0), (1, 1)]], []), "no 5 0 0 1 1")
case("one after another in a row", encode([[(1, 0), (2, 1), (3, 2)], [(9, 0), (1, 2), (2, 3)]], []), "plan 2 6 0 2")
case("the first of several clashes", encode([[(1, 0), (5, 1), (6, 2), (2, 3)], [(3, 0), (6, 2), (5, 3), (4, 4)], [(7, 0), (5, 1), (8, 2)]], []), "no 5 0 1 2 1")
case("a clash of higher shuttles after a clear meeting", encode([[(1, 0), (5, 1), (2, 2)], [(3, 0), (5, 8), (4, 9)], [(7, 0), (5, 8), (8, 9)]], []), "no 5 1 1 2 1")
case("the same place twice on one path", encode([[(1, 0), (5, 1), (2, 2), (5, 8), (9, 9)], [(3, 0), (5, 4), (4, 5)]], []), "plan 2 8 0 2")


def grid(rows, extra):
    """16 stops of shuttle 0 and `rows` of shuttle 1 at one place each, by turns with places of their own, shuttle 1 long after."""
    zero = [q for i in range(16) for q in ((500, 2 * i), (600 + i, 2 * i + 1))]
    one = [(7, 0)] + [q for i in range(rows) for q in ((500, 1000 + 2 * i), (700 + i, 1001 + 2 * i))]
    return encode([zero, one] + extra, [])


case("256 meetings", grid(16, []), "plan 2 65 0 256")
case("257 meetings", grid(16, [[(900, 0), (715, 5000), (901, 5001)]]), "no 6")
case("257 meetings and a clash", grid(16, [[(0, 0), (715, 1031), (901, 5001)]]), "no 6")
Q = [[(1, 0), (5, 1), (6, 2), (2, 3)], [(3, 0), (6, 5), (5, 6), (4, 7)]]
case("two meetings", encode(Q, []), "plan 2 8 0 2")
orders_case("its own orders", Q)
for fs in (["lower", "lower"], ["lower", "other"], ["other", "lower"], ["other", "other"]):
    orders_case(" and ".join(fs), Q, fs)
orders_case("a byte more", Q, damage=lambda b: b + b"\0")
orders_case("a byte less", Q, damage=lambda b: b[:-1])
orders_case("empty", Q, damage=lambda b: b"")
for k in range(len(order_file(Q))):
    orders_case(f"byte {k} changed", Q, damage=lambda b, k=k: b[:k] + bytes([b[k] ^ 1]) + b[k + 1:])
case("the plan that is worked by hand", encode(P, []), "plan 2 6 0 1")
assert order_file(P) == words(2, 10, 0, 10, 1, 1, 0, 2)
buffer_case("an exact buffer", P, 16)
buffer_case("a buffer one byte short", P, 15)
buffer_case("a longer buffer", P, 20)
buffer_case("no buffer", P, 0)
three = [[(1, 0), (5, 1), (2, 2)], [(3, 0), (5, 6), (4, 7)], [(8, 0), (5, 4), (9, 5)]]
case("three at one place", encode(three, []), "plan 3 9 0 3")
orders_case("its own orders", three)
orders_case("all turned", three, ["other", "other", "other"])
buffer_case("its file", three, 40)

if __name__ == "__main__":
    (HERE / "stdin").write_text("".join(f"# {n}\n{b if isinstance(b, str) else b.hex()}\n" for n, b, _ in cases))
    (HERE / "stdout").write_text("".join(f"# {n}\n{t}" for n, _, t in cases))
    print(len(cases), "cases")
