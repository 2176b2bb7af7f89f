#!/usr/bin/env python3
"""Writes the plans that are measured into a folder: NAME.plan, a plan file, and NAME.holds, a 16-bit hold for each shuttle.

Every run writes the same files. Nothing is shared with the crates or with the peer."""
import pathlib
import random
import struct
import sys

MOST_SHUTTLES, MOST_STOPS, MOST_STOPS_IN_ALL, MOST_TABLES, MOST_MEETINGS = 32, 64, 512, 64, 256


def plan_bytes(paths, tables):
    """The plan file of paths of (place, tick) and of table places."""
    begin, contents = 4 + 4 * len(paths) + 2 * len(tables), b""
    for path in paths:
        contents += struct.pack(">HH", begin, len(path))
        begin += 4 * len(path)
    bodies = b"".join(struct.pack(">HH", *stop) for path in paths for stop in path)
    return struct.pack(">HH", len(paths), len(tables)) + contents + struct.pack(f">{len(tables)}H", *tables) + bodies


def meetings(paths):
    """The two stops, as (shuttle, stop), of each meeting, in meeting order."""
    stops = [(s, i, place) for s, path in enumerate(paths) for i, (place, _) in enumerate(path)]
    return [((s, i), (r, j)) for s, i, place in stops for r, j, other in stops if s < r and place == other]


def open_meetings(paths, tables):
    """Those that are open in a fresh run."""
    ahead = lambda s, i: 0 < i < len(paths[s]) - 1
    return [(a, b) for a, b in meetings(paths) if ahead(*a) and ahead(*b) and paths[a[0]][a[1]][0] not in tables]


def check(paths, tables):
    """That opening takes the plan."""
    assert 1 <= len(paths) <= MOST_SHUTTLES and sum(map(len, paths)) <= MOST_STOPS_IN_ALL
    assert len(tables) <= MOST_TABLES and tables == sorted(set(tables))
    assert len(meetings(paths)) <= MOST_MEETINGS
    for path in paths:
        assert 1 <= len(path) <= MOST_STOPS and path[0][1] == 0
        assert all(a != b and at < bt for (a, at), (b, bt) in zip(path, path[1:]))
    for a, b in meetings(paths):
        leaves = lambda s, i: paths[s][i + 1][1] if i + 1 < len(paths[s]) else float("inf")
        enters = lambda s, i: paths[s][i][1]
        assert leaves(*a) < enters(*b) or leaves(*b) < enters(*a)


def timed(rows, draw, eager, after={}):
    """Paths along rows of places: at each tick a shuttle goes on, or mostly does, if nobody was in its next place at the last tick.

    `after` says of a shuttle and a place who has to have left it before. None if they get stuck."""
    paths, now = [[(row[0], 0)] for row in rows], 0
    has_left = lambda s, place: place in [p for p, _ in paths[s][:-1]]
    while any(len(path) < len(row) for path, row in zip(paths, rows)):
        now += 1
        taken = {path[-1][0] for path in paths}
        going = [s for s, row in enumerate(rows) if len(paths[s]) < len(row)]
        draw.shuffle(going)
        moved = False
        for s in going:
            place = rows[s][len(paths[s])]
            free = place not in taken and ((s, place) not in after or has_left(after[s, place], place))
            if free and (not moved or draw.random() < eager):
                paths[s].append((place, now))
                taken.add(place)
                moved = True
        if not moved:
            return None
    return paths


def drawn(seed, shuttles, stops, groups, table_groups=()):
    """A plan where each group is a place that so many shuttles pass, all at about the same stop of their paths."""
    draw = random.Random(seed)
    while True:
        rows = [[None] * stops for _ in range(shuttles)]
        tables = list(range(1, 1 + len(table_groups)))
        for place, size in enumerate([*table_groups, *groups], start=1):
            while True:
                around = draw.randrange(1, stops - 1)
                near = lambda: min(max(around + draw.randint(-2, 2), 1), stops - 2)
                at = [(s, near()) for s in draw.sample(range(shuttles), size)]
                if all(rows[s][i] is None for s, i in at):
                    break
            for s, i in at:
                rows[s][i] = place
        # every other stop is at a place of its own
        rows = [[1000 + 64 * s + i if place is None else place for i, place in enumerate(row)] for s, row in enumerate(rows)]
        paths = timed(rows, draw, 0.9)
        if paths:
            return paths, tables


def chain_rows(shuttles, laps):
    """Rows of places along which each shuttle waits for the one above it, and the last, a lap later, for the first.

    In each lap a shuttle is first in a place that it hands on, and leaves it for the place that it is handed."""
    handed = lambda s, lap: 1 + s * laps + lap
    spare = handed(shuttles, 0)
    above = lambda s, lap: handed(s + 1, lap) if s + 1 < shuttles else handed(0, lap - 1) if lap else spare
    return [[place for lap in range(laps) for place in (handed(s, lap), above(s, lap))] for s in range(shuttles)]


def chain():
    """A wait from each shuttle to the one above it, down all shuttles eight times: 255 meetings."""
    return timed(chain_rows(32, 8), random.Random(1), 1), []


def walls():
    """A chain of shuttles 8 to 23, whose end passes a place after shuttles 0 to 7 and before 24 to 31.

    So each of the last has eight waits that are known at once, and then waits for the end of the chain."""
    wall, own = 1000, lambda s, count: [2000 + 64 * s + i for i in range(count)]
    rows = [own(s, 1) + [wall] + own(32 + s, 15) for s in range(8)]
    rows += chain_rows(16, 7)
    rows[8] += [wall] + own(8, 7)
    rows += [own(s, 1) + [wall] + own(32 + s, 16) for s in range(24, 32)]
    after = {(s, wall): s - 1 for s in range(1, 8)} | {(8, wall): 7} | {(24, wall): 8} | {(s, wall): s - 1 for s in range(25, 32)}
    return timed(rows, random.Random(1), 1, after), []


def plans():
    """Each plan with its tables, by name."""
    return {
        "small": drawn(1, 4, 6, [3, 2, 2, 2]),
        "large": drawn(2, 32, 16, [4] * 10 + [3] * 28 + [2] * 112),
        "open64": drawn(3, 32, 16, [4] * 4 + [3] * 8 + [2] * 16, [4] * 16 + [3] * 24 + [2] * 24),
        "chain": chain(),
        "walls": walls(),
        "search40": drawn(13, 32, 16, [4] * 2 + [3] * 4 + [2] * 16, [4] * 30 + [3] * 12),
        "search64": drawn(4, 32, 16, [4] * 4 + [3] * 8 + [2] * 16, [4] * 16 + [3] * 24 + [2] * 24),
    }


def holds(name, shuttles):
    """A hold for one shuttle in four; longer where orders are searched."""
    draw = random.Random(name)
    longest = 30 if name.startswith("search") else 8
    held = draw.sample(range(shuttles), shuttles // 4)
    return [draw.randint(1, longest) if s in held else 0 for s in range(shuttles)]


def main(folder):
    folder.mkdir(parents=True, exist_ok=True)
    for name, (paths, tables) in plans().items():
        check(paths, tables)
        (folder / f"{name}.plan").write_bytes(plan_bytes(paths, tables))
        (folder / f"{name}.holds").write_bytes(struct.pack(f">{len(paths)}H", *holds(name, len(paths))))
        counts = len(paths), sum(map(len, paths)), len(meetings(paths)), len(open_meetings(paths, tables))
        print(f"{name}: {counts[0]} shuttles, {counts[1]} stops, {counts[2]} meetings, {counts[3]} open in a fresh run")


if __name__ == "__main__":
    main(pathlib.Path(sys.argv[1]))
