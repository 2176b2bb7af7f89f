"""Plans drawn with dice, whose shuttles meet often, for the scripts that write cases."""


def route(dice, kind, size):
    """The places that a shuttle passes: some of a yard, a part of a lane in either direction, or a walk on a grid that never turns back."""
    places = range(size)
    if kind == "lane":
        ends = sorted(dice.sample(range(size + 1), 2))
        return list(places)[ends[0]:ends[1]][::dice.choice([1, 1, -1])]
    beside = {a: [b for b in places if b != a] for a in places}
    if kind == "grid":
        beside = {(x, y): [(x + a, y + b) for a, b in ((0, 1), (1, 0), (0, -1), (-1, 0)) if x + a in places and y + b in places] for x in places for y in places}
    walk = [dice.choice(list(beside))]
    for _ in range(dice.randint(1, 2 * size)):
        walk.append(dice.choice([b for b in beside[walk[-1]] if kind == "yard" or b not in walk[-2:]]))
    return walk if kind == "yard" else [size * x + y for x, y in walk]


def let_go(dice, routes):
    """Paths of shuttles that are let go along their routes one after another, and then move now and then into a place that was free at the tick before; so no two collide."""
    paths = [[(route[0], 0)] for route in routes]
    start = [dice.choice([0, 0, 3, 10, 25]) for _ in routes]
    haste = [dice.choice([0.3, 0.6, 0.9, 1]) for _ in routes]
    for now in range(1, 200):
        taken = {path[-1][0] for path in paths}
        for s in dice.sample(range(len(paths)), len(paths)):
            following = routes[s][len(paths[s]):][:1]
            if following and now > start[s] and dice.random() < haste[s] and following[0] not in taken:
                paths[s].append((following[0], now))
                taken.add(following[0])
    return paths


def drawn_plan(dice, shuttles, kind, size):
    """Paths and tables; most shuttles begin and end at places of their own."""
    routes = [route(dice, kind, size) for _ in range(shuttles)]
    for s, places in enumerate(routes):
        if dice.random() < 0.8 or places[0] in [r[0] for r in routes[:s]]:
            places.insert(0, 1000 + s)
        if dice.random() < 0.8:
            places.append(2000 + s)
    paths = let_go(dice, routes)
    met = sorted({a for p in paths for a, _ in p if a < 1000})
    return paths, dice.sample(met, min(len(met), dice.choice([0, 0, 0, 1, 2])))


def pair(k, shared):
    """One shuttle that passes some places, and one that comes to each of them two ticks after the first has left it."""
    own = iter(range(1000 * k + 500, 1000 * k + 999))
    first = [(next(own), 0)] + [x for j in range(shared) for x in ((1000 * k + j, 2 * j + 1), (next(own), 2 * j + 2))]
    second = [(next(own), t) for t in range(4)] + [x for j in range(shared) for x in ((1000 * k + j, 2 * j + 4), (next(own), 2 * j + 5))]
    return [first, second]
