#!/usr/bin/env python3
"""Solves the sheets that crates/large_trial/stdin names on its own, to compare with.

    tools/assignments.py < LINES              prints what has to be printed of the sheets that the
                                              lines name, behind what large_trial prints of its own
    tools/assignments.py --random COUNT SEED  prints lines that name random sheets
    tools/assignments.py --lines              prints the lines of crates/large_trial/stdin

It shares nothing with the crates, which add one row at a time along cheapest chains. Here a pairing
of any cost is made better by exchanges along negative cycles, until a Bellman-Ford pass over all
pairs finds none; the distances are then the greatest prices. A crowd set is made of the left blocks
without which the largest pairings stay as large, one by one. A cost of several columns is one exact
number, in which each column has 80 binary digits.

A line is `KIND N SEED COSTS PAIRS`; crates/large_trial/src/line.rt tells the words.
"""
import random
import sys
from operator import add

MOST = 10 ** 9
MASK = 2 ** 64 - 1
DIGITS = 80
COLUMNS = {
    "plain": 1, "free": 0, "two": 2, "two-free": 2, "three-left": 3, "three-right": 3,
    "four-even": 4, "four-right": 4,
}
COSTS = (
    "wide", "small", "bits", "mixed", "equal", "high", "low", "checks", "by-left", "by-right",
    "corner", "signs", "edge", "products", "steep", "apart",
)
PAIRS = ("full", "chain", "band", "crowded")


# ---- The sheets


def splitmix(seed, k):
    x = (seed + (k + 1) * 0x9e3779b97f4a7c15) & MASK
    x = (x ^ x >> 30) * 0xbf58476d1ce4e5b9 & MASK
    x = (x ^ x >> 27) * 0x94d049bb133111eb & MASK
    return x ^ x >> 31


def extreme(high):
    return MOST if high else -MOST


def column(rule, l, r, k, drawn):
    """Column k of the cost of left block l and right block r."""
    if rule == "wide" or rule == "mixed" and k > 0:
        return drawn % (2 * MOST + 1) - MOST
    if rule == "small":
        return drawn % 7 - 3
    if rule == "mixed":
        return drawn % 3 - 1
    if rule == "edge":
        return extreme(drawn % 2 == 0) - (1 if drawn % 2 == 0 else -1) * (drawn // 2 % 4)
    return {
        "bits": drawn % 2,
        "equal": 7,
        "high": MOST,
        "low": -MOST,
        "checks": extreme((l + r + k) % 2 == 0),
        "by-left": extreme((l + k) % 2 == 0),
        "by-right": extreme((r + k) % 2 == 0),
        "corner": extreme((l < r) == (k % 2 == 0)),
        "signs": extreme(drawn % 2 == 0),
        "products": (l + 1) * (r + 1),
        "steep": (l + 1) * (r + 1) * 240000,
        "apart": abs(l - r),
    }[rule]


def stands(rule, n, l, r, drawn):
    if rule == "full":
        return True
    if rule == "chain":
        return r == 0 if l == n - 1 else r in (l, l + 1)
    if rule == "band":
        return abs(l - r) <= 2
    if rule == "crowded":
        return l > n // 2 or r < n // 2
    return drawn % 100 < int(rule)


def made(n, seed, columns, costs, pairs):
    """The costs of a sheet, row by row, as numbers; None where a pair does not stand."""
    sheet = []
    for l in range(n):
        row = []
        for r in range(n):
            first = (l * 64 + r) * 8
            cost = None
            if stands(pairs, n, l, r, splitmix(seed, first + 7)):
                cost = 0
                for k in range(columns):
                    cost = (cost << DIGITS) + column(costs, l, r, k, splitmix(seed, first + k))
            row.append(cost)
        sheet.append(row)
    return sheet


def unpacked(cost, columns):
    """The columns of a cost."""
    half, digits = 1 << DIGITS - 1, []
    for _ in range(columns):
        digit = (cost + half) % (2 * half) - half
        digits.append(digit)
        cost = cost - digit >> DIGITS
    return digits[::-1]


# ---- Pairing without costs


def augmented(l, rows, owner, seen):
    """Pairs left block l too, if a chain leads to a free right block."""
    for r in rows[l]:
        if r not in seen:
            seen.add(r)
            if owner[r] is None or augmented(owner[r], rows, owner, seen):
                owner[r] = l
                return True
    return False


def largest(rows, n, without=None):
    """The left block of each right block in a largest pairing, and how many pairs that has."""
    owner = [None] * n
    pairs = sum(l != without and augmented(l, rows, owner, set()) for l in range(n))
    return owner, pairs


def crowd_of(rows, n, pairs):
    """The left blocks that some largest pairing leaves out, and of how many right blocks they are
    short."""
    crowd = [l for l in range(n) if largest(rows, n, l)[1] == pairs]
    return crowd, len(crowd) - len(set().union(*(rows[l] for l in crowd)))


def first_pairing(rows, n):
    """The first perfect pairing in dictionary order, over rows that have one: each left block in
    turn takes the least right block with which the later ones can still be paired."""
    owner, _ = largest(rows, n)
    taken = set()
    for l in range(n):
        for r in sorted(rows[l]):
            if r in taken:
                continue
            trial, loser = list(owner), owner[r]
            trial[owner.index(l)], trial[r] = None, l
            if loser == l or augmented(loser, rows, trial, taken | {r}):
                owner = trial
                taken.add(r)
                break
    return [owner.index(l) for l in range(n)]


# ---- Pairing by cost


def negative_cycles(via, partners, sheet, n):
    """Cycles of right blocks, each reached from the one before by the left block that has that one,
    along which an exchange makes the pairing cheaper."""
    owner = {r: l for l, r in enumerate(partners)}
    colour, cycles = [0] * n, []
    for start in range(n):
        path, r = [], start
        while r is not None and colour[r] == 0:
            colour[r] = 1
            path.append(r)
            r = None if via[r] is None else partners[via[r]]
        if r is not None and r in path:
            cycle = path[path.index(r):]
            gain = sum(sheet[via[r]][r] - sheet[owner[r]][r] for r in cycle)
            if gain < 0:
                cycles.append(cycle)
    return cycles


def passed(dist, via, partners, sheet, ways):
    """One pass of Bellman and Ford: the distance of each right block over one more pair; None where
    all stay."""
    base = [dist[r] - sheet[l][r] for l, r in enumerate(partners)]
    closer = [min(map(add, base, way)) for way in ways]
    changed = False
    for r, d in enumerate(closer):
        if d < dist[r]:
            via[r] = [b + c for b, c in zip(base, ways[r])].index(d)
            changed = True
    return [min(a, b) for a, b in zip(dist, closer)] if changed else None


def optimum(sheet, n, partners, far):
    """An optimum pairing and the greatest right prices, none above zero: from a pairing, exchanges
    along negative cycles until there is none."""
    ways = [[far if sheet[l][r] is None else sheet[l][r] for l in range(n)] for r in range(n)]
    dist, via, passes = [0] * n, [None] * n, 0
    while True:
        closer = passed(dist, via, partners, sheet, ways)
        if closer is None:
            return partners, dist
        dist, passes = closer, passes + 1
        cycles = negative_cycles(via, partners, sheet, n)
        if cycles:
            chosen = {via[r]: r for cycle in cycles for r in cycle}
            partners = [chosen.get(l, r) for l, r in enumerate(partners)]
            dist, via, passes = [0] * n, [None] * n, 0
        elif passes > 2 * n:
            raise AssertionError("no negative cycle, and no end")


def greedy(sheet, rows):
    """The rows with the cheapest right blocks first, so that the first pairing is not too dear."""
    return [sorted(row, key=lambda r, costs=costs: costs[r]) for row, costs in zip(rows, sheet)]


def checked(sheet, n, partners, left, right):
    """That the prices are valid and prove the pairing an optimum one."""
    assert sorted(partners) == list(range(n)) and all(price <= 0 for price in right)
    standing = [(l, r) for l in range(n) for r in range(n) if sheet[l][r] is not None]
    assert all(left[l] + right[r] <= sheet[l][r] for l, r in standing)
    assert all(left[l] + right[r] == sheet[l][r] for l, r in enumerate(partners))


def solved(n, seed, columns, costs, pairs):
    """What has to be printed of a sheet."""
    sheet = made(n, seed, columns, costs, pairs)
    rows = [{r for r in range(n) if row[r] is not None} for row in sheet]
    owner, most = largest(greedy(sheet, rows), n)
    if most < n:
        crowd, short = crowd_of(rows, n, most)
        return "unmatched %016x %d\n" % (sum(1 << l for l in crowd), short)
    partners, right = optimum(sheet, n, [owner.index(l) for l in range(n)], 1 << DIGITS * 6)
    left = [sheet[l][r] - right[r] for l, r in enumerate(partners)]
    checked(sheet, n, partners, left, right)
    tight = [{r for r in rows[l] if left[l] + right[r] == sheet[l][r]} for l in range(n)]
    shown = lambda cost: "".join(" %d" % c for c in unpacked(cost, columns))
    return "".join((
        "total" + shown(sum(sheet[l][r] for l, r in enumerate(partners))) + "\n",
        "left" + "".join(" |" + shown(price) for price in left) + "\n",
        "right" + "".join(" |" + shown(price) for price in right) + "\n",
        "tight" + "".join(" %016x" % sum(1 << r for r in row) for row in tight) + "\n",
        "first" + "".join(" %d" % r for r in first_pairing(tight, n)) + "\n",
    ))


# ---- The lines


def drawn_line(source, n, pairs):
    kind, seed = source.choice(list(COLUMNS)), source.randrange(2 ** 64)
    return "%s %d %d %s %s" % (kind, n, seed, source.choice(COSTS), pairs)


def random_lines(count, seed):
    source = random.Random(seed)
    rules = ("full", "chain", "band", "crowded", "3", "10", "20", "40", "70", "95")
    sizes = (1, 2, 3, 4, 5, 6, 8, 12, 16, 24, 32, 63, 64)
    for _ in range(count):
        pairs = source.choice(rules)
        yield drawn_line(source, source.choice(sizes), pairs)


def trial_lines():
    """Every rule of costs at 64 blocks, every kind with full, sparse and structured pairs, and
    random ones."""
    for rule in COSTS:
        yield "plain 64 1 %s full" % rule
    for rule in ("wide", "mixed", "signs", "edge"):
        for kind in COLUMNS:
            if kind not in ("plain", "free"):
                yield "%s 64 2 %s full" % (kind, rule)
    for pairs in ("full", "chain", "band", "crowded", "3", "8", "30"):
        yield "free 64 3 wide %s" % pairs
    for pairs in ("chain", "band", "crowded", "4", "6", "10", "30", "60"):
        yield "plain 64 4 wide %s" % pairs
        yield "plain 64 5 signs %s" % pairs
    for kind in COLUMNS:
        for n in (1, 2, 3):
            yield "%s %d 6 small full" % (kind, n)
        yield "%s 33 7 bits 25" % kind
        yield "%s 17 8 edge 50" % kind
    for rule in COSTS:
        yield "two 9 9 %s full" % rule
        yield "three-right 12 10 %s 45" % rule
    source = random.Random(20261118)
    rules = ("full", "chain", "band", "crowded", "15", "30", "50", "80")
    for _ in range(60):
        n, pairs = source.randrange(1, 31), source.choice(rules)
        yield drawn_line(source, n, pairs)


def main(words):
    if words[:1] == ["--random"]:
        print("\n".join(random_lines(int(words[1]), int(words[2]))))
    elif words == ["--lines"]:
        print("\n".join(trial_lines()))
    else:
        for line in sys.stdin:
            kind, n, seed, costs, pairs = line.split()
            print(line.strip())
            sys.stdout.write(solved(int(n), int(seed), COLUMNS[kind], costs, pairs))


if __name__ == "__main__":
    main(sys.argv[1:])
