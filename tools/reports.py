"""Order files, and the listing and the map of each.

It is written from docs/order-files.md and docs/refusals.md alone, and finds optimum pairings by
going through all perfect ones and the crowd set by its definition, so the comparison in the gate is
with plain enumeration. texts.py takes its runs of `listing` and `inspect map` from here.
"""
import itertools
import random

from order_files import END, LIMIT, first_fault, pair, readings, size, stated_cells

# a listing has at most so many pairings
MOST = 1000


def causes():
    """What docs/refusals.md tells of each cause: whether a refusal for it has a place in a file or
    a text, what it means, and what to do."""
    rows = [line.strip("| \n").split(" | ") for line in open("docs/refusals.md")]
    return {int(row[0]): (row[4] != "0", row[5], row[6]) for row in rows if row[0].isdigit()}


WORDS = {number: (meaning, remedy) for number, (_, meaning, remedy) in causes().items()}


def perfect_pairings(n, cells):
    """All perfect pairings of the standing pairs, in dictionary order."""
    rows = [sorted(r for r in range(n) if (l, r) in cells) for l in range(n)]
    chosen = []

    def extend():
        if len(chosen) == n:
            yield list(chosen)
            return
        for r in rows[len(chosen)]:
            if r not in chosen:
                chosen.append(r)
                yield from extend()
                chosen.pop()

    return extend()


def optimum_pairings(n, cells):
    """The perfect pairings of least total, and that total."""
    perfect = [(sum(cells[l, r] for l, r in enumerate(p)), p) for p in perfect_pairings(n, cells)]
    least = min((total for total, _ in perfect), default=None)
    return [p for total, p in perfect if total == least], least


def matched(n, cells, left_out=None):
    """How many left blocks a largest pairing pairs, without the one that is left out."""
    holder = {}

    def pairs(l, seen):
        for r in range(n):
            if (l, r) in cells and r not in seen:
                seen.add(r)
                if r not in holder or pairs(holder[r], seen):
                    holder[r] = l
                    return True
        return False

    return sum(pairs(l, set()) for l in range(n) if l != left_out)


def crowd_lines(n, cells):
    """The left blocks that some largest pairing leaves out, and how many right blocks they are
    short of."""
    most = matched(n, cells)
    crowd = [l for l in range(n) if matched(n, cells, l) == most]
    around = {r for l, r in cells if l in crowd}
    return ["crowd set: left blocks" + "".join(" %d" % l for l in crowd),
            "shortage: %d" % (len(crowd) - len(around))]


def listing(optima, total):
    lines = ["pairing" + "".join(" %d" % r for r in p) + "\n" for p in optima[:MOST]]
    last = "more\n" if len(optima) > MOST else "end\n"
    return "total %d\n" % total + "".join(lines) + last


def sheet_map(n, cells, optima, total):
    occurring = {(l, r) for p in optima for l, r in enumerate(p)}

    def cell(l, r):
        if (l, r) not in cells:
            return "."
        mark = "*" if optima[0][l] == r else "+" if (l, r) in occurring else ""
        return mark + str(cells[l, r])

    texts = [[cell(l, r) for r in range(n)] for l in range(n)]
    width = max([2] + [len(text) for row in texts for text in row])
    lines = ["  " + "".join(" " + str(r).rjust(width) for r in range(n))]
    lines += [str(l).rjust(2) + "".join(" " + t.rjust(width) for t in texts[l]) for l in range(n)]
    legend = "* first optimum pairing, + another optimum pairing, . absent"
    return "total %d\n" % total + "\n".join(lines + [legend]) + "\n"


def explained(number, place, between=()):
    where = "" if place is None else " at byte %d" % place
    meaning, remedy = WORDS[number]
    lines = ["refused %d%s: %s" % (number, where, meaning), *between, remedy]
    return "\n".join(lines) + "\n"


def refusals():
    """Every cause in words, each at a place of its own."""
    return "".join(explained(number, number + 99 if placed else None)
                   for number, (placed, _, _) in sorted(causes().items()))


def told(data):
    """The listing of a file, and its map."""
    verdict = first_fault(data)
    if len(verdict) == 3:
        return "refused %d\n" % verdict[0], explained(verdict[0], verdict[1])
    n, pairs = verdict
    cells = stated_cells(pairs)
    optima, total = optimum_pairings(n, cells)
    if not optima:
        return "refused 6\n", explained(6, None, crowd_lines(n, cells))
    return listing(optima, total), sheet_map(n, cells, optima, total)


def order(n, cells):
    return size(n) + b"".join(pair(l, r, c) for (l, r), c in sorted(cells.items())) + END


def square(k, pairings):
    """The standing pairs of k left and k right blocks that hold just so many perfect pairings."""
    places = list(itertools.product(range(k), repeat=2))
    source = random.Random(pairings)
    while True:
        cells = {place: 0 for place in places if source.random() < 0.7}
        if sum(1 for _ in perfect_pairings(k, cells)) == pairings:
            return cells


def product(*parts):
    """Sheets side by side, of which the pairings multiply."""
    cells, base = {}, 0
    for k, pairings in parts:
        for (l, r), cost in square(k, pairings).items():
            cells[base + l, base + r] = cost
        base += k
    return order(base, cells)


def sheets():
    yield order(1, {})
    yield order(1, {(0, 0): -LIMIT})
    yield order(3, {(0, 0): 4, (0, 1): 2, (1, 0): 3, (1, 1): 1, (1, 2): 5, (2, 1): 6, (2, 2): 2})
    # the ends of the range, and a wide column
    yield order(2, {(0, 0): LIMIT, (0, 1): -LIMIT, (1, 0): -LIMIT, (1, 1): LIMIT})
    yield order(2, {(l, r): LIMIT for l in range(2) for r in range(2)})
    # as many pairings as a listing has, one more, and many more
    yield product((4, 10), (4, 10), (4, 10))
    yield product((4, 7), (4, 11), (5, 13))
    yield order(7, {(l, r): 3 for l in range(7) for r in range(7)})
    # many blocks: one pairing, and none
    yield order(64, {(l, 63 - l): l - 40 for l in range(64)})
    yield order(64, {(l, min(l, 62)): 0 for l in range(64)})


def repeated():
    """Files that name a pair several times. Where it is one, the two pairings cost the same just if
    its greatest cost counts; where two are named by turns, the total tells which costs count."""
    for costs in readings():
        others = pair(0, 1, max(costs)) + pair(1, 0, 0)
        yield size(2) + others.join(pair(0, 0, cost) for cost in costs) + pair(1, 1, 0) + END
        twice = (pair(0, 0, cost) + pair(1, 1, -cost) for cost in costs)
        yield size(2) + others + b"".join(twice) + END


def refused():
    sound = size(3) + pair(0, 0, 4) + END
    yield b""
    yield sound[:-1]
    yield sound + b"\0"
    yield size(65) + END
    yield size(3) + pair(0, 3, 1) + END
    yield size(3) + pair(0, 0, LIMIT + 1) + END
    yield b"\1\0\2\0\3" + END
    yield END


def random_sheets(count):
    source = random.Random(20261126)
    for _ in range(count):
        n = source.randrange(1, 7)
        costs = source.choice(((0,), (0, 1), (-2, 3, 5), range(-LIMIT, LIMIT + 1)))
        dense = source.choice((0.4, 0.7, 1))
        yield order(n, {(l, r): source.choice(costs) for l in range(n) for r in range(n)
                        if source.random() < dense})


def runs():
    """Runs of `listing` and of `inspect map`, and the refusals: the words, the input, and what has
    to be printed."""
    yield "refusals", b"", refusals()
    crowded = open("samples/crowded.order", "rb").read()
    for data in [crowded, *sheets(), *repeated(), *refused(), *random_sheets(300)]:
        lines, table = told(data)
        yield "listing", data, lines
        yield "inspect map", data, table
