#!/usr/bin/env python3
"""Makes order files, sound and damaged, lists their optimum pairings on its own, and compares with
what programs print.

    tools/listings.py [--count N] [--seed S] [--jobs J] [--write FOLDER]
                      [--listing PROGRAM] [--library ARCHIVE]

Run it in the repository's root. PROGRAM is crates/listing/out/listing, which is started once for
each file. ARCHIVE is crates/chost/out/libchost.a, which tools/list_many.c is linked with, to list
many files in one run; it also makes calls that a listing does not make. --write keeps each file as
FOLDER/K.order and the expected text as FOLDER/K.txt. What differs is kept in target/listings, and
then the status is 1.

It shares nothing with the crates. What a file states is read by tools/order_files.py. Up to 8
blocks a plane all pairings are gone through and the cheapest kept. Beyond that an optimum pairing,
and prices that prove it, come from tools/assignments.py, which exchanges along negative cycles; the
optimum pairings are the perfect ones over the tight pairs, and these are found from left block to
left block, with a test at each whether the rest can still be paired.
"""
import argparse
import itertools
import multiprocessing
import os
import random
import struct
import subprocess
import sys

import assignments
from order_files import CUT, END, LIMIT, field, first_fault, pair, size, stated_cells

# So many pairings are listed at most.
MOST = 1000
# Up to so many blocks a plane all pairings are gone through.
FEW = 8
# So many files are made, listed and compared by one worker at a time.
BATCH = 50
KEPT = "target/listings"


# ---- The files


def drawn_costs(source, n):
    """A rule of costs: a function of the two blocks."""
    some = source.randrange(-LIMIT, LIMIT + 1)
    least = source.choice((2, 3, 5))
    left = [source.randrange(-LIMIT // 2, LIMIT // 2) for _ in range(n)]
    right = [source.randrange(-LIMIT // 2, LIMIT // 2) for _ in range(n)]
    sign = source.choice((1, -1))
    return source.choice((
        lambda l, r: some,
        lambda l, r: source.randrange(least),
        lambda l, r: source.randrange(-LIMIT, LIMIT + 1),
        lambda l, r: source.choice((-LIMIT, LIMIT)),
        lambda l, r: source.choice((-LIMIT, 1 - LIMIT, LIMIT - 1, LIMIT)),
        lambda l, r: left[l] + right[r],
        lambda l, r: left[l] + right[r] + (source.random() < 0.3),
        lambda l, r: sign * (l + 1) * (r + 1),
        lambda l, r: sign * abs(l - r),
    ))


def drawn_pairs(source, n):
    """Which pairs stand: a test of the two blocks."""
    share = source.choice((0.05, 0.1, 0.2, 0.4, 0.7, 0.95))
    width = source.choice((0, 1, 2, 4))
    block = source.choice((2, 3, 4))
    partners = source.sample(range(n), n)
    return source.choice((
        lambda l, r: True,
        lambda l, r: source.random() < share,
        lambda l, r: partners[l] == r or source.random() < share,
        lambda l, r: partners[l] == r or source.random() < 2 / n,
        lambda l, r: abs(l - r) <= width,
        lambda l, r: r in (l, (l + 1) % n),
        lambda l, r: l <= r,
        lambda l, r: r <= l + 1,
        lambda l, r: l // block == r // block,
        lambda l, r: l > n // 2 or r < n // 2,
    ))


def named_again(source, pairs):
    """The pairs with some of them named again, once or several times, each in any place: before,
    between and behind the others. The costs are at most as great as before, so that the sheet stays
    the one of its rules; or any costs at all."""
    any_costs = source.random() < 0.3
    named = list(pairs)
    for _ in range(source.randrange(1, 2 * len(pairs) + 1)):
        l, r, cost = source.choice(pairs)
        most = LIMIT if any_costs else cost
        reading = source.choice((cost, max(cost - 1, -LIMIT), source.randrange(-LIMIT, most + 1)))
        named.insert(source.randrange(len(named) + 1), (l, r, reading))
    return named


def drawn_fields(source):
    """The fields of a sound file, whose pairs come in any order and at times more than once."""
    n = source.randrange(1, FEW + 1) if source.random() < 0.6 else source.randrange(FEW + 1, 65)
    cost, stands = drawn_costs(source, n), drawn_pairs(source, n)
    pairs = [(l, r, cost(l, r)) for l in range(n) for r in range(n) if stands(l, r)]
    if source.random() < 0.5:
        source.shuffle(pairs)
    if pairs and source.random() < 0.4:
        pairs = named_again(source, pairs)
    return [size(n)] + [pair(*p) for p in pairs] + [END]


def other_field(source, fields):
    """A field that does not belong where it is put."""
    n = fields[0][3]
    return source.choice((
        size(source.choice((0, 1, n, 64, 65, 255))),
        END,
        field(source.choice((0, 2, 4, 255)), b""),
        field(2, bytes(source.choice((0, 1, 9, 11, 266)))),
        field(3, bytes(source.choice((1, 256)))),
        pair(n, 0, 1),
        pair(0, n, 1),
        pair(255, n - 1, LIMIT + 1),
        pair(n - 1, 0, LIMIT + 1),
        pair(0, n - 1, -LIMIT - 1),
        pair(n - 1, n - 1, source.choice((2 ** 63 - 1, -2 ** 63, 2 ** 32))),
    ))


def damaged(source, fields):
    """The file with one or two faults, if not by chance with none."""
    fields = list(fields)
    kind = source.randrange(8)
    at = source.choice((0, len(fields) - 1, source.randrange(len(fields))))
    if kind == 0:
        return b"".join(fields)[:source.randrange(len(b"".join(fields)))]
    if kind == 1:
        fields[at] = bytes([source.randrange(256)]) + fields[at][1:]
    elif kind == 2:
        fields[at] = fields[at][:1] + struct.pack(">H", source.randrange(300)) + fields[at][3:]
    elif kind == 3:
        fields[at] = other_field(source, fields)
    elif kind == 4:
        fields.insert(at, other_field(source, fields))
    elif kind == 5:
        fields[0] = size(source.choice((0, 65, 66, 128, 255)))
    elif kind == 6:
        fields.append(source.choice((b"\0", b"\1", b"\2\0", END, fields[0], bytes(40))))
    data = bytearray(b"".join(fields))
    if kind == 7 or source.random() < 0.2:
        for _ in range(source.randrange(1, 4)):
            value = source.choice((0, 1, 2, 3, 10, 64, 255, source.randrange(256)))
            data[source.randrange(len(data))] = value
    return bytes(data)


def stars(source, counts):
    """A sound file with just as many optimum pairings as the product of the counts. Of `count` left
    blocks the first can have any of as many right blocks, and each other one its own or the first
    one's, so who the first one takes it from decides all. What is added for a block decides
    nothing."""
    n = sum(counts)
    lefts, rights = source.sample(range(n), n), source.sample(range(n), n)
    added = [source.randrange(-LIMIT // 2, LIMIT // 2) for _ in range(2 * n)]
    pairs, start = [], 0
    for count in counts:
        for k in range(count):
            pairs += [(start, start + k), (start + k, start), (start + k, start + k)]
        start += count
    named = [(lefts[l], rights[r]) for l, r in pairs]
    return b"".join([size(n)] + [pair(l, r, added[l] + added[n + r]) for l, r in named] + [END])


# Files that each thousand begins with: an empty one, one that goes on after the cut, and such with
# 999, 1000 and 1001 optimum pairings.
SPECIAL = (
    lambda source: b"",
    lambda source: size(64) + pair(0, 0, 1) * (CUT // 13 + source.randrange(9)) + END,
    lambda source: stars(source, (3, 37, 3, 3)),
    lambda source: stars(source, (5, 2, 5, 2, 5, 2)),
    lambda source: stars(source, (7, 13, 11)),
)


def made(seed, index):
    """The file of that number."""
    source = random.Random("%d %d" % (seed, index))
    if index % 1000 < len(SPECIAL):
        return SPECIAL[index % 1000](source)
    fields = drawn_fields(source)
    return damaged(source, fields) if source.random() < 0.3 else b"".join(fields)


# ---- Their optimum pairings


def all_pairings(rows):
    """The perfect pairings over rows of right blocks in dictionary order, by trying all."""
    if all(len(row) == len(rows) for row in rows):
        yield from itertools.permutations(range(len(rows)))
        return
    stack = [()]
    while stack:
        begun = stack.pop()
        if len(begun) == len(rows):
            yield begun
        else:
            free = sorted(rows[len(begun)].difference(begun), reverse=True)
            stack.extend(begun + (r,) for r in free)


def chain(rows, owner, start, aim, least):
    """How right blocks are reached from left block `start`, by alternating pairs of left blocks of
    `least` or above, until block `aim` is; None if it is not."""
    came, left = {}, [start]
    for k in left:
        if aim in rows[k]:
            came[aim] = k
            return came
        for c in rows[k]:
            if c not in came and owner[c] >= least:
                came[c] = k
                left.append(owner[c])
    return None


def owners(partners):
    """The left block of each right block."""
    return dict(zip(partners, range(len(partners))))


def exchanged(rows, partners, owner, l, r):
    """A perfect pairing in which left block l has right block r and those before it keep theirs; or
    None. `partners` is a perfect one, and `owner` its owners."""
    if partners[l] == r:
        return partners
    came = chain(rows, owner, owner[r], partners[l], l + 1) if owner[r] > l else None
    if came is None:
        return None
    pairing, c = list(partners), partners[l]
    pairing[l] = r
    while c != r:
        k = came[c]
        c, pairing[k] = pairing[k], c
    return pairing


def pairings_from(rows, partners, l):
    """The perfect pairings that agree with a perfect one before left block l, in order."""
    if l == len(rows):
        yield tuple(partners)
        return
    owner = owners(partners)
    for r in sorted(r for r in rows[l] if owner[r] >= l):
        found = exchanged(rows, partners, owner, l, r)
        if found:
            yield from pairings_from(rows, found, l + 1)


def following(rows, pairing):
    """The perfect pairing that comes next, or None."""
    owner = owners(pairing)
    for l in reversed(range(len(rows))):
        for r in sorted(r for r in rows[l] if r > pairing[l]):
            found = exchanged(rows, pairing, owner, l, r)
            if found:
                return next(pairings_from(rows, found, l + 1))
    return None


def tight_rows(cells, n):
    """The tight pairs under prices that prove a pairing optimum, and that pairing; None where no
    pairing is perfect."""
    sheet = [[cells.get((l, r)) for r in range(n)] for l in range(n)]
    rows = [{r for r in range(n) if row[r] is not None} for row in sheet]
    owner, most = assignments.largest(assignments.greedy(sheet, rows), n)
    if most < n:
        return None
    partners, right = assignments.optimum(sheet, n, [owner.index(l) for l in range(n)], 2 ** 60)
    left = [sheet[l][r] - right[r] for l, r in enumerate(partners)]
    assignments.checked(sheet, n, partners, left, right)
    return [{r for r in rows[l] if left[l] + right[r] == sheet[l][r]} for l in range(n)], partners


def by_prices(cells, n):
    """The first optimum pairings, one more than are listed, and the tight pairs; or None."""
    solved = tight_rows(cells, n)
    if solved is None:
        return None
    rows, partners = solved
    return list(itertools.islice(pairings_from(rows, partners, 0), MOST + 1)), rows


def by_trying(cells, n):
    """All optimum pairings, and the pairs that stand; or None."""
    rows = [{r for r in range(n) if (l, r) in cells} for l in range(n)]
    costs = [[cells.get((l, r)) for r in range(n)] for l in range(n)]
    least, best = None, []
    for pairing in all_pairings(rows):
        total = sum(row[r] for row, r in zip(costs, pairing))
        if least is None or total < least:
            least, best = total, []
        if total == least:
            best.append(pairing)
    return (best, rows) if best else None


# ---- What has to be printed


class Case:
    """A file, what a listing of it is, and a pairing to go on from with what then comes."""

    def __init__(self, seed, index):
        self.index, self.data = index, made(seed, index)
        source = random.Random("%d %d probe" % (seed, index))
        verdict = first_fault(self.data[:CUT])
        if len(verdict) == 3:
            self.refused(verdict[0])
            return
        n, pairs = verdict
        cells = stated_cells(pairs)
        found = by_trying(cells, n) if n <= FEW else by_prices(cells, n)
        if found is None:
            self.refused(6, source.sample(range(n), n))
            return
        optima, rows = found
        if n <= FEW and index % 7 == 0:
            assert by_prices(cells, n)[0] == optima[:MOST + 1]
        self.total = "total %d\n" % sum(cells[l, r] for l, r in enumerate(optima[0]))
        self.lines = "".join(line("pairing", p) for p in optima[:MOST])
        self.lines += "more\n" if len(optima) > MOST else "end\n"
        self.probe, self.after = probed(source, n, optima, rows, cells)

    def refused(self, number, probe=(0,)):
        self.total, self.lines = "", "refused %d\n" % number
        self.probe, self.after = probe, "after refused %d\n" % number


def line(word, pairing):
    return word + "".join(" %d" % r for r in pairing) + "\n"


def probed(source, n, optima, rows, cells):
    """A pairing to go on from, an optimum one or not, and what the call after it has to answer."""
    kind = source.randrange(4)
    if kind == 0:
        pairing = source.sample(range(n), n)
    elif kind == 1:
        pairing = list(source.choice(optima))
        pairing[source.randrange(n)] = source.choice((0, n - 1, n, 255, source.randrange(n)))
    elif kind == 2 and n > FEW:
        pairing = wandered(source, rows, optima[0])
    else:
        pairing = source.choice((optima[-1], source.choice(optima)))
    pairing = tuple(pairing)
    if n <= FEW:
        if pairing not in optima:
            return pairing, "after refused 7\n"
        later = optima[optima.index(pairing) + 1:]
        return pairing, line("after", later[0]) if later else "after end\n"
    if len(set(pairing)) < n or any(r not in row for r, row in zip(pairing, rows)):
        return pairing, "after refused 7\n"
    later = following(rows, pairing)
    return pairing, line("after", later) if later else "after end\n"


def wandered(source, rows, pairing):
    """Some perfect pairing, maybe far from the first one."""
    for _ in range(10):
        l = source.randrange(len(rows))
        found = exchanged(rows, pairing, owners(pairing), l, source.choice(sorted(rows[l])))
        pairing = found or pairing
    return pairing


# ---- What programs print


def run(command, data):
    """What a program prints, and its status if that is not 0."""
    try:
        done = subprocess.run(command, input=data, stdout=subprocess.PIPE, timeout=300)
    except subprocess.TimeoutExpired:
        return "no end\n"
    status = "status %d\n" % done.returncode if done.returncode else ""
    return done.stdout.decode("latin-1") + status


def differs(case, name, wanted, got):
    """Keeps what differs, and tells where."""
    os.makedirs(KEPT, exist_ok=True)
    path = os.path.join(KEPT, "%d." % case.index)
    for ending, content in (("order", case.data), ("wanted", wanted), (name, got)):
        with open(path + ending, "wb") as out:
            out.write(content if isinstance(content, bytes) else content.encode())
    lines = itertools.zip_longest(wanted.split("\n"), got.split("\n"), fillvalue="nothing")
    number, (want, have) = next((k, x) for k, x in enumerate(lines, 1) if x[0] != x[1])
    return "%s: file %d, line %d: wanted %s, got %s" % (name, case.index, number, want, have)


def many(driver, cases):
    """What the driver prints of each of the files."""
    records = []
    for case in cases:
        probe = bytes(case.probe)
        records.append(struct.pack(">I", len(case.data)) + case.data + bytes([len(probe)]) + probe)
    texts = run([driver], b"".join(records)).split("done\n")
    return texts + [""] * (len(cases) - len(texts))


def worked(task):
    """Makes, lists and compares a batch of files: what differs, and how each listing ends."""
    indices, options, driver = task
    cases = [Case(options.seed, index) for index in indices]
    told = []
    for case in cases:
        wanted = case.total + case.lines
        if options.write:
            for ending, content in (("order", case.data), ("txt", wanted.encode())):
                with open(os.path.join(options.write, "%d.%s" % (case.index, ending)), "wb") as out:
                    out.write(content)
        if options.listing:
            got = run([options.listing], case.data)
            if got != wanted:
                told.append(differs(case, "listing", wanted, got))
    if driver:
        for case, got in zip(cases, many(driver, cases)):
            if got != case.lines + case.after:
                told.append(differs(case, "library", case.lines + case.after, got))
    return told, [case.lines.splitlines()[-1] for case in cases]


def built(archive):
    """tools/list_many.c with the library."""
    os.makedirs(KEPT, exist_ok=True)
    driver = os.path.join(KEPT, "list_many")
    sources = ["tools/list_many.c", "examples/c/listing.c", archive]
    flags = "-std=c99 -Wall -Wextra -Werror -O2".split()
    subprocess.run(["gcc"] + flags + ["-o", driver] + sources, check=True)
    return driver


def main():
    parser = argparse.ArgumentParser()
    parser.add_argument("--count", type=int, default=10000)
    parser.add_argument("--seed", type=int, default=20261126)
    parser.add_argument("--jobs", type=int, default=4)
    parser.add_argument("--write")
    parser.add_argument("--listing")
    parser.add_argument("--library")
    options = parser.parse_args()
    driver = built(options.library) if options.library else None
    if options.write:
        os.makedirs(options.write, exist_ok=True)
    indices = range(options.count)
    batches = [indices[k:k + BATCH] for k in range(0, options.count, BATCH)]
    ends, wrong = {}, 0
    with multiprocessing.Pool(options.jobs) as pool:
        tasks = ((batch, options, driver) for batch in batches)
        for told, lasts in pool.imap_unordered(worked, tasks):
            for text in told:
                print(text)
            wrong += len(told)
            for last in lasts:
                ends[last] = ends.get(last, 0) + 1
    print(", ".join("%d %s" % (ends[last], last) for last in sorted(ends)))
    print("%d files, %d differ" % (options.count, wrong))
    return 1 if wrong else 0


if __name__ == "__main__":
    sys.exit(main())
