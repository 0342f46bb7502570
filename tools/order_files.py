"""Order files, sound and damaged, one of which is longer than what is read of it, and what each one
states.

It is written from docs/order-files.md and docs/refusals.md alone and shares nothing with the
crates, so the comparison in the gate is one of two independent readers. texts.py takes its runs of
`inspect` from here.
"""
import itertools
import random
import struct

LIMIT = 10 ** 9
# an input is judged by so many bytes of it
CUT = 65536


def field(tag, value):
    return bytes([tag]) + struct.pack(">H", len(value)) + value


def size(n):
    return field(1, bytes([n]))


def pair(left, right, cost):
    return field(2, bytes([left, right]) + struct.pack(">q", cost))


END = field(3, b"")


def first_fault(data):
    """The first fault of a file as (number, place, layer), or the order that it states as (n,
    pairs)."""
    at, n, ended, pairs = 0, None, False, []
    while True:
        if ended:
            return (9, at, 2) if at < len(data) else (n, pairs)
        header = data[at:at + 3]
        length = struct.unpack(">H", header[1:])[0] if len(header) == 3 else 0
        if len(header) < 3 or len(data) < at + 3 + length:
            return (8, at, 1)
        tag, value = header[0], data[at + 3:at + 3 + length]
        if tag not in ((1,) if n is None else (2, 3)):
            return (9, at, 2)
        if length != {1: 1, 2: 10, 3: 0}[tag]:
            return (10, at, 2)
        if tag == 1:
            n = value[0]
            if n == 0 or n > 64:
                return (1, at, 3)
        elif tag == 2:
            left, right, cost = struct.unpack(">BBq", value)
            if left >= n or right >= n:
                return (3, at, 3)
            if abs(cost) > LIMIT:
                return (4, at, 3)
            pairs.append((left, right, cost))
        else:
            ended = True
        at += 3 + length


def stated_cells(pairs):
    """What each pair that is named costs: the greatest of its costs, wherever it stands."""
    costs = {}
    for l, r, c in pairs:
        costs.setdefault((l, r), []).append(c)
    return {named: max(readings) for named, readings in costs.items()}


def sheet_lines(n, pairs):
    """What is printed of a sheet."""
    cells = stated_cells(pairs)
    lines = ["pair %d %d %d\n" % (l, r, cells[l, r]) for l, r in sorted(cells)]
    return "size %d\n" % n + "".join(lines) + "end\n"


def text(data):
    verdict = first_fault(data)
    return "refused %d at %d layer %d\n" % verdict if len(verdict) == 3 else sheet_lines(*verdict)


def damaged():
    """Every kind of damage, by hand."""
    sound = size(3) + pair(0, 0, 4) + pair(2, 1, -6) + END
    yield b""
    yield sound
    for k in range(len(sound)):
        yield sound[:k]
    for k in (0, 4, 17, 30):
        for tag in range(256):
            yield sound[:k] + bytes([tag]) + sound[k + 1:]
    for value in (b"", b"\3\0", b"\3" * 300):
        yield field(1, value) + END
    for value in (b"", b"\0" * 9, b"\0" * 11, b"\0" * 266):
        yield size(3) + field(2, value) + END
    for value in (b"\0", b"\0" * 256):
        yield size(3) + field(3, value)
    yield pair(0, 0, 1) + size(3) + END
    yield END
    yield size(3) + size(3) + END
    yield size(3) + END + END
    for extra in (b"\0", b"\1", b"\2\0", b"\3\0\0", bytes(40)):
        yield sound + extra
    for n in (0, 1, 63, 64, 65, 128, 255):
        yield size(n) + END
    for n in (1, 3, 64):
        for left, right in ((n - 1, n - 1), (n, 0), (0, n), (n, n), (255, 0), (0, 255)):
            yield size(n) + pair(left, right, 1) + END
    within = (0, 1, -1, LIMIT, -LIMIT)
    for cost in within + (LIMIT + 1, -LIMIT - 1, 2 ** 63 - 1, -2 ** 63, 2 ** 32, -2 ** 32):
        yield size(2) + pair(1, 0, cost) + END
    # several faults in one field: the first in the order of the checks counts
    yield size(3) + field(9, b"\0" * 5)[:6]
    yield size(3) + field(9, b"\0" * 5)
    yield size(3) + pair(3, 3, LIMIT + 1) + END
    yield size(0)
    yield size(3) + pair(0, 3, 1) + field(7, b"")


def readings():
    """The costs of a pair that is named twice or three times: each order of some costs, so that the
    greatest comes first, in the middle and last. They are on both sides of zero, which is what the
    table holds of an absent pair, and at both ends of the limit; and some are equal."""
    for costs in ((5, -7), (-7, -9), (3, 3), (LIMIT, -LIMIT), (4, 9, 1), (-2, -5, -3), (6, 6, -8),
                  (-8, -8, -6), (0, 0, 0), (LIMIT, LIMIT - 1, -LIMIT)):
        yield from sorted(set(itertools.permutations(costs)))


def repeated():
    """Files that name a pair several times: one time after the other, with another pair between
    them, and with one between them that is named as often, at the same costs turned round."""
    for costs in readings():
        named = [pair(1, 1, cost) for cost in costs]
        others = [pair(0, 1, cost) for cost in reversed(costs)]
        yield size(2) + b"".join(named) + END
        yield size(2) + pair(1, 0, 2).join(named) + END
        yield size(2) + b"".join(a + b for a, b in zip(named, others)) + END


def random_files(count):
    source = random.Random(20261117)
    for _ in range(count):
        n = source.choice((1, 2, 3, 5, 8, 64))
        data, named = size(n), []
        for _ in range(source.randrange(12)):
            wide = source.random() < 0.1
            left, right = source.randrange(n + wide), source.randrange(n)
            if named and source.random() < 0.3:
                left, right = source.choice(named)
            named.append((left, right))
            costs = (0, 7, -LIMIT, LIMIT, source.randrange(-LIMIT, LIMIT + 1 + wide))
            data += pair(left, right, source.choice(costs))
        data += END
        if source.random() < 0.5:
            data = bytearray(data)
            for _ in range(source.randrange(1, 4)):
                byte = source.choice((0, 1, 2, 3, 10, 255, source.randrange(256)))
                data[source.randrange(len(data))] = byte
            data = bytes(data)[:source.choice((len(data), source.randrange(len(data) + 1)))]
        yield data
    every = (pair(k // 64, k % 64, k * 1000 - 5) for k in range(64 * 64))
    full = size(64) + b"".join(every) + END
    yield full
    yield full[:-1]


def long_file():
    """A sound file of which the cut leaves all but the last byte of a pair field."""
    pairs = (pair(k // 64 % 64, k % 64, k * 1000 - 5) for k in range(5045))
    return size(64) + b"".join(pairs) + END


def runs():
    """Runs of `inspect`: its words, its input, and what it has to print."""
    for data in [*damaged(), *repeated(), *random_files(500)]:
        yield "inspect", data, text(data)
    long = long_file()
    assert len(long) > CUT and len(first_fault(long)) == 2
    yield "inspect", long, text(long[:CUT])
