#!/usr/bin/env python3
"""Makes order files, sound and damaged, for tools/outside/host_calls.c, which hands them to the
calls for C.

    tools/outside/files.py few|many [--seed S] > RECORDS

`few` are for a run under memcheck, which takes some fifty times as long as the calls alone, and
`many` for the others. A record is the length of the file in four bytes, high byte first, the file,
and in one byte the number of its first fault, or 0 where it has none. That number comes from
tools/order_files.py, which shares nothing with the crates.
"""
import argparse
import itertools
import os
import random
import struct
import sys

sys.path.insert(0, os.path.join(os.path.dirname(os.path.abspath(__file__)), ".."))
import order_files  # noqa: E402
from listings import damaged, drawn_costs, drawn_pairs, named_again  # noqa: E402
from order_files import END, LIMIT, first_fault, pair, size  # noqa: E402

MOST_BLOCKS = 64
# A file of three blocks that is small enough to be cut and changed everywhere.
SMALL = [size(3), pair(0, 0, 4), pair(1, 2, 0), pair(2, 1, -6), pair(0, 2, LIMIT), END]
# Bytes that mean something at one place or another of a file.
TELLING = (0, 1, 2, 3, 4, 10, 63, 64, 65, 127, 128, 255)
# Lengths beside those of the three tags, of one byte and of two.
LENGTHS = (0, 1, 2, 3, 9, 10, 11, 13, 255, 256, 257, 266, 2570, 0x7fff, 0x8000, 0xffff)


def sheet(source, n):
    """The fields of a sound file of n blocks a plane, with few or many pairs, which come at times
    more than once."""
    cost, stands = drawn_costs(source, n), drawn_pairs(source, n)
    pairs = [(l, r, cost(l, r)) for l in range(n) for r in range(n) if stands(l, r)]
    source.shuffle(pairs)
    if pairs and source.random() < 0.3:
        pairs = named_again(source, pairs)
    return [size(n)] + [pair(*p) for p in pairs] + [END]


def sheets(source, rounds):
    """Sheets of every size, and each with some damage too."""
    for n in list(range(1, MOST_BLOCKS + 1)) * rounds:
        fields = sheet(source, n)
        yield b"".join(fields)
        yield damaged(source, fields)


def small_sheets(source, count):
    """Sheets of so few blocks that the checker goes through all their pairings."""
    for _ in range(count):
        yield b"".join(sheet(source, source.randrange(1, 7)))


def long_files():
    """The largest sheet, cut at its end too, and a file that states pairs again and again."""
    every = b"".join(pair(k // 64, k % 64, k * k % 997 - 500) for k in range(64 * 64))
    full = size(64) + every + END
    yield full
    yield full[:-1]
    yield size(64) + every * 2 + END
    yield size(2) + pair(1, 0, 5) * 9000 + pair(0, 1, -5) + END


def cuts(data):
    return (data[:k] for k in range(len(data)))


def changed_bytes(data, values):
    for k in range(len(data)):
        for value in values:
            if value != data[k]:
                yield data[:k] + bytes([value]) + data[k + 1:]


def wrong_lengths(fields):
    """Each field with another length stated, and the bytes there or not."""
    for k, length in itertools.product(range(len(fields)), LENGTHS):
        stated = fields[k][:1] + struct.pack(">H", length)
        for value in (fields[k][3:], (fields[k][3:] + bytes(length))[:length]):
            yield b"".join(fields[:k] + [stated + value] + fields[k + 1:])


def wrong_orders():
    """A size, two pairs and an end in every order, each of them left out or there twice."""
    for count in range(5):
        for fields in itertools.product((size(2), pair(0, 1, 3), pair(1, 0, 3), END), repeat=count):
            yield b"".join(fields)


def behind_the_end(data):
    for behind in [bytes([value]) for value in range(256)] + [END, size(3), pair(0, 0, 1)]:
        yield data + behind
    for count in (2, 3, 12, 13, 14, 4000):
        yield data + bytes(count)


def files(many, seed):
    source = random.Random(seed)
    small = b"".join(SMALL)
    yield from sheets(source, 40 if many else 1)
    yield from small_sheets(source, 4000 if many else 100)
    yield from long_files()
    yield from cuts(small)
    yield from changed_bytes(small, range(256) if many else TELLING)
    yield from wrong_lengths(SMALL)
    yield from wrong_orders()
    yield from behind_the_end(small)
    yield from order_files.damaged()


def record(data):
    verdict = first_fault(data)
    number = verdict[0] if len(verdict) == 3 else 0
    return struct.pack(">I", len(data)) + data + bytes([number])


def main():
    parser = argparse.ArgumentParser()
    parser.add_argument("which", choices=("few", "many"))
    parser.add_argument("--seed", type=int, default=20261126)
    options = parser.parse_args()
    for data in files(options.which == "many", options.seed):
        sys.stdout.buffer.write(record(data))


if __name__ == "__main__":
    main()
