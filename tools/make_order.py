#!/usr/bin/env python3
"""Makes an order file of lines: what `inspect` prints of a file, made a file again.

    tools/make_order.py < samples/three-blocks.txt > three-blocks.order

The lines, each with the words that stand here:

    size N          the number of blocks a plane, first of all
    pair L R COST   a pair of left block L and right block R, both from 0, and its cost
    end             last of all

Blank lines and lines that begin with # are passed over. Nothing is checked but that each line is
one of these and its numbers fit into the fields (N, L and R into one byte, COST into eight):
whether the file is sound is for `inspect` to say. Nothing is written before all lines are read, so
a bad line leaves no part of a file behind; it is told on standard error, with status 1.
"""
import sys

from order_files import END, pair, size

# What follows each word, and what makes its field.
WORDS = {"size": ("N", size), "pair": ("L R COST", pair), "end": ("", lambda: END)}
# What a field has room for.
BYTE, EIGHT_BYTES = range(2 ** 8), range(-2 ** 63, 2 ** 63)
ROOM = {"N": BYTE, "L": BYTE, "R": BYTE, "COST": EIGHT_BYTES}


def number(place, word):
    """The number that a word writes in a place of a line."""
    try:
        value = int(word)
    except ValueError:
        raise ValueError(f"{place} is a whole number, and not {word!r}") from None
    room = ROOM[place]
    if value not in room:
        raise ValueError(f"{place} is from {room[0]} to {room[-1]}, and not {value}")
    return value


def field_of(line):
    """The field that a line names, or nothing of a line that is passed over."""
    word, *words = line.split() or ["#"]
    if word.startswith("#"):
        return b""
    if word not in WORDS:
        raise ValueError(f"{word!r} is none of size, pair and end")
    form, make = WORDS[word]
    places = form.split()
    if len(words) != len(places):
        raise ValueError(f"write `{word} {form}`" if form else f"write `{word}` alone")
    return make(*map(number, places, words))


def fields(lines):
    """The fields of all lines, one behind the other."""
    made = []
    for number, line in enumerate(lines, 1):
        try:
            made.append(field_of(line.decode()))
        except UnicodeDecodeError:
            sys.exit(f"line {number}: this is not text in UTF-8")
        except ValueError as error:
            sys.exit(f"line {number}: {error}")
    return b"".join(made)


def main():
    if sys.argv[1:] in (["--help"], ["-h"]):
        print(__doc__, end="")
    elif sys.argv[1:]:
        print(__doc__, end="", file=sys.stderr)
        sys.exit(2)
    else:
        sys.stdout.buffer.write(fields(sys.stdin.buffer))


main()
