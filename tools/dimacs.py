#!/usr/bin/env python3
"""Reads assignment texts on its own, and makes what crates/import_trial reads and has to print.

    tools/dimacs.py input [SEED [COUNT]]   prints texts, each as a line of hex: every kind of damage
                                           by hand, and COUNT random texts. With no words behind it
                                           that is crates/import_trial/stdin
    tools/dimacs.py expect < LINES         prints what has to be printed of the texts of such lines
    tools/dimacs.py read < TEXT            prints what has to be printed of a text

The reader is written from docs/dimacs.md alone and shares nothing with the crates, so the
comparison in the gate is one of two independent readers.
"""
import random
import sys

from order_files import readings, sheet_lines

LIMIT = 10 ** 9
DIGITS = b"0123456789"
SEED, COUNT = 20261127, 700


# ---- The reader


def is_number(word):
    """Whether a word is a run of one digit or more."""
    return word != b"" and all(byte in DIGITS for byte in word)


def is_signed(word):
    """The same, with or without a single - before it."""
    return is_number(word[1:]) if word[:1] == b"-" else is_number(word)


def number(word):
    """The number that a word writes, however long it is."""
    if word[:1] == b"-":
        return -number(word[1:])
    value = 0
    for byte in word:
        value = 10 * value + DIGITS.index(byte)
    return value


def form(line):
    """The form of a line, by its first word, with the numbers that it names; or None."""
    if line[:1] == b"c":
        return "c", []
    words = line.split(b" ")
    if words[:2] == [b"p", b"asn"] and len(words) == 4:
        name, numbers, forms = "p", words[2:], (is_number, is_number)
    elif words[0] == b"n" and len(words) == 2:
        name, numbers, forms = "n", words[1:], (is_number,)
    elif words[0] == b"a" and len(words) == 4:
        name, numbers, forms = "a", words[1:], (is_number, is_number, is_signed)
    else:
        return None
    if not all(has_form(word) for has_form, word in zip(forms, numbers)):
        return None
    return name, [number(word) for word in numbers]


def verdict(text):
    """What a text states as ("states", n, arcs), each arc a left block, a right block and a cost;
    or its first fault as (number, place, layer)."""
    at, n, nodes, arcs = 0, None, 0, []
    while at < len(text):
        end = text.find(b"\n", at)
        found = None if end < 0 else form(text[at:end])
        if found is None:
            return 12, at, 2
        name, numbers = found
        if name == "p":
            if n is not None:
                return 12, at, 2
            problem_at, nodes_stated, arcs_stated = at, *numbers
            n = nodes_stated // 2
            if n == 0 or n > 64:
                return 1, at, 3
        elif name == "n":
            if n is None or nodes == n or numbers[0] != nodes + 1:
                return 12, at, 2
            nodes += 1
        elif name == "a":
            if n is None or nodes < n:
                return 12, at, 2
            i, j, w = numbers
            if not 1 <= i <= n or not n + 1 <= j <= 2 * n:
                return 3, at, 3
            if not -LIMIT <= w <= LIMIT:
                return 4, at, 3
            arcs.append((i - 1, j - n - 1, w))
        at = end + 1
    if n is None or nodes < n:
        return 12, len(text), 2
    if nodes_stated % 2 == 1 or len(arcs) != arcs_stated:
        return 13, problem_at, 2
    return "states", n, arcs


def told(text):
    """What has to be printed of a text."""
    answer = verdict(text)
    if answer[0] == "states":
        return sheet_lines(*answer[1:])
    return "refused %d at %d layer %d\n" % answer


# ---- Texts by hand

# every kind of line, a pair that comes twice with the greater cost last, a comment
SAMPLE = b"c x\np asn 4 3\nn 1\nn 2\na 1 3 -7\na 2 4 10\na 1 3 5\n"
PAGE = (b"c the sheet of the README\np asn 6 7\nn 1\nn 2\nn 3\na 1 4 4\na 1 5 2\na 2 4 3\n"
        b"a 2 5 1\na 2 6 5\na 3 5 6\na 3 6 2\n")
# A text with a place for each number, and sound numbers for these. The node is the second one.
PLACES = b"c\np asn %(N)s %(M)s\nn 1\nn %(node)s\na 1 4 9\na %(I)s %(J)s %(W)s\n"
SOUND = {b"N": 4, b"M": 2, b"node": 2, b"I": 1, b"J": 3, b"W": 6}
# words that are no numbers, though some of them look like one, and some that are
ODD_WORDS = (
    b"", b"-", b"+", b"+5", b"--5", b"-+5", b"5-", b"- 5", b"5.0", b"5.", b"5e0", b"0x5", b"1_0",
    b"5,", b"\t5", b"5\t", b"5\r", b"\v5", b"5\f", b"5\0", b"\0", b"\xff", b"5\xa0", b"\xc2\xb2",
    b"\xd9\xa3", b"\xef\xbc\x95", b"five", b"n", b"c", b"-0", b"-00", b"-5", b"0", b"00", b"000005",
    b"-0000000000005", b"5 5", b"/", b":", b"5/", b"5:",
)
COMMENTS = (
    b"c", b"c ", b"cc", b"cfoo", b"c  two  blanks ", b"c\tx\r", b"c p asn 4 3", b"ca 1 3 5",
    b"c\0\x01\xfe\xff", b"c \xc3\x28 \xed\xa0\x80", b"c" + bytes(range(11, 256)), b"c" * 300,
)


def placed(**words):
    """The text with these words in place of the sound numbers of that name."""
    sound = {place: b"%d" % value for place, value in SOUND.items()}
    return PLACES % {**sound, **{place.encode(): word for place, word in words.items()}}


def text_of(nodes_stated, arcs_stated, nodes, arcs, front=b""):
    """The text of a problem line, node lines and arcs, behind some other lines."""
    lines = [b"p asn %d %d\n" % (nodes_stated, arcs_stated)]
    lines += [b"n %d\n" % node for node in nodes] + [b"a %d %d %d\n" % arc for arc in arcs]
    return front + b"".join(lines)


def bytes_damaged():
    """The sample with each byte changed, dropped and doubled, with one more before each, and cut
    before each."""
    for k in range(len(SAMPLE)):
        for byte in b"0139pnac \n-+\t\r\0\xff":
            if byte != SAMPLE[k]:
                yield SAMPLE[:k] + bytes([byte]) + SAMPLE[k + 1:]
        yield SAMPLE[:k] + SAMPLE[k + 1:]
        yield SAMPLE[:k + 1] + SAMPLE[k:]
        yield SAMPLE[:k]
        if k > 0:
            yield SAMPLE[:k - 1] + SAMPLE[k:k + 1] + SAMPLE[k - 1:k] + SAMPLE[k + 1:]


def lines_damaged():
    """The sample with each line left out, doubled, moved and changed by a word or a blank."""
    lines = SAMPLE.splitlines(keepends=True)
    for k, line in enumerate(lines):
        rest = lines[:k] + lines[k + 1:]
        for at in range(len(lines)):
            yield b"".join(rest[:at] + [line] + rest[at:])
        for at in range(len(lines) + 1):
            yield b"".join(lines[:at] + [line] + lines[at:])
        yield b"".join(rest)
        bare, words = line[:-1], line[:-1].split(b" ")
        for other in (
            b" " + bare, bare + b" ", b"\t" + bare, bare + b"\t", bare + b"\r", bare + b" 1",
            bare + b" x", bare.replace(b" ", b"\t", 1), bare.replace(b" ", b"", 1), bare.upper(),
            b" ".join(words[:-1]), b" ".join(words[1:]), b" ".join(words[::-1]), words[0], b"",
            b" ", bare + b"\n", b"\n" + bare, bare + b"c", b"#" + bare,
        ):
            yield b"".join(lines[:k] + [other + b"\n"] + lines[k + 1:])
        for comment in COMMENTS:
            yield b"".join(lines[:k] + [comment + b"\n"] + lines[k:])
    for comment in COMMENTS:
        yield SAMPLE + comment + b"\n"
        yield SAMPLE + comment
        yield comment + b"\n"
    for line in (b"p", b"p asn", b"p asn 4", b"p max 4 3", b"p ASN 4 3", b"p asns 4 3", b"p as 4 3",
                 b"pasn 4 3", b"p asn4 3", b"asn 4 3", b"q asn 4 3", b"p asn 4 3 0"):
        yield b"c x\n" + line + SAMPLE[SAMPLE.index(b"\nn"):]
    yield SAMPLE.replace(b"\n", b"\r\n")
    yield SAMPLE.replace(b"\n", b"\r")
    yield SAMPLE.replace(b"\n", b"\0")
    yield b"\xef\xbb\xbf" + SAMPLE


def words_damaged():
    """Each number as a word that is none, or an unusual one; and as a number that a reader may
    take for the sound one, if it keeps too few digits of it."""
    for place, sound in SOUND.items():
        put = lambda word, place=place: placed(**{place.decode(): word})
        for word in ODD_WORDS:
            yield put(word)
        for bits in (7, 8, 15, 16, 31, 32, 63, 64, 127, 128):
            for value in (-1, 0, 1, sound, -sound):
                yield put(b"%d" % (2 ** bits + value))
                if place == b"W" or value == -sound:
                    yield put(b"-%d" % (2 ** bits + value))
            yield put(b"%d" % (3 * 2 ** bits + sound))
        for power in (9, 10, 18, 19, 20, 38, 39):
            yield put(b"%d" % (10 ** power + sound))
        # a thousand digits: zeros before it, and numbers of which it is the end or the remainder
        long = (10 ** 999 + sound, 10 ** 999 // 2 ** 128 * 2 ** 128 + sound, 10 ** 1000 - 1)
        for word in (b"%0*d" % (1000, sound), *(b"%d" % value for value in long)):
            yield put(word)
            if place == b"W":
                yield put(b"-" + word)


def rules():
    """Each rule at its edge, and what comes first of several faults."""
    yield b""
    yield b"\n"
    yield b"c"
    yield b"c a\nc b\n"
    yield SAMPLE
    yield PAGE
    # the size
    for nodes_stated in (0, 1, 2, 3, 4, 126, 127, 128, 129, 130, 131, 132, 256, 257, 258):
        for front in (b"", b"c x\n"):
            n = nodes_stated // 2
            yield text_of(nodes_stated, 0, range(1, n + 1), (), front)
            yield text_of(nodes_stated, 1, range(1, n + 1), [(1, n + 1, 0)], front)
            yield text_of(nodes_stated, 1, range(1, n + 1), [(n, 2 * n, -1)], front)
    yield text_of(0, 0, (), ()) + b"x\n"
    yield text_of(130, 0, (), ())[:-1]
    yield b"x\n" + text_of(0, 0, (), ())
    # the nodes
    for n in (1, 2, 3):
        sound = list(range(1, n + 1))
        for nodes in (
            [], sound[:-1], sound[1:], sound + [n + 1], sound + [n], sound[::-1], [0] + sound,
            [1] + sound, sound + [1], sound[:-1] + [n + 1], [2] + sound, range(2, n + 2),
            range(1, 2 * n + 1),
        ):
            for arcs in ([], [(1, n + 1, 5)]):
                for behind in (b"", b"c\n", b"c", b"p asn 2 0\n"):
                    yield text_of(2 * n, len(arcs), nodes, arcs) + behind
    # the blocks, for an even and an odd number of nodes
    for n in (1, 3):
        for nodes_stated in (2 * n, 2 * n + 1):
            for i in sorted({0, 1, n, n + 1, 2 * n, 256 + n}):
                for j in sorted({0, 1, n, n + 1, 2 * n, 2 * n + 1, 2 * n + 2, 256 + n + 1}):
                    yield text_of(nodes_stated, 1, range(1, n + 1), [(i, j, 0)])
    for i, j in ((1, 65), (64, 128), (65, 128), (64, 129), (64, 64), (0, 65), (1, 0)):
        yield text_of(128, 1, range(1, 65), [(i, j, 7)])
    # the cost
    for cost in (LIMIT - 1, LIMIT, LIMIT + 1, 0, 1):
        for sign in (b"", b"-", b"0", b"-0", b"--", b"+", b"-+", b"-0000000000000000000000000"):
            yield placed(W=sign + b"%d" % cost)
    # the number of arcs: repeated ones count, and too many are told of at the end
    for arcs in ([], [(1, 3, 1)], [(1, 3, 1), (1, 3, 1)], [(1, 3, 1), (2, 4, 2), (1, 3, 3)]):
        for arcs_stated in range(len(arcs) + 2):
            for nodes_stated in (4, 5):
                text = text_of(nodes_stated, arcs_stated, (1, 2), arcs, b"c\nc x\n")
                yield text
                for behind in (b"x\n", b"x", b"c\n", b"c", b"a 3 3 1\n", b"a 1 3 1000000001\n",
                               b"a 2 3 4\n", b"n 3\n", b"p asn 4 0\n", b"\n"):
                    yield text + behind
    # repeated arcs: the greatest cost counts, wherever it stands; other arcs come between them
    for costs in readings():
        named = [(2, 4, cost) for cost in costs]
        between = [arc for cost in reversed(costs) for arc in ((1, 3, cost), (2, 4, cost))]
        for arcs in (named, [(1, 4, 2)] + named + [(1, 4, 3)], between):
            yield text_of(4, len(arcs), (1, 2), arcs)
    # several faults in one line: the first in the order of the checks counts
    for arc in (b"a 0 0 1000000001\n", b"a 1 3 1000000001\n", b"a 0 3 x\n", b"a 1 3 1000000001",
                b"a 0 0 1000000001 \n", b"a 3 5 -\n", b"a 1 2 -1000000001\n", b"a  0 0 0\n",
                b"a 1 3 1000000001x\n", b"a -1 3 1000000001\n", b"a 1 5 5"):
        yield text_of(4, 1, (1, 2), ()) + arc
        yield text_of(4, 1, (1,), ()) + arc
        yield arc + text_of(4, 1, (1, 2), ())
    for problem in (b"p asn 0 x\n", b"p asn 0 0", b"p asn 0 0 \n", b"p asn 130 -1\n",
                    b"p asn 130\n", b"p asn 0 0\np asn 0 0\n", b"c\nc\np asn 1 0\nx\n"):
        yield problem
    # the largest sheet: each pair, and some of them a second time
    arcs = [(k // 64 + 1, k % 64 + 65, k * 488281 - LIMIT) for k in range(64 * 64)]
    yield text_of(128, 64 * 64 + 64, range(1, 65), arcs + [(k, 129 - k, k) for k in range(1, 65)])


# ---- Random texts


def drawn_number(source, value):
    """A number with some zeros before it, now and then."""
    zeros = source.choice((1, 2, 20, 100)) if source.random() < 0.05 else 0
    sign = b"-" if value < 0 or value == 0 and source.random() < 0.05 else b""
    return sign + b"0" * zeros + b"%d" % abs(value)


def drawn_comment(source):
    if source.random() < 0.5:
        return source.choice(COMMENTS)
    return b"c" + bytes(source.choice((9, 32, 99, 255, source.randrange(11, 256)))
                        for _ in range(source.randrange(12)))


def drawn_lines(source):
    """The lines of a text that is sound but for its two counts, and at times in these."""
    n = source.choice((1, 1, 2, 2, 2, 3, 3, 3, 4, 5, 6, 8, 12))
    most = 12
    if source.random() < 0.02:
        n, most = source.choice((source.randrange(9, 65), 63, 64)), 100
    arcs = []
    for _ in range(source.randrange(most)):
        cost = source.choice((0, 7, LIMIT, -LIMIT, source.randrange(-9, 10),
                              source.randrange(-LIMIT, LIMIT + 1)))
        pair = (source.randrange(1, n + 1), source.randrange(n + 1, 2 * n + 1))
        if arcs and source.random() < 0.2:
            pair = source.choice(arcs)[:2]
        arcs.append(pair + (cost,))
    nodes_stated = 2 * n + (source.random() < 0.05)
    arcs_stated = max(0, len(arcs) + source.choice((-1, 1)) * (source.random() < 0.05))
    rows = [[b"p", b"asn", nodes_stated, arcs_stated]]
    rows += [[b"n", node] for node in range(1, n + 1)] + [[b"a", *arc] for arc in arcs]
    comments = source.choice((0, 0, 0.1, 0.5))
    lines = []
    for row in rows:
        if source.random() < comments:
            lines.append(drawn_comment(source))
        lines.append(b" ".join(word if isinstance(word, bytes) else drawn_number(source, word)
                               for word in row))
    if source.random() < comments:
        lines.append(drawn_comment(source))
    return lines


def drawn_word(source, word):
    """A word that does not belong where it is put, or may yet."""
    value = number(word) if is_signed(word) else source.randrange(10)
    some = source.choice((1, -1)) * 2 ** source.choice((8, 16, 32, 63, 64, 128)) + value
    return source.choice((
        source.choice(ODD_WORDS), b"%d" % some, b"%d" % (value + 1), b"%d" % (value - 1),
        b"%d" % (LIMIT + 1), b"%d" % source.randrange(10), b"-" + word, b"0" + word, word + b"0",
        word[:-1], word + bytes([source.randrange(256)]), b"9" * source.choice((10, 20, 40)),
    ))


def drawn_line(source, lines):
    """A line that does not belong where it is put, or may yet."""
    return source.choice((
        b"", b" ", source.choice(lines), source.choice(lines), drawn_comment(source), b"p asn 2 0",
        b"n %d" % source.randrange(9), b"a %d %d %d" % tuple(source.randrange(9) for _ in range(3)),
        b"a 1 %d 1000000001" % source.randrange(9), b"x", b" c", b"C",
    ))


def damaged(source, lines):
    """The text with one fault or more, if not by chance with none."""
    lines = list(lines)
    kind, at = source.randrange(7), source.randrange(len(lines))
    if kind == 0:
        del lines[at]
    elif kind == 1:
        lines[at] = drawn_line(source, lines)
    elif kind == 2:
        lines.insert(source.randrange(len(lines) + 1), drawn_line(source, lines))
    elif kind == 3:
        words = lines[at].split(b" ")
        place = source.randrange(len(words))
        words[place] = drawn_word(source, words[place])
        lines[at] = b" ".join(words)
    elif kind == 4:
        other = source.randrange(len(lines))
        lines[at], lines[other] = lines[other], lines[at]
    text = b"".join(line + b"\n" for line in lines)
    if kind == 5:
        return text[:source.randrange(len(text) + 1)]
    if text and (kind == 6 or source.random() < 0.1):
        changed = bytearray(text)
        for _ in range(source.randrange(1, 4)):
            byte = source.choice(b"0159pnac \n\n-+\t\r\0\xff" + bytes([source.randrange(256)]))
            changed[source.randrange(len(text))] = byte
        text = bytes(changed)
    return text


def random_texts(seed, count):
    source = random.Random(seed)
    for _ in range(count):
        lines = drawn_lines(source)
        if source.random() < 0.5:
            yield damaged(source, lines)
        else:
            yield b"".join(line + b"\n" for line in lines)


def texts(seed, count):
    """Every kind of damage by hand, and so many random texts; each text once."""
    by_hand = (rules, bytes_damaged, lines_damaged, words_damaged)
    made = [text for kind in by_hand for text in kind()] + list(random_texts(seed, count))
    return list(dict.fromkeys(made))


# ---- What it is told to do


def main(words):
    what, *numbers = words or [""]
    whole = all(word.isascii() and word.isdigit() for word in numbers)
    if words in (["--help"], ["-h"]):
        print(__doc__, end="")
    elif what == "input" and len(numbers) <= 2 and whole:
        seed, count = (int(word) for word in numbers + [SEED, COUNT][len(numbers):])
        for text in texts(seed, count):
            print(text.hex())
    elif words == ["expect"]:
        for line in sys.stdin:
            sys.stdout.write(told(bytes.fromhex(line)))
    elif words == ["read"]:
        sys.stdout.write(told(sys.stdin.buffer.read()))
    else:
        print(__doc__, end="", file=sys.stderr)
        sys.exit(2)


if __name__ == "__main__":
    main(sys.argv[1:])
