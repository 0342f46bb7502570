#!/usr/bin/env python3
"""Makes what crates/console must print of its file stdin, and texts.py takes its runs of `console`
from here.

Run in the repository's root. It is written from docs/console.md, docs/sheet.md and
docs/refusals.md alone, and finds optimum pairings by going through all perfect ones and the crowd
set by its definition, so the comparison in the gate is with plain enumeration.

`consoles.py FOLDER COUNT` writes so many random sessions into a folder instead, as files for
`rt try --cases FOLDER`.
"""
import random
import re
import sys

from reports import WORDS, crowd_lines, perfect_pairings

# the white space of docs/console.md, which is less than Python's own: that has U+001C to U+001F too
BLANKS = ("\t\n\v\f\r \x85\xa0\u1680\u2028\u2029\u202f\u205f\u3000"
          + "".join(map(chr, range(0x2000, 0x200b))))

COSTS = ["a cost is one number", "a cost is two numbers, and the first decides before the second"]
TABLES = ["costs", "standing", "partners", "left", "right", "walk", "marks"]
PAIR, PRICED = {"costs", "standing"}, {"costs", "standing", "partners", "left", "right"}
# the words behind each call, the state that has it, and the tables that it takes
CALLS = {
    "enter": ("L R COST", "open", PAIR), "strike": ("L R", "open", PAIR),
    "read": ("L R", "open", PAIR), "settle": ("", "open", PRICED),
    "quote": ("L R", "settled", PRICED), "total": ("", "settled", PRICED),
    "marks": ("", "settled", PRICED | {"marks"}), "start": ("", "settled", PRICED | {"walk"}),
    "reopen": ("", "settled", set()), "next": ("", "in a walk", PRICED | {"walk"}),
    "close": ("", "in a walk", set()),
}
STATES = {
    "open": ("an open sheet", "enter, strike, read and settle"),
    "settled": ("a settled sheet", "quote, total, marks, start and reopen"),
    "in a walk": ("a walk", "next and close"),
}


class Complaint(Exception):
    pass


class Refusal(Exception):
    pass


def add(a, b):
    return tuple(x + y for x, y in zip(a, b))


def less(a, b):
    return tuple(x - y for x, y in zip(a, b))


def prices(n, cells, pairing, zero):
    """The greatest valid prices of which no right one is above zero."""
    right = [zero] * n
    for _ in range(n + 1):
        for (l, r), cost in cells.items():
            mate = pairing[l]
            right[r] = min(right[r], less(add(right[mate], cost), cells[l, mate]))
    return [less(cells[l, pairing[l]], right[pairing[l]]) for l in range(n)], right


class Session:
    def __init__(self):
        self.columns, self.n, self.state, self.cells = 1, None, "open", {}

    # ---- Words

    def words_for(self, call):
        form = CALLS[call][0].replace("COST", " ".join(["COST"] * self.columns))
        return (call + " " + form).strip()

    def number(self, words, form):
        if not words:
            raise Complaint("a word is missing: write `%s`" % form)
        return words.pop(0)

    def block(self, words, form):
        word = self.number(words, form)
        if not re.fullmatch(r"\+?[0-9]+", word):
            raise Complaint("`%s` is not a whole number from 0" % word)
        if int(word) > 65535:
            raise Complaint("`%s` is too large for a block number" % word)
        return int(word)

    def cost(self, words, form):
        word = self.number(words, form)
        if not re.fullmatch(r"[+-]?[0-9]+", word):
            raise Complaint("`%s` is not a whole number" % word)
        if not -2 ** 63 <= int(word) < 2 ** 63:
            raise Complaint("`%s` is too large: a cost fits a signed number of 64 bits" % word)
        return int(word)

    def call(self, word, words, short):
        if word not in CALLS:
            raise Complaint("`%s` is no call; `help` lists the calls" % word)
        form = self.words_for(word)
        pair = cost = None
        if CALLS[word][0]:
            pair = (self.block(words, form), self.block(words, form))
        if word == "enter":
            cost = tuple(self.cost(words, form) for _ in range(self.columns))
        self.ended(words, form)
        return self.made(word, pair, cost, short)

    def ended(self, words, form):
        if words:
            raise Complaint("there are too many words: write `%s`" % form)

    # ---- Calls

    def made(self, word, pair, cost, short):
        _, state, tables = CALLS[word]
        if state != self.state:
            kind, calls = STATES[self.state]
            return ["not made: the sheet is %s, and %s has no %s" % (self.state, kind, word),
                    "It has %s." % calls]
        try:
            if short in tables:
                raise Refusal(2)
            if pair and not all(b < self.n for b in pair):
                raise Refusal(3)
            if cost and not all(abs(c) <= 10 ** 9 for c in cost):
                raise Refusal(4)
            if word in ("strike", "read", "quote") and pair not in self.cells:
                raise Refusal(5)
            return getattr(self, word)(pair, cost)
        except Refusal as refusal:
            number = refusal.args[0]
            meaning, remedy = WORDS[number]
            return ["refused %d: %s" % (number, meaning), *refusal.args[1:], remedy]

    def shown(self, cost):
        return str(cost[0]) if self.columns == 1 else "(%s)" % ", ".join(map(str, cost))

    def enter(self, pair, cost):
        # the greater of two costs stands, and not the greater of each column
        self.cells[pair] = max(cost, self.cells.get(pair, cost))
        return ["entered %d %d at %s" % (*pair, self.shown(cost))]

    def strike(self, pair, _):
        del self.cells[pair]
        return ["struck %d %d" % pair]

    def read(self, pair, _):
        return ["cost " + self.shown(self.cells[pair])]

    def sum_of(self, pairing):
        total = (0,) * self.columns
        for l, r in enumerate(pairing):
            total = add(total, self.cells[l, r])
        return total

    def settle(self, *_):
        perfect = list(perfect_pairings(self.n, self.cells))
        if not perfect:
            raise Refusal(6, *crowd_lines(self.n, self.cells))
        self.least = min(map(self.sum_of, perfect))
        self.optima = [p for p in perfect if self.sum_of(p) == self.least]
        self.left, self.right = prices(self.n, self.cells, self.optima[0], (0,) * self.columns)
        self.state = "settled"
        return ["settled", "partners" + "".join(" %d" % r for r in self.optima[0]),
                "left prices" + "".join(" " + self.shown(p) for p in self.left),
                "right prices" + "".join(" " + self.shown(p) for p in self.right)]

    def quote(self, pair, _):
        cost = self.cells[pair]
        above = less(cost, add(self.left[pair[0]], self.right[pair[1]]))
        return ["cost " + self.shown(cost), "above its two prices by " + self.shown(above)]

    def total(self, *_):
        return ["total " + self.shown(self.least)]

    def marks(self, *_):
        return ["".join("1" if any(p[l] == r for p in self.optima) else "0"
                        for r in range(self.n)) for l in range(self.n)]

    def start(self, *_):
        self.state, self.at = "in a walk", 0
        return self.pairing()

    def pairing(self):
        return ["pairing" + "".join(" %d" % r for r in self.optima[self.at])]

    def next(self, *_):
        if self.at + 1 == len(self.optima):
            return ["end"]
        self.at += 1
        return self.pairing()

    def close(self, *_):
        self.state = "settled"
        return ["closed: the sheet is settled"]

    def reopen(self, *_):
        self.state = "open"
        return ["reopened: the sheet is open"]

    # ---- Lines

    def before(self, word, words):
        if word == "columns":
            form = "columns 1` or `columns 2"
            count = self.number(words, form)
            if count not in ("1", "2"):
                raise Complaint("a cost has 1 or 2 columns, not `%s`" % count)
            self.ended(words, form)
            self.columns = int(count)
            return [COSTS[self.columns - 1]]
        if word == "size":
            size = self.number(words, "size N")
            if not re.fullmatch(r"\+?[0-9]+", size):
                raise Complaint("`%s` is not a whole number from 0" % size)
            if not 1 <= int(size) <= 64:
                raise Complaint("`%s`: %s. %s" % (size, *WORDS[1]))
            self.ended(words, "size N")
            self.n = int(size)
            return ["sheet of %d left and %d right blocks; %s"
                    % (self.n, self.n, COSTS[self.columns - 1])]
        if word == "short" or word in CALLS:
            raise Complaint("no sheet is open yet: write `size N` before `%s`" % word)
        raise Complaint("`%s` is no call; `help` lists the calls" % word)

    def line(self, words, help_lines):
        word = words.pop(0)
        if word in ("help", "quit"):
            self.ended(words, word)
            return help_lines if word == "help" else None
        if self.n is None:
            return self.before(word, words)
        if word in ("columns", "size"):
            raise Complaint("a sheet is open already: `%s` comes only before it is opened" % word)
        if word != "short":
            return self.call(word, words, None)
        form = "short TABLE CALL .."
        table = self.number(words, form)
        if table not in TABLES:
            raise Complaint("`%s` is no table: write %s or marks" % (table, ", ".join(TABLES[:-1])))
        return self.call(self.number(words, form), words, table)


def printed(typed, help_lines):
    """What must be printed of these bytes."""
    session, out = Session(), []
    for number, line in enumerate(typed.split(b"\n"), 1):
        try:
            words = re.findall("[^%s]+" % BLANKS, line.decode("utf-8"))
            if not words or words[0].startswith("#"):
                continue
            answer = session.line(words, help_lines)
        except UnicodeDecodeError:
            answer = ["line %d: this is not text in UTF-8" % number]
        except Complaint as complaint:
            answer = ["line %d: %s" % (number, complaint)]
        if answer is None:
            break
        out += answer
    return "".join(line + "\n" for line in out)


def odd(rng, line):
    """The line with other white space, signs and zeros here and there, or a comment instead."""
    if rng.random() < 0.03:
        # the last one is of a byte that is no text
        return rng.choice(["# " + line, "\u2003#" + line, line + " # now", "#\udcff"])
    words = line.split(" ")
    for k, word in enumerate(words):
        if re.fullmatch("[0-9]+", word) and words[0] != "columns" and rng.random() < 0.1:
            words[k] = rng.choice(["+", "0", "+00", "-"]) + word
    blank = lambda: rng.choice(BLANKS.replace("\n", "")) if rng.random() < 0.1 else " "
    ends = [blank() if rng.random() < 0.1 else "" for _ in range(2)]
    return ends[0] + "".join(w + blank() for w in words[:-1]) + words[-1] + ends[1]


def random_session(rng):
    """A session of mostly sensible lines."""
    n = rng.randint(1, 4)
    columns = rng.randint(1, 2)
    lines = ["columns %d" % columns, "size %d" % n]
    cost = lambda: " ".join(str(rng.randint(-3, 3)) for _ in range(columns))
    for l in range(n):
        for r in range(n):
            if rng.random() < 0.7:
                lines.append("enter %d %d %s" % (l, r, cost()))
    # most of these are second readings, and some of the third time
    for _ in range(rng.randint(0, n * n)):
        lines.append("enter %d %d %s" % (rng.randrange(n), rng.randrange(n), cost()))
    for _ in range(60):
        call = rng.choice([*CALLS, "settle", "next", "start", "marks", "reopen", "close", "enter",
                           "enter", "read"])
        line = call
        if CALLS[call][0]:
            line += " %d %d" % (rng.randint(0, n), rng.randint(0, n - 1))
        if call == "enter":
            line += " " + cost()
        if rng.random() < 0.1:
            line = "short %s %s" % (rng.choice(TABLES), line)
        if rng.random() < 0.03:
            line = line.rsplit(" ", 1)[0]
        if rng.random() < 0.03:
            line += rng.choice([" 1", " x", " 99999999999999999999"])
        lines.append(line)
    lines = [odd(rng, line) for line in lines]
    return ("\n".join(lines) + "\n").encode("utf-8", "surrogateescape")


def help_lines():
    """The text of `help`, which is taken from the program: it is no answer."""
    source = open("crates/console_words/src/help.rt").read()
    return source.split('"\\\n', 1)[1].split('";', 1)[0].splitlines()


def runs():
    """A run of `console`: its words, its input, and what it has to print."""
    typed = open("samples/two-columns.session", "rb").read()
    yield "console", typed, printed(typed, help_lines())


def main():
    if len(sys.argv) == 3:
        rng = random.Random(2026)
        for k in range(int(sys.argv[2])):
            typed = random_session(rng)
            open("%s/s%04d" % (sys.argv[1], k), "wb").write(typed)
            open("%s/s%04d.stdout" % (sys.argv[1], k), "w").write(printed(typed, help_lines()))
        return
    typed = open("crates/console/stdin", "rb").read()
    open("crates/console/stdout", "w").write(printed(typed, help_lines()))


if __name__ == "__main__":
    main()
