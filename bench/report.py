"""Measures all calls on all classes of sheets, says which aims are missed, and writes the tables
and the chart.

    report.py FOLDER [--rounds N] [--sheets N] [--page]

FOLDER holds the programs `measure..`, which differ in where their code lies; the numbers go to
FOLDER/numbers.tsv and the table of them to FOLDER/table.md. With --page all that is told of them is
put into docs/benchmarks.md too: how the calls stand beside their aims, where others are faster, the
table, and what was measured before. The status is 1 if an aim is missed. Run it at the top of the
repository, by bench/run.
"""
import argparse
import csv
import glob
import math
import os
import re
import shutil

import chart
import measuring
from measuring import CLASSES, LARGE, SMALL

CALLS = ("settle", "next", "marks")
PAGE, CHART, BEFORE = "docs/benchmarks.md", "docs/benchmarks.svg", "bench/before.tsv"

# The most that a ratio to the C++ job may be.
SETTLE_AIMS = {"random": 1.2, "equal": 1.5, "near": 1.5, "products": 1.0, "lateral": 1.0}
RATIO_AIMS = {"next": 0.9, "marks": 0.9, "load": 1.0, "save": 1.1, "check": 1.2, "import": 1.2}
TWO_STEP_AIM = 1.6
# What the exponent of growth has to stay below.
GROWTH_AIMS = {"settle": 2.8, "next": 2.0, "marks": 2.0}
WORST_AIM = 3
PLAIN_AIM = 1.0
FREE_AIM = 0.04

# What has an aim.
BESIDE_CPP = "time to that of the C++ job"
TWO_STEP = "two-step costs to plain ones"
GROWTH = "growth with the number of blocks"
AS_FAST = "settling to the assignment alone by %s"
SLOWEST = "settling on the slowest class to random costs"
PLAIN = "settling to the plain assignment in C++"
FREE = "a step of the walk without costs to the same"

COLUMNS = ("call", "class", "µs", "C++ µs", "ratio", "aim", "two-step", "growth", "scipy µs",
           "LEMON µs", "instr.", "C++ instr.")
BEFORE_COLUMNS = ("call", "class", "µs before", "µs", "ratio before", "ratio", "instr. before",
                  "instr.")


class Numbers:
    """Times and instructions of calls, by class, number of blocks and name."""

    def __init__(self, times, counts):
        self.times, self.counts = times, counts

    @staticmethod
    def read(path):
        times, counts = {}, {}
        if os.path.exists(path):
            for name, n, what, time, count in csv.reader(open(path), delimiter="\t"):
                key = name, int(n), what
                if time:
                    times[key] = float(time)
                if count:
                    counts[key] = float(count)
        return Numbers(times, counts)

    def write(self, path):
        with open(path, "w") as file:
            for key in list(self.times) + [k for k in self.counts if k not in self.times]:
                time, count = self.times.get(key), self.counts.get(key)
                file.write("%s\t%d\t%s\t%s\t%s\n" % (*key, "%.4g" % time if time else "",
                                                     "%.0f" % count if count else ""))

    def time(self, name, what, n=LARGE):
        return self.times.get((name, n, what))

    def count(self, name, what):
        return self.counts.get((name, LARGE, what))

    def ratio(self, name, call):
        return divided(self.time(name, call), self.time(name, call + ".cpp"))

    def two_step(self, name, call):
        return divided(self.time(name, "two." + call), self.time(name, call))

    def growth(self, name, call):
        """The exponent of n with which the time grows from 16 to 64 blocks."""
        grown = divided(self.time(name, call), self.time(name, call, SMALL))
        return grown and math.log(grown) / math.log(LARGE / SMALL)


def divided(a, b):
    return a / b if a is not None and b else None


def aim_of(call, name):
    return SETTLE_AIMS.get(name) if call == "settle" else RATIO_AIMS[call]


class Judge:
    """Shows numbers, in bold those that miss their aim, and keeps what was missed. Of each kind of
    aim it counts how often it was asked for and how often met."""

    def __init__(self):
        self.missed, self.kinds = [], {}

    def show(self, kind, what, value, aim, form="%.2f", below=False):
        if value is None:
            return "–"
        text = form % value
        if aim is None:
            return text
        met = value < aim or value == aim and not below
        asked, kept = self.kinds.get(kind, (0, 0))
        self.kinds[kind] = asked + 1, kept + met
        if met:
            return text
        limit = ("below " if below else "at most ") + form % aim
        self.missed.append("%s%s: %s, wanted %s" % (what, kind, text, limit))
        return "**%s**" % text


def time_text(value):
    return "–" if value is None else "%.3g" % value if value < 100 else "%.0f" % value


def count_text(value):
    return "–" if value is None else format(round(value), ",")


def calls():
    """Each row of the tables: a call, its class of sheets, and the name of that class."""
    rows = [(call, name, title) for call in CALLS for name, title in CLASSES.items()]
    rows += [(call, "file", "largest order file") for call in ("load", "save")]
    return rows + [(call, "text", "text of 4,096 arcs") for call in ("check", "import")]


def ratio_text(value):
    return "–" if value is None else "%.2f" % value


def solver_cells(now, name, judge):
    """What others take for the assignment alone; settling has to be faster."""
    cells = []
    for solver, title in (("scipy", "scipy"), ("lemon", "LEMON")):
        other, settle = now.time(name, solver), now.time(name, "settle")
        slower = judge.show(AS_FAST % title, "settle, %s, " % CLASSES[name],
                            divided(settle, other), 1, below=True).startswith("**")
        cells.append("**%s**" % time_text(other) if slower else time_text(other))
    return cells


def row(now, judge, call, name, title):
    """What is told of a call on a class: times, the aims, what others take, instructions."""
    where, aim = "%s, %s, " % (call, title), aim_of(call, name)
    cells = [
        call, title, time_text(now.time(name, call)), time_text(now.time(name, call + ".cpp")),
        judge.show(BESIDE_CPP, where, now.ratio(name, call), aim),
        "" if aim is None else "%.1f" % aim,
    ]
    if name not in CLASSES:
        cells += [""] * 4
    else:
        cells += [
            judge.show(TWO_STEP, where, now.two_step(name, call), TWO_STEP_AIM),
            judge.show(GROWTH, where, now.growth(name, call), GROWTH_AIMS[call], below=True),
        ] + (solver_cells(now, name, judge) if call == "settle" else ["", ""])
    return cells + [count_text(now.count(name, call)), count_text(now.count(name, call + ".cpp"))]


def row_before(now, before, call, name, title):
    """What a call took before, beside what it takes."""
    return [
        call, title, time_text(before.time(name, call)), time_text(now.time(name, call)),
        ratio_text(before.ratio(name, call)), ratio_text(now.ratio(name, call)),
        count_text(before.count(name, call)), count_text(now.count(name, call)),
    ]


def markdown(header, lines):
    widths = [max(len(line[k]) for line in [header] + lines) for k in range(len(header))]
    text = ["| " + " | ".join(cell.ljust(width) for cell, width in zip(line, widths)) + " |"
            for line in [header] + lines]
    text.insert(1, "|" + "|".join("-" * (width + 2) for width in widths) + "|")
    return "\n".join(text)


def other_aims(now, judge):
    """The aims that are no matter of one class."""
    random = now.time("random", "settle")
    worst = max(CLASSES, key=lambda name: now.time(name, "settle"))
    plain = now.time("random", "assign")
    return "\n".join([
        "- settling on the slowest class, %s, to settling on random costs: %s (at most %d)"
        % (CLASSES[worst], judge.show(SLOWEST, "", now.time(worst, "settle") / random, WORST_AIM),
           WORST_AIM),
        "- settling to the plain assignment in C++, on random costs: %s (at most %.1f)"
        % (judge.show(PLAIN, "", random / plain, PLAIN_AIM), PLAIN_AIM),
        "- a step of the walk without costs to the same: %s (at most %.2f)"
        % (judge.show(FREE, "", now.time("free", "next") / plain, FREE_AIM, "%.4f"), FREE_AIM),
    ])


def speeds(now, text_length):
    """How fast the text is read."""
    told = ["`%s` %s MB/s, in C++ %s" % (call, *(
        count_text(divided(text_length, now.time("text", name))) for name in (call, call + ".cpp")))
            for call in ("check", "import")]
    return "- the text has %s bytes: %s" % (count_text(text_length), "; ".join(told))


def span(ratios):
    """The least and the greatest of some ratios, in words."""
    texts = sorted({"%.2f" % ratio for ratio in ratios if ratio is not None}, key=float)
    return " to ".join(texts[:1] + texts[1:][-1:])


def standing_text(now, judge):
    """How the calls stand: how long they take beside the C++ job, and which aims are met."""
    ratios = {}
    for call, name, _ in calls():
        ratios.setdefault(call, []).append(now.ratio(name, call))
    told = ["`%s` %s" % (call, span(found)) for call, found in ratios.items()]
    lines = [[kind, str(asked), str(met), "**%d**" % (asked - met) if met < asked else "0"]
             for kind, (asked, met) in judge.kinds.items()]
    return (wrapped("Where the C++ job takes 1, from the fastest class of sheets to the slowest: "
                    + ", ".join(told) + ".") + "\n\n"
            + markdown(["what has an aim", "aims", "met", "missed"], lines))


def slower_text(now):
    """Says where settling loses against a solver of the assignment alone."""
    def ratio(name):
        others = [now.time(name, solver) for solver in ("scipy", "lemon")]
        return max((now.time(name, "settle") / other for other in others if other), default=0)
    slow = sorted((name for name in CLASSES if ratio(name) >= 1), key=ratio, reverse=True)
    if not slow:
        return "Settling is faster than scipy and LEMON for the assignment alone on every class."
    return ("Settling is slower than the faster of scipy and LEMON for the assignment alone on %d "
            "of %d classes of sheets: %s."
            % (len(slow), len(CLASSES), ", ".join("%s (%.1f times as long)"
                                                  % (CLASSES[name], ratio(name)) for name in slow)))


def wrapped(text, width=100):
    lines = [""]
    for word in text.split():
        if len(lines[-1]) + 1 + len(word) > width:
            lines.append("")
        lines[-1] = (lines[-1] + " " + word).strip()
    return "\n".join(lines)


def page_parts(now, before, text_length):
    """The parts of the page that tell numbers, each by its mark, and the judge of the aims."""
    judge = Judge()
    table = markdown(list(COLUMNS), [row(now, judge, *call) for call in calls()])
    table += "\n\n" + other_aims(now, judge) + "\n" + speeds(now, text_length)
    known = [call for call in calls() if before.time(call[1], call[0])]
    earlier = markdown(list(BEFORE_COLUMNS), [row_before(now, before, *call) for call in known])
    return {"standing": standing_text(now, judge), "slower": wrapped(slower_text(now)),
            "table": table, "before": earlier}, judge


def put_into_page(parts):
    """Replaces what stands between the marks of each part in the page."""
    text = open(PAGE).read()
    for mark, part in parts.items():
        begin, end = "<!-- %s -->\n" % mark, "<!-- end of %s -->" % mark
        text = re.sub("(?s)(%s).*?(%s)" % (re.escape(begin), re.escape(end)),
                      lambda match, part=part: match[1] + "\n" + part + "\n\n" + match[2], text)
    open(PAGE, "w").write(text)


def draw(now):
    panels = [(call, [(now.ratio(name, call), aim_of(call, name)) for name in CLASSES])
              for call in CALLS]
    with open(CHART, "w") as file:
        file.write(chart.chart(list(CLASSES.values()), panels))


def arguments():
    parser = argparse.ArgumentParser()
    parser.add_argument("folder")
    parser.add_argument("--rounds", type=int, default=30)
    parser.add_argument("--sheets", type=int, default=8)
    parser.add_argument("--page", action="store_true")
    return parser.parse_args()


def main():
    chosen = arguments()
    programs = sorted(glob.glob(os.path.join(chosen.folder, "measure*")))
    times = measuring.times(programs, chosen.folder, chosen.rounds, chosen.sheets)
    counts = measuring.instructions(programs[:1], chosen.folder) if shutil.which("valgrind") else {}
    now, before = Numbers(times, counts), Numbers.read(BEFORE)
    now.write(os.path.join(chosen.folder, "numbers.tsv"))
    text_length = measuring.text_length(programs[:1], chosen.folder)
    parts, judge = page_parts(now, before, text_length)
    with open(os.path.join(chosen.folder, "table.md"), "w") as file:
        file.write(parts["table"] + "\n")
    draw(now)
    if chosen.page:
        put_into_page(parts)
    print(parts["table"] + "\n\n" + parts["standing"] + "\n\n" + parts["slower"])
    for line in judge.missed:
        print("missed: " + line)
    print("%d aims missed" % len(judge.missed))
    return 1 if judge.missed else 0


if __name__ == "__main__":
    raise SystemExit(main())
