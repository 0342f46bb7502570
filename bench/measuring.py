"""Runs target/bench/measure and scipy in turns, and counts instructions, for bench/report.py."""
import glob
import os
import re
import subprocess
import time

try:
    import numpy
    from scipy.optimize import linear_sum_assignment
except ImportError:
    linear_sum_assignment = None

# The classes of bench/sheets.hpp, and what they are called in a table.
CLASSES = {
    "random": "random costs",
    "equal": "all costs equal",
    "near": "costs 0 to 3",
    "sparse": "sparse",
    "products": "l·r",
    "reversed": "l·r, reversed",
    "one-cheap": "one cheap left block",
    "lateral": "l·1000 + noise",
    "squares": "−(l−r)²",
    "hessenberg": "lower Hessenberg",
    "cycle": "cycle",
    "upper": "upper triangle",
    "tight-upper": "tight upper triangle",
}
LARGE, SMALL = 64, 16
COUNTED_SHEETS = 3


class Program:
    """The running program, which measures a suite when it is told to."""

    def __init__(self, command, folder):
        self.sheets = os.path.join(folder, "sheets")
        pipe = subprocess.PIPE
        self.process = subprocess.Popen(command, stdin=pipe, stdout=pipe, text=True)

    def tell(self, line, end):
        """The answers to a command, up to the one that begins with `end`."""
        self.process.stdin.write(line + "\n")
        self.process.stdin.flush()
        answers = []
        for answer in self.process.stdout:
            answers.append(answer.split())
            if answer.startswith(end):
                return answers
            if answer.startswith("wrong"):
                break
        raise SystemExit("%s: %s" % (line, answer.strip() if answers else "the program ended"))

    def suite(self, name, n, count):
        return int(self.tell("suite %s %d %d %s" % (name, n, count, self.sheets), "ready")[-1][1])

    def round(self, name, n):
        answers = self.tell("round %s %d" % (name, n), "done")
        return {what: float(least) for what, least in answers[:-1]}

    def count(self, name, n):
        self.tell("count %s %d" % (name, n), "done")

    def end(self):
        self.process.stdin.close()
        self.process.wait()


class Scipy:
    """scipy on the sheets that the program wrote, as the numbers that it calculates with."""

    def __init__(self, path, n, total):
        self.sheets = numpy.fromfile(path, dtype="<i8").reshape(-1, n, n).astype(float)
        self.total = total
        self.least = [float("inf")] * len(self.sheets)

    def round(self):
        total = 0
        for k, sheet in enumerate(self.sheets):
            start = time.perf_counter()
            rows, columns = linear_sum_assignment(sheet)
            self.least[k] = min(self.least[k], (time.perf_counter() - start) * 1e6)
            total += int(sheet[rows, columns].sum())
        if total != self.total:
            raise SystemExit("scipy finds the total %d, and not %d" % (total, self.total))
        return sum(self.least) / len(self.least)


def suites():
    others = [("file", LARGE), ("text", LARGE), ("free", LARGE)]
    return [(name, n) for name in CLASSES for n in (LARGE, SMALL)] + others


def text_length(command, folder):
    """The length of the assignment text that is read."""
    program = Program(command, folder)
    length = program.suite("text", LARGE, 1)
    program.end()
    return length


def times(programs, folder, rounds, sheets):
    """The least times in microseconds over the programs, which differ in where their code lies, by
    class, number of blocks and what was timed."""
    least = {}
    for program in programs:
        for what, time in times_of([program], folder, rounds, sheets).items():
            least[what] = min(time, least.get(what, time))
    return without_opening(least)


def times_of(command, folder, rounds, sheets):
    """The same of one program. All suites take turns too, since some of the aims compare classes
    and sizes."""
    program, scipy, found = Program(command, folder), {}, {}
    for name, n in suites():
        total = program.suite(name, n, sheets)
        if linear_sum_assignment and n == LARGE and name in CLASSES:
            scipy[name, n] = Scipy(program.sheets, n, total)
    for _ in range(rounds):
        for name, n in suites():
            least = program.round(name, n)
            if (name, n) in scipy:
                least["scipy"] = scipy[name, n].round()
            found.update({(name, n, what): time for what, time in least.items()})
    program.end()
    return found


def instructions(command, folder):
    """The instructions of a call by the same keys, counted by callgrind."""
    out = os.path.join(folder, "counted")
    for old in glob.glob(out + "*"):
        os.remove(old)
    valgrind = ["valgrind", "--quiet", "--tool=callgrind", "--collect-atstart=no",
                "--callgrind-out-file=" + out]
    program = Program(valgrind + command, folder)
    for name, n in suites():
        if name != "free":
            program.suite(name, n, COUNTED_SHEETS)
            program.count(name, n)
    program.end()
    return without_opening(dict(filter(None, map(counted, glob.glob(out + ".*")))))


def counted(dump):
    """What a dump of callgrind says that one call took."""
    text = open(dump).read()
    label = re.search(r"^desc: Trigger: Client Request: (\S+)", text, re.M)
    total = re.search(r"^(?:totals|summary): (\d+)", text, re.M)
    if not label or not total:
        return None
    name, n, what, calls = label[1].split("/")
    return (name, int(n), what), int(total[1]) / int(calls)


def without_opening(found):
    """Saving is measured with opening a sheet, which is measured alone too and taken off."""
    save, opened = ("file", LARGE, "save"), ("file", LARGE, "open")
    if save in found:
        found[save] -= found[opened]
    return found
