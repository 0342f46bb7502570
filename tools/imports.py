"""Assignment texts, and what `import` prints of each: the sheet that it states, and its order file.

What a text states is read by dimacs.py, and the words of a refusal come from reports.py, so the
comparison in the gate is one of two independent readers. texts.py takes its runs of `import` from
here.
"""
import dimacs
from order_files import LIMIT, readings, stated_cells
from reports import explained, order

# how a run ends that was to write the order file of a text that is refused
REFUSED = "ExitCode(unix_exit_status(1)) after the complaint\n"


def exported(text):
    """The order file of what a text states, in hex, since it is no text; or why it has none."""
    verdict = dimacs.verdict(text)
    if verdict[0] != "states":
        return REFUSED + explained(verdict[0], verdict[1])
    _, n, arcs = verdict
    return order(n, stated_cells(arcs)).hex() + "\n"


def sound():
    yield dimacs.PAGE
    # of the arcs for the same pair the greatest cost counts, in whatever order they come
    yield dimacs.SAMPLE
    for costs in readings():
        yield dimacs.text_of(2, len(costs), [1], [(1, 2, cost) for cost in costs])
    yield dimacs.text_of(2, 0, [1], [])
    yield dimacs.text_of(4, 2, [1, 2], [(2, 3, LIMIT), (1, 4, 0)])
    yield dimacs.text_of(128, 64, range(1, 65), [(i, 129 - i, i - 33) for i in range(1, 65)])
    yield open("samples/sixty-four-blocks.asn", "rb").read()


def refused():
    yield b""
    yield dimacs.SAMPLE[:-1]
    yield dimacs.SAMPLE + b"\r\n"
    yield dimacs.SAMPLE.replace(b"n 2\n", b"")
    yield dimacs.text_of(1, 0, [], [])
    yield dimacs.text_of(130, 0, range(1, 66), [])
    yield dimacs.text_of(4, 1, [1, 2], [(1, 2, 5)])
    yield dimacs.text_of(2, 1, [1], [(1, 2, LIMIT + 1)])
    yield dimacs.text_of(2, 2, [1], [(1, 2, 5)])
    yield dimacs.text_of(3, 1, [1], [(1, 2, 5)])


def runs():
    """Runs of `import` and of `import order`: the words, the input, and what has to be printed."""
    for text in [*sound(), *refused(), *dimacs.random_texts(11, 60)]:
        yield "import", text, dimacs.told(text)
        yield "import order", text, exported(text)
