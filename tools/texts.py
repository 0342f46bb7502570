#!/usr/bin/env python3
"""Makes the files of crates/text_trial: runs of `inspect`, `listing`, `import` and `console`, the
refusals in words, and what each has to print.

Run in the repository's root. Answers come from order_files.py, reports.py, imports.py and
consoles.py. Only the usage texts are taken from the programs: they are no answers.
"""
import consoles
import imports
import order_files
import reports

WRONG_USAGE = "ExitCode(unix_exit_status(2)) after the complaint\n"
# a word that a program knows, where it stands alone
USES = {
    "inspect": ("crates/report/src/programs.rt", "map"),
    "listing": ("crates/report/src/programs.rt", None),
    "import": ("crates/report/src/import_program.rt", "order"),
    "console": ("crates/console_words/src/program.rt", None),
}


def usage(program):
    source = open(USES[program][0]).read()
    return "usage: %s" % program + source.split("usage: %s" % program, 1)[1].split('";', 1)[0]


def usage_runs():
    """Runs that read no input: with a word that asks for the usage, and with words that ask for
    nothing."""
    data = open("samples/three-blocks.order", "rb").read()
    for program, (_, known) in USES.items():
        for word in ("--help", "-h"):
            yield "%s %s" % (program, word), data, usage(program)
        for words in ("help", "--help --help", "-h 1", "map", "map map", "--help map", "maps",
                      "order", "order order", "order -h", "Order"):
            if words != known:
                yield "%s %s" % (program, words), data, WRONG_USAGE + usage(program)


def main():
    modules = (order_files, reports, imports, consoles)
    runs = [*usage_runs(), *(run for module in modules for run in module.runs())]
    with open("crates/text_trial/stdin", "wb") as out:
        for words, data, _ in runs:
            out.write(b"%s %d\n" % (words.encode(), len(data)) + data)
    with open("crates/text_trial/stdout", "w") as out:
        for words, _, told in runs:
            out.write("$ %s\n" % words + told)
    print(len(runs), "runs")


if __name__ == "__main__":
    main()
