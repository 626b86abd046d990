"""A program's answers about lists of cells, held against a second reading of the rules, the Rust and C++ S2.

Used by oracle/ranges, oracle/sets and oracle/tokens: here are their arguments, the judges, the run in batches, and what is printed.
"""

import argparse
import collections
import os
import shlex
import shutil
import sys

import cpp
import questions
from idlists import PLACES, token

HERE = os.path.dirname(os.path.abspath(__file__))
ROOT = os.path.dirname(HERE)
MADE = os.path.join(ROOT, "target", "oracle")
RUST = os.path.join(MADE, "byid")
BATCH = 1000
SHOWN = 5

Question = collections.namedtuple("Question", "sort marks line answer")  # marks: truths that are counted beside it, by name


def asked(kind, name, line, found, refusal, limits=True):
    """A question and its answer; then in tokens, with an output that just suffices, and with one a place short. refusal is the number for such outputs."""
    answer, refused = f"ok {questions.counted(found)}", f"refused {refusal}"
    short = len(found) > PLACES
    yield Question(f"{kind}: {name}", {"output too short": short}, line, refused if short else answer)
    if limits and not short:
        tokens = " ".join(["ok", str(len(found)), *map(token, found)])
        yield Question(f"{kind}: in tokens", {"output too short": False}, f"{line} tokens=1", tokens)
        yield Question(f"{kind}: out= just suffices", {"output too short": False}, f"{line} out={len(found)}", answer)
        if found:
            yield Question(f"{kind}: out= one short", {"output too short": True}, f"{line} out={len(found) - 1}", refused)


def arguments(name, doc, things, program="bin/cover"):
    """The script's arguments; program says which is asked where none is named."""
    parser = argparse.ArgumentParser(prog=f"oracle/{name}", description=doc, formatter_class=argparse.RawDescriptionHelpFormatter)
    parser.add_argument("number", type=int, metavar="N", help=f"how many {things}")
    parser.add_argument("seed", type=int, metavar="SEED", help=f"of the {things}")
    parser.add_argument("program", nargs="?", metavar="PROGRAM", help=f"a command ({program})")
    parser.add_argument("--s2", default=cpp.INSTALLED, metavar="WORDS", help=cpp.HELP)
    options = parser.parse_args()
    if options.number < 0:
        parser.error("N is below 0")
    if options.program is not None:
        options.program = shlex.split(options.program) or [""]
        if shutil.which(options.program[0]) is None:
            parser.error(f"{' '.join(options.program)!r} is no program")
    return options


def programs(name, options):
    """The program that is asked, and the judges that can be had."""
    found = {"program": options.program}
    if os.path.isfile(RUST):
        found["the Rust"] = [RUST]
    else:
        print(f"oracle/{name}: the Rust is not asked: no target/oracle/byid; oracle/build makes it", file=sys.stderr)
    words = shlex.split(options.s2)
    lacking = cpp.lacking(words)
    if lacking:
        print(f"oracle/{name}: C++ S2 is not asked: {lacking}", file=sys.stderr)
    elif not cpp.build(os.path.join(HERE, f"{name}.cc"), os.path.join(MADE, name), words):
        sys.exit(f"oracle/{name}: oracle/{name}.cc does not build")
    else:
        found["C++ S2"] = [os.path.join(MADE, name)]
    return found


def table(head, sums):
    """Rows of sums, by columns, and their totals."""
    columns = list(dict.fromkeys(column for row in sums.values() for column in row))
    rows = [[head, *columns], *([name, *(f"{row[column]:,}" for column in columns)] for name, row in sums.items())]
    rows.append(["all", *(f"{sum(row[column] for row in sums.values()):,}" for column in columns)])
    widths = [max(map(len, words)) for words in zip(*rows)]
    for first, *others in rows:
        print("  " + first.ljust(widths[0]) + "".join(f"  {word.rjust(width)}" for word, width in zip(others, widths[1:])))


def differing(name, options, things, sorts, Picker, all_questions):
    """Asks about N things, prints what was asked, and gives how many answers differ.

    Picker makes them from the seed. all_questions(picker, tally, find) gives the questions about one more: tally counts under its sort
    what it is made of, find is told what the second reading holds against itself: whether it is so, in words, and of which numbers.
    """
    asked = programs(name, options)
    picker, wrong, shown = Picker(options.seed), 0, collections.Counter()
    tally, sums = (collections.defaultdict(collections.Counter) for _ in range(2))

    def show(who, *words):
        shown[who] += 1
        if shown[who] <= SHOWN:
            print("DIFFERENT", *(f"{word:.2000}" for word in words), sep="\n  ", flush=True)

    def find(is_so, words, numbers):
        nonlocal wrong
        if is_so:
            wrong += 1
            show("reading", f"second reading: {words}", questions.counted(numbers))

    for first in range(0, options.number, BATCH):
        batch = [question for _ in range(min(BATCH, options.number - first)) for question in all_questions(picker, tally, find) if question]
        answers = [questions.ask(program, [question.line for question in batch]) for program in asked.values()]
        for question, *given in zip(batch, *answers):
            differs = {f"{who} differs": answer != question.answer for who, answer in zip(asked, given)}
            sums[question.sort].update({"times": 1, **question.marks, **differs})
            wrong += sum(differs.values())
            for who, answer in zip(asked, given):
                if answer != question.answer:
                    show(who, question.sort, question.line, f"{who}: {answer}", f"second reading: {question.answer}")
    print(f"seed {options.seed}: {options.number:,} {things}; {' and '.join(['second reading', *list(asked)[1:]])}")
    table("how made", {sort: tally[sort] for sort in sorts if sort in tally})
    table("asked", dict(sorted(sums.items())))
    print(f"{sum(row['times'] for row in sums.values()):,} answers compared, {wrong:,} different")
    return wrong


def main(name, doc, *what):
    """The whole of the script oracle/NAME about lines of cover: what is said in `differing`, from the things on. Ends with its status."""
    options = arguments(name, doc, what[0])
    options.program = options.program or [os.path.join(ROOT, "bin", "cover")]
    sys.exit(1 if differing(name, options, *what) else 0)
