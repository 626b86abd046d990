"""How the scripts for people ask the proved programs, and what they say where an answer, or their own list, was cut.

`cover` and `probe` answer lines. The filters `read_tokens` and `write_tokens` turn a text with a name a line into as many lines, or refuse it; so does
`night` with a night's orders.
"""

import contextlib
import os
import signal
import subprocess
import sys

HERE = os.path.dirname(os.path.abspath(__file__))
LONGEST = 262_144  # bytes of a line
REFUSALS = {
    1: "max_level is over 30",
    2: "min_level is over max_level",
    3: "level_mod is not 1, 2 or 3",
    4: "max_cells is over 1,000",
    5: "the region is outside the domain",
    6: "the working memory is under 5,120 words",
    7: "the queue would hold 1,025 candidates at once",
    8: "a 1,025th raw cell would be kept",
    9: "the allowance of steps is used up",
    10: "the list is longer than the output",
    13: "more than 256 orders, nothing was run",
    14: "the edition is not 1 or 2",
    15: "the first list is not valid, ascending and free of overlap, or has over 4,096 ids",
    16: "the second list is not valid, ascending and free of overlap, or has over 4,096 ids",
    17: "the answer is longer than the output",
    25: "the list is not valid, ascending and free of overlap",
    26: "the pairs are longer than the output",
}
ENDING = signal.SIGHUP, signal.SIGINT, signal.SIGQUIT, signal.SIGTERM


# ---- cover and probe


def answers(who, lines, program="cover"):
    """What the program answers to each of the lines. An answer that was cut ends the script, which is called who."""
    try:
        ran = subprocess.run([os.path.join(HERE, program)], input="".join(line + "\n" for line in lines), stdout=subprocess.PIPE, text=True)
    except OSError as fault:
        sys.exit(f"{who}: {program} can't be run: {fault.strerror}")
    written = ran.stdout.split("\n")
    if ran.returncode != 0 or written[len(lines):] != [f"end {len(lines)}", ""]:
        sys.exit(f"{who}: the answer of {program} was cut (its status was {ran.returncode}), so nothing is listed")
    return written[:len(lines)]


PLACES = 6  # start cells of a run, at most, and totals of an answer


def figures(words):
    """The words of an answer of a run after `ok`: its steps, the leaves set aside under each start cell, and the names of its cells."""
    return int(words[0]), [int(word) for word in words[1:1 + PLACES]], words[2 + PLACES:]


def edition_of(words):
    """The edition that the words of a request or an order name; 1 where they name none."""
    return next((int(word.removeprefix("edition=")) for word in words if word.startswith("edition=")), 1)


def words(who, line, answer):
    """The words after `ok`; a refusal or an error ends the script."""
    first, *rest = answer.split(" ")
    if first == "ok":
        return rest
    if first == "refused":
        number = int(rest[0])
        sys.exit(f"refused, number {number}: {REFUSALS.get(number, 'unknown')}")
    sys.exit(f"{who}: {line!r} was answered {answer!r}")


# ---- the filters


def start(who, program, text, **more):
    """A filter, started on a text. All of the text is there before, so that what ends this script can't cut it."""
    try:
        with os.fdopen(os.memfd_create(program), "r+b") as file:
            file.write(text)
            file.seek(0)
            return subprocess.Popen([os.path.join(HERE, "run"), program], stdin=file, stderr=subprocess.PIPE, **more)
    except OSError as fault:
        sys.exit(f"{who}: {program} can't be run: {fault.strerror}")


def on_signals(numbers, action):
    """What these signals do from here on. One that is ignored stays so."""
    for number in numbers:
        if signal.getsignal(number) != signal.SIG_IGN:
            signal.signal(number, action)


def hand_on(filter):
    """Hands the signals that end the script on to a filter from here on: that ends the program, and then says so."""
    on_signals(ENDING, lambda number, _: filter.send_signal(number))


def status(filter):
    """The status of a script that ends as its filter did."""
    return filter.returncode if filter.returncode >= 0 else 128 - filter.returncode


def refusal(filter):
    """Waits for a filter's end. What it refuses, or which line it finds wrong, as it says it; None if nothing. Anything else that is said is passed on as
    it comes."""
    found = None
    for line in filter.stderr:
        if line.startswith((b"refused ", b"error ")):
            found = line.decode().rstrip("\n")
        elif not found:
            tell(line.decode(errors="replace"), end="")
    filter.wait()
    return found


def caught(who, program, text, meanwhile=contextlib.nullcontext):
    """What a filter writes that is started on a text; what it refuses, or None; and the filter, which has ended. meanwhile: the context in which it runs."""
    with os.fdopen(os.memfd_create("answer"), "r+b") as file:
        filter = start(who, program, text, stdout=file)
        with meanwhile(filter):
            refused = refusal(filter)
        file.seek(0)
        return file.read().decode(), refused, filter


def turned(who, program, text):
    """What a filter turns a text into, line by line, and what it refuses, or None. An answer that was cut ends the script."""
    written, refused, filter = caught(who, program, text)
    if not refused and (filter.returncode != 0 or written.count("\n") != text.count(b"\n")):
        sys.exit(f"{who}: the answer of {program} was cut (its status was {filter.returncode}), so nothing is listed")
    return written.splitlines(), refused


# ---- the scripts


def tell(words, end="\n"):
    """Says something on standard error; where that can't be written, it is left out."""
    if sys.stderr is not None:
        try:
            print(words, end=end, file=sys.stderr, flush=True)
        except OSError:
            os.dup2(os.open(os.devnull, os.O_WRONLY), 2)


def run(who, main):
    """Runs a script's main; where standard output fails, the script ends with status 1."""
    if sys.stdout is None:
        sys.exit(f"{who}: standard output is closed")
    # with a buffer, whatever PYTHONUNBUFFERED says: without one, Python takes a write that the system cuts short for whole
    sys.stdout = open(sys.stdout.fileno(), "w", encoding=sys.stdout.encoding, errors=sys.stdout.errors, closefd=False)
    try:
        main()
        sys.stdout.flush()
    except OSError as fault:
        os.dup2(os.open(os.devnull, os.O_WRONLY), sys.stdout.fileno())  # so that Python doesn't try once more
        sys.exit(f"{who}: the list was cut: {fault.strerror}")
