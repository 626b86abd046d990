"""Lists of cells that people write, an id or a token a line: how bin/order, bin/sets and bin/tokens take them, and what they say of a wrong line.

Which number a token is, and whether a line is taken, is the answer of the proved filters alone. What is wrong with a line that was refused is looked
for here, and none of that is proved.
"""

import collections
import itertools
import math
import os
import re
import sys

import asking

ID = re.compile("[0-9a-f]{16}")
MOST = 4096  # ids of a list that is an area
MARKS = b"\xef\xbb\xbf", b"\xff\xfe", b"\xfe\xff"  # what some editors put before a text, in its three forms

List = collections.namedtuple("List", "name cells lines")  # lines: number and word of each cell's line


# ---- what comes in


def called(path):
    return "standard input" if path == "-" else path


def contents(who, path, most=math.inf):
    """The bytes of a file, or of standard input for -; once there are more than the most, the rest is left. What can't be read to the end, which Python's
    own readers may take for the end, ends the script, which is called who."""
    parts, size = [], 0
    try:
        with open(0 if path == "-" else path, "rb", buffering=0, closefd=path != "-") as file:
            while size <= most and (part := os.read(file.fileno(), 1 << 20)):
                parts.append(part)
                size += len(part)
    except OSError as fault:
        sys.exit(f"{who}: {called(path)} can't be read: {fault.strerror}")
    return b"".join(parts)


def read(who, path):
    """The list of a file, or of standard input. Sixteen digits are an id, anything else has to be a token; blank lines and lines that begin with # are
    passed over."""
    texts = contents(who, path).decode("utf-8-sig", "surrogateescape").split("\n")
    words = [(number, text.strip()) for number, text in enumerate(texts, 1)]
    lines = [(number, word) for number, word in words if word and not word.startswith("#")]
    ended = lambda number, word: word.encode("utf-8", "surrogateescape") + (b"\n" if number < len(texts) else b"")
    tokens = [(number, ended(number, word)) for number, word in lines if not ID.fullmatch(word)]
    ids = iter(turned(who, "read_tokens", called(path), tokens) if tokens else [])
    return List(called(path), [int(word if ID.fullmatch(word) else next(ids), 16) for _, word in lines], lines)


def ascending(given):
    """The same list in the order of its ids, each with its line."""
    both = sorted(zip(given.cells, given.lines))
    return List(given.name, [cell for cell, _ in both], [line for _, line in both])


def counted(cells):
    """A list as it stands on a line of cover's."""
    return " ".join([str(len(cells)), *(f"{cell:016x}" for cell in cells)])


def tokens_of(who, given):
    """The tokens of a list."""
    return turned(who, "write_tokens", given.name, [(number, b"%016x\n" % cell) for cell, (number, _) in zip(given.cells, given.lines)])


def turned(who, program, name, lines):
    """What a filter turns some lines into, each given with its number in the file of this name. A refusal ends the script."""
    found, refused = asking.turned(who, program, b"".join(line for _, line in lines))
    if refused:
        refuse(program, name, refused, lines)
    return found


# ---- what is wrong


def refuse(program, name, refused, lines):
    """Ends the script with what a filter refuses of these lines, each with its number: of a line that is malformed or no cell's, what is wrong with it."""
    if malformed := re.fullmatch(r"refused 11: line (\d+)", refused):
        number, line = lines[int(malformed[1]) - 1]
        sys.exit(f"refused, number 11: {name}, line {number}: {misspelt(program, line)}")
    sys.exit(f"refused, number 12: {name} has {refused.removeprefix('refused 12: ')}, and no more are taken. split -l 65536 cuts a list into parts; "
             "what they are turned into can be put one behind the other")


def misspelt(program, line):
    """What is wrong with a line that a filter refuses, with the line as it stands."""
    name = line.removesuffix(b"\n")
    shown = repr(name[:40])[1:] + (".." if len(name) > 40 else "") if name else "it"
    digits, spelt = len(name), name.rstrip(b"0").decode("latin-1")
    looks = {
        "has no newline behind it: the text may have been cut": not line.endswith(b"\n"),
        "is empty": not name,
        "begins with a mark that some editors put before a text: save it as plain ASCII": name.startswith(MARKS),
        r"ends with a carriage return, as Windows editors end lines: tr -d '\r' takes them out": name.endswith(b"\r"),
        "has a blank": b" " in name,
        "has a tab": b"\t" in name,
        "has a capital letter: the digits are 0-9 a-f": re.search(rb"[A-Z]", name),
        "has a byte that is no digit of 0-9 a-f": re.search(rb"[^0-9a-f]", name),
        f"has {digits} digits, and 16 are the most": digits > 16,
        f"has {digits} of the 16 digits of an id": program == "write_tokens" and digits < 16,
        f"ends with 0: the token would be {spelt}": program == "read_tokens" and spelt and name.endswith(b"0"),
    }
    found = [words for words, is_so in looks.items() if is_so] or [no_cell(int(name.ljust(16, b"0"), 16))]
    return f"{shown} {found[0]}"


def no_cell(id):
    """What makes a number no cell, as a clause; None if it is one."""
    place = (id & -id).bit_length() - 1
    if id == 0:
        return "is no cell"
    if id >> 61 > 5:
        return "is no cell: there are six faces, and their ids begin with 0 to b"
    if place > 60 or place % 2:
        return "is no cell: its lowest bit stands where no level has it"
    return None


def holds(outer, inner):
    low = outer & -outer
    return outer - low < inner < outer + low


def wrong(id, before, where):
    """What is wrong with the next number of a list, as a clause; None if nothing. before: the cell before it, or None; where: what that is called."""
    found = no_cell(id)
    if found or before is None:
        return found
    if id == before:
        return f"is the same as {where}"
    if holds(before, id):
        return f"lies inside {where}: leave one of the two out"
    if holds(id, before):
        return f"holds {where}: leave one of the two out"
    if id < before:
        return f"is smaller than {where}: ids have to ascend, and LC_ALL=C sort -u puts them in order"
    return None


def looked_over(both):
    """Each line, of cells with their lines, that can't stand behind those before it, and why."""
    before, where = None, None
    for id, (number, word) in both:
        found = wrong(id, before, where)
        if found:
            yield f"on line {number}, {word} {found}"
        else:
            before, where = id, f"{word} of line {number}"


def faults(given):
    """The first line at which a list is not valid, ascending and free of overlap, and why."""
    return itertools.islice(looked_over(zip(given.cells, given.lines)), 1)


def area_faults(given, most=5):
    """What keeps a list, in any order, from being an area: its length; the lines that are no cell, are there before or lie inside another. No more of
    these are named than the most."""
    if len(given.cells) > MOST:
        yield f"it has {len(given.cells):,} ids, and {MOST:,} are the most"
    first = lambda both: (both[0] - (both[0] & -both[0]), -both[0], both[1])  # by the first leaf, and what holds others before them
    found = list(looked_over(sorted(zip(given.cells, given.lines), key=first)))
    yield from found[:most]
    if len(found) > most:
        yield f"and {len(found) - most:,} more"
