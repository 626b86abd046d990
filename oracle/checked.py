"""Lists to be checked, paper 02's request k: requests as lines of `check` and `explain`.

Used by oracle/checks and oracle/lists. A Picker with the same seed, and a judge that gives the same answers, make the same requests. Regions are
those of oracle/questions.py and oracle/listed.py: caps, cells and lists of cells. Most lists to be checked are made from a judge's covering of the
region: it as it stands, in either edition, or with one cell or more left out, merged, cut, moved, swapped, repeated or spoiled. What stands here
only chooses questions, and says of some what their answer has to be: a list that has every leaf of one of our own, and breaks no rule, covers the region.
"""

import collections

import listed
import questions
from idlists import LEAVES, apart, cell
from listed import IDS
from questions import EMPTY, FULL, child, counted, level_of, parent

CELLS = 8  # max_cells of the run whose start cells and final lists are meant
ROOM = 5000  # ids of a list that is asked for, at most
RARE = 300  # one in so many requests is long
ALLOWANCE = 0xffffffff
BAD_REGIONS = [
    "cell 0000000000000000", "cell d000000000000000", "list 1 0000000000000002", "list 2 3000000000000000 1000000000000000",
    "list 2 1000000000000000 1c00000000000000", f"list {counted(range(1, 2 * IDS + 2, 2))}",
    "cap 3ff0000000000000 0000000000000000 0000000000000000 4010000000000001", "cap 3ff0000000000000 3ff0000000000000 0000000000000000 3ff0000000000000",
    "cap 7ff8000000000000 0000000000000000 0000000000000000 3ff0000000000000",
]
BAD_LISTS = [[0], [0x1000000000000002], [0x3000000000000000, 0x1000000000000000], [0x1000000000000000, 0x1000000000000000], [0x1000000000000000, 1]]
# What can be wrong with a request, in the order in which it is looked for: refusals by number, and a list that breaks a rule.
FAULTS = (1, 2, 3, 5, 18, "no", 19)
START = "0 30 1 cell 1000000000000000"
MALFORMED = ["", "0", "0 30", "0 30 1", "0 30 1 0", "0 30 1 cell", "0 30 1 cell 1000000000000000", "0 30 1 8 cell 1000000000000000 0", "0 30 1 square 0",
             "0 30 1 list", "0 30 1 list 0", "0 30 1 list 1 0", "0 30 1 cap 3ff0000000000000 0000000000000000 0000000000000000 0",
             "cell 1000000000000000 0 0 30 1", "0 -1 1 list 0 0", "0 30 x list 0 0", "18446744073709551616 30 1 list 0 0",
             *(f"{START} {rest}" for rest in (
                 "x", "-1", "1", "2 1000000000000000", "0 1000000000000000", "1 1000000000000000 3000000000000000", "16384", "16385", "1 100000000000000",
                 "1 10000000000000000", "1 100000000000000g", "1 B000000000000000", "allow=1", "1 allow=1", "0 0", "0 allow=", "0 allow=4294967296",
                 "0 allow=1 allow=1", "0 tokens=2", "0 room=1", "0 out=65537", "0 mem=8193", "0 engine=fast", "0 edition=x", "0 allow=1 0", "list 0"))]

# sort: how the list was made; cells: the region's, None for a cap; begins: how the answer has to begin, "" where that isn't known
Request = collections.namedtuple("Request", "sort region cells numbers ids options begins", defaults=((), ""))


def line(kind, request, *options):
    return " ".join([kind, *map(str, request.numbers), request.region, counted(request.ids), *request.options, *options])


def of_list(words):
    """The region and the cells of a request about a list, and its numbers but for max_cells."""
    _, low, high, step, _, *region = words.split(" ")
    return " ".join(region), [int(word, 16) for word in region[2:]], (int(low), int(high), int(step))


# ---- lists made from others. Each function is given a Picker, a list that isn't empty, and the levels that are allowed; it gives the list that is made
# of it, and whether the new one has every leaf of the old one and breaks no rule. None where the list has no place for it


def levels_of(low, high, step):
    return range(low, high + 1, step)


def left_out(p, ids, _):
    at = p.r.randrange(len(ids))
    return ids[:at] + ids[at + 1:], False


def merged(p, ids, levels):
    """A cell, and all others under one above it, become that one."""
    id = p.r.choice(ids)
    if level_of(id) == 0:
        return None
    level = p.r.choice([max(0, level_of(id) - levels.step), p.r.randrange(level_of(id))])
    above = parent(id, level)
    return sorted({above, *(other for other in ids if parent(other, min(level, level_of(other))) != above)}), level in levels


def raised(p, ids, _):
    """A cell becomes its parent, and the others stay."""
    at = p.r.randrange(len(ids))
    return (ids[:at] + [parent(ids[at], level_of(ids[at]) - 1)] + ids[at + 1:], False) if level_of(ids[at]) else None


def cut(p, ids, levels, leave=0):
    """A cell becomes its parts, of the next level that is allowed or of the next one; so many are left out."""
    at = p.r.randrange(len(ids))
    level = level_of(ids[at]) + p.r.choice([levels.step, levels.step, 1])
    if level > 30:
        return None
    low, size = ids[at] & -ids[at], 1 << 2 * (30 - level)
    parts = list(range(ids[at] - low + size, ids[at] + low, 2 * size))
    for _ in range(leave):
        del parts[p.r.randrange(len(parts))]
    return ids[:at] + parts + ids[at + 1:], not leave and level in levels


def cut_short(p, ids, levels):
    return cut(p, ids, levels, 1)


def moved(p, ids, _):
    """A cell becomes one beside it, one of its quarters, or one of its parts at any depth."""
    at = p.r.randrange(len(ids))
    low, level = ids[at] & -ids[at], level_of(ids[at])
    beside = [id for id in (ids[at] - 2 * low, ids[at] + 2 * low) if 0 < id < 2 * LEAVES]
    below = [child(ids[at], p.r.randrange(4)), p.lists.under(ids[at], p.r.randint(level, 30))] if level < 30 else []
    return ids[:at] + [p.r.choice(beside + below)] + ids[at + 1:], False


def swapped(p, ids, _):
    if len(ids) < 2:
        return None
    a = p.r.randrange(len(ids) - 1)
    b = p.r.choice([a + 1, p.r.randrange(a + 1, len(ids))])
    return ids[:a] + [ids[b]] + ids[a + 1:b] + [ids[a]] + ids[b + 1:], False


def repeated(p, ids, _):
    at = p.r.randrange(len(ids))
    return ids[:at] + [ids[at]] + ids[at:], False


def spoiled(p, ids, _):
    """A number that is no cell, in place of a cell or before it."""
    at = p.r.randrange(len(ids))
    low = ids[at] & -ids[at]
    bad = p.r.choice([0, ids[at] - low, ids[at] - low + low // 2, ids[at] | 6 << 61, p.r.randint(1, 7) << 61, (1 << 64) - 1, 2])
    return ids[:at] + [bad if bad != ids[at] else 0] + ids[at + p.r.randrange(2):], False


def twice_spoiled(p, ids, levels):
    """Two rules broken, or one in two places."""
    for change in sorted(p.r.choices([raised, moved, swapped, repeated, spoiled], k=2), key=lambda change: change is spoiled):
        made = change(p, ids, levels)
        ids = made[0] if made else ids
    return ids, False


def shaken(p, ids, _):
    """Any of the cells left out, cut in four or become its parent, in order and apart."""
    found = []
    for id in ids:
        pick = p.r.random()
        quarters = [child(id, k) for k in range(4)] if level_of(id) < 30 else [id]
        found += [] if pick < 0.05 else quarters if pick < 0.3 else [parent(id, max(0, level_of(id) - 1))] if pick < 0.4 else [id]
    return apart(found), False


def joined(p, ids, levels, many=None):
    """Other cells beside those of the list, of levels that are allowed; the list has so many then, if there is room for them."""
    r, level = p.r, p.r.choice(levels) if many is None else levels[-1]
    end, stride, wanted = 6 * 4**level, r.randint(1, 3), r.randint(1, 9) if many is None else 2 * many
    start = r.randrange(end)
    others = [cell(place * 4 ** (30 - level), 30 - level) for place in range(start, min(end, start + stride * wanted), stride)]
    found, own = apart([*ids, *others]), set(ids)
    spare = [id for id in found if id not in own]
    gone = set(r.sample(spare, min(len(spare), max(0, len(found) - many)))) if many else ()
    return [id for id in found if id not in gone], True


CHANGES = {
    "one left out": left_out, "some merged": merged, "one become its parent": raised, "one cut": cut, "one cut, a part left out": cut_short,
    "one moved": moved, "two swapped": swapped, "one twice": repeated, "one that is no cell": spoiled, "two rules broken": twice_spoiled,
    "all shaken": shaken, "others beside": joined,
}
OWN = tuple(f"our own, edition {edition}" for edition in (1, 2))
SORTS = [*OWN, *CHANGES, "by another request", "the region's cells", "empty", "at random", "faults at once", "long"]


class Picker:
    """Requests, all from one seed and the answers of a judge."""

    def __init__(self, seed):
        self.discs, self.lists = questions.Picker(f"checks {seed}"), listed.Picker(f"checks {seed}")
        self.r = self.discs.r

    def find_flips(self, ask, number):
        self.discs.find_flips(ask, number)
        self.lists.find_flips(ask, number)

    def region(self):
        """A region in the domain, its cells (None for a cap), and numbers that suit it."""
        r, pick = self.r, self.r.random()
        if pick < 0.6:
            if pick < 0.45:
                text, natural = self.discs.region()
                numbers = self.discs.numbers(natural)
            elif pick < 0.58:
                _, *numbers, text = self.discs.placed().split(" ", 5)
            else:
                text, numbers = r.choice([FULL, EMPTY]), self.discs.numbers(r.choice([0, 0, 1, r.randint(0, 30)]))
            words = text.split(" ")
            return text, [int(words[1], 16)] if words[0] == "cell" else None, tuple(map(int, numbers[:3]))
        if pick < 0.68:
            ids, numbers = self.lists.nested()
            return f"list {counted(ids)}", ids, numbers[:3]
        if pick < 0.76:
            return of_list(r.choice([self.lists.placed, self.lists.tied])())
        _, ids = self.lists.one()
        return f"list {counted(ids)}", ids, self.lists.numbers(self.lists.natural(ids))[:3]

    def holding(self, cells):
        """Numbers that allow the levels of these cells, mostly."""
        r, levels = self.r, [level_of(id) for id in cells] or [r.randint(0, 30)]
        low, high = min(levels), max(levels)
        step = r.choice([step for step in (1, 2, 3) if all((level - low) % step == 0 for level in levels)])
        return low - step * r.randint(0, low // step), min(30, high + r.choice([0, 0, 1, 2, 30])), r.choice([step, step, step, 1])

    def wish(self):
        """How a list is to be made, the region, its cells and numbers, and the requests whose answers it is made from: our own list's, and another one."""
        r, sort = self.r, "long" if self.r.randrange(RARE) == 0 else self.r.choice(SORTS[:-1])
        region, cells, numbers = self.region()
        if sort == "faults at once":
            return sort, region, cells, numbers, []
        if sort == "long" and r.random() < 0.6:
            cells = self.lists.full()
            region, numbers = f"list {counted(cells)}", self.holding(cells)
        elif sort == "the region's cells" and cells is not None:
            numbers = self.holding(cells)
        low, high, step = numbers
        edition = 1 + OWN.index(sort) if sort in OWN else r.choice([1, 2])
        other = r.choice([numbers, numbers, (low, high, 1), (0, high, step), (min(30, low + 1), 30, step), (0, 30, 1)])
        kind = r.choice(["covering", "covering", "covering", "cellunion", "raw", "interior", "fast"])
        most = r.choice([0, 1, 4, 6, 7, 9, 12, 20, 50, 100, 300, 1000])
        return sort, region, cells, numbers, [f"covering {low} {high} {step} {CELLS} {region} out={ROOM} edition={edition}",
                                              " ".join([kind, *map(str, other), str(most), region, f"out={ROOM}"])]

    def faulty(self):
        """A request with one fault or more. A test is due in it, and but for these faults nothing is wrong."""
        r = self.r
        faults = r.sample(FAULTS, r.choice([1, 2, 2, 2, 3, 4, len(FAULTS)]))
        high = r.choice([31, 256, 4294967296]) if 1 in faults else 30
        low = r.choice([high + 1, 18446744073709551615]) if 2 in faults else 0
        step = r.choice([0, 4, 257, 18446744073709551615]) if 3 in faults else r.choice([1, 2, 3])
        region = r.choice(BAD_REGIONS) if 5 in faults else "cell 1000000000000000"
        ids = r.choice(BAD_LISTS) if "no" in faults else [0x1000000000000000]
        if 18 in faults:
            ids = ids + [2 * leaf + 1 for leaf in range(LEAVES // 2, LEAVES // 2 + IDS)]
        first = min(faults, key=FAULTS.index)
        return Request("faults at once", region, None, (low, high, step), ids, ("allow=0",) if 19 in faults else (), "no id" if first == "no" else f"refused {first}")

    def long(self, own, cells, levels):
        """A list about as long as it may be: the cells of a long region, as they stand or changed; or our own list filled up."""
        if cells is not None and len(cells) >= IDS // 2:
            return self.r.choice([lambda: (cells, True), lambda: (cells, True), lambda: left_out(self, cells, levels), lambda: swapped(self, cells, levels)])()
        ids, covers = joined(self, own or [], levels, self.r.choice([IDS - 1, IDS, IDS, IDS + 1]))
        return ids, covers and own is not None

    def made(self, sort, own, other, cells, levels):
        """A list of a sort, and whether it covers the region for sure; None where there is none."""
        if sort == "long":
            return self.long(own, cells, levels)
        if sort == "the region's cells" and cells is not None:
            return cells, all(level_of(id) in levels for id in cells)
        if sort == "by another request" and other is not None:
            return other, False
        if sort == "empty":
            return [], False
        if sort in CHANGES and own:
            return CHANGES[sort](self, own, levels)
        return (own, True) if sort in OWN and own is not None else None

    def request(self, wish, answers):
        """The request of a wish, with the answers to its lines."""
        r, (sort, region, cells, numbers, _) = self.r, wish
        if sort == "faults at once":
            return self.faulty()
        lists = [[int(word, 16) for word in answer.split(" ")[questions.COUNT + 1:]] if answer.startswith("ok") else None for answer in answers]
        made = self.made(sort, *lists, cells, levels_of(*numbers))
        if made is None:
            sort, made = "at random", (r.choice([self.lists.one()[1], self.lists.made.scattered(r.randint(0, 8))]), False)
        ids, covers = made
        begins = "refused 18" if len(ids) > IDS else "yes" if covers else ""
        if self.discs.chance(0.03):
            numbers, begins = self.discs.bad_numbers(*numbers, CELLS)[:3], ""
        if self.discs.chance(0.02):
            region, cells, begins = r.choice([self.discs, self.lists]).bad_region(), None, ""
        return Request(sort, region, cells, numbers, ids, begins=begins)

    def requests(self, ask, number):
        """So many requests; ask gives a judge's answers to lines."""
        wishes = [self.wish() for _ in range(number)]
        answers = iter(ask([line for wish in wishes for line in wish[-1]]))
        return [self.request(wish, [next(answers) for _ in wish[-1]]) for wish in wishes]

    def idle(self):
        """Options that say nothing; often none."""
        names = [f"out={self.r.choice([0, 1, 65536])}", f"mem={self.r.choice([0, 5119, 8192])}", f"edition={self.r.choice([0, 1, 2, 3])}", f"engine={self.r.choice(['quick', 'plain', 'both'])}"]
        return self.r.sample(names, self.r.choice([0, 0, 0, 0, 0, 0, 1, 2, 4]))
