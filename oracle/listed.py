"""Regions that are lists of cells, paper 02's request a: questions about them, as lines of `cover` and `probe`.

Used by oracle/compare --lists and oracle/picklists. A Picker with the same seed gives the same questions. Lists, and lists that
break a rule, are those of oracle/idlists.py and some more: cells inside one, runs of neighbours, siblings, one cell a face, what
discs were covered with, lists whose start cells lie inside one another once they are moved, and some of them such that a run queues a
cell from two start cells at once, lists on which the editions may part ways, lists that come to as many cells as the limits of a run are. Most are short: a run joins the listed cells two at a time, all of them looked at each time, which takes
the square of their number. What stands here only chooses questions and decides no answer.
"""

import idlists
import questions
from idlists import LEAVES, MOST, apart, cell, valid
from questions import child, counted, hexed, level_of, parent

IDS = 4096  # of a list, at most
# Parts of all lists, summed up, and between which two sizes those of each part are.
SIZES = ((0.02, 0, 0), (0.06, 1, 1), (0.30, 2, 6), (0.70, 7, 20), (0.985, 21, 100), (0.998, 101, 400), (0.9996, 401, 1500), (1, 1501, IDS))
QUESTIONS = ["bound"] + ["starts"] * 3 + ["region_contains_cell", "region_intersects_cell"] * 3
START = "covering 0 30 1 8"
MALFORMED = [f"{START} {region}" for region in (
    "list", "list x", "list -1 1000000000000000", "list 1", "list 2 1000000000000000", "list 4096 1000000000000000", "list 4097", "list 16384",
    "list 16385", "list 16385 1000000000000000", "list 18446744073709551616", "list 000000000000000000000", "list 0x1 1000000000000000",
    "list 0 1000000000000000", "list 1 1000000000000000 3000000000000000", "list 0 0", "list 1 100000000000000", "list 1 10000000000000000",
    "list 1 100000000000000g", "list 1 B000000000000000", "list out=1", "list 1 out=1", "list 0 out=", "list 0 out=65537", "list 0 out=1 out=1",
    "list 1 1000000000000000 allow=1 3000000000000000", "list 2 1000000000000000 allow=1 3000000000000000", "list 0 list 0", "list 0 cell 1000000000000000",
    "cell 1000000000000000 list 0", "lists 0", "List 0", "cells 0", "1 1000000000000000", "list 0 room=1", "list 0 tokens=2")]
MALFORMED_QUESTIONS = [
    "bound list", "bound list 1", "bound list 2 1000000000000000", "bound list 0 1000000000000000", "bound lists 0", "bound list 0 allow=1",
    "bound list 16385", "starts 0 30 1 8 list", "starts 0 30 1 list 0", "starts 0 31 1 8 list 0", "starts 31 30 1 8 list 0", "starts 0 30 4 8 list 0",
    "starts 0 30 1 1001 list 0", "starts 0 30 1 8 list 1 0000000000000000", "region_contains_cell", "region_contains_cell list 0",
    "region_contains_cell list 1 1000000000000000", "region_intersects_cell list 1 1000000000000000", "region_intersects_cell list",
    "region_contains_cell list 2 1000000000000000 3000000000000000", "region_contains_cell 1000000000000000 list 0", "region_contains_cell list 0 0",
    "region_contains_cell list 1 1000000000000000 1000000000000000 3000000000000000", "region_intersects_cell list 0 0000000000000000",
    "region_contains_cell cell 1000000000000000", "region_contains_cell cell 0000000000000000 1000000000000000",
    "region_intersects_cell cell 1000000000000000 d000000000000000", "region_contains_cells list 0 1000000000000000", "list 0",
    "region_intersects_cell cap 3ff0000000000000 0000000000000000 0000000000000000 4010000000000001 1000000000000000",
    "region_contains_cell cap 3ff0000000000000 0000000000000000 0000000000000000 4010000000000000",
    "region_contains_cell square 1000000000000000 1000000000000000", "region_intersects_cell list 0 1000000000000000 out=1",
]


def shared(a, b):
    """The level of the deepest cell that holds both; 0 where none does."""
    level = min(level_of(a), level_of(b))
    while level > 0 and parent(a, level) != parent(b, level):
        level -= 1
    return level


def taken(ids):
    """Whether a list is in the domain."""
    return len(ids) <= IDS and idlists.is_list(ids)


class Picker(questions.Picker):
    """As questions.Picker, but every region of a request is a list."""

    malformed = MALFORMED

    def __init__(self, seed):
        super().__init__(f"lists {seed}")
        self.made = idlists.Picker(f"made for {seed}")
        self.pool = []  # coverings of discs and cells
        self.many = 8  # cells of the last list

    def find_flips(self, ask, number):
        """Fills the pool with answers about discs and cells, most of them short."""
        lines = []
        for _ in range(number):
            region, natural = super().region()
            kind = self.r.choice(["covering", "covering", "cellunion", "interior", "icellunion", "fast"])
            lines.append(" ".join([kind, *map(str, self.numbers(natural)), region, f"out={self.r.choice([20, 50, 100, 100, 400])}"]))
        self.pool = [[int(word, 16) for word in answer.split(" ")[questions.COUNT + 1:]] for answer in ask(lines) if answer.startswith("ok")]

    # lists

    def size(self):
        pick = self.r.random()
        low, high = next((low, high) for part, low, high in SIZES if pick < part)
        return self.r.choice([high, high - 1, self.r.randint(low, high)]) if high == IDS else self.r.randint(low, high)

    def inside(self, n):
        """Cells of a few levels inside one cell."""
        r, k = self.r, self.r.randint(1, 30)
        begin, depth = r.randrange(6 * 4 ** (30 - k)) * 4**k, r.randint(1, min(k, 6))
        sizes = [r.randint(k - depth, k - 1) for _ in range(n)]
        return apart([cell(begin + r.randrange(4 ** (k - j)) * 4**j, j) for j in sizes])

    def runs(self, n):
        """Cells of one level: runs of neighbours, and gaps."""
        r, k, found = self.r, self.r.randint(0, 29), []
        place, end = r.randrange(6 * 4 ** (30 - k)), 6 * 4 ** (30 - k)
        while len(found) < n and place < end:
            run = min(r.choice([1, 2, 3, 4, 5, 8, 16]), end - place)
            found += [cell(at * 4**k, k) for at in range(place, place + run)]
            place += run + r.choice([1, 1, 2, 3, 4, r.randint(1, 64)])
        return found[:n]

    def siblings(self, n):
        """All four children of some cells, some of the children of others."""
        r, found = self.r, []
        for id in self.inside(max(1, n // 3)):
            places = range(4) if r.random() < 0.6 else sorted(r.sample(range(4), r.randint(1, 3)))
            found += [id] if level_of(id) == 30 else [child(id, k) for k in places]
        return found

    def one_a_face(self, _):
        r = self.r
        level = r.choice([None, None, r.randint(0, 30)])
        cells = (self.cell(level) for _ in range(30))
        chosen = {each.face: each.id for each in cells}
        return sorted(r.sample(list(chosen.values()), r.randint(1, len(chosen))))

    def areas(self, n):
        """An area that a disc or a cell was covered with: whole, with holes, or with cells cut in four."""
        r = self.r
        if not self.pool:
            return self.inside(n)
        ids, pick = r.choice(self.pool), r.random()
        if pick < 0.3:
            return [id for id in ids if r.random() < 0.8]
        return self.made.cut(ids, len(ids) + r.randint(1, 20)) if pick < 0.5 else ids

    def one(self):
        """The name of a sort, and a list of it that is in the domain."""
        name, n = self.r.choice(SORTS), self.size()
        ids = MAKERS[name](self, n) if name in MAKERS else idlists.MAKERS[name](self.made, n)
        self.many = min(len(ids), IDS)
        return name, ids[:IDS]

    def natural(self, ids):
        """A level about which a request may ask."""
        r, pick = self.r, self.r.random()
        if not ids:
            return r.randint(0, 30)
        if pick < 0.6:
            return level_of(r.choice(ids))
        at = r.randrange(len(ids))
        return shared(ids[0], ids[-1]) if pick < 0.75 else shared(ids[at], ids[at - 1] if at else ids[-1])

    def numbers(self, natural):
        """As before, but often max_cells is about the number of listed cells."""
        low, high, step, cells = super().numbers(natural)
        about = [self.many // 4, self.many // 2, self.many - 1, self.many, self.many + 1, self.many + 3, 2 * self.many]
        return low, high, step, max(0, min(1000, self.r.choice(about))) if self.chance(0.4) else cells

    def nested(self):
        """A list and numbers: one of its cells, moved to its adjusted level, may hold some that were kept before it."""
        r, step = self.r, self.r.choice([2, 3])
        level = r.randint(0, 30 - step)
        above = self.id(level)
        place = r.randint(1, 3)
        found = [self.under(child(above, place), level + r.randint(1, step - 1))]
        for _ in range(r.choice([1, 2, 2, 2, 3, 3, 5])):
            found.append(self.under(child(above, r.randrange(place)), level + step * r.randint(1, (30 - level) // step)))
        if r.random() < 0.3:
            found.append(self.id())
        low, high = level - step * r.randint(0, level // step), max(map(level_of, found)) + r.choice([0, 0, 1, 3])
        return apart(found), (low, r.choice([30, min(30, high)]), step, r.choice([2, 3, 3, 4, 4, 8, 20]))

    def placed(self):
        """A request whose start cells overlap. One of them, moved to its adjusted level, holds others that were kept before it, with several listed cells
        in each, so that they wait in the queue when the run comes to them once more, from the cell that holds them. max_cells is often such that one of
        the two is handed on and the other is not."""
        r, step = self.r, self.r.choice([2, 3])
        level = r.randint(0, 30 - 2 * step)
        above, place = self.id(level), r.randint(1, 3)
        found = [self.under(child(above, place), level + r.randint(1, step - 1))]
        for _ in range(r.choice([2, 2, 3])):
            top = self.under(child(above, r.randrange(place)), level + step * r.choice([1, 1, 1, 2]))
            found += [self.under(top, min(30, level_of(top) + r.randint(1, 4))) for _ in range(r.randint(1, 6))]
        if self.chance(0.1):
            found.append(self.id())
        high = r.choice([30, max(map(level_of, found)) + r.choice([0, 0, 1, 3])])
        return self.outer(level - step * r.randint(0, level // step), high, step, r.randint(4, 24), f"list {counted(apart(found))}")

    def tied(self):
        """As before, about a list. In one cell lie whole cells of a level above min_level, and cells of which nothing is listed but in one child of one child:
        something in each of its four children, or one cell. A small max_cells makes the run start above them all."""
        r, low = self.r, self.r.randint(1, 28)
        above, found = self.id(max(0, low - 1 - r.randint(0, 3))), []
        for cell in sorted(self.under(above, low - 1) for _ in range(r.randint(2, 6))):
            pick = r.random() if found else 1
            if pick < 0.55:
                found.append(cell)
            else:
                one = self.under(cell, low + 1)
                found += [self.under(child(one, k), r.choice([low + 2, low + 2, r.randint(low + 2, 30)])) for k in range(4) if k == 0 or pick > 0.7]
        kind = r.choice(["iraw", "iraw", "interior", "icellunion"] if self.chance(0.5) else ["raw", "raw", "raw", "raw", "covering", "cellunion"])
        return f"{kind} {low} {r.choice([low + 2, low + 2, 30])} 1 {r.choice([0, 1, 1, 1, 2, 2, 3, 4, 6, 8, 20])} list {counted(apart(found))}"

    def under(self, id, level):
        """A cell of a level in a cell."""
        low = id & -id
        return parent(id - low + 2 * self.r.randrange(low) + 1, max(level, level_of(id)))

    def amounting(self, k, wanted):
        """Cells that are so many cells of 4^k leaves."""
        r, found, start = self.r, [], self.r.randrange(LEAVES // 2)
        while wanted:
            j = next(j for j in (r.choice([5, 5, 4, 4, 3, 2, 1]), 4, 3, 2, 1, 0) if 4**j <= wanted)
            size = 4 ** (k + j)
            start = (start + size - 1) // size * size + r.choice([0, 0, 1, 1, 2, 5]) * size
            found.append(cell(start, k + j))
            start, wanted = start + size, wanted - 4**j
        return found

    def long(self, *sizes):
        """A list of one of these sizes, in order and apart, in the first half of the curve."""
        n, start, largest = self.r.choice(sizes), self.r.randrange(LEAVES // 2), self.r.choice([0, 1, 3, 15])
        return self.made.row(start, n, largest=largest) if self.chance(0.7) else self.made.row(start, n, 1, largest)

    def full(self):
        """A list as long as it may be, or nearly."""
        return self.long(IDS, IDS, IDS - 1, self.r.randint(1500, IDS))

    def bad_region(self):
        """A list that breaks a rule, or is too long, or both."""
        pick = self.r.random()
        ids = self.one()[1] if pick < 0.9 else self.full() if pick < 0.92 else self.long(IDS + 1, IDS + 1, IDS + 2, 2 * IDS, 2 * IDS + 1, MOST - 1)
        if len(ids) <= IDS or self.chance(0.2):
            _, ids = idlists.broken(self.r, ids, idlists.BROKEN)
        return f"list {counted(ids)}"

    def region(self):
        _, ids = self.one()
        return f"list {counted(ids)}", self.natural(ids)

    # requests

    def request(self):
        """One `cover` line."""
        pick = self.r.random()
        if pick < 0.05:
            ids, numbers = self.nested()
        elif pick < 0.06:
            return " ".join([self.r.choice(questions.KINDS), *map(str, self.numbers(15)), self.bad_region()])
        else:
            return super().request()
        return " ".join([self.r.choice(questions.KINDS), *map(str, numbers), "list", counted(ids)])

    def at_limit(self):
        """A kind, numbers and a list that comes to about 1,024 cells of a level: on one side of the queue's limit or of the raw list's."""
        r, k = self.r, self.r.randint(0, 22)
        ids = self.amounting(k, 1024 + r.choice([-1, 0, 0, 1, 1, 2, r.randint(-30, 30)]))
        low = min(30, 30 - k + r.choice([0, 0, 1]))
        numbers = low, r.choice([low, min(30, low + r.randint(0, 4)), 30]), r.choice([1, 1, 2, 3]), r.choice([8, 100, 1000, 1000])
        return r.choice(["covering", "raw", "raw", "cellunion", "interior", "iraw", "icellunion"]), numbers, ids

    def limits(self, ask, number):
        """Requests at limits: two at that of the list, the others at those of the queue and of the raw list."""
        found = []
        for ids in (self.full(), self.long(IDS + 1)):
            self.many = len(ids)
            found.append((self.r.choice(questions.KINDS), self.numbers(self.natural(ids)), ids))
        found += [self.at_limit() for _ in range(2 * number - 2)]
        return [" ".join([kind, *map(str, numbers), "list", counted(ids)]) for kind, numbers, ids in found]

    def derived(self, line, answer, taken=None):
        """As before; and now and then the answer itself is a list for another request."""
        words = answer.split(" ")
        found = super().derived(line, answer, taken)
        if words[0] == "ok" and line.split(" ")[0] not in ("raw", "iraw") and "tokens" not in line and int(words[questions.COUNT]) < 100 and self.chance(0.3):
            ids = [int(word, 16) for word in words[questions.COUNT + 1:]]
            found.append(" ".join([self.r.choice(questions.KINDS), *map(str, self.numbers(self.natural(ids))), "list", counted(ids)]))
        return found

    # single questions

    def about(self, ids):
        """A cell to ask a list about: one of it, or one above, below, beside or between its cells."""
        r = self.r
        if not ids or self.chance(0.05):
            return self.id()
        at = r.choice([0, len(ids) - 1, r.randrange(len(ids)), r.randrange(len(ids))])
        id, pick = ids[at], r.randrange(10)
        low, level = id & -id, level_of(id)
        if pick == 0:
            return id
        if pick == 1:
            return parent(id, max(0, level - 1))
        if pick == 2:
            return parent(id, r.randint(0, level))
        if pick == 3:
            return id if level == 30 else child(id, r.randrange(4))
        if pick == 4:
            return self.under(id, r.randint(level, 30))
        if pick == 5:
            return id if level == 0 else child(parent(id, level - 1), r.randrange(4))
        if pick == 6:
            near = id + r.choice([-2, 2]) * low
        elif pick == 7:
            near = id + r.choice([low - 1, 1 - low, low + 1, -low - 1])  # its first and last leaf, and those beside it
        elif pick == 8:
            near = parent(min(2 * LEAVES - 1, max(1, id + r.choice([low + 1, -low - 1]))), r.randint(0, 30))
        else:
            first = id + low - 1
            last = ids[at + 1] - (ids[at + 1] & -ids[at + 1]) + 1 if at + 1 < len(ids) else 2 * LEAVES - 1
            near = parent(2 * r.randint(first // 2, last // 2) + 1, r.randint(level, 30))
        return near if 0 < near < 2 * LEAVES and valid(near) else id

    def question(self):
        """One `probe` line."""
        r = self.r
        if self.chance(0.02):
            return r.choice(MALFORMED_QUESTIONS)
        name = r.choice(QUESTIONS)
        if name in ("bound", "starts"):
            if name == "starts" and self.chance(0.3):
                ids, numbers = self.nested()
                return " ".join([name, *map(str, numbers), "list", counted(ids)])
            if name == "bound" and self.chance(0.15):
                return r.choice([f"bound {self.bad_region()}", f"bound {self.bad_region()}", f"bound list {counted(self.full())}"])
            return self.probe(name)
        pick = r.random()
        if pick < 0.12:
            center, radius, id = self.meeting()
            return f"{name} cap {hexed(*center, radius)} {id:016x}"
        if pick < 0.2:
            own = self.id()
            return f"{name} cell {own:016x} {self.about([own]):016x}"
        if pick < 0.23:
            return f"{name} {self.bad_region()} {self.id():016x}"
        ids = self.full() if self.chance(0.02) else self.one()[1]
        id = self.any_valid() if pick < 0.25 else self.about(ids)
        return f"{name} list {counted(ids)} {id:016x}"


MAKERS = {
    "cells inside one": Picker.inside, "runs of neighbours": Picker.runs, "children of cells": Picker.siblings, "one a face": Picker.one_a_face,
    "areas": Picker.areas,
}
SORTS = [*idlists.MAKERS, *MAKERS]
