"""Lists of cell ids: the rules, the largest cells of some leaves, lists at random, and lists that break a rule.

Used by oracle/ranges, oracle/sets and oracle/tokens, and by oracle/listed.py for regions that are lists. A leaf has a number n from 0 on,
and the id 2n + 1; a stretch is (first leaf's number, number after the last's). A Picker with the same seed gives the same lists.
"""

import itertools
import random

import questions

FACE = 1 << 60  # leaves of a face
LEAVES = 6 * FACE
PLACES = 65536  # of an output without out=
MOST = 15400  # numbers that a line of 262,144 bytes takes


# ---- the second reading


def valid(id):
    """Three bits for a face, 0 to 5; then twice as many bits as there are levels; a 1; zeros, twice as many as levels are left."""
    zeros = len(f"{id:064b}") - len(f"{id:064b}".rstrip("0"))
    return id >> 61 <= 5 and zeros % 2 == 0 and zeros <= 60


def token(id):
    """Sixteen digits, without the zeros at their end."""
    return f"{id:016x}".rstrip("0")


def leaves(id):
    """First and last leaf id of a cell."""
    low = id & -id
    return id - (low - 1), id + (low - 1)


def is_list(ids):
    ranges = [leaves(id) for id in ids]
    return all(map(valid, ids)) and ids == sorted(set(ids)) and all(a[1] < b[0] for a, b in zip(ranges, ranges[1:]))


def stretches(ids):
    return [(first // 2, last // 2 + 1) for first, last in map(leaves, ids)]


def meeting(begin, end, lists):
    """Of each list the stretches that have a leaf from begin to before end."""
    return [[(s, e) for s, e in met if s < end and begin < e] for met in lists]


def held(begin, end, met):
    """Whether stretches have the leaves from begin to before end: all, or none, or None for some. All stretches meet these."""
    return False if not met else True if met[0][0] <= begin and end <= met[0][1] else None


def look(begin, size, lists, tests):
    """What `largest` finds in the cell with so many leaves from begin on; all stretches meet it."""
    has = [held(begin, begin + size, met) for met in lists]
    if None not in has:
        return [[2 * begin + size] if test(*has) else [] for test in tests]
    size //= 4
    quarters = range(begin, begin + 4 * size, size)
    parts = zip(*[look(quarter, size, meeting(quarter, quarter + size, lists), tests) for quarter in quarters])
    found, four = [[*a, *b, *c, *d] for a, b, c, d in parts], [2 * quarter + size for quarter in quarters]
    return [[2 * begin + 4 * size] if cells == four else cells for cells in found]


def largest(lists, *tests):
    """For each test the largest cells that have wanted leaves only, ascending.

    The lists are stretches that don't overlap. A test is asked about a leaf, with a truth for each list: whether the list has it.
    Every cell is looked at, from the six faces down. One of whose leaves each list has all or none is taken or left, as the test says;
    of any other the four quarters are looked at, and it is taken in their place where all four are taken.
    """
    parts = zip(*[look(face, FACE, meeting(face, face + FACE, lists), tests) for face in range(0, LEAVES, FACE)])
    return [list(itertools.chain.from_iterable(part)) for part in parts]


def merged(ids):
    """A list with four siblings replaced by their parent, again and again."""
    done = []
    for id in ids:
        done.append(id)
        while id & -id < FACE:
            id = questions.parent(id, questions.level_of(id) - 1)
            if done[-4:] != [questions.child(id, k) for k in range(4)]:
                break
            done[-4:] = [id]
    return done


# ---- lists


def cell(start, k):
    """The cell of 4^k leaves from start on."""
    return 2 * start + 4**k


def fitting(start):
    """The largest k for a cell from start on."""
    return 30 if start == 0 else min(30, ((start & -start).bit_length() - 1) // 2)


def apart(ids):
    """Cells in order; of two that overlap one goes."""
    found = []
    for id in sorted(ids, key=leaves):
        if not found or found[-1] + (found[-1] & -found[-1]) <= id - (id & -id):
            found.append(id)
    return found


class Picker:
    """Lists, all from one seed."""

    def __init__(self, seed):
        self.r = random.Random(seed)

    def size(self):
        pick = self.r.random()
        for part, low, high in ((0.01, 0, 0), (0.06, 1, 1), (0.56, 2, 5), (0.95, 6, 20), (0.994, 21, 100), (1, 101, 1500)):
            if pick < part:
                return self.r.randint(low, high)

    def window(self):
        """A stretch of the curve: a cell of any level, mostly, or all of it."""
        r = self.r
        if r.random() < 0.2:
            return 0, LEAVES
        k = r.randint(2, 30)
        start = r.randrange(6 * 4 ** (30 - k)) * 4**k
        return start, start + 4**k

    def scattered(self, n, window=None):
        """Cells of any level anywhere in a window."""
        r, (begin, end) = self.r, window or self.window()
        largest = fitting(end - begin)
        found = []
        for _ in range(n):
            k = r.randint(0, r.choice([0, largest // 2, largest]))
            found.append(cell(r.randrange(begin, end) >> 2 * k << 2 * k, k))
        return apart(found)

    def row(self, start, n, gap=0.15, largest=30):
        """Cells one after another from start on; now and then a gap between two."""
        r, found = self.r, []
        while len(found) < n and start < LEAVES:
            k = r.randint(0, min(largest, fitting(start))) if r.random() < 0.6 else min(largest, fitting(start))
            found.append(cell(start, k))
            start += 4**k
            if r.random() < gap:
                start += r.choice([1, 1, 2, 3, 4, 4**k, r.randint(1, 4**k)])
        return found

    def dense(self, n):
        return self.row(self.r.randrange(LEAVES), n)

    def any_cell(self, least=0):
        """A cell of at least 4^least leaves."""
        k = self.r.randint(least, 30)
        return cell(self.r.randrange(6 * 4 ** (30 - k)) * 4**k, k)

    def cut(self, ids, n):
        """A list of which cells are cut in four, again and again, until it has n."""
        r, found = self.r, list(ids)
        while 0 < len(found) < n:
            at = r.randrange(len(found))
            low = found[at] & -found[at]
            if low > 1:
                found[at:at + 1] = [found[at] + place * (low // 4) for place in (-3, -1, 1, 3)]
            elif r.random() < 0.5:
                break
        return found

    def families(self, n):
        """A cell cut in four again and again, now and then without one of the parts."""
        found = self.cut([self.any_cell(3)], n)
        if self.r.random() < 0.4:
            del found[self.r.randrange(len(found))]
        return found

    def ends(self, n):
        """From the first leaf on, or up to the last."""
        found = self.row(0, n, largest=self.r.choice([0, 1, 3, 30]))
        return found if self.r.random() < 0.5 else [2 * LEAVES - id for id in reversed(found)]

    def borders(self, n):
        """On both sides of a face's border."""
        border, largest = 2 * FACE * self.r.randint(1, 5), self.r.randint(0, 29)
        before, after = self.row(0, n // 2, largest=largest), self.row(0, n - n // 2, largest=largest)
        found = [border - id for id in reversed(before)] + [border + id for id in after]
        return [id for id in found if 0 < id < 2 * LEAVES]

    def one_leaf_gaps(self, n):
        """A gap of one leaf after each cell, or after some."""
        r, found, start, often = self.r, [], self.r.randrange(LEAVES), self.r.choice([0.3, 1])
        while len(found) < n and start < LEAVES:
            k = r.randint(0, fitting(start))
            found.append(cell(start, k))
            start += 4**k + (r.random() < often)
        return found

    def single_leaves(self, n):
        """Leaves alone: anywhere, or near one another."""
        r, (begin, end) = self.r, self.window()
        if r.random() < 0.5:
            begin = r.randrange(LEAVES - 3 * n)
            end = begin + 3 * n
        return [cell(start, 0) for start in sorted({r.randrange(begin, end) for _ in range(n)})]

    def faces(self, _):
        """Some of the six faces, or all, or none."""
        return [cell(face * FACE, 30) for face in range(6) if self.r.random() < 0.7]


MAKERS = {
    "scattered cells": Picker.scattered, "cells in a row": Picker.dense, "families of siblings": Picker.families,
    "at the curve's ends": Picker.ends, "at a face's border": Picker.borders, "gaps of one leaf": Picker.one_leaf_gaps,
    "single leaves": Picker.single_leaves, "faces": Picker.faces,
}


# ---- rules broken, one at a time. Each function gives the broken list, or None where the list has no place for it


def put(ids, at, *more):
    return ids[:at] + list(more) + ids[at:]


def bad_face(r, ids):
    k = r.randint(0, 30)
    return ids + [(r.choice([6, 7]) << 60 - 2 * k | r.getrandbits(60) >> 2 * k) << 1 + 2 * k | 1 << 2 * k]


def odd_place(r, ids):
    """In place of a cell a number with its lowest bit at an odd place, and in the cell's range."""
    at = [k for k, id in enumerate(ids) if id % 2 == 0]
    if not at:
        return None
    at = r.choice(at)
    low = ids[at] & -ids[at]
    place = 2 * r.randrange(low.bit_length() // 2) + 1
    return ids[:at] + [ids[at] - low + (1 << place)] + ids[at + 1:]


def place_over_60(r, ids):
    return sorted(r.choice([[], ids]) + [r.randint(1, 5) << 61])


def zero(r, ids):
    return put(ids, r.choice([0, 0, r.randint(0, len(ids))]), 0)


def descending(r, ids):
    if len(ids) < 2:
        return None
    a, b = sorted(r.sample(range(len(ids)), 2)) if r.random() < 0.5 else (len(ids) - 2, len(ids) - 1)
    return ids[:a] + [ids[b]] + ids[a + 1:b] + [ids[a]] + ids[b + 1:]


def equal(r, ids):
    if not ids:
        return None
    at = r.randrange(len(ids))
    return put(ids, at, ids[at])


def ancestor(r, ids):
    """A cell of the list, and one that holds it."""
    at = [k for k, id in enumerate(ids) if id & -id < FACE]
    if not at:
        return None, None
    id = ids[r.choice(at)]
    level = questions.level_of(id)
    return id, questions.parent(id, r.choice([level - 1, r.randrange(level)]))


def parent_in_order(r, ids):
    """Ascending as numbers, but one holds the other."""
    _, above = ancestor(r, ids)
    return None if above is None or above in ids else sorted(ids + [above])


def parent_out_of_order(r, ids):
    """The greater number first."""
    id, above = ancestor(r, ids)
    if above is None or above in ids:
        return None
    at = ids.index(id)
    return put(ids, at if above > id else at + 1, above)


BROKEN = {
    "face 6 or 7": bad_face, "lowest bit at an odd place": odd_place, "lowest bit over place 60": place_over_60, "0": zero,
    "descending": descending, "equal": equal, "cell and ancestor, ascending": parent_in_order,
    "cell and ancestor, descending": parent_out_of_order,
}


def broken(r, words, rules):
    """One of the rules, and the words changed so that they break it; None where no rule has a place."""
    rules = list(rules.items())
    r.shuffle(rules)
    for name, rule in rules:
        bad = rule(r, words)
        if bad is not None and len(bad) <= MOST:
            return name, bad
