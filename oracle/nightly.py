"""Nights of orders: what a night adds to its orders, and how nights are made at random.

Used by oracle/nights, oracle/lists and bench/night. The second reading stands here: where a list begins, the sums, 13 for more than 256
orders. How each order alone is answered is for the Rust to say.
"""

import collections
import itertools
import re

import questions
from judges import RUST
from questions import WORDS

LARGE = 65536  # places of an output, at most: the Rust takes no more
MOST = 256  # orders of a night
MEMORY = 8192  # words of memory, at most
FEWEST = 1000  # requests from which the orders of a batch are taken
FLIPS = 60
LIMITS = 12
ALLOWANCE, EDITION = 4294967295, 1  # where a request has none
OFTEN = [1, 2, MOST - 1, MOST]
OVER = [MOST + 1, MOST + 1, MOST + 2, 300, 512, 1000]
KIND = {"cellunion": "covering", "raw": "covering", "icellunion": "interior", "iraw": "interior"}  # a night has not all kinds; these have the same run
ROOMS = {
    "just enough": lambda cells: cells, "one less": lambda cells: max(0, cells - 1), "about half": lambda cells: cells // 2,
    "none": lambda cells: 0, "large": lambda cells: LARGE,
}
WEIGHTS = [4, 4, 3, 1, 2]  # of these
COUNT = re.compile(r"ok \d+ \d+(?: \d+){6} (\d+)\b")

Order = collections.namedtuple("Order", "sort asks allowance edition fields")  # as a request without options, and as oracle/night.h reads it
Night = collections.namedtuple("Night", "room out mem orders")  # room: the output's length in words, of ROOMS


def judge(lines):
    """What the Rust answers."""
    return questions.ask([RUST], lines)


# ---- the second reading


def read(night, answers):
    """The lines that a night has to have where each order alone is answered so."""
    if len(night.orders) > MOST:
        return ["refused 13"]
    lines, taken = [], 0
    for answer in answers:
        word, *values = answer.split(" ")
        lines.append(" ".join([word, str(taken), *values]) if word == "ok" else answer)
        taken += int(values[questions.COUNT - 1]) if word == "ok" else 0
    refused = sum(not line.startswith("ok") for line in lines)
    return [*lines, f"end {len(lines)} {refused} {taken} {night.out - taken}"]


def number(pattern, line):
    """The number that a pattern finds in a line; 0 where the line is another."""
    found = pattern.match(line)
    return int(found.group(1)) if found else 0


def rooms(night, lines):
    """The room for each order, by the answers to those before it."""
    taken = list(itertools.accumulate((number(COUNT, line) for line in lines), initial=0))
    taken += taken[-1:] * (len(night.orders) - len(taken))
    return [max(0, night.out - places) for places in taken[:len(night.orders)]]


# ---- orders and nights


class Picker(questions.Picker):
    """Orders and nights, all from one seed."""

    def any_word(self):
        r = self.r
        return f"{r.choice([0, (1 << 64) - 1, 0x7ff0000000000001, self.id(), r.getrandbits(64), r.getrandbits(64)]):016x}"

    def order(self, line):
        """The order that a request makes; of its options only allowance and edition count."""
        words = line.split(" ")
        kind, low, high, step, cells, region, *values = (word for word in words if "=" not in word)
        options = dict(word.split("=") for word in words if "=" in word)
        allowance, edition = options.get("allow", ALLOWANCE), options.get("edition", EDITION)
        kind, is_cell, numbers = KIND.get(kind, kind), region == "cell", [low, high, step, cells]
        inner = self.r.randrange(2) if kind == "fast" else int(kind == "interior")
        other = [self.any_word() for _ in range(4 if is_cell else 1)]
        told = edition if int(edition) in (1, 2) else self.r.choice([edition, (1 << 32) + 1, (1 << 32) + 2, (1 << 64) - 1])
        fields = [int(kind == "fast"), inner, int(is_cell), *(values + other if is_cell else other + values), *numbers, told, allowance]
        return Order(f"{kind} {region}", " ".join([kind, *numbers, region, *values]), allowance, edition, " ".join(map(str, fields)))

    def requests(self, many):
        """So many requests and some more, made from their answers or at the limits of a run."""
        self.find_flips(judge, FLIPS)
        asked = [self.placed() if self.chance(1 / 6) else self.tied() if self.chance(1 / 6) else self.request() for _ in range(many)]
        known = [pair for pair in zip(asked, judge(asked)) if not pair[1].startswith("error")]
        more = [line for line, answer in known for line in self.derived(line, answer)]
        return [line for line, _ in known] + self.r.sample(more, min(len(more), many // 4)) + self.limits(judge, LIMITS)

    def size(self):
        r, pick = self.r, self.r.random()
        return r.choice(OFTEN) if pick < 0.3 else r.choice(OVER) if pick < 0.33 else 0 if pick < 0.34 else r.randint(1, MOST)

    def memory(self):
        r, pick = self.r, self.r.random()
        if pick < 0.8:
            return WORDS
        return r.choice([WORDS + 1, MEMORY, r.randint(WORDS, MEMORY)] if pick < 0.9 else [0, 1, WORDS - 1, r.randint(0, WORDS - 1)])

    def nights(self, many):
        """So many nights, as yet with a large output."""
        r, sizes = self.r, [self.size() for _ in range(many)]
        orders = [self.order(line if "edition=" in line or self.chance(0.3) else f"{line} edition={self.edition()}") for line in self.requests(max(FEWEST, sum(sizes)))]
        for size in sizes:
            taken = r.choices(orders, k=r.randint(1, 3)) if r.random() < 0.15 else orders
            yield Night(*r.choices(list(ROOMS), WEIGHTS), LARGE, self.memory(), r.choices(taken, k=size))


# ---- as a text


def line_of(order):
    """An order as a line."""
    return f"{order.asks} allow={order.allowance} edition={order.edition}"


def alone(night, order, places):
    """The request of an order alone, with this room in the output."""
    return f"{line_of(order)} out={places} mem={night.mem}"


def plain(night):
    """A night for oracle/nights.c."""
    return "".join(f"{line}\n" for line in [f"night {night.out} {night.mem} {len(night.orders)}", *(order.fields for order in night.orders)])


def ordered(night):
    """A night in order lines."""
    return "".join(f"{line}\n" for line in [f"night out={night.out} mem={night.mem}", *map(line_of, night.orders)])
