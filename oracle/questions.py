"""Random and boundary questions over paper 01's whole domain, as lines of `cover` and `probe`, and how a program is asked.

Used by the other scripts of this folder. A Picker with the same seed gives the same questions. Regions are caps and cells; those that
are lists stand in oracle/listed.py. What stands here only chooses questions; the little geometry that it has (corners of cells,
distances) aims at boundaries and decides no answer.
"""

import math
import os
import random
import struct
import subprocess
import sys

HERE = os.path.dirname(os.path.abspath(__file__))
KINDS = ["covering"] * 4 + ["interior"] * 3 + ["raw"] * 2 + ["iraw"] * 2 + ["cellunion", "icellunion"] + ["fast"] * 2
PROBES = """valid is_unit cell_contains_point cap_contains_cell cap_intersects_cell common_ancestor_level level
face_ij_orientation cellid_from_point vertices edges cell_cap_bound sqrt st_to_uv uv_to_st vertex_neighbors bound normalize
denormalize normalize_covering starts""".split()
LISTS = {"normalize": 0, "denormalize": 2, "normalize_covering": 4}  # how many fields stand before the list's count
# Paper 01's "Numbers to try" that are run and compared: request and answer.
FULL, EMPTY = (f"cap 3ff0000000000000 0000000000000000 0000000000000000 {radius}" for radius in ("4010000000000000", "bff0000000000000"))
FACES = " ".join(f"{face * 2 + 1:x}000000000000000" for face in range(6))
NONE = "0 0 0 0 0 0"  # six set-aside totals
NUMBERS = [
    (f"covering 0 30 1 8 {FULL}", f"ok 0 {NONE} 6 {FACES}"),
    (f"covering 1 30 1 8 {FULL}", f"ok 6 {NONE} 24 " + " ".join(f"{(2 * k + 1) << 58:016x}" for k in range(24))),
    (f"covering 1 30 1 8 {FULL} allow=5", "refused 9"),
    (f"covering 1 30 1 8 {FULL} out=23", "refused 10"),
    (f"covering 4 30 1 8 {FULL} allow=10000", "refused 8"),
    (f"covering 5 30 1 8 {FULL} allow=10000", "refused 7"),
    (f"interior 0 30 1 3 {FULL}", f"ok 0 {NONE} 6 {FACES}"),
    (f"interior 1 30 1 3 {FULL}", f"ok 2 {NONE} 3 0400000000000000 0c00000000000000 1400000000000000"),
    (f"interior 1 30 1 0 {FULL}", f"ok 1 {NONE} 0"),
    ("covering 0 30 1 8 cell 1000000000000000", f"ok 0 0{f' {4**30}' * 5} 1 1000000000000000"),
    (f"covering 0 30 1 8 {EMPTY}", "ok 0 4 4 4 4 0 0 0"),
    (f"interior 0 30 1 8 {EMPTY}", f"ok 0 {NONE} 0"),
    (f"fast 0 30 1 8 {EMPTY}", f"ok 0 {NONE} 4 0555555555555554 0ffffffffffffffc 1000000000000004 1aaaaaaaaaaaaaac"),
]
WORDS = 5120  # of memory, that are always enough
FAULTS = (1, 2, 3, 4, 14, 5, 6, 9, 10)  # refusals that a request can ask for, in the order in which they are looked at
UNKNOWN = (0, 3, 4, 255, 256, 257, 258, 65537, 2147483650, 4294967295)  # numbers that are no edition
COUNT = 8  # words of an answer before the count of its ids: ok, the steps and six totals
MALFORMED = [
    "coverings 0 30 1 8 cell 1000000000000000", "covering 0 30 1 8", "covering 0 30 1 8 cell", "covering 0 30 1 8 cell 10",
    "covering 0 30 1 8 cell 10000000000000000", "covering 0 30 1 8 cell 100000000000000g", "covering 0 x 1 8 cell 1000000000000000",
    "covering -1 30 1 8 cell 1000000000000000", "covering 0 18446744073709551616 1 8 cell 1000000000000000",
    "covering 0 30 1 8 disc 1000000000000000", "covering 0 30 1 8 cap 3ff0000000000000 0000000000000000 0000000000000000",
    "covering 0 30 1 8 cell 1000000000000000 3000000000000000", "covering 0 30 1 8 cell 1000000000000000 allow=",
    "covering 0 30 1 8 cell 1000000000000000 allow=4294967296", "covering 0 30 1 8 cell 1000000000000000 room=3",
    "covering", "fast 0 30 1 8 cell 1000000000000000 out=x", "raw 0 30 1 8 cell 1000000000000000 mem=8193",
    "raw 0 30 1 8 cell 1000000000000000 mem=5120 allow=1 mem=5120", "covering 0 30 1 8 allow=1 cell 1000000000000000",
    "covering 0 30 1 8 cell 1000000000000000 allow=1 out=1 mem=5120 out=1", "iraw 0 30 1 8 cell 1000000000000000 out=1 out",
    "covering 0 30 1 8 cell 1000000000000000 tokens=2", "raw 0 30 1 8 cell 1000000000000000 tokens=", "fast 0 30 1 8 cell 1000000000000000 token=1",
    "fast 0 30 1 8 cell 1000000000000000 tokens=1 out=8 tokens=1", "raw 0 30 1 8 cell 1000000000000000 tokens=1 mem=5120 out=8 allow=9 tokens=0",
    "raw 0 30 1 8 cell 1000000000000000 edition=", "covering 0 30 1 8 cell 1000000000000000 edition=4294967296", "fast 0 30 1 8 cell 1000000000000000 edition=two",
    "iraw 0 30 1 8 cell 1000000000000000 edition=2 edition=2", "interior 0 30 1 8 cell 1000000000000000 edition", "raw 0 30 1 8 cell 1000000000000000 editions=2",
    "raw 0 30 1 8 cell 1000000000000000 engine=both edition=2 tokens=1 mem=5120 out=8 allow=9 edition=1", "raw 0 30 1 8 2 cell 1000000000000000",
]

POS_TO_IJ = [[0, 1, 3, 2], [0, 2, 3, 1], [3, 2, 0, 1], [3, 1, 0, 2]]
TURN = [1, 0, 0, 3]


def bits(x):
    return struct.unpack("<Q", struct.pack("<d", x))[0]


def from_bits(b):
    return struct.unpack("<d", struct.pack("<Q", b))[0]


def hexed(*floats):
    return " ".join(f"{bits(x):016x}" for x in floats)


def nudged(x, floats):
    """The float that many places above x (below, if negative), in the order of the numbers."""
    b = bits(x)
    place = -(b & (1 << 63) - 1) if b >> 63 else b
    place += floats
    return from_bits((1 << 63) | -place) if place < 0 else from_bits(place)


def thresholds():
    with open(os.path.join(HERE, "thresholds.txt"), encoding="utf-8") as file:
        return [from_bits(int(line.split()[1], 16)) for line in file if not line.startswith("#")]


def normalized(v):
    x, y, z = v
    m = 1.0 / math.sqrt(x * x + y * y + z * z)
    return x * m, y * m, z * m


def is_unit(v):
    x, y, z = v
    return abs(x * x + y * y + z * z - 1.0) < 5e-14


def st_to_uv(s):
    return 1 / 3 * (4 * s * s - 1) if s >= 0.5 else 1 / 3 * (1 - 4 * (1 - s) * (1 - s))


def on_face(face, u, v):
    return [(1, u, v), (-u, 1, v), (-u, -v, 1), (-1, -v, -u), (v, -1, -u), (v, u, -1)][face]


class Cell:
    """A cell by face, level and grid place."""

    def __init__(self, face, level, i, j):
        self.face, self.level, self.i, self.j = face, level, i, j
        row, place = face & 1, 0
        for k in range(level - 1, -1, -1):
            position = POS_TO_IJ[row].index((i >> k & 1) << 1 | j >> k & 1)
            place = place << 2 | position
            row ^= TURN[position]
        self.id = ((face << 2 * level | place) << 1 | 1) << 2 * (30 - level)

    def point(self, s, t):
        """The unit point at the given part (0 to 1) of the cell's width and height."""
        size = 1 << self.level
        return normalized(on_face(self.face, st_to_uv((self.i + s) / size), st_to_uv((self.j + t) / size)))

    def corner(self, k):
        return self.point((0, 1, 1, 0)[k], (0, 0, 1, 1)[k])


def parent(id, level):
    low = 1 << 2 * (30 - level)
    return id & -low & (1 << 64) - 1 | low


def level_of(id):
    return 30 - ((id & -id).bit_length() - 1) // 2


def child(id, k):
    low = id & -id
    return id - low + (2 * k + 1) * (low >> 2)


def counted(ids):
    """A list as it stands on a line."""
    return " ".join([str(len(ids)), *(f"{id:016x}" for id in ids)])


def faulty(kind, faults, region):
    """A request to which each of these refusals could be given, if it were the only one; for 5 the region has to be one outside the domain."""
    high = 31 if 1 in faults else 30
    low = high + 1 if 2 in faults else 2
    line = f"{kind} {low} {high} {4 if 3 in faults else 1} {1001 if 4 in faults else 8} {region}"
    options = ((9, "allow=0"), (10, "out=0"), (6, f"mem={WORDS - 1}"), (14, "edition=3"))
    return line + "".join(f" {option}" for fault, option in options if fault in faults)


def with_option(line, name, value):
    """A request with that option, whatever it has of that name; any other line as it is."""
    words = line.split(" ")
    return " ".join([*(word for word in words if not word.startswith(f"{name}=")), f"{name}={value}"]) if words[0] in KINDS else line


def in_edition(line, edition):
    return with_option(line, "edition", edition)


def is_plain(line):
    """Whether a line has no option but an edition."""
    return all("=" not in word or word.startswith("edition=") for word in line.split(" "))


def ask(command, lines):
    """The answers of a program to all lines, one each. After them it has to write `end` and their number; where it doesn't, it was cut."""
    done = subprocess.run(command, input="".join(line + "\n" for line in lines), stdout=subprocess.PIPE, text=True, timeout=3600)
    written = done.stdout.split("\n")
    if done.returncode != 0 or written[len(lines):] != [f"end {len(lines)}", ""]:
        sys.exit(f"{' '.join(command)} was cut: {len(lines)} lines asked, {len(written) - 1} lines written, status {done.returncode}; it ends with "
                 f"{done.stdout[-80:]!r}")
    return written[:len(lines)]


class Talker:
    """A program that is asked a few lines at a time while it runs. Closed, it has to write `end` and the number of all answers."""

    def __init__(self, command):
        self.command, self.asked = command, 0
        self.process = subprocess.Popen(command, stdin=subprocess.PIPE, stdout=subprocess.PIPE, text=True)

    def __call__(self, lines):
        self.process.stdin.write("".join(line + "\n" for line in lines))
        self.process.stdin.flush()
        self.asked += len(lines)
        answers = [self.process.stdout.readline() for _ in lines]
        if not all(answer.endswith("\n") for answer in answers):
            sys.exit(f"{' '.join(self.command)} was cut: {self.asked} lines asked, and it has stopped")
        return [answer[:-1] for answer in answers]

    def close(self):
        rest, _ = self.process.communicate()
        if self.process.returncode != 0 or rest != f"end {self.asked}\n":
            sys.exit(f"{' '.join(self.command)} was cut: {self.asked} lines asked, status {self.process.returncode}; it ends with {rest[-80:]!r}")


def settle(ask, makers, most=4.0):
    """For each maker, a function from a radius' bits to a line: the largest radius below one at which the answer changes.

    Bisects over the bit patterns from 0 to the most, for all makers at once. ask gives the answers to a list of lines; an answer's
    first two words count. None where the answers at both ends agree.
    """

    def answers(radii):
        return [answer.split(" ")[:2] for answer in ask([maker(radius) for maker, radius in zip(makers, radii)])]

    def sorts(radii):
        return [words if words[0] in ("0", "1", "refused") else words[:1] for words in answers(radii)]

    low, high = [0] * len(makers), [bits(most)] * len(makers)
    below, above = sorts(low), sorts(high)
    for _ in range(63):
        middle = [(a + b) // 2 for a, b in zip(low, high)]
        for n, found in enumerate(sorts(middle)):
            if found == below[n]:
                low[n] = middle[n]
            else:
                high[n] = middle[n]
    return [None if a == b else radius for radius, a, b in zip(low, below, above)]


class Picker:
    malformed = MALFORMED

    def __init__(self, seed):
        self.r = random.Random(seed)
        self.side = random.Random(f"beside {seed}")  # for what oracle/lists doesn't ask, so that the stored questions stay
        self.thresholds = thresholds()
        self.flips = []  # (centre, radius, cell): a test's answer changes above this radius

    def find_flips(self, ask, number):
        """Caps and cells at radii where a test of the Rust changes its answer."""
        pairs = [self.meeting() for _ in range(number)]
        names = [self.r.choice(["cap_intersects_cell", "cap_contains_cell"]) for _ in pairs]
        makers = [lambda radius, name=name, pair=pair: f"{name} {hexed(*pair[0])} {radius:016x} {pair[2]:016x}"
                  for name, pair in zip(names, pairs)]
        self.flips = [(pair[0], from_bits(radius), pair[2]) for pair, radius in zip(pairs, settle(ask, makers)) if radius is not None]

    def limits(self, ask, number):
        """Requests on both sides of the queue's and the raw list's limit, by the radius of a cap."""
        makers = []
        for _ in range(number):
            level, center = self.r.randint(5, 29), hexed(*normalized([self.r.gauss(0, 1) for _ in range(3)]))
            step, cells = self.r.choice([1, 1, 2, 3]), self.r.choice([8, 100, 1000])
            pick = self.r.random()
            if pick < 0.4:
                numbers = f"{self.r.choice(['covering', 'raw', 'cellunion'])} {level} {level} {step} {cells}"
            elif pick < 0.6:
                numbers = f"{self.r.choice(['covering', 'raw', 'cellunion'])} {level} {min(30, level + 3)} {step} {cells}"
            elif pick < 0.8:
                numbers = f"{self.r.choice(['interior', 'iraw', 'icellunion'])} 0 {level} {step} 1000"
            else:
                numbers = f"{self.r.choice(['interior', 'iraw', 'icellunion'])} {level} {level} {step} 1000"
            makers.append(lambda radius, numbers=numbers, center=center: f"{numbers} cap {center} {radius:016x}")
        found = []
        for maker, radius in zip(makers, settle(ask, makers, 1.0)):
            if radius is not None:
                found += [maker(radius), maker(radius + 1)]
        return found

    # numbers

    def chance(self, p):
        return self.r.random() < p

    def any_finite(self):
        while True:
            x = from_bits(self.r.getrandbits(64))
            if math.isfinite(x):
                return x

    def near(self, x):
        return nudged(x, self.r.choice([-3, -2, -1, 0, 0, 0, 1, 2, 3]))

    # cells and points

    def cell(self, level=None):
        r = self.r
        level = r.randint(0, 30) if level is None else level
        last = (1 << level) - 1

        def place():
            return r.choice([0, last, last // 2, min(last, last // 2 + 1), r.randint(0, last), r.randint(0, last), r.randint(0, last)])

        return Cell(r.randrange(6), level, place(), place())

    def id(self, level=None):
        r = self.r
        if self.chance(0.15):
            level = r.randint(0, 30) if level is None else level
            face = r.randrange(6)
            place = r.choice([0, (1 << 2 * level) - 1, r.getrandbits(2 * level) if level else 0])
            return ((face << 2 * level | place) << 1 | 1) << 2 * (30 - level)
        return self.cell(level).id

    def direction(self):
        r = self.r
        sign = lambda: r.choice([-1.0, 1.0])
        pick = r.random()
        if pick < 0.08:
            v = [sign(), r.choice([0.0, -0.0]), r.choice([0.0, -0.0])]
            r.shuffle(v)
        elif pick < 0.14:
            v = [sign(), sign(), sign()]
        elif pick < 0.18:
            v = [sign(), sign(), r.choice([0.0, -0.0])]
            r.shuffle(v)
        elif pick < 0.26:
            a, t = sign(), r.uniform(-1, 1)
            v = [a, a * sign(), t]
            r.shuffle(v)
        elif pick < 0.32:
            v = [sign(), 10 ** r.uniform(-320, -1) * sign(), r.choice([0.0, 10 ** r.uniform(-20, -1)])]
            r.shuffle(v)
        elif pick < 0.60:
            s, t = r.choice([(0, 0), (1, 0), (1, 1), (0, 1), (0.5, 0.5), (0.5, 0), (0, 0.5), (1, 0.5), (r.random(), r.choice([0, 1]))])
            return self.cell().point(s, t)
        else:
            v = [r.gauss(0, 1) for _ in range(3)]
        return normalized(v)

    def point(self):
        """A point that is_unit: a direction, its floats perhaps moved a little."""
        v = self.direction()
        if self.chance(0.15):
            v = tuple(self.near(x) for x in v)
        if self.chance(0.05):
            scale = 1 + self.r.uniform(-2.4e-14, 2.4e-14)
            v = tuple(x * scale for x in v)
        return v if is_unit(v) else self.point()

    # regions

    def radius(self, center):
        r, pick = self.r, self.r.random()
        if pick < 0.05:
            return r.choice([0.0, -0.0, 5e-324, 2.2250738585072014e-308, 4.0, nudged(4.0, -1), -1.0, -5e-324, -4.0, -1e300])
        if pick < 0.15:
            return nudged(r.choice(self.thresholds), r.choice([0, 1, -1]))
        if pick < 0.19:
            return nudged(2.0, r.choice([-2, -1, 0, 1, 2]))
        if pick < 0.24:
            return 4.0 - 10 ** r.uniform(-17, 0)
        if pick < 0.34:
            # to a corner of a cell nearby
            x, y, z = center
            a, b, c = self.near_cell(center).corner(r.randrange(4))
            x, y, z = x - a, y - b, z - c
            return min(4.0, nudged(x * x + y * y + z * z, r.choice([-2, -1, 0, 1, 2])))
        if pick < 0.44:
            # to an edge of a cell nearby
            cell, k = self.near_cell(center), r.randrange(4)
            (a, b, c), (d, e, f) = cell.corner(k), cell.corner((k + 1) % 4)
            x, y, z = normalized((b * f - c * e, c * d - a * f, a * e - b * d))
            sine2 = min(1.0, (x * center[0] + y * center[1] + z * center[2]) ** 2)
            near = 2 * (1 - math.sqrt(1 - sine2))
            return nudged(r.choice([near, near, 4 - near]), r.choice([-2, -1, 0, 1, 2]))
        if pick < 0.80:
            return 4.0 ** -r.uniform(0, 31) * r.uniform(0.3, 3)
        if pick < 0.95:
            return r.uniform(0, 4)
        return min(4.0, 10 ** r.uniform(-330, 0.61))

    def near_cell(self, center, level=None):
        """The cell of a random level that holds the point, or one beside it."""
        r = self.r
        level = r.randint(0, 30) if level is None else level
        sizes = [abs(x) for x in center]
        axis = sizes.index(max(sizes))
        face = axis + (3 if center[axis] < 0 else 0)
        x, y, z = center
        u, v = [(y, z), (-x, z), (-x, -y), (z, y), (z, -x), (-y, -x)][face]
        u, v = u / center[axis], v / center[axis]
        last = (1 << level) - 1

        def place(w):
            s = 0.5 * math.sqrt(1 + 3 * w) if w >= 0 else 1 - 0.5 * math.sqrt(1 - 3 * w)
            return max(0, min(last, int(s * (last + 1)) + r.choice([-1, 0, 0, 0, 1])))

        return Cell(face, level, place(u), place(v))

    def cap(self):
        """Centre and radius of a cap in the domain."""
        if self.flips and self.chance(0.15):
            center, radius, _ = self.r.choice(self.flips)
            return center, min(4.0, nudged(radius, self.r.choice([-1, 0, 1])))
        center = self.point()
        return center, self.radius(center)

    def region(self):
        """A region in the domain as text, and the level of cells about its size."""
        if self.chance(0.25):
            id = self.id()
            return f"cell {id:016x}", level_of(id)
        center, radius = self.cap()
        natural = 30 if radius <= 0 else max(0, min(30, round(-math.log2(math.sqrt(radius)))))
        return f"cap {hexed(*center, radius)}", natural

    def bad_region(self):
        r = self.r
        pick = r.randrange(6)
        center, radius = self.cap()
        if pick == 0:
            return "cell " + r.choice(["0000000000000000", "0000000000000002", "d000000000000000", "8000000000000000",
                                       "ffffffffffffffff", "c000000000000001", f"{self.id() ^ (self.id() & -self.id()):016x}"])
        if pick == 1:
            return f"cap {hexed(*center)} {r.choice(['7ff0000000000000', 'fff0000000000000', '7ff8000000000000', 'fff0000000000001', '4010000000000001', '4014000000000000', '7fefffffffffffff'])}"
        words = hexed(*center, radius).split()
        if pick == 2:
            words[r.randrange(3)] = r.choice(["7ff0000000000000", "fff0000000000000", "7ff8000000000000", "7ff0000000000001"])
        elif pick == 3:
            return f"cap {hexed(*(x * r.choice([0.5, 2.0, 1e200, 0.0]) for x in center), radius)}"
        else:
            # on both sides of is_unit's bound
            scale = 1 + r.choice([-1, 1]) * (2.5e-14 + r.randint(-4, 4) * 1.2e-16)
            return f"cap {hexed(*(x * scale for x in center), radius)}"
        return "cap " + " ".join(words)

    # requests

    def numbers(self, natural):
        r, pick = self.r, self.r.random()
        step = r.choice([1, 1, 2, 3])
        if pick < 0.25:
            low, high = 0, 30
        elif pick < 0.60:
            low = max(0, min(30, natural + r.randint(-6, 2)))
            high = max(low, min(30, natural + r.randint(-3, 6)))
        elif pick < 0.75:
            low, high = 0, r.randint(0, 30)
        elif pick < 0.85:
            low = high = max(0, min(30, natural + r.randint(-4, 3)))
        else:
            low, high = sorted((r.randint(0, 30), r.randint(0, 30)))
        cells = r.choice([0, 1, 2, 3, 4, 5, 6, 7, 8, 8, 8, 10, 12, 20, 20, 50, 100, 300, 999, 1000, r.randint(0, 1000)])
        return low, high, step, cells

    def bad_numbers(self, low, high, step, cells):
        r = self.r
        large = [31, 32, 255, 256, 257, 286, 65536, 4294967296, 4294967326, 18446744073709551615]
        for _ in range(r.choice([1, 1, 1, 2, 3])):
            pick = r.randrange(4)
            if pick == 0:
                high = r.choice(large)
            elif pick == 1:
                low = r.choice([high + 1, *large])
            elif pick == 2:
                step = r.choice([0, 4, 5, 255, 256, 257, 258, 259, 4294967297, 18446744073709551615])
            else:
                cells = r.choice([1001, 1002, 65536, 4294967296, 4294967304, 18446744073709551615])
        return low, high, step, cells

    def request(self):
        """One `cover` line."""
        r = self.r
        if self.chance(0.01):
            return r.choice(self.malformed)
        if self.chance(0.02):
            faults = r.sample(FAULTS, r.choice([2, 2, 2, 3, len(FAULTS)]))
            return faulty(r.choice(KINDS), faults, self.bad_region() if 5 in faults else self.region()[0])
        region, natural = self.region()
        numbers = self.numbers(natural)
        if self.chance(0.03):
            numbers = self.bad_numbers(*numbers)
        if self.chance(0.02):
            region = self.bad_region()
        line = " ".join([r.choice(KINDS), *map(str, numbers), region])
        if self.chance(0.05):
            line += f" allow={r.choice([0, 1, 2, 3, 10, 100, r.randint(0, 2000), 4294967295])}"
        if self.chance(0.05):
            line += f" out={r.choice([0, 1, 3, 4, 6, 7, 8, 100, 1000, 1024, 65535, 65536])}"
        if self.chance(0.05):
            line += f" mem={r.choice([0, 1, WORDS - 1, WORDS, WORDS + 1])}"
        return line

    def derived(self, line, answer, taken=None):
        """Requests at the bounds of an answer: exact and one short, allowance, output and memory."""
        words = answer.split(" ")
        if not line or line.split(" ")[0] not in KINDS or not is_plain(line):
            return []
        if words[0] == "ok" and words[1] != "-":
            steps, count = int(words[1]), int(words[COUNT])
            found = [f"{line} allow={steps} out={count} mem={WORDS}", f"{line} mem={self.r.choice([WORDS - 1, WORDS, WORDS + 1])}"]
            if steps:
                found += [f"{line} allow={steps - 1}", f"{line} allow={steps - 1} out={max(0, count - 1)}"]
            if count:
                found += [f"{line} out={count - 1}", f"{line} allow={steps} out={count - 1} mem={WORDS + 1}"]
            return found
        if words[0] == "refused" and words[1] in ("7", "8") and taken:
            return [f"{line} allow={taken}", f"{line} allow={taken - 1}", f"{line} allow={taken} out=0"]
        return []

    # single questions

    def any_root(self):
        """Bits for a square root: all exponents, subnormals, squares and their neighbours, edges, negatives, NaN."""
        r, pick = self.r, self.r.random()
        if pick < 0.08:
            return r.choice([0, 1, 2, 3, 4, 0x8000000000000000, 0x8000000000000001, 0x000fffffffffffff, 0x0010000000000000, 0x0010000000000001,
                             0x7fefffffffffffff, 0x7ff0000000000000, 0x7ff0000000000001, 0x7ff8000000000000, 0x7fffffffffffffff, 0xbff0000000000000,
                             0xffefffffffffffff, 0xfff0000000000000, 0xfff8000000000000, 0xffffffffffffffff, 0x3ff0000000000000, 0x3fefffffffffffff])
        if pick < 0.13:
            return r.getrandbits(63) | 1 << 63
        if pick < 0.28:
            return r.getrandbits(r.randint(1, 52))
        if pick < 0.65:
            x = from_bits(r.randint(1, 1022 + 511) << 52 | r.choice([0, (1 << 52) - 1, r.getrandbits(52), r.getrandbits(26) << 26, r.getrandbits(12) << 40]))
            return max(0, min(0x7ff0000000000000, bits(x * x) + r.choice([-1, 0, 1])))
        return r.randint(0, 0x7fe) << 52 | r.choice([0, 1, (1 << 52) - 1, r.getrandbits(52), r.getrandbits(52)])

    def any_valid(self):
        r = self.r
        return r.choice([self.id(), self.id() ^ 1 << r.randrange(64), r.getrandbits(64), r.getrandbits(64) << r.randrange(64) & (1 << 64) - 1,
                         1 << r.randrange(64), r.choice([0, 2, (1 << 64) - 1, 0xd000000000000000, 0xc000000000000001, 0xbfffffffffffffff])])

    def ids(self, most):
        """A list of cells with duplicates, nesting and whole sets of siblings."""
        r, found = self.r, []
        base = [self.id(r.randint(0, 27)) for _ in range(r.randint(1, 3))]
        wanted = r.randint(0, most)
        while len(found) < wanted:
            id = r.choice(base + found[-3:])
            pick = r.random()
            if pick < 0.35 and level_of(id) < 30:
                found += [child(id, k) for k in range(4)]
            elif pick < 0.6 and level_of(id) < 30:
                found.append(child(id, r.randrange(4)))
            elif pick < 0.7:
                found.append(parent(id, r.randint(0, level_of(id))))
            elif pick < 0.9:
                found.append(id)
            else:
                found.append(self.id())
        found = found[:wanted]
        r.shuffle(found)
        return found

    def apart(self, most):
        """An ascending list of cells, none inside another."""
        found = []
        for id in sorted(set(self.ids(most))):
            low = id & -id
            while found and id - low < found[-1] < id + low:
                found.pop()
            if not found or not found[-1] - (found[-1] & -found[-1]) < id < found[-1] + (found[-1] & -found[-1]):
                found.append(id)
        return found

    def meeting(self):
        """A cap and a cell that may touch."""
        r = self.r
        if self.flips and self.chance(0.4):
            center, radius, id = r.choice(self.flips)
            return center, min(4.0, nudged(radius, r.choice([-1, 0, 1]))), id
        center, radius = self.cap()
        if self.chance(0.2):
            return center, radius, self.id()
        natural = 30 if radius <= 0 else max(0, min(30, round(-math.log2(math.sqrt(radius)))))
        away = r.choice([center, center, tuple(-x for x in center)])
        return center, radius, self.near_cell(away, max(0, min(30, natural + r.randint(-2, 5)))).id

    def probe(self, name=None):
        """One `probe` line."""
        r = self.r
        name = name or r.choice(PROBES)
        if name == "valid":
            return f"valid {self.any_valid():016x}"
        if name == "is_unit":
            v, pick = self.point(), r.random()
            if pick < 0.5:
                scale = 1 + r.choice([-1, 1]) * (2.5e-14 + r.randint(-6, 6) * 1.1e-16)
                v = tuple(x * scale for x in v)
            elif pick < 0.7:
                v = tuple(self.any_finite() for _ in range(3))
            return f"is_unit {hexed(*v)}"
        if name == "cell_contains_point":
            v = self.point()
            return f"{name} {hexed(*v)} {r.choice([self.near_cell(v).id, self.near_cell(v).id, self.id()]):016x}"
        if name in ("cap_contains_cell", "cap_intersects_cell"):
            center, radius, id = self.meeting()
            return f"{name} {hexed(*center, radius)} {id:016x}"
        if name == "common_ancestor_level":
            a = self.id()
            b = r.choice([self.id(), parent(a, r.randint(0, level_of(a))), a])
            if level_of(b) < 30 and self.chance(0.6):
                below = r.getrandbits(60) * 2 % (b & -b)
                b = parent(b - (b & -b) + below | 1, r.randint(level_of(b), 30))
            return f"{name} {a:016x} {b:016x}" if self.chance(0.5) else f"{name} {b:016x} {a:016x}"
        if name == "level":
            radius = nudged(r.choice(self.thresholds), r.randint(-2, 2)) if self.chance(0.5) else self.radius(self.point())
            return f"level {hexed(radius)}"
        if name in ("face_ij_orientation", "vertices", "edges", "cell_cap_bound"):
            return f"{name} {self.id():016x}"
        if name == "cellid_from_point":
            return f"{name} {hexed(*self.point())}"
        if name == "sqrt":
            return f"sqrt {self.any_root():016x}"
        if name in ("st_to_uv", "uv_to_st"):
            x = r.choice([r.random(), r.uniform(-1, 1), r.randint(0, 1 << 30) / (1 << 30), st_to_uv(r.randint(0, 1 << 30) / (1 << 30)),
                          self.near(r.choice([0.0, 0.5, 1.0, -1.0, 1 / 3, -1 / 3])), self.any_finite()])
            return f"{name} {hexed(x)}"
        if name == "vertex_neighbors":
            return f"{name} {self.id(30):016x} {r.randint(0, 29)}"
        if name == "bound":
            return f"bound {self.region()[0]}"
        if name == "normalize":
            return f"normalize {counted(self.ids(r.choice([4, 10, 40, 120])))}"
        if name == "denormalize":
            found = self.apart(r.choice([3, 8, 20]))
            low = r.randint(0, 30) if not found else max(0, min(30, min(map(level_of, found)) + r.randint(-3, 4)))
            return f"{name} {low} {r.randint(1, 3)} {counted(found)}"
        if name == "normalize_covering":
            found = self.apart(6)[:6]
            natural = r.choice([level_of(id) for id in found] or [10])
            low, high, step, cells = self.numbers(natural)
            return f"{name} {min(low, natural + 3, high)} {high} {step} {r.choice([cells, 0, 1, 2, 3, 4])} {counted(found)}"
        region, natural = self.region()
        return " ".join(["starts", *map(str, self.numbers(natural)), region])

    # requests made for what random ones seldom meet, other options, and longer lists

    def outer(self, low, high, step, cells, region):
        """A request, most often for an outer run: the others set nothing aside."""
        kind = self.r.choice(["covering", "cellunion", "raw", "raw"] if self.chance(0.8) else KINDS)
        return f"{kind} {low} {max(low, min(30, high))} {step} {cells} {region}"

    def placed(self):
        """A request whose six totals tell: about a cap over several faces, most often at a corner or an edge of the cube, with much empty ground around it."""
        r = self.r
        v, pick = [r.choice([-1.0, 1.0]) for _ in range(3)], r.random()
        if pick > 0.5:
            v[r.randrange(3)] = r.uniform(-1, 1)
        if pick > 0.8:
            v = [r.gauss(0, 1) for _ in range(3)]
        away = 10 ** r.uniform(-6, -0.5)
        center = normalized([x + away * r.gauss(0, 1) for x in v])
        radius = r.choice([r.uniform(0.05, 3.9), r.uniform(0.2, 1.5), 4.0 ** -r.uniform(0, 6)])
        natural = max(0, round(-math.log2(math.sqrt(radius))))
        low = r.choice([0, 0, natural, natural + 1, natural + 2])
        return self.outer(low, low + r.choice([1, 2, 3, 4, 6, 30]), r.choice([1, 1, 2, 3]), r.choice([4, 6, 8, 12, 20, 50, 100, 300, 1000]), f"cap {hexed(*center, radius)}")

    def tied(self):
        """A request whose run may come to paper 01's P6, where the editions part ways: a cell whose four children are terminal, and one a level deeper with one
        child and no terminal, of the same published cost. About a cap, with level_mod 1 and a min_level below its size: cells inside it, a level above
        min_level, tie with cells of min_level at its rim. An inner run tells it by its steps, if it ends among the tied; an outer one by the raw list's
        order, where the one child is kept in place of its own four, as it is most often with a max_level two below min_level."""
        r = self.r
        natural, below = r.randint(0, 25), r.choice([1, 2, 2, 2, 3, 3])
        low = natural + below
        kind = r.choice(["iraw", "iraw", "interior", "icellunion"] if self.chance(0.6) else ["raw", "raw", "raw", "raw", "covering", "cellunion"])
        radius = min(4.0, 4.0**-natural * r.uniform(0.3, 3))
        high = min(30, low + r.choice([2, 2, 2, 3, 30]))
        return f"{kind} {low} {high} 1 {r.randint(2, 5 * 4**below // 2)} cap {hexed(*self.point(), radius)}"

    def edition(self):
        """An edition to name: of twenty one that there isn't."""
        return self.side.choice(UNKNOWN) if self.side.random() < 0.05 else self.side.choice([1, 2, 2])

    def turned(self, line):
        """A request with its options in any order; now and then it says whether ids are to be written as tokens, and often which edition it is of."""
        fields, options = line.split(" "), []
        while "=" in fields[-1]:
            options.append(fields.pop())
        if fields[0] in KINDS and self.side.random() < 0.2:
            options.append(f"tokens={self.side.choice([0, 1, 1, 1])}")
        if fields[0] in KINDS and self.side.random() < 0.25 and not any(option.startswith("edition=") for option in options):
            options.append(f"edition={self.edition()}")
        self.side.shuffle(options)
        return " ".join(fields + options)

    def question(self):
        """One `probe` line, now and then with a list that is about as long as it may be, or not as long as it says."""
        line, r = self.probe(), self.side
        name, *words = line.split(" ")
        if name not in LISTS or r.random() < 0.9:
            return line
        if r.random() < 0.5:
            count = int(words[LISTS[name]])
            words[LISTS[name]] = str(r.choice([count + 1, max(0, count - 1), 0, 4096, 4097]))
            return " ".join([name, *words])
        # cells of one level in a row, with gaps
        level, wanted = r.randint(7, 30), r.choice([1000, 4095, 4096, 4096, 4097])
        place, found = r.randrange(4 << 2 * level), []
        while len(found) < wanted:
            place += 1 if r.random() < 0.9 else 2
            found.append((2 * place + 1) << 2 * (30 - level))
        if name == "normalize":
            r.shuffle(found)
            return f"{name} {counted(found)}"
        if name == "denormalize":
            return f"{name} {min(30, level + r.randint(-2, 2))} {words[1]} {counted(found)}"
        return f"{name} {max(0, level - r.randint(0, 8))} {level} {words[2]} {r.choice([4, 100, 1000])} {counted(found)}"
