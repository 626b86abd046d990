"""The ground of cells, for the tables, pictures and maps of bin/order and bin/sets: levels, areas, a view from above, GeoJSON. None of it is proved."""

import collections
import json
import math
import sys

# ---- cells and discs


EARTH_METRES = 6371010.0  # the mean radius that the published S2 uses
EARTH_KM2 = (EARTH_METRES / 1000) ** 2
POS_TO_IJ = ((0, 1, 3, 2), (0, 2, 3, 1), (3, 2, 0, 1), (3, 1, 0, 2))
POS_TO_ORIENTATION = (1, 0, 0, 3)


def cell_of(name):
    """The cell of an id or a token that a proved program has written."""
    return int(name.ljust(16, "0"), 16)


def level_of(cell):
    return 30 - ((cell & -cell).bit_length() - 1) // 2


def token_of(cell):
    """A cell's name in a picture or on a map."""
    return f"{cell:016x}".rstrip("0")


def st_to_uv(s):
    return (4 * s * s - 1) / 3 if s >= 0.5 else (1 - 4 * (1 - s) * (1 - s)) / 3


def face_uv_to_xyz(face, u, v):
    return ((1, u, v), (-u, 1, v), (-u, -v, 1), (-1, -v, -u), (v, -1, -u), (v, u, -1))[face]


def dot(p, q):
    return sum(a * b for a, b in zip(p, q))


def cross(p, q):
    return p[1] * q[2] - p[2] * q[1], p[2] * q[0] - p[0] * q[2], p[0] * q[1] - p[1] * q[0]


def unit(p):
    size = math.sqrt(sum(a * a for a in p))
    return tuple(a / size for a in p)


def sides(cell):
    """The four sides of a cell, counter-clockwise, each a curve: the point at every t from 0 to 1."""
    face, level = cell >> 61, level_of(cell)
    i = j = 0
    row = face & 1
    for k in range(level):
        pos = cell >> (59 - 2 * k) & 3
        ij = POS_TO_IJ[row][pos]
        i, j, row = 2 * i + (ij >> 1), 2 * j + (ij & 1), row ^ POS_TO_ORIENTATION[pos]
    size = 2.0**-level
    u = st_to_uv(i * size), st_to_uv((i + 1) * size)
    v = st_to_uv(j * size), st_to_uv((j + 1) * size)
    corners = ((u[0], v[0]), (u[1], v[0]), (u[1], v[1]), (u[0], v[1]))

    def side(a, b, c, d):
        return lambda t: unit(face_uv_to_xyz(face, a + (c - a) * t, b + (d - b) * t))

    return [side(*corners[k], *corners[(k + 1) % 4]) for k in range(4)]


def border(cell, pieces):
    """Points along the border of a cell."""
    return (side(n / pieces) for side in sides(cell) for n in range(pieces))


def frame(centre):
    """East and north at a point; near a pole any two directions at right angles."""
    east = unit(cross((0.0, 0.0, 1.0) if abs(centre[2]) < 0.999 else (1.0, 0.0, 0.0), centre))
    return east, cross(centre, east)


def rim(centre, radius):
    """The rim of a disc, counter-clockwise: the point at every angle."""
    east, north = frame(centre)

    def at(t):
        a, b, c = math.sin(radius) * math.cos(t), math.sin(radius) * math.sin(t), math.cos(radius)
        return tuple(a * e + b * f + c * g for e, f, g in zip(east, north, centre))

    return at


def area(cell):
    """The area of a cell on the sphere of radius 1: two triangles, each by its three sides (L'Huilier)."""
    corners = list(border(cell, 1))

    def triangle(*points):
        sides = [2 * math.asin(min(1.0, math.dist(points[k - 1], points[k]) / 2)) for k in range(3)]
        half = sum(sides) / 2
        product = math.tan(half / 2)
        for side in sides:
            product *= math.tan(max(0.0, half - side) / 2)
        return 4 * math.atan(math.sqrt(max(0.0, product)))

    return triangle(*corners[:3]) + triangle(corners[2], corners[3], corners[0])


def middle(cells):
    """The point around which cells lie; any where they lie around the whole globe."""
    corners = [(area(cell), corner) for cell in cells for corner in border(cell, 1)]
    point = [sum(size * corner[k] for size, corner in corners) for k in range(3)]
    return unit(point) if math.hypot(*point) > 1e-9 * sum(size for size, _ in corners) else (1.0, 0.0, 0.0)


# ---- pictures


ROW = 24  # from one line of words below a view to the next


class View:
    """An orthographic view from above a centre, as wide as the cells and a disc around the centre ask for, with room for some lines of words below it.
    Gives lines of SVG."""

    def __init__(self, centre, cells, radius=0.0, rows=0):
        self.normal, self.high = centre, 840 + ROW * rows
        self.east, self.north = frame(centre)
        reach = max((math.acos(max(-1, min(1, dot(p, centre)))) for c in cells for p in border(c, 1)), default=0)
        self.wide = max(math.sin(min(math.pi / 2, max(reach, radius))), 1e-9) * 1.08
        self.half = 400

    def seen(self, p):
        """Where a point is drawn; one on the far side at the rim."""
        x, y, z = dot(p, self.east), dot(p, self.north), dot(p, self.normal)
        if z < 0:
            size = math.hypot(x, y) or 1
            x, y = x / size, y / size
        return self.half + x / self.wide * self.half, self.half - y / self.wide * self.half

    def shape(self, points, style):
        """A line with the shape; none where all of it is on the far side."""
        if not all(dot(p, self.normal) < 0 for p in points):
            d = " ".join(f"{x:.2f},{y:.2f}" for x, y in map(self.seen, points))
            yield f'<polygon points="{d}" {style}/>'

    def begun(self):
        """The paper, and the globe where it is in view."""
        yield f'<svg xmlns="http://www.w3.org/2000/svg" viewBox="0 0 800 {self.high}" width="800" height="{self.high}">'
        yield f'<rect width="800" height="{self.high}" fill="#fbfaf6"/>'
        if self.wide > 0.2:
            yield f'<circle cx="400" cy="400" r="{self.half / self.wide:.2f}" fill="#e3edf4" stroke="#9fb3c1"/>'

    def cells(self, cells, style, fewest=16):
        """Cells with their names; a side of a cell has this many pieces, or more where the cell is large."""
        for c in cells:
            for shape in self.shape(list(border(c, max(fewest, 16 >> level_of(c) // 2))), style):
                yield f"<g><title>{token_of(c)} level {level_of(c)}</title>"
                yield f"{shape}</g>"

    def outlines(self, cells, style):
        """The borders of cells, as far as they are in view, each with its number in the list beside the corner that is furthest from the middle."""
        for place, c in enumerate(cells):
            points = list(border(c, max(16, 16 >> level_of(c) // 2)))
            corners = within([self.seen(p) for p in points], 0, 2 * self.half)
            if not corners or all(dot(p, self.normal) < 0 for p in points):
                continue
            on_edge = lambda p, q: any(abs(p[k] - at) + abs(q[k] - at) < 0.01 for k in (0, 1) for at in (0, 2 * self.half))
            lines = (f"M{p[0]:.2f},{p[1]:.2f} {q[0]:.2f},{q[1]:.2f}" for p, q in zip(corners, corners[1:] + corners[:1]) if not on_edge(p, q))
            far, own = max(corners, key=lambda corner: math.dist(corner, (self.half, self.half))), [sum(ts) / len(corners) for ts in zip(*corners)]
            x, y = (a + (b - a) * 36 / (math.dist(far, own) or 1) for a, b in zip(far, own))
            yield f"<g><title>start cell {token_of(c)} level {level_of(c)}</title>"
            yield f'<path d="{" ".join(lines)}" {style}/>'
            yield f'<text x="{x:.2f}" y="{y:.2f}" font-family="sans-serif" font-size="22" text-anchor="middle" fill="#3b4a66">{place}</text></g>'

    def below(self, lines):
        """Lines of words in the room below the view."""
        return [text(16, line, 824 + ROW * k) for k, line in enumerate(lines, 1)]

    def ring(self, radius, style):
        """The rim of a disc around the centre."""
        at = rim(self.normal, radius)
        return self.shape([at(math.radians(n)) for n in range(360)], style)


def within(points, low, high):
    """The part of a polygon that lies in a square: along each of the square's sides what is beyond it is cut off."""
    for axis in (0, 1):
        for sign, bound in ((1, low), (-1, -high)):
            over = [sign * p[axis] - bound for p in points]
            found = []
            for k, p in enumerate(points):
                q, a, b = points[k - 1], over[k - 1], over[k]
                if (a < 0) != (b < 0):
                    found.append(tuple(s + (t - s) * a / (a - b) for s, t in zip(q, p)))
                if b >= 0:
                    found.append(p)
            points = found
    return points


def text(x, words, y=824):
    """A line of SVG with words below the view."""
    return f'<text x="{x}" y="{y}" font-family="sans-serif" font-size="15" fill="#333">{words}</text>'


def key(x, style, words):
    """Lines of SVG below the view that say what is drawn in a style."""
    return f'<rect x="{x}" y="811" width="16" height="16" {style}/>', text(x + 26, words)


def save(who, path, lines):
    """Writes a picture; where it can't be written, the script, which is called who, ends with status 1."""
    written(who, path, "\n".join(lines) + "</svg>\n")


def written(who, path, text):
    """Writes a file; where it can't be written, the script, which is called who, ends with status 1."""
    try:
        with open(path, "w", encoding="utf-8") as file:
            file.write(text)
    except OSError as fault:
        sys.exit(f"{who}: {path} can't be written: {fault.strerror}")


# ---- maps
#
# On a map, longitude to the right and latitude up, from -180 to 180 and from -90 to 90 degrees, lines between positions are straight. A shape is
# given by its border on the sphere, its inside to the left. Where that meets the antimeridian it is cut, and the parts are joined along the edge of
# the map, the edge's inside to the left too. So a border that goes round a pole is closed along the pole's edge, and one that both poles are inside of
# is a hole in the map.


Shape = collections.namedtuple("Shape", "size type coordinates properties")  # size in degrees; a Point's position, or a MultiPolygon's polygons

FINE = 1e-4  # how far a line may run beside the border it stands for, as a part of the shape's size
POINT = 1e-11  # radians; a disc that is smaller is a point on a map
STOPS = [*((-180.0 + 90 * n, -90.0) for n in range(5)), *((180.0 - 90 * n, 90.0) for n in range(5))]  # along the edge of a map, the corners among them


def place(p):
    """Longitude and latitude of a point in degrees."""
    return math.degrees(math.atan2(p[1], p[0])), math.degrees(math.atan2(p[2], math.hypot(p[0], p[1])))


def is_pole(p):
    return p[0] == p[1] == 0


def bend(p, m, q):
    """How far a point m between p and q lies beside the straight line that a map has from p to q; in radians."""
    (a, b), (x, y), (c, d) = place(p), place(m), place(q)
    a, c = c if is_pole(p) else a, a if is_pole(q) else c  # a pole is on every meridian
    narrow = math.cos(math.radians(y))
    wide, high, right, up = math.remainder(c - a, 360) * narrow, d - b, math.remainder(x - a, 360) * narrow, y - b
    return math.radians(abs(wide * up - high * right) / (math.hypot(wide, high) or 1))


def drawn(at, s, t, most):
    """Points of a curve from s on, without that at t, so many that no straight line of a map runs further than most beside it."""
    middle = (s + t) / 2
    if t - s < 1e-6 or bend(at(s), at(middle), at(t)) <= most:
        return [at(s)]
    return drawn(at, s, middle, most) + drawn(at, middle, t, most)


def positions(points):
    """Longitude and latitude along a border; a pole has two positions, on the meridians of the points beside it."""
    for k, p in enumerate(points):
        lng, lat = place(p)
        beside = points[k - 1], points[(k + 1) % len(points)]
        yield from ((place(q)[0], lat) for q in beside) if is_pole(p) else [(lng, lat)]


def cut(p, q):
    """The steps from position to position. One over the antimeridian is cut there, one along it is left out; none is wider than 90 degrees."""
    (a, b), (c, d) = p, q
    if p == q or abs(a) == abs(c) == 180:
        return
    if abs(c - a) > 180:
        edge = math.copysign(180.0, a)
        share = (edge - a) / (c + 2 * edge - a)
        y = b * (1 - share) + d * share
        yield from (*cut(p, (edge, y)), *cut((-edge, y), q))
    elif abs(c - a) > 90:
        middle = (a + c) / 2, (b + d) / 2
        yield from ((p, middle), (middle, q))
    else:
        yield p, q


def parts_of(points):
    """The parts of a border that lie between its meetings with the antimeridian; a single closed one if there are none."""
    parts, places = [], list(positions(points))
    for p, q in zip(places, places[1:] + places[:1]):
        for start, end in cut(p, q):
            if parts and parts[-1][-1] == start:
                parts[-1].append(end)
            else:
                parts.append([start, end])
    if len(parts) > 1 and parts[-1][-1] == parts[0][0]:
        parts[0] = parts.pop() + parts[0][1:]
    return parts


def along(position):
    """How far along the edge of a map, counter-clockwise from its lower left corner, a position on it is; each side counts 1."""
    x, y = position
    if abs(x) == 180:
        return 1 + (y + 90) / 180 if x > 0 else 3 + (90 - y) / 180
    return (x + 180) / 360 if y < 0 else 2 + (180 - x) / 360


def joined(parts):
    """Rings: each part, which ends at the edge of the map, goes on along it to the next one's start."""
    parts, rings = list(parts), []
    while parts:
        ring = parts.pop()
        following = None
        while following is not ring:
            end = along(ring[-1])
            ahead = lambda position: (along(position) - end) % 4
            following = min([ring, *parts], key=lambda part: ahead(part[0]))
            ring += sorted((stop for stop in STOPS if 0 < ahead(stop) < ahead(following[0])), key=ahead)
            if following is not ring:
                parts.remove(following)
                ring += following
        rings.append(ring + ring[:1])
    return rings


def turn(ring):
    """Twice the area of a closed ring on the map: above 0 if it runs counter-clockwise."""
    x, y = ring[0]
    return sum((a - x) * (d - y) - (c - x) * (b - y) for (a, b), (c, d) in zip(ring, ring[1:]))


def polygons(points):
    """The polygons of a shape, by its border: lists of rings, the outer one first and counter-clockwise."""
    parts = parts_of(points)
    if len(parts) > 1 or parts[0][0] != parts[0][-1]:
        return [[ring] for ring in joined(parts)]
    return [parts] if turn(parts[0]) > 0 else [[*whole_map(), *parts]]


def whole_map():
    """The edge of the map, as the rings of a polygon."""
    return [STOPS + STOPS[:1]]


def cell_shape(cell, kind):
    """A cell on a map, and what part it has in the order."""
    first, points = max(1, 4 >> level_of(cell) // 2), []
    for side in sides(cell):
        most = FINE * math.dist(side(0), side(1))
        for n in range(first):
            points += drawn(side, n / first, (n + 1) / first, most)
    return Shape(90 * 0.5 ** level_of(cell), "MultiPolygon", polygons(points), {"kind": kind, "token": token_of(cell), "level": level_of(cell)})


def disc_shape(centre, radius, properties):
    """A disc on a map; one that is too small to be seen there is a point."""
    size = math.sin(radius)
    if size < POINT:
        return Shape(180.0, *(("MultiPolygon", [whole_map()]) if radius > 1 else ("Point", place(centre))), properties)
    at = rim(centre, radius)
    points = [p for n in range(16) for p in drawn(at, n * math.pi / 8, (n + 1) * math.pi / 8, FINE * size)]
    return Shape(math.degrees(size), "MultiPolygon", polygons(points), properties)


def rounded(ring, digits):
    """Positions with so many digits behind the point, none twice in a row."""
    positions = [(round(x, digits) + 0.0, round(y, digits) + 0.0) for x, y in ring]
    return positions[:1] + [position for before, position in zip(positions, positions[1:]) if position != before]


def geometry(shape, digits):
    """The geometry of a shape. Rings that have no area left are left out, and a single polygon is called one."""
    if shape.type == "Point":
        return {"type": "Point", "coordinates": rounded([shape.coordinates], digits)[0]}
    found = []
    for rings in shape.coordinates:
        outer, *holes = (rounded(ring, digits) for ring in rings)
        if turn(outer) > 0:
            found.append([outer, *(hole for hole in holes if turn(hole) < 0)])
    return {"type": "MultiPolygon", "coordinates": found} if len(found) > 1 else {"type": "Polygon", "coordinates": found[0]}


def save_map(who, path, shapes):
    """Writes shapes as GeoJSON (RFC 7946), a feature a line, with as many digits as the smallest needs. Where it can't be written, the script, which is
    called who, ends with status 1."""
    digits = max([7, *(4 - math.floor(math.log10(shape.size)) for shape in shapes)])
    features = ({"type": "Feature", "properties": shape.properties, "geometry": geometry(shape, digits)} for shape in shapes)
    lines = ",".join("\n" + json.dumps(feature, separators=(",", ":")) for feature in features)
    written(who, path, '{"type":"FeatureCollection","features":[' + lines + "\n]}\n")
