"""Discs that people write, a place in degrees and a radius: how bin/order and bin/check take them, and the region of a line for cover that they are.

Degrees and metres are rounded to floats here; none of it is proved.
"""

import argparse
import math
import re
import struct
import sys

import ground


def words():
    """The words after a script's name. A southern latitude is no option: a word with a blank is never taken for one."""
    return [" " + word if re.match(r"-[\d.]+,", word) else word for word in sys.argv[1:]]


def degrees(text):
    """LAT,LNG as two numbers."""
    try:
        lat, lng = (float(part) for part in text.split(","))
    except ValueError:
        raise argparse.ArgumentTypeError(f"{text!r} is not LAT,LNG in degrees, as 47.3,8.5")
    if not (-90 <= lat <= 90 and -360 <= lng <= 360):
        raise argparse.ArgumentTypeError(f"{text!r}: the latitude runs from -90 to 90, the longitude from -360 to 360")
    return lat, lng


def angle(text):
    """A radius as an angle in radians: 500m, 2km, 3deg."""
    for unit, scale in (("km", 1000 / ground.EARTH_METRES), ("deg", math.pi / 180), ("m", 1 / ground.EARTH_METRES)):
        if text.endswith(unit):
            try:
                value = float(text[: -len(unit)]) * scale
            except ValueError:
                break
            if not 0 <= value <= math.pi * (1 + 1e-12):
                raise argparse.ArgumentTypeError(f"{text!r}: a radius runs from 0 to 180deg, half the way round the globe")
            return min(value, math.pi)
    raise argparse.ArgumentTypeError(f"{text!r} is not a radius, as 500m, 2km or 3deg")


def disc(text):
    """LAT,LNG,RADIUS as a place and an angle."""
    if text.count(",") != 2:
        raise argparse.ArgumentTypeError(f"{text!r} is not LAT,LNG,RADIUS, as 47.3,8.5,2km")
    place, _, radius = text.rpartition(",")
    return degrees(place), angle(radius)


def point(lat, lng):
    """The unit vector of a place in degrees."""
    phi, theta = math.radians(lat), math.radians(lng)
    x, y, z = math.cos(theta) * math.cos(phi), math.sin(theta) * math.cos(phi), math.sin(phi)
    size = math.sqrt(x * x + y * y + z * z)
    return x / size, y / size, z / size


def hexed(value):
    return struct.pack(">d", value).hex()


def cap(centre, radius):
    """A disc as the region of a request line."""
    squared = min(4.0, 4 * math.sin(radius / 2) ** 2)
    return " ".join(["cap", *(hexed(v) for v in (*centre, squared))])
