"""The league report in Python, a second reading of the request (document 02, C-24) beside the proved one; volume files are judged by tools/volume_file.py.

`report` is what the program league prints for an input, `volume` a good file to make one of.
"""
import struct
import sys
from fractions import Fraction
from pathlib import Path

sys.dont_write_bytecode = True
sys.path.insert(0, str(Path(__file__).resolve().parent.parent))
from volume_file import assemble, bits, judge, number
from volume_vectors import parts

# the most bytes of a file, and the most files
LENGTH, FILES = 65536, 65536
UNIT = Fraction(1, 2**24)
BAND, BANDS = 2**20, 16


def units(bits):
    """How many units of 2^-24 a light has, rounded down; None for one that is not in 0..1."""
    light = number(bits)
    if not 0 <= light <= 1:
        return None
    return Fraction(light) // UNIT


def line(first, lights):
    bands = [0] * BANDS
    for u in lights:
        bands[min(u // BAND, BANDS - 1)] += 1
    figures = [first, len(lights), sum(lights), min(lights, default=0), max(lights, default=0), *bands]
    return " ".join(map(str, figures)) + "\n"


def report(data):
    lines, everything, files, at = [], [], 0, 0
    while at < len(data):
        place = files + 1
        refused = lambda number: "".join(lines) + "refused %d %d\n" % (number, place)
        if files == FILES or len(data) - at < 4:
            return refused(18)
        (long,) = struct.unpack_from("<I", data, at)
        if long > LENGTH or len(data) - at - 4 < long:
            return refused(18)
        good = judge(data[at + 4:at + 4 + long])
        if good is None:
            return refused(12)
        lights = [units(bits) for bits in good[2]]
        if None in lights:
            return refused(18)
        at += 4 + long
        files = place
        lines.append(line(place, lights))
        everything += lights
    return "".join(lines) + line(files, everything)


def volume(light, axes=None, extra=()):
    """A good file of these lights, in a row of voxels unless axes say otherwise."""
    axes = axes or (len(light), 1, 1)
    corners = [bits(x) for x in (0, 0, 0, *axes)]
    return assemble(axes, [*parts(axes=axes, corners=corners, light=list(light)), *extra])
