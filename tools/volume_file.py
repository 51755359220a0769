"""Volume files in Python, written from document 01 (module 9, the numbers accepted, the table of refusals) and from nothing else.

`write` makes the bytes of a file, `judge` accepts a file or refuses it, `figures` is the line that volstat prints.
Floats are held as their bit patterns, so that every bit can be compared.
"""
import math
import struct

MARK = b"VGRD"
# the most voxels along an axis, and the most bytes that volstat takes
AXIS_LIMIT = 128
LIMIT = 65536


def number(bits):
    return struct.unpack("<f", struct.pack("<I", bits))[0]


def bits(x):
    return struct.unpack("<I", struct.pack("<f", x))[0]


def rounded(x):
    """The f32 nearest to a double. A sum, difference, product or quotient of two f32 taken in double and rounded so is
    rounded as if once: 53 digits are more than twice 24 and two."""
    return struct.unpack("<f", struct.pack("<f", x))[0]


def assemble(axes, bodies):
    """A file with these bodies, a list of (kind, bytes), in the order given."""
    start = 12 + 12 * len(bodies)
    head = MARK + struct.pack("<4H", *axes, len(bodies))
    contents, after = b"", b""
    for kind, body in bodies:
        contents += struct.pack("<3I", kind, start + len(after), len(body))
        after += body
    return head + contents + after


def bodies(corners, light, volume, occupied, active):
    return [
        (1, struct.pack("<%dI" % len(light), *light)),
        (2, struct.pack("<%dI" % len(volume), *volume)),
        (3, bytes(active)),
        (4, bytes(occupied)),
        (5, struct.pack("<6I", *corners)),
    ]


def write(axes, corners, light, volume, occupied, active):
    return assemble(axes, bodies(corners, light, volume, occupied, active))


def judge(data):
    """None for a refusal (12), or (axes, corners, light, volume, occupied, active)."""
    if len(data) < 12 or data[:4] != MARK:
        return None
    *axes, count = struct.unpack_from("<4H", data, 4)
    if not all(1 <= a <= AXIS_LIMIT for a in axes) or not 5 <= count <= 16 or len(data) < 12 + 12 * count:
        return None
    entries = [struct.unpack_from("<3I", data, 12 + 12 * i) for i in range(count)]
    kinds = [kind for kind, _, _ in entries]
    if any(not b > a for a, b in zip(kinds, kinds[1:])):
        return None
    if any(not (1 <= k <= 5 or 128 <= k <= 255) for k in kinds) or not {1, 2, 3, 4, 5} <= set(kinds):
        return None
    place = 12 + 12 * count
    body = {}
    for kind, offset, length in entries:
        if offset != place:
            return None
        place += length
        body[kind] = data[offset:offset + length]
    if place != len(data):
        return None
    n = axes[0] * axes[1] * axes[2]
    if [len(body[k]) for k in (1, 2, 3, 4, 5)] != [4 * n, 64 * n, n, n, 24]:
        return None
    light = struct.unpack("<%dI" % n, body[1])
    volume = struct.unpack("<%dI" % (16 * n), body[2])
    corners = struct.unpack("<6I", body[5])
    for numbers, most in ((light, 2.0 ** 64), (volume, 2.0 ** 96)):
        for x in map(number, numbers):
            if not (math.isfinite(x) and abs(x) <= most):
                return None
    if any(m > 1 for m in body[3] + body[4]):
        return None
    at = [number(b) for b in corners]
    if not all(math.isfinite(x) and abs(x) <= 4096 for x in at):
        return None
    for low, high, axis in zip(at[:3], at[3:], axes):
        if not rounded(rounded(high - low) / axis) >= 2.0 ** -10:
            return None
    return axes, list(corners), list(light), list(volume), list(body[4]), list(body[3])


def figures(data):
    """The line that volstat prints, without its newline."""
    if len(data) > LIMIT:
        return "refused 14"
    good = judge(data)
    if good is None:
        return "refused 12"
    axes, _, light, _, occupied, active = good
    zeros = sum(number(b) == 0 for b in light)
    return " ".join(str(k) for k in [*axes, sum(occupied), sum(active), zeros])


def answer(data):
    """What the program volume_files prints for one file."""
    line = figures(data) + "\n"
    good = judge(data)
    if len(data) <= LIMIT and good is not None:
        line += write(*good).hex() + "\n"
    return line


def frame(data):
    return struct.pack("<I", len(data)) + data
