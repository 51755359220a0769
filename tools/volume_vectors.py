#!/usr/bin/env python3
"""Writes what the programs volstat and volume_files are run on, and what they must print: volume_vectors.py [--check].

With --check it writes nothing and says whether the files that stand there are these.
"""
import itertools
import os
import struct
import sys

sys.dont_write_bytecode = True
from volume_file import AXIS_LIMIT, LIMIT, answer, assemble, bits, bodies, figures, frame, judge, write

HERE = os.path.dirname(os.path.dirname(os.path.abspath(__file__)))
UNIT = [bits(x) for x in (0, 0, 0, 1, 1, 1)]


def smallest():
    """Document 01's figure: 1 by 1 by 1, light .25, zero coefficients, masks 1, corners 0,0,0 and 1,1,1."""
    return write([1, 1, 1], UNIT, [bits(.25)], [0] * 16, [1], [1])


def parts(axes=(1, 1, 1), corners=UNIT, light=None, volume=None, occupied=None, active=None):
    n = axes[0] * axes[1] * axes[2]
    return bodies(corners, light or [bits(.25)] * n, volume or [0] * (16 * n), occupied or [1] * n, active or [1] * n)


def unlike():
    """Six figures, no two alike, with foreign bodies; two of the six zero lights are −0."""
    n = 24
    light = [bits(i / 8 - 1) for i in range(n)]
    for i in (1, 5, 9, 13):
        light[i] = 0
    light[17] = bits(-0.0)
    assert light[8] == 0
    volume = [bits(((i * 37) % 101 - 50) / 16) for i in range(16 * n)]
    active = [1 if i % 3 == 0 and i < 21 else 0 for i in range(n)]
    occupied = [1 if i % 5 == 1 else 0 for i in range(n)]
    corners = [bits(x) for x in (-1, -2, -3, 4, 5.5, 6)]
    return assemble([2, 3, 4], bodies(corners, light, volume, occupied, active) + [(130, b"plate"), (200, b"\x00\x01")])


def along(axis, number):
    """Axes of which one is this number, and the others 1."""
    return [number if k == axis else 1 for k in range(3)]


def good():
    five = parts()
    yield smallest()
    yield unlike()
    yield assemble([1, 1, 1], five + [(128 + i, bytes([i]) * i) for i in range(10)] + [(255, b"last")])
    yield assemble([1, 1, 1], five + [(128, b""), (255, b"")])
    yield assemble([1, 1, 1], parts(light=[bits(-0.0)], volume=[bits(-0.0)] * 16))
    yield assemble([1, 1, 1], parts(light=[0x5F800000], volume=[0xEF800000] * 16))
    yield assemble([1, 1, 1], parts(light=[0xDF800000], volume=[0x5F800001] * 15 + [0x6F800000]))
    yield assemble([1, 1, 1], parts(light=[1], volume=[0x80000001, 0x007FFFFF] + [0] * 14))
    yield assemble([1, 1, 1], parts(active=[0]))
    yield assemble([1, 1, 1], parts(corners=[bits(x) for x in (-4096, -4096, -4096, 4096, 4096, 4096)]))
    yield assemble([1, 1, 1], parts(corners=[bits(x) for x in (-0.0, 0, 0, 1 / 1024, 1, 1)]))
    yield assemble([32, 1, 1], parts((32, 1, 1)))
    yield assemble([1, 2, 3], parts((1, 2, 3)))
    full = assemble([1, 1, 1], five + [(140, b"")])
    yield assemble([1, 1, 1], five + [(140, bytes(65536 - len(full)))])
    # masks about a word's end: 63, 64, 65 and 128 voxels
    for axes in ([7, 9, 1], [4, 4, 4], [5, 13, 1], [8, 4, 4]):
        yield marked(axes)
    # past the limit that was 32, at the limit of each axis, and the most voxels beside such an axis that volstat takes
    yield marked([33, 1, 1])
    for axis in range(3):
        yield marked(along(axis, AXIS_LIMIT))
    yield marked([AXIS_LIMIT, (LIMIT - 96) // 70 // AXIS_LIMIT, 1])


def marked(axes):
    """A file with bits of its masks set on both sides of every word's end."""
    n = axes[0] * axes[1] * axes[2]
    ends = [1 if i % 64 in (0, 1, 62, 63) else 0 for i in range(n)]
    return assemble(axes, parts(axes, occupied=ends, active=[1 if (i * i) % 7 < 3 else 0 for i in range(n)]))


def bad():
    five = parts()
    full = assemble([1, 1, 1], five + [(140, b"")])
    yield b""
    yield assemble([1, 1, 1], five + [(140, bytes(65537 - len(full)))])
    unfit = (0x7F800000, 0xFF800000, 0x7FC00000, 0x7F800001, 0xFFFFFFFF)
    for light in (0x5F800001, 0xDF800001) + unfit:
        yield assemble([1, 1, 1], parts(light=[light]))
    for coefficient in (0x6F800001, 0xEF800001) + unfit:
        yield assemble([1, 1, 1], parts(volume=[0] * 15 + [coefficient]))
    for mask in (2, 255):
        yield assemble([1, 1, 1], parts(active=[mask]))
        yield assemble([1, 1, 1], parts(occupied=[mask]))
    for x in (4096.00048828125, float("inf"), float("nan"), -1):
        yield assemble([1, 1, 1], parts(corners=[bits(v) for v in (0, 0, 0, 1, x, 1)]))
    yield assemble([1, 1, 1], parts(corners=[bits(0)] * 3 + [bits(1 / 1024) - 1, bits(1), bits(1)]))
    yield assemble([0, 1, 1], parts())
    yield assemble([2, 1, 1], parts())
    for kind in (0, 6, 127, 256, 0x01000001, 0xFFFFFFFF):
        yield assemble([1, 1, 1], sorted(five + [(kind, b"")]))
        yield assemble([1, 1, 1], five + [(kind, b"")])
    for kind in (1, 2, 3, 4, 5):
        yield assemble([1, 1, 1], [p for p in five if p[0] != kind] + [(128, b"")])
        yield assemble([1, 1, 1], [(k if k != kind else 128, b) for k, b in five])
        yield assemble([1, 1, 1], sorted(five + [five[kind - 1]]))
    yield assemble([1, 1, 1], five + [(128, b""), (128, b"")])
    yield assemble([1, 1, 1], five + [(129, b""), (128, b"")])
    yield assemble([1, 1, 1], five + [(128 + i, b"") for i in range(12)])
    yield assemble([1, 1, 1], five[:4])
    one = smallest()
    yield one + b"\x00"
    # a gap before each body, the offsets after it moved along
    for i in range(5):
        offsets = [72, 76, 140, 141, 142]
        made = bytearray(one[:offsets[i]] + b"\x00" + one[offsets[i]:])
        for j in range(i, 5):
            struct.pack_into("<I", made, 16 + 12 * j, offsets[j] + 1)
        yield bytes(made)
    # a gap that the offsets do not show, and sums that would wrap at 2^32
    yield one[:72] + b"\x00" + one[72:]
    six = assemble([1, 1, 1], five + [(128, b"")])
    for length in (0xFFFFFFFF, 0x100000000 - 178, 0x80000000):
        made = bytearray(six)
        struct.pack_into("<I", made, 12 + 12 * 5 + 8, length)
        yield bytes(made)
    seven = assemble([1, 1, 1], five + [(128, b""), (129, b"")])
    made = bytearray(seven)
    struct.pack_into("<I", made, 12 + 12 * 5 + 8, 0xFFFFFFFF)
    struct.pack_into("<I", made, 12 + 12 * 6 + 4, 189)
    struct.pack_into("<I", made, 12 + 12 * 6 + 8, 1)
    yield bytes(made)
    # every wrong order of contents, bodies moved along; then the entries alone
    for order in itertools.permutations(range(5)):
        if order != (0, 1, 2, 3, 4):
            yield assemble([1, 1, 1], [five[i] for i in order])
            yield one[:12] + b"".join(one[12 + 12 * i:24 + 12 * i] for i in order) + one[72:]
    for i in range(len(one)):
        yield one[:i]
    # axes outside the limit: one more and none with bodies of their lengths, the most that two bytes say with bodies of one voxel; a grid's
    # largest axes with bodies of one voxel too
    for axis in range(3):
        for number in (AXIS_LIMIT + 1, 0):
            yield assemble(along(axis, number), parts(along(axis, number)))
        yield assemble(along(axis, 65535), parts())
    yield assemble([65535, 65535, 65535], parts())
    yield assemble([AXIS_LIMIT, AXIS_LIMIT, AXIS_LIMIT], parts())


def changed():
    """Every byte of the smallest file changed in turn; most of these are refused, and some are not."""
    one = smallest()
    for i in range(len(one)):
        for turn in (0x01, 0x80, 0xFF):
            yield one[:i] + bytes([one[i] ^ turn]) + one[i + 1:]


def main():
    for data in good():
        assert judge(data) is not None, data.hex()
    for data in bad():
        assert figures(data).startswith("refused"), data.hex()
    assert len(smallest()) == 166
    assert [struct.unpack_from("<I", smallest(), 16 + 12 * i)[0] for i in range(5)] == [72, 76, 140, 141, 142]
    assert figures(smallest()) == "1 1 1 1 1 0" and figures(b"") == "refused 12"
    assert len(set(figures(unlike()).split())) == 6, figures(unlike())
    files = list(itertools.chain(good(), bad(), changed()))
    made = {
        "volstat/stdin": smallest(),
        "volstat/stdout": (figures(smallest()) + "\n").encode(),
        "volume_files/stdin": b"".join(frame(f) for f in files),
        "volume_files/stdout": "".join(answer(f) for f in files).encode(),
    }
    same = True
    for name, data in made.items():
        path = os.path.join(HERE, "crates", name)
        if sys.argv[1:] == ["--check"]:
            same &= open(path, "rb").read() == data
        else:
            open(path, "wb").write(data)
    refused = sum(figures(f).startswith("refused") for f in files)
    print("%d files, %d refused%s" % (len(files), refused, "" if same else "; the committed files DIFFER"))
    sys.exit(0 if same else 1)


if __name__ == "__main__":
    main()
