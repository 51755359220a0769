"""A second reading of C-24: what `league` prints for an input, from documents 01 and 02 alone, and inputs to ask it about.

`report` judges each volume file (12), then its lights (18), counts units and writes the lines. Whole numbers and fractions only:
no float of the machine takes part. `inputs` makes good files, damaged files and damaged streams.
"""
import random
import struct
import sys
from fractions import Fraction

FILE_BYTES = 65536    # "a u32 length of at most 65,536"
FILES = 65536         # "At most 65,536 files"
AXIS = 128            # C-21
ONE = 0x3F800000
MINUS_ZERO = 0x80000000
CORNER_BOUND = 0x45800000   # 4,096
LIGHT_BOUND = 0x5F800000    # 2^64
NUMBER_BOUND = 0x6F800000   # 2^96: C-12 raised 13 for coefficients
REQUIRED = 1, 2, 3, 4, 5


# ---- The judgement of a volume file ----

def within(bits, bound):
    """Finite and of at most that magnitude: without the sign, patterns ascend as magnitudes do, NaN and infinity last."""
    return all(b & 0x7FFFFFFF <= bound for b in bits)


def exact(bits):
    size = Fraction(bits & 0x7FFFFF | (0x800000 if bits >> 23 & 255 else 0)) * Fraction(2) ** (max(bits >> 23 & 255, 1) - 150)
    return -size if bits >> 31 else size


def nearest(q):
    """The f32 nearest to q, even on a tie, as a fraction."""
    if q == 0:
        return q
    top = abs(q.numerator).bit_length() - q.denominator.bit_length()
    if abs(q) < Fraction(2) ** top:
        top -= 1
    unit = Fraction(2) ** max(top - 23, -149)
    return round(q / unit) * unit


def words(body):
    return struct.unpack("<%dI" % (len(body) // 4), body)


def lights_of(file):
    """The lights' bits of a good volume file, None for any fault."""
    if len(file) < 12 or file[:4] != b"VGRD":
        return None
    width, height, depth, count = struct.unpack_from("<4H", file, 4)
    axes = width, height, depth
    if not all(1 <= a <= AXIS for a in axes) or not 5 <= count <= 16 or len(file) < 12 + 12 * count:
        return None
    bodies, last, place = {}, 0, 12 + 12 * count
    for i in range(count):
        kind, offset, length = struct.unpack_from("<3I", file, 12 + 12 * i)
        if kind <= last or not (kind in REQUIRED or 128 <= kind <= 255) or offset != place:
            return None
        bodies[kind] = file[offset:offset + length]
        last, place = kind, offset + length
    n = width * height * depth
    if place != len(file) or any(k not in bodies for k in REQUIRED):
        return None
    if [len(bodies[k]) for k in REQUIRED] != [4 * n, 64 * n, n, n, 24]:
        return None
    lights, corners = words(bodies[1]), words(bodies[5])
    if not within(lights, LIGHT_BOUND) or not within(words(bodies[2]), NUMBER_BOUND) or not within(corners, CORNER_BOUND):
        return None
    if any(m > 1 for m in bodies[3] + bodies[4]):
        return None
    for low, high, axis in zip(corners[:3], corners[3:], axes):
        if nearest(nearest(exact(high) - exact(low)) / axis) < Fraction(1, 1024):
            return None
    return lights


# ---- The report ----

def units(bits):
    """Light in units of 2^-24, rounded down; None outside 0..1. Pattern e, m stands for m·2^(e−150)."""
    if bits == MINUS_ZERO:
        return 0
    if bits > ONE:
        return None
    e = bits >> 23
    m = bits & 0x7FFFFF | (0x800000 if e else 0)
    shift = max(e, 1) - 126
    return m << shift if shift >= 0 else m >> -shift


def line(first, counted):
    """One line: the units, and how often each stands there."""
    bands = [0] * 16
    for u, times in counted.items():
        bands[min(u >> 20, 15)] += times
    total = sum(u * times for u, times in counted.items())
    low, high = (min(counted), max(counted)) if counted else (0, 0)
    return " ".join(map(str, [first, sum(counted.values()), total, low, high] + bands)) + "\n"


def report(data):
    lines, together, place, at = [], {}, 0, 0

    def refused(number):
        return "".join(lines) + "refused %d %d\n" % (number, place)

    while at < len(data):
        place += 1
        if place > FILES or len(data) - at < 4:
            return refused(18)
        length = struct.unpack_from("<I", data, at)[0]
        if length > FILE_BYTES or len(data) - at - 4 < length:
            return refused(18)
        lights = lights_of(data[at + 4:at + 4 + length])
        at += 4 + length
        if lights is None:
            return refused(12)
        counted = {}
        for bits in lights:
            u = units(bits)
            if u is None:
                return refused(18)
            counted[u] = counted.get(u, 0) + 1
        lines.append(line(place, counted))
        for u, times in counted.items():
            together[u] = together.get(u, 0) + times
    return "".join(lines) + line(place, together)


# ---- Inputs ----

SIGN = 0x80000000
CORNER_TRAPS = [0x45800000, 0x45800001, 0x457FFFFF, 0x7F800000, 0x7FC00000, 0x7F800001, 0xFF800000, 0xFFC00000, 0, SIGN, 1, 0x7F7FFFFF]
NUMBER_TRAPS = [0x6F800000, 0x6F800001, 0x6F7FFFFF, 0x5F800000, 0x5F800001, 0x7F800000, 0x7FC00000, 0x7F800001, 0x7F7FFFFF, 1, 0]
LIGHT_TRAPS = [0x3F800001, 0x40000000, 0x5F7FFFFF, 0x5F800000, 0x5F800001, 0x7F7FFFFF, 0x7F800000, 0x7F800001, 0x7FC00000, 0x7FFFFFFF,
               SIGN | 1, SIGN | 0x007FFFFF, SIGN | 0x00800000, SIGN | 0x33800000, SIGN | 0x3F800000, SIGN | 0x5F800000, SIGN | 0x5F800001,
               SIGN | 0x7F800000, SIGN | 0x7FC00000, SIGN]


def bits_of(value):
    return struct.unpack("<I", struct.pack("<f", value))[0]


def good_light(r):
    way = r.randrange(9)
    if way == 0:
        return r.choice([0, SIGN, ONE, ONE - 1, ONE - 2])
    if way == 1:
        return r.choice([1, 0x007FFFFF, 0x00800000, r.randrange(1, 0x00800000)])
    if way == 2:      # an end of a band and its neighbours
        k = r.randrange(1, 17)
        return min(bits_of(k / 16) + r.randrange(-2, 3), ONE)
    if way == 3:      # a unit and its neighbours
        k = r.randrange(1, 1 << r.randrange(1, 25))
        return min(bits_of(k / 2 ** 24) + r.randrange(-2, 3), ONE)
    if way == 4:
        return r.randrange(0x33000000, 0x34000001)
    if way == 5:
        return r.randrange(0, ONE + 1)
    return bits_of(r.random())


def good_axes(r):
    way = r.randrange(20)
    if way < 12:
        return [r.randrange(1, 4) for _ in range(3)]
    if way < 18:
        return r.sample([r.randrange(1, 9), r.randrange(1, 5), 1], 3)
    while True:
        axes = [r.choice([1, 2, 3, 7, 9, 31, 32, 33, 64, 127, 128, r.randrange(1, 129)]) for _ in range(3)]
        if axes[0] * axes[1] * axes[2] <= 930:
            return axes


def good_corners(r, axes):
    low, high = [], []
    for axis in axes:
        way = r.randrange(8)
        if way == 0:
            a, b = 0.0, axis / 1024      # the least edge
        elif way == 1:
            a, b = -4096.0, 4096.0
        elif way == 2:
            a, b = -0.0, 1.0
        else:
            a = r.uniform(-2000, 2000)
            b = a + axis * r.uniform(0.01, 10)
        low.append(bits_of(a))
        high.append(bits_of(b))
    return low + high


class File:
    """A volume file in parts, each of which may be spoilt before it is put together."""

    def __init__(self, r, axes=None):
        self.mark, self.axes = b"VGRD", axes or good_axes(r)
        n = self.n = self.axes[0] * self.axes[1] * self.axes[2]
        self.lights = [good_light(r) for _ in range(n)]
        some = [r.randrange(1 << 32) & 0xEFFFFFFF for _ in range(16)]
        some = [b if b & 0x7FFFFFFF <= NUMBER_BOUND else b & 0x8FFFFFFF for b in some]
        self.numbers = some * n
        self.active, self.occupied = [bytearray(r.choices((0, 1), k=n)) for _ in range(2)]
        self.corners = good_corners(r, self.axes)
        self.foreign = {}
        if r.randrange(3) == 0:
            kinds = r.sample(range(128, 256), r.choice([1, 2, 3, 11])) if r.randrange(3) else r.choice([[128], [255], [128, 255]])
            self.foreign = {k: r.randbytes(r.choice([0, 0, 1, 3, 4, r.randrange(60)])) for k in sorted(kinds)}
        self.count, self.tail, self.cut = None, b"", None
        self.on_bodies, self.on_contents = [], []

    def bytes(self):
        bodies = [[1, pack(self.lights)], [2, pack(self.numbers)], [3, bytes(self.active)], [4, bytes(self.occupied)], [5, pack(self.corners)]]
        bodies += [[k, b] for k, b in self.foreign.items()]
        for change in self.on_bodies:
            change(bodies)
        contents, place = [], 12 + 12 * len(bodies)
        for kind, body in bodies:
            contents.append([kind, place, len(body)])
            place += len(body)
        for change in self.on_contents:
            change(contents)
        count = len(bodies) if self.count is None else self.count
        whole = self.mark + struct.pack("<4H", *[a % 65536 for a in self.axes], count)
        whole += b"".join(struct.pack("<3I", *[v % 2 ** 32 for v in e]) for e in contents) + b"".join(b for _, b in bodies) + self.tail
        return whole if self.cut is None else whole[:self.cut % (len(whole) + 1)]


def pack(bits):
    return struct.pack("<%dI" % len(bits), *bits)


def spoil(f, r):
    """One change, most often a fault."""
    i, axis = r.randrange(f.n), r.randrange(3)
    way = r.randrange(24)
    if way == 0:
        mark = bytearray(f.mark)
        mark[r.randrange(4)] ^= 1 << r.randrange(8)
        f.mark = bytes(mark)
    elif way == 1:
        f.axes[axis] = r.choice([0, 128, 129, 256, 257, 65535, f.axes[axis] + 1, f.axes[axis] - 1, f.axes[axis] * 2, 256 + f.axes[axis]])
    elif way == 2:
        r.shuffle(f.axes)      # the same voxels: good where the edges allow it
    elif way == 3:
        f.count = r.choice([0, 4, 5, 6, 15, 16, 17, 261, 65535])
    elif way == 4:
        kind = r.choice([0, 1, 2, 3, 4, 5, 6, 7, 64, 127, 128, 129, 254, 255, 256, 257, 1 << 31, 2 ** 32 - 1])
        f.on_contents.append(lambda c: c[r.randrange(len(c))].__setitem__(0, kind))
    elif way == 5:
        high = r.choice([1 << 8, 1 << 16, 1 << 24, 1 << 31])
        f.on_contents.append(lambda c: c[r.randrange(len(c))].__setitem__(0, c[0][0] | high))
    elif way == 6:
        step = r.choice([-4, -1, 1, 4, 12, 1 << 31, 2 ** 32 - 1])

        def shift(c):
            e = r.choice(c)
            e[r.choice((1, 2))] += step
        f.on_contents.append(shift)
    elif way == 7:
        to = r.choice([0, 1, 12, 72, 65536, 1 << 31, 2 ** 32 - 1])
        f.on_contents.append(lambda c: c[r.randrange(len(c))].__setitem__(r.choice((1, 2)), to))
    elif way == 8:      # one body shorter or longer, contents true to it
        def resize(b):
            e = r.choice(b)
            e[1] = e[1][:-r.choice((1, 4))] if r.randrange(2) else e[1] + bytes(r.choice((1, 4, 64)))
        f.on_bodies.append(resize)
    elif way == 9:
        f.on_bodies.append(lambda b: b.pop(r.randrange(len(b))))
    elif way == 10:
        def swap(b):
            j, k = r.sample(range(len(b)), 2)
            b[j], b[k] = b[k], b[j]
        f.on_bodies.append(swap)
    elif way == 11:     # a body more, contents true to it
        kind = r.choice([0, 5, 6, 100, 127, 128, 200, 255, 256, 1000])
        f.on_bodies.append(lambda b: b.insert(r.choice([0, 5, len(b)]), [kind, r.randbytes(r.choice([0, 1, 24]))]))
    elif way == 12:     # a length of one body given to the next, offsets true to it
        def lend(c):
            j = r.randrange(len(c) - 1)
            step = r.choice([1, 4, -1])
            c[j][2] += step
            c[j + 1][1] += step
            c[j + 1][2] -= step
        f.on_contents.append(lend)
    elif way == 13:
        f.tail = bytes(r.choice([1, 3, 4, 12]))
    elif way == 14:
        f.cut = r.choice([0, 3, 4, 11, 12, 13, 71, 72, -2, r.randrange(1 << 20)])
    elif way == 15:
        r.choice((f.active, f.occupied))[i] = r.choice([2, 3, 128, 129, 255])
    elif way == 16:
        f.corners[r.randrange(6)] = r.choice(CORNER_TRAPS) ^ r.choice((0, SIGN))
    elif way == 17:     # an edge about the least one: rounding decides
        low = r.choice([0.0, 1.0, -1.0, 3.0, 4095.0, -4096.0, r.uniform(-1, 1)])
        f.corners[axis] = bits_of(low)
        f.corners[3 + axis] = bits_of(low + f.axes[axis] / 1024)
        if f.corners[3 + axis] & 0x7FFFFFFF:
            f.corners[3 + axis] += r.randrange(-2, 3)
        if r.randrange(2) and 1 <= f.axes[axis] <= AXIS:     # the difference rounds up to it, or does not
            least = Fraction(f.axes[axis], 1024)
            below = bits_of(float(least)) - 1
            missing = least - exact(below)
            f.corners[axis] = SIGN | bits_of(float(missing * r.choice([1, 2, 3, 4, 5, 6, 7]) / 8))
            f.corners[3 + axis] = below
    elif way == 18:
        f.corners[axis], f.corners[3 + axis] = f.corners[3 + axis], f.corners[axis if r.randrange(2) else 3 + axis]
    elif way == 19:
        f.numbers[r.randrange(16 * f.n)] = r.choice(NUMBER_TRAPS) ^ r.choice((0, SIGN))
    elif way == 20:     # one body twice
        def twice(b):
            j = r.randrange(len(b))
            b.insert(j, list(b[j]))
        f.on_bodies.append(twice)
    elif way == 21:     # as many foreign bodies as fit, or one more
        f.foreign = {k: b"" for k in range(140, 151 + r.randrange(2))}
    else:
        f.lights[i] = r.choice(LIGHT_TRAPS)


def one_file(r, bad):
    if bad and r.randrange(40) == 0:     # an axis past the limits, bodies true to it
        return File(r, r.sample([r.choice([0, 129]), r.choice([1, 2]), 1], 3)).bytes()
    f = File(r)
    if bad:
        for _ in range(r.choice([1, 1, 1, 1, 2])):
            spoil(f, r)
    if r.randrange(200) == 0:      # about the limit on a length
        room = r.choice([65535, 65536, 65536, 65537]) - len(f.bytes())
        if room > 12 and len(f.foreign) < 11 and 255 not in f.foreign:
            f.foreign[255] = bytes(room - 12)
    return f.bytes()


def sent(file, length=None):
    return struct.pack("<I", len(file) if length is None else length) + file


def an_input(r):
    files = [sent(one_file(r, False)) for _ in range(r.choice([0, 0, 1, 1, 1, 2, 2, 3, 5]))]
    way = r.randrange(20)
    if way < 11:        # a file that may be bad, perhaps more behind it
        files.insert(r.randrange(len(files) + 1), sent(one_file(r, True)))
    elif way == 11:
        files.insert(r.randrange(len(files) + 1), sent(b"", r.choice([0, 0, 65536, 65537, 1 << 24, 1 << 31, 2 ** 32 - 1])))
    elif way == 12:     # a length that is not the file's
        file = one_file(r, False)
        files.insert(r.randrange(len(files) + 1), sent(file, max(0, len(file) + r.choice([-4, -1, 1, 4, 65536, 1 << 24]))))
    elif way == 13:
        files.append(r.randbytes(r.randrange(1, 8)))
    whole = b"".join(files)
    if way in (14, 15) and whole:
        whole = whole[:r.randrange(len(whole))]
    elif way == 16 and whole:
        spot = r.randrange(min(len(whole), r.choice([16, 80, 1 << 30])))
        whole = whole[:spot] + bytes([whole[spot] ^ 1 << r.randrange(8)]) + whole[spot + 1:]
    return whole


def inputs(seed, count):
    r = random.Random(seed)
    for _ in range(count):
        yield an_input(r)


def many_files(r):
    """65,535, 65,536 and 65,537 files, and what may stand behind the last good one."""
    small = []
    while len(small) < 50:
        f = File(r)
        if f.n < 3:
            small.append(sent(f.bytes()))
    full = b"".join(small[i % 50] for i in range(FILES))
    yield full[:-len(small[(FILES - 1) % 50])]
    yield full
    yield full + b"\0"
    yield full + small[0]
    yield full[:-1]


if __name__ == "__main__":
    sys.stdout.write(report(sys.stdin.buffer.read()))
