#!/usr/bin/env python3
"""Holds the compiled volume calls to the Python reader, writer and judge: volume_differ.py [FILES [VOLUMES [SEED]]].

Builds the program volume_files by `rt run`, then runs it on VOLUMES random volumes (default 2,000), each a good file that must be
accepted and whose bytes, written again, must agree, and on FILES damaged files (default 1,000,000), whose verdicts must be the
judge's. volstat is run too, on inputs of 0, 166, 65,536 and 65,537 bytes, whole and in short pieces. Exit status 0: all agree.
"""
import os
import random
import struct
import subprocess
import sys

sys.dont_write_bytecode = True
from volume_file import AXIS_LIMIT, answer, assemble, bits, bodies, figures, frame, judge
from volume_vectors import good, parts, smallest, unlike

HERE = os.path.dirname(os.path.dirname(os.path.abspath(__file__)))
BATCH = 20000
# the largest patterns accepted: 2^64 and 2^96
LIGHT, COEFFICIENT = 0x5F800000, 0x6F800000


def built(*names):
    """Proves programs of the repository and builds them, by `rt run` on no input."""
    for name in names:
        made = subprocess.run(["rt", "run"], cwd=os.path.join(HERE, "crates", name), stdin=subprocess.DEVNULL, stdout=subprocess.PIPE, stderr=subprocess.STDOUT, text=True)
        if made.returncode:
            sys.exit(made.stdout[-2000:])


def command(name):
    """How a program that was built is run."""
    return [os.path.join(HERE, "crates", name, "out", name)]


def run(name, data):
    return subprocess.run(command(name), input=data, check=True, capture_output=True).stdout.decode()


def pieces(name, data, size):
    """The same, the input handed over in pieces."""
    child = subprocess.Popen(command(name), stdin=subprocess.PIPE, stdout=subprocess.PIPE)
    for at in range(0, len(data), size):
        child.stdin.write(data[at:at + size])
        child.stdin.flush()
    child.stdin.close()
    wrote = child.stdout.read().decode()
    child.wait()
    return wrote


def compare(files, what):
    wrote = run("volume_files", b"".join(frame(f) for f in files))
    right = "".join(answer(f) for f in files)
    if wrote == right:
        return
    at = 0
    for f in files:
        own = answer(f)
        if wrote[at:at + len(own)] != own:
            sys.exit("%s: %s\nwrote %r\nright %r" % (what, f.hex(), wrote[at:at + 400], own[:400]))
        at += len(own)
    sys.exit("%s: more was written than asked" % what)


def some_number(chance, most):
    """A finite pattern up to `most` in magnitude, with zeros of both signs, subnormals and the limits among them."""
    kind = chance.randrange(8)
    if kind == 0:
        return chance.choice([0, 0x80000000, 1, 0x80000001, 0x007FFFFF, 0x00800000, most, most | 0x80000000, 0x3F800000])
    if kind == 1:
        return chance.randrange(0x00800000) | chance.randrange(2) << 31
    return chance.randrange(most + 1) | chance.randrange(2) << 31


def some_volume(chance):
    axes = [chance.choice([1, 1, 2, 3, 4, 5, 7]) for _ in range(3)]
    if chance.randrange(20) == 0:
        axes[chance.randrange(3)] = chance.choice([32, 33, AXIS_LIMIT])
    n = axes[0] * axes[1] * axes[2]
    while n > 900:
        axes[axes.index(max(axes))] //= 2
        n = axes[0] * axes[1] * axes[2]
    low = [chance.uniform(-4000, 3000) for _ in range(3)]
    high = [min(4096, x + chance.choice([a / 512, chance.uniform(1, 1000)])) for x, a in zip(low, axes)]
    made = bodies([bits(x) for x in low + high], [some_number(chance, LIGHT) for _ in range(n)], [some_number(chance, COEFFICIENT) for _ in range(16 * n)],
                  [chance.randrange(2) for _ in range(n)], [chance.randrange(2) for _ in range(n)])
    foreign = sorted(chance.sample(range(128, 256), chance.choice([0, 0, 1, 2, 11])))
    return assemble(axes, made + [(k, chance.randbytes(chance.choice([0, 1, 3, 40]))) for k in foreign])


def damaged(chance, stock):
    """A good file with one to three faults: bytes changed, cut, put in or doubled, words of the contents changed, parts exchanged."""
    data = bytearray(chance.choice(stock))
    for _ in range(chance.choice([1, 1, 1, 2, 3])):
        if not data:
            break
        at = chance.randrange(len(data))
        what = chance.randrange(9)
        if what == 0:
            data[at] ^= 1 << chance.randrange(8)
        elif what == 1:
            data[at] = chance.randrange(256)
        elif what == 2:
            del data[at:]
        elif what == 3:
            del data[at:at + chance.choice([1, 4, 12])]
        elif what == 4:
            data[at:at] = chance.randbytes(chance.choice([1, 4, 12]))
        elif what == 5 and len(data) >= 72:
            count = struct.unpack_from("<H", data, 10)[0]
            place = 12 + 4 * chance.randrange(3 * max(1, min(count, (len(data) - 12) // 12)))
            old = struct.unpack_from("<I", data, place)[0]
            new = chance.choice([old + 1, old - 1, old ^ 0x100, 0, 1, 5, 6, 127, 128, 255, 256, 0xFFFFFFFF, 0x80000000, len(data)])
            struct.pack_into("<I", data, place, new % 2 ** 32)
        elif what == 6:
            struct.pack_into("<H", data, 4 + 2 * chance.randrange(4), chance.choice([0, 1, 2, 4, 5, 6, 16, 17, 32, 33, AXIS_LIMIT, AXIS_LIMIT + 1, 65535])) if len(data) >= 12 else None
        elif what == 7 and len(data) >= 4:
            place = 4 * chance.randrange(len(data) // 4)
            struct.pack_into("<I", data, place, chance.choice([0x7F800000, 0x7FC00000, 0xFF800000, 0x5F800000, 0x5F800001, 0xDF800001, 0x80000000, 0x45800001]))
        elif what == 8 and len(data) >= 72:
            i, j = chance.randrange(5), chance.randrange(5)
            a, b = bytes(data[12 + 12 * i:24 + 12 * i]), bytes(data[12 + 12 * j:24 + 12 * j])
            data[12 + 12 * i:24 + 12 * i], data[12 + 12 * j:24 + 12 * j] = b, a
    return bytes(data)


def main():
    files, volumes, seed = [int(w) for w in sys.argv[1:]] + [1000000, 2000, 1][len(sys.argv) - 1:]
    built("volstat", "volume_files")
    chance = random.Random(seed)

    full = assemble([1, 1, 1], parts() + [(140, b"")])
    whole = assemble([1, 1, 1], parts() + [(140, bytes(65536 - len(full)))])
    for data in (b"", smallest(), unlike(), whole, whole + b"\x00", bytes(200000)):
        for wrote in (run("volstat", data), pieces("volstat", data[:65537], 1000), pieces("volstat", data[:65537], 7)):
            assert wrote == figures(data) + "\n", (len(data), wrote)
    print("volstat agrees on inputs of 0, 166, 65,536, 65,537 and 200,000 bytes, whole and in pieces")

    made = [some_volume(chance) for _ in range(volumes)]
    refused = [f for f in made if judge(f) is None]
    for at in range(0, len(made), 200):
        compare(made[at:at + 200], "volume")
    print("%d random volumes agree byte for byte when read and written (%d of them refused for a thin edge)" % (len(made), len(refused)))

    stock = [f for f in good() if len(f) < 10000] + [f for f in made if len(f) < 800][:200]
    done = bad = 0
    while done < files:
        batch = [damaged(chance, stock) for _ in range(min(BATCH, files - done))]
        compare(batch, "damaged")
        done += len(batch)
        bad += sum(figures(f).startswith("refused") for f in batch)
    print("%d damaged files, %d refused: every verdict agrees" % (done, bad))


if __name__ == "__main__":
    main()
