#!/usr/bin/env python3
"""volume_answers.py ANSWERS VOLUME: holds a volume file to the oracle's answers for the same lists (`oracle answer`, `oracle timed`), bit for bit: both masks,
the light and every coefficient. The file is read by tools/volume_file.py, and so by nothing of the library.

Prints `same SUN-RAYS BAKE-RAYS`, a 0 where the answers have none, or how many numbers of each list differ, and ends with status 1."""
import sys

import volume_file


def answers(path):
    """The lists by their names, floats by their bits; and the rays of sun and bake."""
    lists, rays = {"volume-after": []}, {"sun-rays": 0, "bake-rays": 0}
    with open(path, encoding="ascii") as lines:
        for line in lines:
            name, *words = line.split()
            if name in ("occupied", "active"):
                lists[name] = [int(c) for c in words[1]]
            elif name == "sun-after":
                lists[name] = [int(w[1:], 16) for w in words]
            elif name == "volume-after":
                if int(words[0]) * 16 != len(lists[name]):
                    sys.exit(f"{path}: voxel {words[0]} is out of turn")
                lists[name] += [int(w[1:], 16) for w in words[1:]]
            elif name in rays:
                rays[name] = int(words[0])
    return lists, rays


def main():
    if len(sys.argv) != 3:
        sys.exit(__doc__)
    lists, rays = answers(sys.argv[1])
    with open(sys.argv[2], "rb") as file:
        judged = volume_file.judge(file.read())
    if judged is None:
        sys.exit(f"{sys.argv[2]}: no volume file")
    axes, _, light, volume, occupied, active = judged
    n = axes[0] * axes[1] * axes[2]
    differing = []
    for name, length, own in (("occupied", n, occupied), ("active", n, active), ("sun-after", n, light), ("volume-after", 16 * n, volume)):
        theirs, own = lists.get(name, []), list(own)
        if not len(theirs) == len(own) == length:
            sys.exit(f"{name}: {len(theirs)} answers and {len(own)} in the file, where {length} belong")
        count = sum(a != b for a, b in zip(theirs, own))
        if count:
            differing.append(f"{name}: {count} of {length} differ")
    if differing:
        print("\n".join(differing))
        sys.exit(1)
    print("same", rays["sun-rays"], rays["bake-rays"])


main()
