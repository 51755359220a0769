"""beside.py ROOM RUNS: what tools/speed/beside measures, with the two builds of the Rust in the folder ROOM."""
import json
import os
import pathlib
import statistics
import subprocess
import sys
import time

TOP = pathlib.Path(__file__).resolve().parent.parent.parent
DEMO = TOP / "plate/demo"
PLATE = TOP / "target/plate/x86_64-unknown-linux-gnu/release/plate"
ROOM, RUNS = pathlib.Path(sys.argv[1]), int(sys.argv[2])


def split(drawing):
    """The drawing with every face as triangles, each of them split in four at the middles of its sides."""
    points, out = [], []

    def corner(point):
        points.append(point)
        out.append("v " + " ".join(repr(x) for x in point))
        return len(points)

    for line in drawing.splitlines():
        words = line.split()
        if words[:1] == ["v"]:
            corner([float(w) for w in words[1:]])
        elif words[:1] == ["f"]:
            face = [points[int(w) - 1] for w in words[1:]]
            for b, c in zip(face[1:], face[2:]):
                a = face[0]
                ab, bc, ca = ([(p + q) / 2 for p, q in zip(*side)] for side in ((a, b), (b, c), (c, a)))
                for triangle in ((a, ab, ca), (ab, b, bc), (ca, bc, c), (ab, bc, ca)):
                    out.append("f " + " ".join(str(corner(p)) for p in triangle))
        else:
            out.append(line)
    return "\n".join(out) + "\n"


def ran(*words):
    """What a program says, and its seconds by the wall clock and of the processors."""
    before = os.times()
    begun = time.monotonic()
    said = subprocess.run(words, check=True, stdout=subprocess.PIPE).stdout.decode()
    after = os.times()
    return said, time.monotonic() - begun, after.children_user + after.children_system - before.children_user - before.children_system


def by_plate(hall):
    said, _, processor = ran(PLATE, "bake", hall / "hall.toml", "-o", hall / "plate.vgrd", "--fresh", "--json")
    events = {event["event"]: event for event in map(json.loads, said.splitlines())}
    return events["prepared"]["masks_seconds"], events["prepared"]["sun_seconds"], events["done"]["seconds"], processor


def by_rust(hall, name):
    said, _, processor = ran(ROOM / name, "timed", hall / "lists")
    (hall / name).write_text(said)
    seconds = {line.split()[1]: float(line.split()[2]) for line in said.splitlines() if line.startswith("seconds ")}
    return seconds["masks"], seconds["sun"], seconds["bake"], processor


def held(hall, name):
    """How the Rust's answers differ from plate's volume: nothing where they do not."""
    answer = subprocess.run([sys.executable, TOP / "tools/volume_answers.py", hall / name, hall / "plate.vgrd"], stdout=subprocess.PIPE, check=False)
    said = answer.stdout.decode().strip()
    return "" if answer.returncode == 0 and said.startswith("same") else said or "no answer"


def main():
    print(f"{os.cpu_count()} cores, {RUNS} runs of each in turn, load {os.getloadavg()[0]:.1f} before; median seconds by the wall clock, the processors' last")
    for name, drawing in (("sample", lambda text: text), ("split", split)):
        hall = ROOM / f"hall-{name}"
        hall.mkdir()
        for file in ("hall.toml", "hall.mtl"):
            (hall / file).write_bytes((DEMO / file).read_bytes())
        (hall / "hall.obj").write_text(drawing((DEMO / "hall.obj").read_text()))
        lists = ran(PLATE, "lists", hall / "hall.toml")[0]
        (hall / "lists").write_text(lists)
        sides = {"plate": [], "rust": [], "rust-tree": []}
        for _ in range(RUNS):
            for side, times in sides.items():
                times.append(by_plate(hall) if side == "plate" else by_rust(hall, side))
                if side == "rust" and held(hall, side):
                    sys.exit(f"beside: {name}: the volumes differ: {held(hall, side)}")
        print(f"\n{name} hall, {lists.count(chr(10) + 'triangle ')} triangles, {lists.count(chr(10) + 'lamp ')} lamps")
        print(f"{'':36}{'masks':>10}{'sun':>10}{'bake':>10}{'processors':>12}")
        medians = {side: [statistics.median(column) for column in zip(*times)] for side, times in sides.items()}
        words = {"plate": "plate", "rust": "the Rust, list order", "rust-tree": "the Rust, stand-in's tree"}
        for side, row in medians.items():
            print(f"{words[side]:36}{row[0]:10.4f}{row[1]:10.4f}{row[2]:10.3f}{row[3]:12.2f}")
        for side in ("rust", "rust-tree"):
            ratios = [mine / theirs for mine, theirs in zip(medians["plate"], medians[side])]
            print(f"{'plate / ' + words[side]:36}{ratios[0]:10.2f}{ratios[1]:10.2f}{ratios[2]:10.2f}{ratios[3]:12.2f}")
        print("list order: the same volume bit for bit; the tree: " + (held(hall, "rust-tree").replace("\n", ", ") or "the same volume bit for bit"))


main()
