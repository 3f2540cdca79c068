#!/usr/bin/env python3
"""What a record takes in one machine's cube, by depth and categories.

python3 bench/scaling.py NANOCUBE [RECORDS]

For each row makes a feed of RECORDS (200,000) records, uniform or clustered, saves its cube (`save`, one copy, in
groups of 65,536), and prints the most memory a record, the image's bytes a record, and the processor seconds for a
million records. """
import json
import os
import random
import resource
import subprocess
import sys
import tempfile

sys.path.insert(0, os.path.join(os.path.dirname(os.path.realpath(__file__)), "../judge"))
from pipes import plan_of

sys.path.insert(0, os.path.join(os.path.dirname(os.path.realpath(__file__)), "../tools"))
from usage import words_of


def feed(path, records, depth, values, bins, clustered):
    random.seed(7)
    side = 2**depth
    with open(path, "w", encoding="utf-8") as file:
        file.write(",".join(["x", "y", "time", *(f"c{k}" for k in range(len(values)))]) + "\n")
        for _ in range(records):
            if clustered:
                x, y = (min(side - 1, max(0, int(random.gauss(side / 2, side / 40)))) for _ in range(2))
            else:
                x, y = random.randrange(side), random.randrange(side)
            file.write(
                ",".join(map(str, [x, y, random.randrange(bins), *(f"v{random.randrange(n)}" for n in values)])) + "\n"
            )


def measure(nanocube, records, depth, values, bins, clustered):
    with tempfile.TemporaryDirectory() as top:
        plan = plan_of(1, 0, 65536, depth, [(f"c{k}", [f"v{v}" for v in range(n)]) for k, n in enumerate(values)])
        with open(os.path.join(top, "plan.json"), "w", encoding="utf-8") as file:
            json.dump(plan, file)
        feed(os.path.join(top, plan["feeds"][0]), records, depth, values, bins, clustered)
        child = subprocess.Popen([nanocube, "save", "plan.json", "cube.img"], cwd=top, stdout=subprocess.DEVNULL)
        _, status, used = os.wait4(child.pid, 0)
        assert status == 0, status
        return (
            used.ru_maxrss * 1024 / records,
            os.path.getsize(os.path.join(top, "cube.img")) / records,
            (used.ru_utime + used.ru_stime) / records * 1e6,
        )


def main():
    nanocube = os.path.abspath(words_of(__doc__)[0])
    records = int(sys.argv[2]) if len(sys.argv) > 2 else 200000
    print(
        "depth, categories, bins, places: bytes of memory a record, bytes of image a record, processor seconds a"
        " million records"
    )
    for depth, values, bins, clustered in [
        (6, [4], 1024, False),
        (10, [4], 1024, False),
        (10, [4], 1024, True),
        (16, [4], 1024, False),
        (16, [4], 1024, True),
        (20, [4], 1024, True),
        (10, [], 1024, False),
        (10, [4, 16], 1024, False),
        (10, [4, 16, 64], 1024, False),
        (10, [4], 65536, False),
    ]:
        memory, image, seconds = measure(nanocube, records, depth, values, bins, clustered)
        print(
            (
                f"{depth}, {'x'.join(map(str, values)) or 'none'}, {bins}, {'clustered' if clustered else 'uniform'}:"
                f" {memory:.0f}, {image:.0f}, {seconds:.1f}"
            ),
            flush=True,
        )


main()
