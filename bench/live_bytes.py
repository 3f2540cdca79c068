"""live_bytes.py LIBRARY PROGRAM.. [--records 200000,1000000] [--kinds checkins,generated,city] [--batch 65536]
[--rounds 3] [--run]

Tells how many bytes of memory a record takes by `save`, of each PROGRAM in turn, at the moment when most are taken, and
how long it takes beside the first PROGRAM. LIBRARY is bench/live_bytes.c, built. Pieces of up to 32 KB are slots,
tables and lists of children: the one copy of a cube. Larger ones are long lists, buffers and the record of changes of a
batch. The images have to be the same byte for byte. With --run it is `run` of one feed, with two copies, whose replies
to `count` and `stat` have to be the same."""
import argparse
import json
import os
import re
import subprocess
import tempfile

from runs import KINDS
from runs import timed


def told_by(library, program, words, folder):
    """The most bytes that the program takes, and those of them in pieces of up to 32 KB."""
    env = {**os.environ, "LD_PRELOAD": os.path.abspath(library)}
    ran = subprocess.run([program, *words], cwd=folder, env=env, check=True, capture_output=True, text=True)
    most, large = map(int, re.search(r"most bytes (\d+), of these (\d+)", ran.stderr).groups())
    return most, most - large


def middle(times):
    times = sorted(times)
    return times[len(times) // 2]


def left_by(folder, name):
    with open(os.path.join(folder, name), "rb") as it:
        return it.read()


def words_of(given):
    return ["run", "plan.json"] if given.run else ["save", "plan.json", "cube.img"]


def judged(folder, given):
    """What each program takes and how long, after what it leaves was seen to be what the first one leaves."""
    words, left = words_of(given), "final.txt.out" if given.run else "cube.img"
    programs = [os.path.abspath(program) for program in given.programs]
    bytes_of, first = [], None
    for program in programs:
        bytes_of.append(told_by(given.library, program, words, folder))
        first = first or left_by(folder, left)
        assert left_by(folder, left) == first, f"{program} leaves another {left}"
    rounds = [[timed(program, words, folder) for program in programs] for _ in range(given.rounds)]
    return [
        (told, middle(took[3] for took in tries), max(took[4] for took in tries))
        for told, tries in zip(bytes_of, zip(*rounds))
    ]


def measure(name, records, given):
    kind = KINDS[name]
    with tempfile.TemporaryDirectory() as folder:
        kind.write(folder, records, 1)
        with open(os.path.join(folder, "plan.json"), "w", encoding="utf-8") as it:
            json.dump(kind.plan(1, given.batch), it)
        with open(os.path.join(folder, "final.txt"), "w", encoding="utf-8") as it:
            it.write("count\nstat\n")
        told = judged(folder, given)
    print(f"{name}, {records:,} records, {words_of(given)[0]}, batch {given.batch}:", flush=True)
    for program, ((most, small), busy, resident) in zip(given.programs, told):
        of_first = f"{small / told[0][0][1]:.2f} and {busy / told[0][1]:.2f} of the first's"
        print(
            (
                f"  {program}: {small / records:.0f} bytes a record, {most / records:.0f} with pieces of more than 32"
                f" KB; {busy:.2f} s of processors; {of_first}; {resident:.0f} MB"
            ),
            flush=True,
        )


def main():
    words = argparse.ArgumentParser(description=__doc__, formatter_class=argparse.RawDescriptionHelpFormatter)
    words.add_argument("library", metavar="LIBRARY")
    words.add_argument("programs", nargs="+", metavar="PROGRAM")
    words.add_argument(
        "--records", type=lambda text: [int(word) for word in text.split(",")], default=[200_000, 1_000_000]
    )
    words.add_argument("--kinds", type=lambda text: text.split(","), default=["checkins", "generated", "city"])
    words.add_argument("--batch", type=int, default=65536)
    words.add_argument("--rounds", type=int, default=3)
    words.add_argument("--run", action="store_true")
    given = words.parse_args()
    for records in given.records:
        for name in given.kinds:
            measure(name, records, given)


if __name__ == "__main__":
    main()
