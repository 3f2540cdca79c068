#!/usr/bin/env python3
"""What each shape of a feed, an image or a question costs beside an ordinary one of the same size.

python3 bench/shapes.py NANOCUBE [--short] [--sizes 10000,100000] [--rounds 3] [ROW..]

A row has a shape and its peer: two runs of the program that have equally much to do. It prints the processor seconds
of both (of a question over `load` less those of a script without a line), the ratio beside its goal, and how the shape
grew from the size before; a growth over 1.3 times that of the size is named. --short takes one size a row, prints a
line `ok` or `FAILED` for it, and fails where a ratio is over twice its goal. A row that is known not to hold has the
ratio that it has as its goal, and a comment says why."""
import argparse
import json
import os
import random
import subprocess
import sys
import tempfile
import threading
from dataclasses import dataclass
from typing import Callable

from runs import timed

sys.path.insert(0, os.path.join(os.path.dirname(os.path.realpath(__file__)), "../judge"))
from pipes import plan_of


@dataclass
class Case:
    """A feed's lines, its plan, which form is timed, its script and how often that is asked, a last column that no
    category has, and how many bytes of the feed a pipe gives at a time, if it is one."""

    lines: Callable
    depth: int = 16
    values: tuple = (4,)
    batch: int = 65536
    form: str = "save"
    script: str = "count\n"
    times: int = 1
    more: str = ""
    spread: int = 0

    def schema(self):
        return [(name, [f"{name}{v}" for v in range(n)]) for name, n in zip("abcd", self.values)]


@dataclass
class Row:
    """A shape and its peer, the size of the short form, and the goal of their ratio, of seconds or of seconds a byte of
    the image."""

    name: str
    shape: Case
    peer: Case
    size: int
    goal: float = 1.5
    by_bytes: bool = False


def record(x, y, time, values):
    return f"{x},{y},{time}" + "".join(f",{name}{v}" for name, v in zip("abcd", values)) + "\n"


def places(depth):
    """4,096 places, of which the first are drawn more often."""
    rng = random.Random(7)
    return [(rng.randrange(1 << depth), rng.randrange(1 << depth)) for _ in range(4096)]


def drawn(n, case, bins=2160, order=lambda times: times):
    """Records at 4,096 places in rising time, or in another order of time, whose values are drawn."""
    rng, spots = random.Random(11), places(case.depth)
    for time in order([i * bins // n for i in range(n)]):
        spot = spots[min(rng.randrange(4096), rng.randrange(4096))]
        yield record(*spot, time, [rng.randrange(v) for v in case.values])


def anywhere(n, case):
    """Records at random places, of random values and times."""
    rng, side = random.Random(13), 1 << case.depth
    for _ in range(n):
        spot = rng.randrange(side), rng.randrange(side)
        yield record(*spot, rng.randrange(1000), [rng.randrange(v) for v in case.values])


def tower(n, case):
    """A record beside the last tile at each level, and all others in it, so that no level shares its content."""
    rng = random.Random(17)
    yield from (record(1 << level, 0, 0, [0] * len(case.values)) for level in range(case.depth))
    for _ in range(n):
        yield record(0, 0, 0, [rng.randrange(v) for v in case.values])


def one_spot(times):
    return lambda n, case: (record(0, 0, time, [0] * len(case.values)) for time in times(n))


def new_first(n, case):
    return (record(0, 0, time, []) for time in range(n - 1, -1, -1))


def falling(n, case):
    return drawn(n, case, order=reversed)


def wide_bins(n, case):
    return drawn(n, case, bins=(1 << 32) - 1)


def quoted(quote):
    """Ordinary records whose line ends in a column of text in quotes that no category has."""
    return lambda n, case: (line[:-1] + f',"no {quote} name"\n' for line in drawn(n, case))


def commas(n, case):
    """Lines of 4,000 commas, which are refused, of as many bytes together as n ordinary lines have."""
    return ("," * 4000 + "\n" for _ in range(n * 20 // 4000))


def long_line(n, case):
    """One line of as many bytes as n ordinary lines have."""
    yield "1" * (n * 20) + "\n"


FOUR = (256, 256, 256, 256)
EVERYDAY = (100, 30, 24)
SETS = "".join(f" with {name}=" + "|".join(f"{name}{v}" for v in range(255)) for name in "abc")
BORDERS = "window 1 1 65535 65535\n" * 50
# Four of these have as many tiles along the edges that no large tile ends at as one along the borders.
INNER = "window 1 1 32768 32768\n" * 200


def load(lines, depth, values):
    return Case(lines, depth, values, form="load")


def ask(script, times, values=(256, 256, 256)):
    """A script that is asked so often that it takes much longer than two loads differ."""
    return Case(drawn, 16, values, form="ask", script=script, times=times)


def recount(script):
    return Case(drawn, form="recount", script=script)


RISING, ORDINARY = Case(drawn), load(drawn, 16, (4,))
SIZE = 20000

ROWS = [
    Row("times that fall", Case(falling), RISING, SIZE),
    # Each new bin stands before all others of a long table, so this grows with the square of the size.
    Row("new bins of one spot that fall", Case(new_first, 1, ()), Case(one_spot(range), 1, ()), 100000, 8),
    Row("all records at one place", Case(one_spot(range)), RISING, SIZE),
    Row("equal points", Case(one_spot(lambda n: [0] * n)), RISING, 65536),
    Row("bins over 2^32", Case(wide_bins), RISING, SIZE, 2),
    # The labels of a node with many children are looked for one by one in the records of a batch.
    Row("256 values in one batch", Case(tower, 20, FOUR[:3]), Case(tower, 20, FOUR[:3], 64), 10000, 4),
    # A shared link's target is looked for along its home, and each content of several parts is gone down with them.
    Row("`load` of everyday records", load(drawn, 16, EVERYDAY), ORDINARY, 20000, 2, True),
    Row("`load` of random records", load(anywhere, 20, FOUR), ORDINARY, 5000, 3, True),
    Row("`load` where no level shares", load(tower, 20, FOUR[:3]), ORDINARY, 5000, 4, True),
    Row("`count` of sets of 255 values", ask(f"count{SETS}\n", 10), ask(f"count{SETS} time 0 2160\n", 10), 20000, 2),
    # Each table costs its rows and the ends of the series.
    Row("a long series of sets", ask(f"series 0 1 10000{SETS}\n", 2), ask(f"count{SETS}\n", 20), 20000, 20),
    Row("windows along the borders", ask(BORDERS, 40, (4,)), ask(INNER, 40, (4,)), SIZE),
    # Each row of a reply is counted by a pass over the records.
    Row("`recount` of a series", recount("series 0 1 1000\n" * 2), recount("count\n" * 2000), 20000, 1.5),
    Row("`recount` of a map", recount("map 4\n" * 10), recount("count\n" * 850), 20000, 2),
    # Fields with doubled quotes go to a slower reader.
    Row("a doubled quote a line", Case(quoted('""'), 2, more=",note"), Case(quoted(""), 2, more=",note"), 20000, 15),
    Row("lines of commas", Case(commas), RISING, SIZE),
    Row("one long line", Case(long_line), RISING, SIZE),
    # Each read of the system gives one byte.
    Row("bytes that come one by one", Case(drawn, spread=1), Case(drawn, spread=4096), 5000, 8),
]


class Folder:
    """The files of a case in a folder, and runs of the program there."""

    def __init__(self, program, top, case, size):
        self.program, self.top, self.case = program, top, case
        os.makedirs(top)
        plan = plan_of(1, 0, case.batch, case.depth, case.schema(), finals=("final.txt",))
        self.write("plan.json", [json.dumps(plan)])
        names = ",".join(["x", "y", "time", *(name for name, _ in case.schema())])
        self.write("feed0.csv", [f"{names}{case.more}\n", *case.lines(size, case)])
        self.write("final.txt", [case.script] * case.times)
        self.write("none.txt", [])
        if case.form in ("load", "ask"):
            self.run("save", "plan.json", "cube.img")
        if case.form == "recount":
            self.run("run", "plan.json")

    def write(self, name, lines):
        with open(os.path.join(self.top, name), "w", encoding="utf-8") as file:
            file.writelines(lines)

    def run(self, *words):
        status, _, _, busy, _ = timed(self.program, list(words), self.top)
        assert status == 0, f"{' '.join(words)} ended with status {status}"
        return busy

    def load(self, script):
        return self.run("load", "plan.json", "cube.img", script)

    def spread(self):
        """The seconds of a `save` whose feed comes by a pipe, so many bytes a write."""
        path = os.path.join(self.top, "feed0.csv")
        with open(path, "rb") as file:
            text = file.read()
        os.remove(path)
        os.mkfifo(path)

        def send():
            with open(path, "wb", buffering=0) as pipe:
                for at in range(0, len(text), self.case.spread):
                    pipe.write(text[at : at + self.case.spread])

        sender = threading.Thread(target=send)
        sender.start()
        busy = self.run("save", "plan.json", "cube.img")
        sender.join()
        os.remove(path)
        with open(path, "wb") as file:
            file.write(text)
        return busy

    def seconds(self):
        """The seconds of the case's run, and of what stands before a question: a load for a script without a line."""
        form = self.case.form
        if self.case.spread:
            return self.spread(), 0
        if form == "save":
            return self.run("save", "plan.json", "cube.img"), 0
        if form == "load":
            return self.load("none.txt"), 0
        if form == "ask":
            return self.load("final.txt"), self.load("none.txt")
        return self.run("recount", "plan.json", "journal.txt", "final.txt", "final.txt.out"), 0

    def least(self, rounds):
        """The seconds of asking the script once, by the least of several rounds."""
        whole, before = map(min, zip(*rounds))
        return max(whole - before, 0.002) / self.case.times

    def image(self):
        return os.path.getsize(os.path.join(self.top, "cube.img"))


def measured(program, row, size, rounds):
    """The seconds of the shape and of its peer, the least of the rounds, and their ratio."""
    with tempfile.TemporaryDirectory() as top:
        cases = {"shape": row.shape, "peer": row.peer}
        pair = [Folder(program, os.path.join(top, name), case, size) for name, case in cases.items()]
        took = [[it.seconds() for it in pair] for _ in range(rounds)]
        shape, peer = (it.least(column) for it, column in zip(pair, zip(*took)))
        ratio = shape / peer
        if row.by_bytes:
            ratio *= pair[1].image() / pair[0].image()
        return shape, peer, ratio


def short(program, rows):
    """One round a row, and five more where the ratio does not hold."""
    wrong = 0
    for row in rows:
        for rounds in (1, 5):
            ratio = measured(program, row, row.size, rounds)[2]
            if ratio <= 2 * row.goal:
                print(f"ok {row.name}", flush=True)
                break
        else:
            print(f"FAILED {row.name}: {ratio:.1f} times its peer, where {row.goal} is the goal", flush=True)
            wrong += 1
    return 1 if wrong else 0


def table(program, rows, sizes, rounds):
    print("| Shape | Size | Seconds | Peer | Ratio | Goal | Growth |\n|---|---|---|---|---|---|---|")
    for row in rows:
        before = None
        for size in sizes:
            shape, peer, ratio = measured(program, row, size, rounds)
            grown = "" if before is None else f"{shape / before[1]:.1f}"
            if before and shape / before[1] > 1.3 * size / before[0]:
                grown += f", over 1.3 times {size / before[0]:.0f}"
            told = [row.name, f"{size:,}", f"{shape:.2f}", f"{peer:.2f}", f"{ratio:.1f}", str(row.goal), grown]
            print(f"| {' | '.join(told)} |", flush=True)
            before = (size, shape)
    return 0


def main():
    words = argparse.ArgumentParser(description=__doc__, formatter_class=argparse.RawDescriptionHelpFormatter)
    words.add_argument("nanocube", type=os.path.abspath)
    words.add_argument("rows", nargs="*")
    words.add_argument("--short", action="store_true")
    words.add_argument("--sizes", default="10000,100000")
    words.add_argument("--rounds", type=int, default=3)
    given = words.parse_args()
    rows = [row for row in ROWS if not given.rows or any(word in row.name for word in given.rows)]
    if given.short:
        return short(given.nanocube, rows)
    return table(given.nanocube, rows, [int(size) for size in given.sizes.split(",")], given.rounds)


if __name__ == "__main__":
    sys.exit(main())
