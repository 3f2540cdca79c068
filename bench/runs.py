"""Records of four kinds, their feeds and plans, and a timed run of the program, for the scripts beside this one.

generated: depth 10, one category of four values, 1,024 bins, as bench/nanocube.rs has them.
city: a month of incidents at depth 16, 64 by 64 places, two categories of three and of two values, hours.
city4: the same with four values of the first category.
checkins: depth 15, hour and weekday, 170,000 places round 400 towns, of which few are visited often, in rising order of
time."""
import os
import random
import subprocess
import sys
import time

sys.path.insert(0, os.path.join(os.path.dirname(os.path.realpath(__file__)), "../judge"))
from pipes import plan_of


def step(s):
    return (s * 6364136223846793005 + 1442695040888963407) & ((1 << 64) - 1)


def timed(program, words, folder):
    """The status, the output, the seconds, those of the processors, and the most memory in MB of a run of the
    program."""
    start = time.time()
    child = subprocess.Popen([program, *words], cwd=folder, stdout=subprocess.PIPE)
    out = child.stdout.read()
    _, status, usage = os.wait4(child.pid, 0)
    child.returncode = os.waitstatus_to_exitcode(status)
    return child.returncode, out, time.time() - start, usage.ru_utime + usage.ru_stime, usage.ru_maxrss / 1024


class Kind:
    """A schema, and how its records are made: x, y, the numbers of its values, and the time."""

    def __init__(self, depth, categories, width, start, make):
        self.depth, self.categories, self.width, self.start, self.make = depth, categories, width, start, make

    def plan(self, feeds, batch, asks=0, finals=("final.txt",)):
        return plan_of(feeds, asks, batch, self.depth, self.categories, self.width, self.start, finals)

    def write(self, folder, records, feeds):
        """The records as so many feeds, in turn, and as the numbers that bench/groups.rs reads."""
        names = ",".join(name for name, _ in self.categories)
        files = [open(os.path.join(folder, f"feed{f}.csv"), "w") for f in range(feeds)]
        with open(os.path.join(folder, "numbers.txt"), "w") as numbers:
            for file in files:
                file.write(f"x,y,{names},time\n")
            for i, (x, y, values, time) in enumerate(self.make(records)):
                texts = ",".join(of[value] for (_, of), value in zip(self.categories, values))
                files[i % feeds].write(f"{x},{y},{texts},{time}\n")
                numbers.write(f"{x},{y},{','.join(map(str, values))},{(time - self.start) // self.width}\n")
        for file in files:
            file.close()


def generated(records):
    s = 1
    for _ in range(records):
        s = step(s)
        yield s >> 54, (s >> 44) % 1024, [(s >> 42) % 4], (s >> 32) % 1024


def city(records, types=3):
    s = 1
    for i in range(records):
        s = step(s)
        yield 16800 + (s >> 58), 24300 + (s >> 50) % 64, [
            (s >> 40) % types,
            (s >> 33) % 2,
        ], 1357016400 + i * 2678400 // records


def checkins(records):
    rng, time = random.Random(5), 0
    towns = [(rng.randrange(1 << 20), rng.randrange(1 << 20)) for _ in range(400)]
    places = []
    for _ in range(170_000):
        town = towns[min(int(rng.paretovariate(0.9)) - 1, 399)]
        places.append(tuple((at + int(rng.gauss(0, 900))) % (1 << 20) >> 5 for at in town))
    for _ in range(records):
        time += rng.randrange(1, 160)
        often = rng.random() < 0.7
        x, y = places[min(int(rng.paretovariate(0.35)) - 1, 169_999) if often else rng.randrange(170_000)]
        yield x, y, [time // 3600 % 24, time // 86400 % 7], time


KINDS = {
    "generated": Kind(10, [("kind", list("abcd"))], 1, 0, generated),
    "city": Kind(
        16,
        [("type", ["THEFT", "MOTOR VEHICLE THEFT", "BATTERY"]), ("district", ["001", "002"])],
        3600,
        1357016400,
        city,
    ),
    "city4": Kind(
        16,
        [("type", ["THEFT", "MOTOR VEHICLE THEFT", "BATTERY", "FRAUD"]), ("district", ["001", "002"])],
        3600,
        1357016400,
        lambda records: city(records, 4),
    ),
    "checkins": Kind(
        15, [("hour", [str(n) for n in range(24)]), ("day", [str(n) for n in range(7)])], 3600, 0, checkins
    ),
}
