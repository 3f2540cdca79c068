"""flat_times.py FLAT [--records 1000000] [--rounds 5] [--scan SCAN] [--keep FOLDER]: what `flat` takes over records of
four categories at depth 16, whose places lie in a bell around the middle of the map. FLAT is what `tools/program_of flat`
prints, and SCAN bench/scan.rs, plain Rust that scans the same feed.

Printed: the size of the feed, the seconds of processor time that loading takes and the most memory, and for each
question the least of ROUNDS: milliseconds of processor time, which all threads take together, and by the clock. Then the
same of SCAN, whose totals have to be those of FLAT. FOLDER then has the plan and the feed, for
`explore_times.py --flat FOLDER`."""
import argparse
import contextlib
import json
import os
import random
import subprocess
import sys
import tempfile
import time

sys.path.insert(0, os.path.join(os.path.dirname(os.path.realpath(__file__)), "../judge"))
from pipes import plan_of

VALUES = {"kind": 30, "district": 77, "place": 10, "arrest": 2}
HOURS = 20_000
SETS = "with kind=kind0|kind1|kind2 with district=district3|district4 with place=place5|place6 time 3000 15000"
QUESTIONS = [
    f"count {SETS}",
    f"window 20000 20000 45000 45000 {SETS}",
    "count in 4/8/8",
    "hist kind",
    "series 0 20 1000",
    "map 9",
    "best 10 1000",
]


def write_feed(path, records):
    rng = random.Random(5)
    # A place is the sum of four draws, so that most records lie in the middle.
    places = [sum(rng.choices(range(0, 1 << 14), k=4)) for _ in range(1 << 16)]
    values = [",".join(f"{name}{rng.randrange(count)}" for name, count in VALUES.items()) for _ in range(1 << 16)]
    with open(path, "w", encoding="utf-8") as it:
        it.write(f"x,y,time,{','.join(VALUES)}\n")
        for i in range(records):
            x, y, others = rng.choice(places), rng.choice(places), rng.choice(values)
            it.write(f"{x},{y},{i * HOURS // records},{others}\n")


class Asked:
    """A run of FLAT that answers through a pipe."""

    def __init__(self, program, folder):
        words = [program, "plan.json", "/dev/stdin"]
        self.process = subprocess.Popen(words, cwd=folder, stdin=subprocess.PIPE, stdout=subprocess.PIPE)

    def seconds(self):
        """The processor time of all its threads."""
        return time.clock_gettime(~self.process.pid << 3 | 2)

    def megabytes(self):
        with open(f"/proc/{self.process.pid}/status", encoding="utf-8") as it:
            return next(int(line.split()[1]) / 1024 for line in it if line.startswith("VmHWM"))

    def ask(self, question):
        """The milliseconds of processor time and by the clock, and the reply."""
        begun, at = self.seconds(), time.time()
        self.process.stdin.write(question.encode() + b"\n")
        self.process.stdin.flush()
        reply = self.process.stdout.readline()
        return (self.seconds() - begun) * 1000, (time.time() - at) * 1000, reply

    def end(self):
        self.process.stdin.close()
        return self.process.wait()


def total_of(reply):
    """The sum of a reply's rows."""
    return sum(row[-1] for row in json.loads(reply)["rows"])


def take(flat, rounds):
    """Asks each question, and returns the totals by the question's first words, which SCAN prints."""
    totals = {}
    for question in QUESTIONS:
        taken = [flat.ask(question) for _ in range(rounds)]
        processor, clock = (min(one[i] for one in taken) for i in range(2))
        totals[question] = total_of(taken[0][2])
        print(f"{question}: {processor:.0f} ms, by the clock {clock:.0f}", flush=True)
    return totals


def scan(program, feed, totals):
    """Prints what plain Rust takes, and sees that it counts the same."""
    for line in subprocess.run([program, feed], capture_output=True, text=True, check=True).stdout.splitlines():
        name, figures = line.split(": ")
        wanted = next(total for question, total in totals.items() if question.startswith(name))
        assert figures.startswith(f"{wanted}, "), (line, wanted)
        print(f"plain Rust, {name}: {figures.split(', ')[1]}")


def main():
    words = argparse.ArgumentParser(description=__doc__, formatter_class=argparse.RawDescriptionHelpFormatter)
    words.add_argument("flat")
    words.add_argument("--records", type=int, default=1_000_000)
    words.add_argument("--rounds", type=int, default=5)
    words.add_argument("--scan")
    words.add_argument("--keep")
    given = words.parse_args()
    categories = [(name, [f"{name}{i}" for i in range(count)]) for name, count in VALUES.items()]
    if given.keep:
        os.makedirs(given.keep, exist_ok=True)
    with contextlib.nullcontext(given.keep) if given.keep else tempfile.TemporaryDirectory() as folder:
        with open(os.path.join(folder, "plan.json"), "w", encoding="utf-8") as it:
            json.dump(plan_of(1, 0, 1, 16, categories), it)
        feed = os.path.join(folder, "feed0.csv")
        write_feed(feed, given.records)
        flat = Asked(os.path.abspath(given.flat), folder)
        flat.ask("told")
        size = os.path.getsize(feed) / 1e6
        print(f"{given.records:,} records, {size:.0f} MB: {flat.seconds():.2f} s, {flat.megabytes():.0f} MB", flush=True)
        totals = take(flat, given.rounds)
        print(f"most memory: {flat.megabytes():.0f} MB")
        assert flat.end() == 0
        if given.scan:
            scan(os.path.abspath(given.scan), feed, totals)


if __name__ == "__main__":
    main()
