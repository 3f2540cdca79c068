#!/usr/bin/env python3
"""live_sums_times.py NANOCUBE ADD_LIVE [RECORDS [ROUNDS]]

Times questions to `add_live` over 1, 4 and 16 runs, and to one run without it: from the line written to its reply
read whole. RECORDS (50,000) at random, of depth 10 with a category of four values, are cut by a hash of the place,
and loaded over pipes before anything is timed; the feeds stay open. All runs stand at the same time, and ROUNDS (5)
rounds go through all cases in turn. A round is 400 times `count` and 100 times `map 6`, one after the other. It
prints the median and the 99th percentile of all rounds, in microseconds."""
import contextlib
import os
import random
import signal
import subprocess
import sys
import tempfile
import time

sys.dont_write_bytecode = True
HERE = os.path.dirname(os.path.realpath(__file__))
for folder in ("../tools", "../judge"):
    sys.path.insert(0, os.path.join(HERE, folder))
from pipes import Run
from pipes import plan_of
from pipes import write_all
from usage import words_of

DEPTH, VALUES, BINS, BATCH, LIMIT = 10, "abcd", 1024, 64, 3600
RUNS = (1, 4, 16)
HEADER = b"x,y,time,kind\n"
LINES = {b"count": 400, b"map 6": 100}
PLAN = plan_of(1, 1, BATCH, DEPTH, [("kind", [*VALUES])])


class Asked:
    """What is asked: the ends of a run's ask, or of add_live over several runs."""

    def __init__(self, name, to, source):
        self.name, self.to, self.source, self.times = name, to, source, {line: [] for line in LINES}

    def ask(self, line):
        """The reply, and how long it took."""
        begun = time.perf_counter()
        os.write(self.to, line + b"\n")
        parts = []
        while not parts or parts[-1][-1] != 10:
            parts.append(os.read(self.source, 1 << 16))
            assert parts[-1], f"{self.name} has ended"
        return b"".join(parts), time.perf_counter() - begun

    def time(self, line, times):
        self.times[line] += [self.ask(line)[1] for _ in range(times)]


def shares_of(number, records):
    """A share of the records for each of so many runs, by a hash of the place."""
    shares = [[] for _ in range(number)]
    for x, y, rest in records:
        shares[(x * 7919 + y * 104729) % number].append(f"{x},{y},{rest}")
    return [HEADER + "".join(share).encode() for share in shares]


def begin_runs(stack, nanocube, number, records):
    """So many runs whose feeds are written and stay open: the runs."""
    runs = []
    for text in shares_of(number, records):
        run = stack.enter_context(Run(nanocube, PLAN, LIMIT))
        feed = run.open_to_write("feed0.csv")
        write_all(feed, HEADER)
        runs.append((run, feed, text[len(HEADER) :]))
    return runs


def direct(stack, nanocube, records):
    ((run, feed, text),) = begin_runs(stack, nanocube, 1, records)
    ask, replies = run.open_to_write("ask0.txt"), os.open(run.path("ask0.txt.out"), os.O_RDONLY)
    write_all(feed, text)
    return Asked("one run", ask, replies)


def summed(stack, nanocube, add_live, number, records):
    runs = begin_runs(stack, nanocube, number, records)
    plan = os.path.join(stack.enter_context(tempfile.TemporaryDirectory()), "plan.json")
    os.link(runs[0][0].path("plan.json"), plan)
    names = [run.path(name) for run, _, _ in runs for name in ("ask0.txt", "ask0.txt.out")]
    child = stack.enter_context(
        subprocess.Popen([add_live, plan, "/dev/stdin", *names], stdin=-1, stdout=-1, bufsize=0)
    )
    stack.callback(child.kill)
    for _, feed, text in runs:
        write_all(feed, text)
    return Asked(f"add_live over {number}", child.stdin.fileno(), child.stdout.fileno())


def wait_for_all(asked, count):
    """Waits until the runs have published what they will. At most a batch less one of each is not."""
    end, before = time.monotonic() + LIMIT, None
    while True:
        reply = asked.ask(b"count")[0]
        if reply == before and int(reply[10 : reply.index(b"]")]) >= count - BATCH * max(RUNS):
            return
        assert time.monotonic() < end, f"{asked.name}: {reply}"
        before = reply
        time.sleep(0.5)


def quantile(times, part):
    return sorted(times)[min(len(times) - 1, int(part * len(times)))] * 1e6


def main():
    words = words_of(__doc__, 2)
    nanocube, add_live = map(os.path.abspath, words[:2])
    count, rounds = (int(word) for word in [*words[2:], *"50000 5".split()[len(words) - 2 :]])
    rng = random.Random(1)
    side = 1 << DEPTH
    records = [
        (rng.randrange(side), rng.randrange(side), f"{rng.randrange(BINS)},{rng.choice(VALUES)}\n")
        for _ in range(count)
    ]
    with contextlib.ExitStack() as stack:
        cases = [
            direct(stack, nanocube, records),
            *(summed(stack, nanocube, add_live, number, records) for number in RUNS),
        ]
        for asked in cases:
            wait_for_all(asked, count)
        for _ in range(rounds):
            for line, times in LINES.items():
                for asked in cases:
                    asked.time(line, times)
        for line in LINES:
            for asked in cases:
                times = asked.times[line]
                print(
                    f"{asked.name}: `{line.decode()}`: median {quantile(times, 0.5):.0f} us, 99th percentile "
                    f"{quantile(times, 0.99):.0f} us, {len(times)} timed",
                    flush=True,
                )


if __name__ == "__main__":
    signal.signal(signal.SIGTERM, lambda *_: sys.exit(143))
    main()
