#!/usr/bin/env python3
"""ask_times.py PROGRAM: how many short questions a second one client of a live run has answered, by client/ and
without it.

The run has 80,000 records and one ask, and its feed has no more. PLAIN writes a line into the pipe and reads its
reply, with no lock, no mark and no limit of time. ASK does what docs/FORMATS.md says of several clients, and CUBE also
reads the line's dates and makes rows of the reply. Prints a line for each question; the three take turns, and the best
of five rounds counts."""
import os
import random
import sys
import time

sys.dont_write_bytecode = True
HERE = os.path.dirname(os.path.realpath(__file__))
sys.path.insert(0, f"{HERE}/../client")
from nanocube import Cube

sys.path.insert(0, f"{HERE}/../judge")
from pipes import Run
from pipes import plan_of
from pipes import write_all

RECORDS, COUNT, ROUNDS = 80000, 5000, 5


def plain(to, source, line):
    """Asks without any care for other clients."""
    os.write(to, line)
    reply = os.read(source, 65536)
    while reply[-1] != 10:
        reply += os.read(source, 65536)
    return reply


def rate(call):
    """Calls a second."""
    began = time.perf_counter()
    for _ in range(COUNT):
        call()
    return COUNT / (time.perf_counter() - began)


def main(words):
    if len(words) != 1:
        print("use: ask_times.py PROGRAM", file=sys.stderr)
        return 2
    plan, draw = plan_of(1, 1, 65536, 10, [("kind", ["a", "b"])], width=3600), random.Random(1)
    rows = (
        f"{draw.randrange(1024)},{draw.randrange(1024)},{draw.choice('ab')},{draw.randrange(10**7)}\n"
        for _ in range(RECORDS)
    )
    with Run(words[0], plan, 120) as run:
        (feed,), (ask,), (replies,) = run.open_all(b"x,y,kind,time\n")
        write_all(feed, "".join(rows).encode())
        cube = Cube.of_run(run.folder)
        os.set_blocking(replies.fd, True)
        for line in ("count", "hist kind", "count with kind=a time 24 48", "map 2 in 3/1/1"):
            calls = (
                lambda: plain(ask, replies.fd, line.encode() + b"\n"),
                lambda: cube.ask(line),
                lambda: cube.rows(line),
            )
            found = [[rate(call) for call in calls] for _ in range(ROUNDS)]
            best = [max(column) for column in zip(*found)]
            print(f"{line}: PLAIN {best[0]:,.0f}, ASK {best[1]:,.0f}, CUBE {best[2]:,.0f} a second", flush=True)
    return 0


if __name__ == "__main__":
    sys.exit(main(sys.argv[1:]))
