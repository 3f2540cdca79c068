"""Usage: short_runs.py three PROGRAM.. [--runs N] [--beside B] [--limit S] [--seed N]
       short_runs.py judged PROGRAM.. [--runs N] [--beside B] [--limit S] [--pause S] [--seed N]

Runs each PROGRAM over pipes again and again, and ends with 1 where a run hangs (it is killed after a limit of 20 s, or
120 s where it is judged), leaves what is wrong, or ends more than a second after its writers. On a machine that other
work shares the last may be the load's, and where that leaves little for this script it wants a higher limit. Each
minute it says how many runs were right so far, and also where SIGTERM or SIGINT ends a series, once the runs that are
under way have ended.

three: N runs (10,000), B of them side by side (4), of three records from two feeds and an ask, with random pauses of up
to 10 ms between the writes, some of which end in mid-line. judged: N runs (1,000) of the feeds and scripts of
judge_runs.py, 8 feeds of 2,000 records and 8 asks of 500 lines, each written to its pipe in 20 pieces with random
pauses of up to S seconds (0.15, so that a run's writers take some 1.8 s), and judged as judge_runs.py judges them."""
import argparse
import os
import random
import signal
import sys
import threading
import time

from judge_runs import ASKS, FEEDS, journal_of, judge, make, queries
from pipes import Run, Stuck, plan_of, write_all

LATE = 1
STOP = threading.Event()


def three_run(program, rng, limit, _):
    """How long after its writers' end a run of three records ended."""
    plan = plan_of(2, 1, rng.choice([1, 2, 64]), 3, [("kind", ["a", "b"])], 10)
    with Run(program, plan, limit) as run:
        fds, asks, replies = run.open_all(b"x,y,kind,time\n")
        lines = [b"1,2,a,30\n", b"7,7,b,9\n", b"0,0,a,0\n"]
        of_feed = [rng.randrange(2) for _ in lines]
        left = [b"".join(line for line, feed in zip(lines, of_feed) if feed == f) for f in range(2)]
        asked = 0
        while any(left):
            feed = rng.choice([f for f in range(2) if left[f]])
            size = rng.randrange(1, len(left[feed]) + 1)
            write_all(fds[feed], left[feed][:size])
            left[feed] = left[feed][size:]
            time.sleep(rng.choice([0, 0.0001, 0.001, 0.01]) * rng.random())
            if rng.randrange(2):
                write_all(asks[0], b"count\n")
                asked += 1
        ends = [*fds, asks[0]]
        rng.shuffle(ends)
        for fd in ends:
            time.sleep(rng.choice([0, 0.001, 0.01]) * rng.random())
            os.close(fd)
        written = time.monotonic()
        status, report, *_ = run.wait()
        late = time.monotonic() - written
        judge_three(run, status, report, of_feed, asked, replies[0])
        return late


def judge_three(run, status, report, of_feed, asked, replies):
    lines = report.splitlines()
    counts = [of_feed.count(f) for f in range(2)]
    assert status == 0, (status, report)
    assert lines[:2] == [f"feed feed{f}.csv: {counts[f]} accepted, 0 blank, 0 refused" for f in range(2)], report
    assert lines[2].startswith(f"script ask0.txt: {asked} replies, seen "), report
    assert lines[3:] == ["journal: 3 entries"], report
    seen = 0
    for _ in range(asked):
        reply = replies.next()
        told = int(reply[10 : reply.index(b"]")])
        assert reply == b'{"rows":[[%d]],"seen":%d}' % (told, told) and seen <= told <= 3, reply
        seen = told
    assert replies.next() is None
    replies.close()
    with open(run.path("journal.txt")) as it:
        entries = sorted(tuple(map(int, line.split()[:2])) for line in it)
    assert entries == sorted((f + 1, n) for f in range(2) for n in range(counts[f])), entries


def judged_run(program, rng, limit, pause):
    """How long after its writers' end a run of judge_runs.py's kind ended, over pipes."""
    asked = queries(rng)
    plan = plan_of(FEEDS, ASKS, 64, 10, [("kind", list("abcd"))])
    with Run(program, plan, limit) as run:
        source = run.path("written")
        os.mkdir(source)
        feeds, scripts = make(source, rng, asked)
        fds, ask_fds, replies = run.open_all(b"x,y,kind,time\n")
        texts = [open(os.path.join(source, f"feed{f}.csv"), "rb").read().split(b"\n", 1)[1] for f in range(FEEDS)]
        texts += [open(os.path.join(source, f"ask{a}.txt"), "rb").read() for a in range(ASKS)]
        outs = [[] for _ in range(ASKS)]
        writers = [
            threading.Thread(target=write_in_pieces, args=(fd, text, random.Random(rng.random()), pause))
            for fd, text in zip(fds + ask_fds, texts)
        ]
        readers = [threading.Thread(target=read_all, args=(it, out)) for it, out in zip(replies, outs)]
        for one in writers + readers:
            one.start()
        for one in writers:
            one.join()
        written = time.monotonic()
        status, report, *_ = run.wait()
        late = time.monotonic() - written
        for one in readers:
            one.join()
        assert status == 0, (status, report)
        assert all(out.pop() == b"" for out in outs), "a reply ends in mid-line"
        judge(scripts, [[line.decode() for line in out] for out in outs], asked, journal_of(run.folder, feeds))
        return late


def write_in_pieces(fd, text, rng, pause):
    """Twenty pieces, most of which end in mid-line, with a pause after each."""
    cuts = [0, *sorted(rng.randrange(len(text) + 1) for _ in range(19)), len(text)]
    try:
        for begin, end in zip(cuts, cuts[1:]):
            write_all(fd, text[begin:end])
            time.sleep(rng.random() * pause)
    finally:
        os.close(fd)


def read_all(replies, out):
    """All lines of a pipe, and what stands after the last line feed."""
    try:
        while replies.more():
            out += replies.lines
        out.append(replies.held)
    except Stuck:
        pass  # The run is stuck too, or is judged without its last line.
    finally:
        replies.close()


def sums_of(lates):
    """How many runs were right, and how long after their writers they ended."""
    lates = sorted(lates)
    if not lates:
        return "no run has ended"
    slow = sum(late > LATE for late in lates)
    median, most = lates[len(lates) // 2], lates[int(0.99 * len(lates))]
    return (
        f"{len(lates)} runs right, {slow} ended more than {LATE} s after their writers: median {1000 * median:.1f} ms, "
        f"99th percentile {1000 * most:.1f} ms, latest {1000 * lates[-1]:.1f} ms"
    )


def runs_of(program, one_run, runs, beside, seed, *words):
    """So many runs, so many of them side by side. Whether all was as it should be."""
    lates, faults, left, lock = [], [], list(range(runs)), threading.Lock()

    def work():
        while True:
            with lock:
                if not left or faults or STOP.is_set():
                    return
                number = left.pop()
            try:
                lates.append(one_run(program, random.Random(seed * 1_000_003 + number), *words))
            except (AssertionError, Stuck, OSError, ValueError, LookupError) as fault:
                faults.append((number, fault))

    workers = [threading.Thread(target=work) for _ in range(beside)]
    for worker in workers:
        worker.start()
    told = time.monotonic()
    while any(worker.is_alive() for worker in workers):
        workers[0].join(0.1)
        time.sleep(0 if workers[0].is_alive() else 0.1)
        if time.monotonic() - told > 60:
            told = time.monotonic()
            print(f"{program}: of {runs} so far {sums_of(lates)}", flush=True)
    if faults:
        print(f"FAILED {program}: run {faults[0][0]}: {faults[0][1]!r:.1500}; {sums_of(lates)}", flush=True)
        return False
    if STOP.is_set():
        print(f"{program}: stopped, of {runs} {sums_of(lates)}", flush=True)
        return False
    print(f"{program}: none hangs, {sums_of(lates)}", flush=True)
    return not any(late > LATE for late in lates)


def stop(number, _):
    """Lets the runs that are under way end, and none begin. At a second signal the script ends at once."""
    STOP.set()
    signal.signal(number, signal.SIG_DFL)


def main():
    words = argparse.ArgumentParser(description=__doc__, formatter_class=argparse.RawDescriptionHelpFormatter)
    words.add_argument("what", choices=["three", "judged"])
    words.add_argument("programs", nargs="+", metavar="PROGRAM")
    words.add_argument("--runs", type=int)
    words.add_argument("--beside", type=int)
    words.add_argument("--limit", type=float)
    words.add_argument("--pause", type=float, default=0.15)
    words.add_argument("--seed", type=int, default=1)
    given = words.parse_args()
    signal.signal(signal.SIGPIPE, signal.SIG_IGN)
    for number in (signal.SIGINT, signal.SIGTERM):
        signal.signal(number, stop)
    good = True
    for program in map(os.path.abspath, given.programs):
        one_run, runs, beside, limit = (
            (three_run, 10_000, 4, 20) if given.what == "three" else (judged_run, 1_000, 1, 120)
        )
        good &= runs_of(
            program, one_run, given.runs or runs, given.beside or beside, given.seed, given.limit or limit, given.pause
        )
    return 0 if good else 1


if __name__ == "__main__":
    sys.exit(main())
