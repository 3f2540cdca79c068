"""Usage: soak.py PROGRAM.. [--records N] [--seconds S] [--seed N]

Runs a plan of 8 feeds and 8 asks over pipes with N records in all (10,000,000), for each PROGRAM in turn, and judges
what the run leaves by plain counts over its journal: every reply, every record once and in its feed's order, the
report, the status. A run that has not ended after S seconds (3,600) is killed, and what its threads waited in is told.
Then come short runs for the other statuses. It ends with 1 at the first thing that is wrong.

The writers: three that write as fast as they can, in blocks that end anywhere in a line; one of them is killed in
mid-line. One that writes in bursts, one that writes each line by itself, one that pauses after each line, one that is
killed in mid-line and followed by another at the same pipe, and one that writes a few bytes at a time. The asks: two
that wait for each reply, of which one never says `quit`; one that writes 200 lines at once; one whose reader stops
reading for seconds while lines are written; one that stays open until all others have ended; one that quits and goes on
writing; one whose writer breaks off in mid-line; and one that asks what is no question.

Records are of 64 kinds, so that the cube stays small: what is tried is pipes and threads. Its plain counts are its own:
judges that shared one would share its mistakes."""
import argparse
import json
import os
import random
import signal
import sys
import threading
import time

from pipes import Run, Stuck, plan_of, write_all

FEEDS, ASKS, DEPTH, WIDTH, KINDS = 8, 8, 4, 10, 64
VALUES = ["theft", "battery", "arson", "fraud"]
HEADER = b"time,x,y,kind\n"
RNG = random.Random(1)
RECORDS = [(RNG.randrange(320), RNG.randrange(16), RNG.randrange(16), RNG.randrange(4)) for _ in range(KINDS)]
LINES = [f"{t},{x},{y},{VALUES[v]}\n".encode() for t, x, y, v in RECORDS]
TAILS = [f"{x} {y} {v} {t // WIDTH}\n".encode() for t, x, y, v in RECORDS]


# The records of a feed: feed f has RECORDS[(7 * f + n) % KINDS] as its record n.


def text_of(feed, first, count):
    """The lines of a feed's records from `first` on, in blocks of at most 4,096 lines."""
    begin = (7 * feed + first) % KINDS
    turn = b"".join(LINES[begin:] + LINES[:begin])
    whole = turn * 64
    for _ in range(count // (64 * KINDS)):
        yield whole
    left = count % (64 * KINDS)
    yield turn * (left // KINDS) + b"".join((LINES[begin:] + LINES[:begin])[: left % KINDS])


def line_of(feed, number):
    return LINES[(7 * feed + number) % KINDS]


# The writers. Each is a process of its own, which the system may kill.


def in_blocks(fd, feed, first, count, rng):
    """Pieces of any length, as fast as they are taken."""
    held = b""
    for block in text_of(feed, first, count):
        held += block
        size = rng.randrange(1, len(held) + 1)
        write_all(fd, held[:size])
        held = held[size:]
    write_all(fd, held)


def in_bursts(fd, feed, first, count, rng):
    at = first
    while at < first + count:
        size = min(rng.randrange(1, 5000), first + count - at)
        write_all(fd, b"".join(text_of(feed, at, size)))
        at += size
        time.sleep(rng.random() / 50)


def by_line(fd, feed, first, count, rng, pause=0.0):
    for number in range(first, first + count):
        write_all(fd, line_of(feed, number))
        if pause:
            time.sleep(rng.random() * pause)


def by_bytes(fd, feed, first, count, rng):
    """A few bytes at a time, and no line feed after the last line."""
    text, at = b"".join(text_of(feed, first, count))[:-1], 0
    while at < len(text):
        size = rng.randrange(1, 9)
        write_all(fd, text[at : at + size])
        at += size
        if rng.randrange(20) == 0:
            time.sleep(0.0005)


def part_of(feed, number, rng):
    """The beginning of a line, and why it is refused."""
    line = line_of(feed, number)[:-1]
    part = line[: rng.randrange(1, len(line))]
    return part, "ShortRow" if part.count(b",") < 3 else "UnknownValue(kind)"


def start_writer(fd, write, *words, part=None):
    """A process that holds this pipe alone and writes, and then is killed in mid-line where there is a part of a
    line."""
    child = os.fork()
    if child:
        return child
    try:
        os.closerange(3, fd)
        os.closerange(fd + 1, 4096)
        write(fd, *words)
        if part is not None:
            write_all(fd, part)
            os.kill(os.getpid(), signal.SIGKILL)
    finally:
        os._exit(0)


class Feeds:
    """The writers of a run, and what each feed is to leave: how many records, and its refused lines."""

    def __init__(self, records, rng):
        self.rng = rng
        slow = [records // 40, records // 2000, records // 2000]
        fast = (records - sum(slow)) // 5
        self.counts = [records - sum(slow) - 4 * fast, fast, fast, fast, slow[0], slow[1], fast, slow[2]]
        self.refused = [[] for _ in range(FEEDS)]
        self.children, self.second = [], None

    def start(self, fds):
        """Starts the writers at the open pipes, and closes these here. The seventh feed's stays open for its second
        writer."""
        writes = [in_blocks, in_blocks, in_blocks, in_bursts, by_line, by_line, in_blocks, by_bytes]
        for feed, write in enumerate(writes):
            count, part, more = self.counts[feed], None, (0.004,) * (feed == 5)
            if feed in (2, 6):
                count = count if feed == 2 else count // 2
                part, why = part_of(feed, count, self.rng)
                self.refused[feed].append((count + 2, why))
            self.children.append(start_writer(fds[feed], write, feed, 0, count, self.rng, *more, part=part))
            if feed != 6:
                os.close(fds[feed])
        self.second = fds[6]

    def wait(self):
        """Waits for the writers, and lets the second one at the seventh feed begin with the end of the line that was
        broken off."""
        half = self.counts[6] // 2
        os.waitpid(self.children[6], 0)
        write_all(self.second, b"\n")
        self.children[6] = start_writer(self.second, in_blocks, 6, half, self.counts[6] - half, self.rng)
        os.close(self.second)
        for child in self.children:
            os.waitpid(child, 0)

    def stop(self):
        for child in self.children:
            try:
                os.kill(child, signal.SIGKILL)
                os.waitpid(child, 0)
            except OSError:
                pass


# The lines that are asked, and what their replies hold by how many records there are of each of the 64 kinds.


def one_row(keep):
    kept = [k for k, record in enumerate(RECORDS) if keep(*record)]
    return lambda counts: [[sum(counts[k] for k in kept)]]


def row_each(keys, key):
    groups = [([k for k, record in enumerate(RECORDS) if key(*record) == wanted], label) for wanted, label in keys]
    return lambda counts: [[*label, sum(counts[k] for k in kept)] for kept, label in groups]


def best_two(counts):
    rows = [row for row in QUARTERS(counts) if row[-1]]
    return sorted(rows, key=lambda row: -row[-1])[:2]


TILES = [((x, y), (1, x, y)) for x, y in ((0, 0), (1, 0), (0, 1), (1, 1))]
QUARTERS = row_each(TILES, lambda t, x, y, v: (x >> 3, y >> 3))
ASKED = {
    b"count": one_row(lambda t, x, y, v: True),
    b"hist kind": row_each([(v, (value,)) for v, value in enumerate(VALUES)], lambda t, x, y, v: v),
    b"map 1": lambda counts: [row for row in QUARTERS(counts) if row[-1]],
    b"series 0 8 4": row_each([(row, (8 * row,)) for row in range(4)], lambda t, x, y, v: t // WIDTH // 8),
    b"count in 2/1/3 with kind=theft": one_row(lambda t, x, y, v: (x >> 2, y >> 2, v) == (1, 3, 0)),
    b"count with kind=arson|fraud time 0 9": one_row(lambda t, x, y, v: v > 1 and t // WIDTH < 9),
    b"window 2 1 9 12": one_row(lambda t, x, y, v: 2 <= x < 9 and 1 <= y < 12),
    b"best 1 2": best_two,
}
FAULTS = {
    b"coun": b'{"at":1,"fault":"UnknownVerb"}',
    b"count in 9/0/0": b'{"at":3,"fault":"BadTile"}',
    b"\xff": b'{"at":1,"fault":"NotText"}',
    b"x" * 5000: b'{"at":1,"fault":"LongLine"}',
    b"hist": b'{"at":2,"fault":"MissingWord"}',
}
SKIPPED = [b"", b"   ", b"# a note"]


class Ask:
    """A session: what it asked and was answered, and the longest that it waited for a reply."""

    def __init__(self, fd, replies, rng, over):
        self.fd, self.replies, self.rng, self.over = fd, replies, rng, over
        self.got, self.longest, self.fault, self.open = [], 0.0, None, True
        self.thread = None

    def start(self, run):
        self.thread = threading.Thread(target=self.guard, args=(run,), daemon=True)
        self.thread.start()

    def guard(self, run):
        try:
            run(self)
        except BaseException as fault:
            self.fault = fault
        finally:
            if self.open:
                self.close()

    def close(self):
        os.close(self.fd)
        self.open = False

    def pick(self):
        return self.rng.choice([*ASKED, b"told", b"stat"])

    def take(self, line):
        reply = self.replies.next()
        assert reply is not None, ("no reply to", line)
        self.got.append((line, reply))

    def ask(self, line):
        """Asks one line, and takes its reply."""
        begun = time.monotonic()
        write_all(self.fd, line + b"\n")
        self.take(line)
        self.longest = max(self.longest, time.monotonic() - begun)

    def rest(self):
        """Nothing comes after the last reply, until the run ends."""
        assert self.replies.next() is None, "a reply to nothing"


def steady(ask):
    while not ask.over.is_set():
        ask.ask(ask.pick())
        time.sleep(ask.rng.random() / 100)
    ask.ask(b"count")


def steady_quits(ask):
    steady(ask)
    write_all(ask.fd, b"quit\n")


def at_once(ask):
    """200 lines in one write, and then their replies."""
    while not ask.over.is_set():
        lines = [ask.pick() for _ in range(200)]
        write_all(ask.fd, b"".join(line + b"\n" for line in lines))
        for line in lines:
            ask.take(line)
        time.sleep(ask.rng.random() / 2)


def stops_reading(ask):
    """Lines are written while nobody reads, so that the session waits at its full pipe, and after seconds all is
    read."""
    while not ask.over.is_set():
        lines = [ask.rng.choice([b"map 1", b"series 0 8 4", b"hist kind"]) for _ in range(4000)]
        writer = threading.Thread(
            target=write_all, args=(ask.fd, b"".join(line + b"\n" for line in lines)), daemon=True
        )
        writer.start()
        ask.over.wait(3)
        for line in lines:
            ask.take(line)
        writer.join()


def stays(ask):
    """Asks now and then, and stays open: `main` closes it after all others."""
    while not ask.over.is_set():
        ask.ask(ask.pick())
        time.sleep(0.05)
    ask.open = False


def quits_early(ask):
    for _ in range(50):
        ask.ask(ask.pick())
    write_all(ask.fd, b"quit\n" + b"count\n" * 1000)
    ask.over.wait()


def breaks_off(ask):
    """What follows the last line feed is a line too."""
    for _ in range(200):
        ask.ask(ask.pick())
        time.sleep(0.01)
    write_all(ask.fd, b"count\ncoun")
    ask.close()
    ask.take(b"count")
    ask.take(b"coun")


def no_questions(ask):
    while not ask.over.is_set():
        line = ask.rng.choice([*FAULTS])
        write_all(ask.fd, ask.rng.choice(SKIPPED) + b"\n")
        ask.ask(line)
        write_all(ask.fd, b"count\r\n")
        ask.take(b"count")
        time.sleep(ask.rng.random() / 50)


SESSIONS = [steady_quits, steady, at_once, stops_reading, stays, quits_early, breaks_off, no_questions]


# What is judged.


def order_of(asks):
    """All replies that print how many records were seen, by that number; the others are judged here."""
    seen_by = []
    for number, got in enumerate(asks):
        seen = told = 0
        for line, reply in got:
            if line in FAULTS:
                assert reply == FAULTS[line], (number, line, reply)
                continue
            value = json.loads(reply)
            if line == b"told":
                assert list(value) == ["told"] and value["told"] >= told, (number, line, reply)
                told = value["told"]
                continue
            assert value["seen"] >= max(seen, told), (number, line, reply)
            seen = value["seen"]
            if line == b"stat":
                assert sorted(value) == ["nodes", "proper", "seen", "shared", "tables"], (number, reply)
            else:
                seen_by.append((seen, line, value, number))
    return sorted(seen_by, key=lambda it: it[0])


def judge(path, counts, replies):
    """Goes once through the journal, and judges each reply over as many of its entries as it has seen."""
    of_kind, next_of, at, total = [0] * KINDS, [0] * FEEDS, 0, 0
    with open(path, "rb") as it:
        for line in it:
            while at < len(replies) and replies[at][0] == total:
                judge_reply(replies[at], of_kind)
                at += 1
            feeder, number, tail = line.split(b" ", 2)
            feed = int(feeder) - 1
            kind = (7 * feed + next_of[feed]) % KINDS
            assert int(number) == next_of[feed] and tail == TAILS[kind], (total, line)
            next_of[feed] += 1
            of_kind[kind] += 1
            total += 1
    assert next_of == counts, (next_of, counts)
    for reply in replies[at:]:
        assert reply[0] == total, reply
        judge_reply(reply, of_kind)
    return of_kind


def judge_reply(reply, of_kind):
    seen, line, value, number = reply
    assert value["rows"] == ASKED[line](of_kind), (number, line, value)


def feed_lines(feed, count, refused):
    name = f"feed{feed}.csv"
    return [f"feed {name}: {count} accepted, 0 blank, {len(refused)} refused"] + [
        f"feed {name} line {line}: {why}" for line, why in refused
    ]


def main_run(program, records, seconds, seed):
    """The long run. What is told of it."""
    rng = random.Random(seed)
    final = b"".join(line + b"\n" for line in ASKED)
    plan = plan_of(FEEDS, ASKS, 64, DEPTH, [("kind", VALUES)], WIDTH, finals=["after.txt"])
    run, feeds = Run(program, plan, seconds, finals=[("after.txt", final.decode())]), Feeds(records, rng)
    try:
        fds, ask_fds, replies = run.open_all(HEADER)
        feeds.start(fds)
        over = threading.Event()
        asks = [Ask(ask_fds[a], replies[a], random.Random(seed * 100 + a), over) for a in range(ASKS)]
        for ask, session in zip(asks, SESSIONS):
            ask.start(session)
        feeds.wait()
        over.set()
        for ask in asks:
            ask.thread.join(120)
            if ask.fault is not None:
                raise ask.fault
            assert not ask.thread.is_alive(), "an ask did not end"
        return end_of(run, feeds, asks, records)
    except OSError as fault:
        raise Stuck(f"the run did not end: {run.stuck}") if run.stuck else fault
    finally:
        feeds.stop()
        run.close()


def end_of(run, feeds, asks, records):
    """Closes the last ask, and judges what the run leaves."""
    time.sleep(1)
    assert run.child.poll() is None, "the run ended before its last ask"
    closed = time.monotonic()
    os.close(asks[4].fd)
    status, report, seconds, busy, most = run.wait()
    after = time.monotonic() - closed
    for ask in asks:
        ask.rest()
    ordered = order_of([ask.got for ask in asks])
    of_kind = judge(run.path("journal.txt"), feeds.counts, ordered)
    finals = open(run.path("after.txt.out"), "rb").read().split(b"\n")
    assert finals.pop() == b"" and len(finals) == len(ASKED), finals
    for line, reply in zip(ASKED, finals):
        assert json.loads(reply) == {"rows": ASKED[line](of_kind), "seen": records}, (line, reply)
    expected = [line for feed in range(FEEDS) for line in feed_lines(feed, feeds.counts[feed], feeds.refused[feed])]
    for number, ask in enumerate(asks):
        expected.append(f"script ask{number}.txt: {len(ask.got)} replies, seen {last_seen(ask)}")
    expected += [f"script after.txt: {len(ASKED)} replies, seen {records}", f"journal: {records} entries"]
    assert report.splitlines() == expected, (report, expected)
    assert status == 0, status
    parts = {seen for seen, *_ in ordered if 0 < seen < records}
    longest = max(asks[a].longest for a in (0, 1, 4))
    return (
        f"{records} records once and in order, {sum(len(ask.got) for ask in asks)} replies right over"
        f" {len(parts)} different parts of the journal, status 0; {seconds:.1f} s, {busy:.1f} of processors,"
        f" {most:.0f} MB; longest wait for a reply {longest * 1000:.0f} ms; ended {after:.2f} s after its last ask"
    )


def last_seen(ask):
    for line, reply in reversed(ask.got):
        if line not in FAULTS and line != b"told":
            return json.loads(reply)["seen"]
    return 0


# Short runs, each with two feeds and two asks, for what else may happen.


def short_run(program, feed_writes, ask_writes, status, lines, drop=None):
    """Writes to each feed and ask what is given, one after another; a reader of replies may go away after one. Judges
    status and report."""
    plan = plan_of(2, 2, 1, DEPTH, [("kind", VALUES)], WIDTH)
    with Run(program, plan, 60) as run:
        fds, asks, replies = run.open_all(HEADER)
        if drop is not None:
            write_all(asks[drop], b"count\n")
            assert replies[drop].next() == b'{"rows":[[0]],"seen":0}'
            replies[drop].close()
        for fd, text in zip(fds, feed_writes):
            write_all(fd, text)
            os.close(fd)
        for fd, text in zip(asks, ask_writes):
            write_all(fd, text)
            os.close(fd)
        told, report, *_ = run.wait()
        assert told == status, (told, status, report)
        assert report.splitlines() == lines, (report, lines)


def refused_run(program, text, fault):
    """A feed whose writer ends before its header does, and then no other pipe is opened."""
    with Run(program, plan_of(2, 2, 1, DEPTH, [("kind", VALUES)], WIDTH), 60) as run:
        fd = run.open_to_write("feed0.csv")
        write_all(fd, text)
        os.close(fd)
        status, report, *_ = run.wait()
        assert (status, report) == (7, f"feed feed0.csv: {fault}\n"), (status, report)
        assert not os.path.exists(run.path("journal.txt"))


def full_run(program):
    """A reader of replies that stops reading until the session waits at the full pipe, and then goes away."""
    with Run(program, plan_of(1, 2, 1, DEPTH, [("kind", VALUES)], WIDTH), 60) as run:
        fds, asks, replies = run.open_all(HEADER)
        write_all(asks[0], b"hist kind\n" * 5000)
        time.sleep(0.5)
        write_all(fds[0], LINES[0])
        os.close(fds[0])
        while True:
            write_all(asks[1], b"count\n")
            if replies[1].next() == b'{"rows":[[1]],"seen":1}':
                break
        replies[0].close()
        for fd in asks:
            os.close(fd)
        status, report, *_ = run.wait()
        assert status == 6 and "script ask0.txt stopped: Write\n" in report and "journal: 1 entries\n" in report, (
            status,
            report,
        )


def endless_run(program):
    """A feed of one line without end, which is given up at 2^30 bytes. Its writer is waited for by nobody, and the
    other feed is whole."""
    with Run(program, plan_of(2, 1, 1, DEPTH, [("kind", VALUES)], WIDTH), 120) as run:
        fds, asks, replies = run.open_all(HEADER)
        child = start_writer(fds[0], lambda fd: [write_all(fd, b"x" * (1 << 20)) for _ in range(1025)])
        os.close(fds[0])
        write_all(fds[1], LINES[0] * 3)
        os.close(fds[1])
        write_all(asks[0], b"quit\n")
        os.close(asks[0])
        status, report, *_ = run.wait()
        os.waitpid(child, 0)
        lines = [
            "feed feed0.csv: 0 accepted, 0 blank, 0 refused",
            "feed feed0.csv stopped: TooMuch",
            "feed feed1.csv: 3 accepted, 0 blank, 0 refused",
            "script ask0.txt: 0 replies, seen 0",
            "journal: 3 entries",
        ]
        assert (status, report.splitlines()) == (7, lines), (status, report)


def short_runs(program):
    """How many short runs ended as they should."""
    feeds = ["feed feed0.csv: 2 accepted, 0 blank, 0 refused", "feed feed1.csv: 0 accepted, 0 blank, 0 refused"]
    whole = [*feeds, "script ask0.txt: 0 replies, seen 0", "script ask1.txt: 0 replies, seen 0", "journal: 2 entries"]
    text = [LINES[0] + LINES[1], b""]
    short_run(program, text, [b"", b""], 0, whole)
    short_run(program, text, [b"# a note\n", b"quit\n"], 0, whole)
    short_run(program, [LINES[0] + LINES[1][:-1], b""], [b"", b"quit"], 0, whole)
    gone = [*feeds, "script ask0.txt: 1 replies, seen 0", "script ask0.txt stopped: Write", *whole[3:]]
    short_run(program, text, [b"count\n", b""], 6, gone, drop=0)
    refused_run(program, b"", "BadRow")
    refused_run(program, b"time,x", "NoColumn(y)")
    full_run(program)
    endless_run(program)
    return 8


def main():
    words = argparse.ArgumentParser(description=__doc__, formatter_class=argparse.RawDescriptionHelpFormatter)
    words.add_argument("programs", nargs="+", metavar="PROGRAM")
    words.add_argument("--records", type=int, default=10_000_000)
    words.add_argument("--seconds", type=float, default=3600)
    words.add_argument("--seed", type=int, default=1)
    given = words.parse_args()
    signal.signal(signal.SIGPIPE, signal.SIG_IGN)
    for program in map(os.path.abspath, given.programs):
        try:
            print(f"{program}: {main_run(program, given.records, given.seconds, given.seed)}", flush=True)
            print(f"{program}: {short_runs(program)} short runs ended as they should", flush=True)
        except (AssertionError, Stuck, OSError) as fault:
            print(f"FAILED {program}: {fault!r:.2000}", flush=True)
            return 1
    return 0


if __name__ == "__main__":
    sys.exit(main())
