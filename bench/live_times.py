"""Usage: live_times.py idle PROGRAM.. [--seconds S]
       live_times.py latency PROGRAM.. [--seconds S] [--batches 1,64] [--rates 1,10000,100000] [--asks 1,8] [--records
       city]
                             [--prober PROBER] [--pauses 2]
       live_times.py memory PROGRAM.. [--counts 3600,100000,1000000] [--records city]
       live_times.py city PROGRAM.. [--counts 1000000] [--batches 64] [--rounds 3] [--processors 4,2] [--pipes]

Times live runs over pipes, of each PROGRAM in turn, so that the figures of one run of this script compare with each
other.

idle: the share of a processor that a run takes whose feeds and asks are open and silent for S seconds (10).
latency: from a record written to the reply that counts it, while other records come from a feed of their own at each
rate and the asks are answered one line after the other: median and 99th percentile over S seconds (10), how many were
timed, the replies a second of all asks, and how many records a second were taken, where these are fewer than were to
come. A record that is timed comes by a second feed, and at batch 64 is published with records of the other. Between a
reply and the next record that is timed passes a random time of up to so many milliseconds (2). This script sleeps until
a reply has come, and its wake is in each time; PROBER, which is built from bench/prober.rs, never sleeps. It has the
last processor for itself, and the program and what writes the other records have the rest. memory: the most memory of a
run with so many records, which is an hour of them at that number over 3,600 a second. city: a run of so many records of
a city's export from 8 feeds at each batch, by the clock and in processor time, on so many processors (`taskset`), and
beside it what reading and two insertions of each record take on one thread, which is measured on `save`.

Records are those of a town of 8 by 8 places in 744 hours, or with `--records city` those of 64 by 64 places at depth 16
with two categories, whose insertion takes longer."""
import argparse
import json
import os
import random
import signal
import subprocess
import sys
import tempfile
import time

sys.path.insert(0, os.path.join(os.path.dirname(os.path.realpath(__file__)), "../judge"))
from pipes import Run, Stuck, plan_of, write_all

TOWN = (3, [("kind", ["theft", "battery", "probe"])], 10, 0, b"time,x,y,kind\n")
CITY = (
    16,
    [("type", ["THEFT", "MOTOR VEHICLE THEFT", "BATTERY", "probe"]), ("district", ["001", "002"])],
    3600,
    1357016400,
    b"time,x,y,type,district\n",
)


def plan_over(records, feeds, asks, batch, finals=()):
    depth, categories, width, start, _ = CITY if records == "city" else TOWN
    return plan_of(feeds, asks, batch, depth, categories, width, start, finals)


def header_of(records):
    return (CITY if records == "city" else TOWN)[4]


def probe_of(records):
    """A record that one category's value tells from all others, and the line that counts those."""
    if records == "city":
        return b"1357016400,16800,24300,probe,001\n", b"count with type=probe\n"
    return b"0,0,0,probe\n", b"count with kind=probe\n"


def lines_of(records, count, seed):
    """So many lines of records."""
    rng = random.Random(seed)
    if records == "city":
        kinds = CITY[1][0][1]
        return [
            f"{1357016400 + rng.randrange(2678400)},{16800 + rng.randrange(64)},{24300 + rng.randrange(64)},"
            f"{kinds[rng.randrange(3)]},00{1 + rng.randrange(2)}\n".encode()
            for _ in range(count)
        ]
    return [
        f"{rng.randrange(7440)},{rng.randrange(8)},{rng.randrange(8)},{('theft', 'battery')[rng.randrange(2)]}\n"
        .encode()
        for _ in range(count)
    ]


def close_all(fds):
    for fd in fds:
        os.close(fd)


def fork_off(fds, work, *words):
    """A process that holds these descriptors alone, and ends with the work."""
    child = os.fork()
    if child:
        return child
    try:
        for fd in range(3, 256):
            if fd not in fds:
                try:
                    os.close(fd)
                except OSError:
                    pass
        work(*words)
    finally:
        os._exit(0)


# idle


def idle(program, seconds):
    for feeds, asks in ((1, 1), (8, 8)):
        with Run(program, plan_over("town", feeds, asks, 1), seconds + 60) as run:
            fds, ask_fds, replies = run.open_all(header_of("town"))
            write_all(ask_fds[0], b"count\n")
            assert replies[0].next() == b'{"rows":[[0]],"seen":0}'
            time.sleep(0.5)
            before = run.processors()
            time.sleep(seconds)
            share = (run.processors() - before) / seconds
            close_all(fds + ask_fds)
            status, *_ = run.wait()
            assert status == 0, status
            print(
                (
                    f"{program}: {feeds} feeds and {asks} asks, silent for {seconds:g} s: {100 * share:.2f} % of a"
                    " processor"
                ),
                flush=True,
            )


# latency


def arrive(fd, records, rate, done, prober):
    """Writes records at that rate, those that are due each millisecond, until the file `done` is there. It leaves a
    prober its processor."""
    if prober:
        os.sched_setaffinity(0, apart()[0])
    lines, sent, begun = lines_of(records, 20_000, 7), 0, time.monotonic()
    while not os.path.exists(done):
        due = min(int((time.monotonic() - begun) * rate) - sent, 2_000)
        at = sent % (len(lines) - 2_000)
        write_all(fd, b"".join(lines[at : at + due]))
        sent += due
        time.sleep(0.001 if due < 2_000 else 0)


def ask_on(fd, replies, line, done):
    """Asks one line after the other, and counts the replies."""
    while not os.path.exists(done):
        write_all(fd, line)
        replies.next()


def counted(reply):
    """The one number in the reply's rows."""
    return int(reply[10 : reply.index(b"]")])


def probes(fd, ask, replies, record, line, seconds, pause):
    """The seconds from each record written to the reply that counts it. It asks again until one does."""
    times, end = [], time.perf_counter() + seconds
    now = 0.0
    while now < end:
        begun = time.perf_counter()
        os.write(fd, record)
        while True:
            os.write(ask, line)
            reply = os.read(replies.fd, 4096)
            now = time.perf_counter()
            if counted(reply) > len(times):
                times.append(now - begun)
                break
            if now > end:
                return times
        time.sleep(random.random() * pause / 1000)
    return times


def apart():
    """The processors of the program, and that of a prober that never sleeps."""
    *most, last = sorted(os.sched_getaffinity(0))
    return most, last


def spun_probes(prober, fds, record, line, seconds, pause):
    """The same by the prober, on its processor."""
    words = ["taskset", "-c", str(apart()[1]), prober, *map(str, fds), record, line, str(seconds), str(pause)]
    out = subprocess.run(words, pass_fds=fds, check=True, stdout=subprocess.PIPE).stdout
    return [int(word) / 1e9 for word in out.split()]


def quantile(times, part):
    return sorted(times)[min(len(times) - 1, int(part * len(times)))] * 1e6


def latency(program, records, batch, rate, asks, seconds, prober, pause):
    words = ["taskset", "-c", ",".join(map(str, apart()[0]))] if prober else []
    run = Run(program, plan_over(records, 2, asks, batch), 8 * seconds + 60, words=words)
    done, children = run.path("done"), []
    try:
        fds, ask_fds, replies = run.open_all(header_of(records))
        children.append(fork_off([fds[0]], arrive, fds[0], records, rate, done, prober))
        for a in range(1, asks):
            children.append(
                fork_off([ask_fds[a], replies[a].fd], ask_on, ask_fds[a], replies[a], probe_of(records)[1], done)
            )
        os.close(fds[0])
        close_all(ask_fds[1:])
        record, line = probe_of(records)
        write_all(ask_fds[0], line)
        assert counted(replies[0].next()) == 0
        os.set_blocking(replies[0].fd, True)  # the program has opened it, and a reply is one put
        begun = time.monotonic()
        if prober:
            times = spun_probes(prober, [fds[1], ask_fds[0], replies[0].fd], record, line, seconds, pause)
        else:
            times = probes(fds[1], ask_fds[0], replies[0], record, line, seconds, pause)
        took, busy = time.monotonic() - begun, run.processors()
        write_all(ask_fds[0], b"told\n")
        taken = (int(os.read(replies[0].fd, 4096)[8:-2]) - len(times)) / took
        open(done, "w").close()
        os.close(fds[1])
        os.close(ask_fds[0])
        for child in children:
            os.waitpid(child, 0)
        status, report, *_ = run.wait()
        assert status == 0, (status, report)
        answered = sum(int(line.split()[2]) for line in report.splitlines() if line.startswith("script "))
        timed = (
            f"median {quantile(times, 0.5):.0f} us, 99th percentile {quantile(times, 0.99):.0f} us, {len(times)} timed"
            if times
            else "none timed"
        )
        least = "" if rate * took < 20 or taken > 0.95 * rate else f", of which only {taken:.0f} a second are taken"
        paused = f", up to {pause:g} ms apart" if pause != 2 else ""
        print(
            (
                f"{program}: batch {batch}, {rate} records a second{least}, {asks} asks{paused}: {timed};"
                f" {answered / took:.0f} replies a second, {100 * busy / took:.0f} % of a processor"
            ),
            flush=True,
        )
    finally:
        if run.child.poll() is None:
            for child in children:
                try:
                    os.kill(child, signal.SIGKILL)
                except OSError:
                    pass
        run.close()


# memory


def memory(program, records, count):
    with Run(program, plan_over(records, 1, 1, 64), 3600) as run:
        fds, ask_fds, replies = run.open_all(header_of(records))
        block = b"".join(lines_of(records, 50_000, 7))
        lines = block.splitlines(keepends=True)
        begun = time.monotonic()
        for _ in range(count // len(lines)):
            write_all(fds[0], block)
        write_all(fds[0], b"".join(lines[: count % len(lines)]))
        close_all(fds)
        while True:
            write_all(ask_fds[0], b"count\n")
            if counted(replies[0].next()) == count:
                break
            time.sleep(0.01)
        took = time.monotonic() - begun
        close_all(ask_fds)
        status, report, _, busy, most = run.wait()
        assert status == 0 and report.endswith(f"journal: {count} entries\n"), (status, report)
        print(
            (
                f"{program}: {count} records: {most:.0f} MB at most; {took:.1f} s, {count / took:.0f} records a second,"
                f" {busy:.1f} s of processors"
            ),
            flush=True,
        )


# city


def write_city(folder, count, known=True):
    """Eight feeds of a month's records, each in the order of its times."""
    for feed in range(8):
        rng = random.Random(feed)
        kinds = CITY[1][0][1] if known else ["none"] * 3
        with open(os.path.join(folder, f"feed{feed}.csv"), "w") as it:
            it.write(header_of("city").decode())
            for i in range(count // 8):
                it.write(
                    f"{1357016400 + i * 2678400 * 8 // count},{16800 + rng.randrange(64)},{24300 + rng.randrange(64)},"
                    f"{kinds[rng.randrange(3)]},00{1 + rng.randrange(2)}\n"
                )


def last_of(path):
    """A feed's bytes, in whose place stands a pipe from now on."""
    with open(path, "rb") as it:
        text = it.read()
    os.remove(path)
    os.mkfifo(path)
    return text


def is_asleep(pid):
    return open(f"/proc/{pid}/stat").read().rsplit(")", 1)[1].split()[0] == "S"


def read_alone(program, folder):
    """The processor seconds in which `save` reads all feeds and inserts each record once: those it took when it waits
    for more of the last feed, which is a pipe. It is ended before it makes an image."""
    text = last_of(os.path.join(folder, "feed7.csv"))
    child = subprocess.Popen([program, "save", "plan.json", "none.img"], cwd=folder, stdout=subprocess.DEVNULL)
    try:
        with open(os.path.join(folder, "feed7.csv"), "wb", buffering=0) as it:
            write_all(it.fileno(), text)
            clock, before = (~child.pid << 3) | 2, -1.0
            while not (is_asleep(child.pid) and time.clock_gettime(clock) == before):
                before = time.clock_gettime(clock)
                time.sleep(0.05)
            return before
    finally:
        child.kill()
        child.wait()


def parts(program, count, batch):
    """The processor seconds of reading alone, and of reading and one insertion."""
    took = []
    for known in (False, True):
        with tempfile.TemporaryDirectory() as folder:
            write_city(folder, count, known)
            with open(os.path.join(folder, "plan.json"), "w") as it:
                json.dump(plan_over("city", 8, 0, batch), it)
            took.append(read_alone(program, folder))
    return took


def city_run(program, source, processors, count, batch, piped):
    """By the clock, and in processor seconds, a run over the feeds of a folder: the files themselves, or pipes that are
    written from them."""
    names = [f"feed{feed}.csv" for feed in range(8)]
    run, words = None, ["taskset", "-c", f"0-{processors - 1}"]
    try:
        files = [(name, open(os.path.join(source, name)).read()) for name in names]
        run = Run(
            program,
            plan_over("city", 8, 0, batch),
            3600,
            finals=() if piped else files,
            words=words,
            piped=names if piped else [],
        )
        children = []
        if piped:
            header = header_of("city")
            for name, text in files:
                fd = run.open_to_write(name)
                write_all(fd, header)
                children.append((fd, text[len(header) :].encode()))
            writers = [fork_off([fd], write_all, fd, text) for fd, text in children]
            close_all([fd for fd, _ in children])
            for writer in writers:
                os.waitpid(writer, 0)
        status, report, seconds, busy, most = run.wait()
        assert status == 0 and report.endswith(f"journal: {count} entries\n"), (status, report)
        return seconds, busy, most
    finally:
        if run is not None:
            run.close()


def city(programs, count, batch, rounds, processors, piped):
    with tempfile.TemporaryDirectory() as source:
        write_city(source, count)
        for _ in range(rounds):
            for program in programs:
                reading, inserting = parts(program, count, batch)
                alone = 2 * inserting - reading
                print(
                    (
                        f"{program}: batch {batch}: reading {reading:.2f} s, with one insertion {inserting:.2f}, so"
                        f" with two {alone:.2f}"
                    ),
                    flush=True,
                )
                for number in processors:
                    seconds, busy, most = city_run(program, source, number, count, batch, piped)
                    print(
                        (
                            f"{program}: {count} records from 8 {'pipes' if piped else 'files'} on {number} processors:"
                            f" {seconds:.2f} s, {busy:.2f} of processors, {busy / alone:.2f} times reading and two"
                            f" insertions, {most:.0f} MB"
                        ),
                        flush=True,
                    )


def numbers(text):
    return [int(word) for word in text.split(",")]


def main():
    words = argparse.ArgumentParser(description=__doc__, formatter_class=argparse.RawDescriptionHelpFormatter)
    words.add_argument("what", choices=["idle", "latency", "memory", "city"])
    words.add_argument("programs", nargs="+", metavar="PROGRAM")
    words.add_argument("--seconds", type=float, default=10)
    words.add_argument("--batches", type=numbers)
    words.add_argument("--rates", type=numbers, default=[1, 10_000, 100_000])
    words.add_argument("--asks", type=numbers, default=[1, 8])
    words.add_argument("--counts", type=numbers)
    words.add_argument("--records", choices=["town", "city"], default="town")
    words.add_argument("--rounds", type=int, default=3)
    words.add_argument("--processors", type=numbers, default=[4, 2])
    words.add_argument("--pipes", action="store_true")
    words.add_argument("--prober")
    words.add_argument("--pauses", type=lambda text: [float(word) for word in text.split(",")], default=[2.0])
    given = words.parse_args()
    signal.signal(signal.SIGPIPE, signal.SIG_IGN)
    programs = [os.path.abspath(program) for program in given.programs]
    prober = given.prober and os.path.abspath(given.prober)
    if given.what == "city":
        for batch in given.batches or [64]:
            city(programs, (given.counts or [1_000_000])[0], batch, given.rounds, given.processors, given.pipes)
    elif given.what == "idle":
        for program in programs:
            idle(program, given.seconds)
    elif given.what == "memory":
        for count in given.counts or [3_600, 100_000, 1_000_000]:
            for program in programs:
                memory(program, given.records, count)
    else:
        for batch in given.batches or [1, 64]:
            for rate in given.rates:
                for asks in given.asks:
                    for pause in given.pauses:
                        for program in programs:
                            latency(program, given.records, batch, rate, asks, given.seconds, prober, pause)


if __name__ == "__main__":
    sys.exit(main())
