#!/usr/bin/env python3
"""Judges `add_live`: one client asks runs that still load, and each sum is counted anew over their journals, joined.

python3 judge/judge_live_sums.py NANOCUBE ADD_LIVE [CASES [SEED [FIRST]]]

The CASES are those from FIRST (0) up to that number. Each draws a plan and 1 to 6 runs of NANOCUBE over pipes,
whose feeds come in pieces that end anywhere in a line, with pauses, some slowly, and some end in mid-line. Taps
stand between ADD_LIVE and the runs (live_taps.py): they hand questions and replies on late or in pieces, tell over
how many records of its own each run has replied, and see that each question comes to each run once. In some cases
no run's reply goes on before all runs have the question. The client waits for each reply, or writes many lines at
once; it ends by `quit` or by closing. Each line that comes back has to be the plain count over so many first
records of each journal, and their number never falls.

In a third of the cases one tap breaks off before a reply or in the middle of its line, or gives another line, or a
number of records that is less than before, or stops taking questions. Then ADD_LIVE has to end with status 9 and
the line that names this run, the reply and why, after the right replies to the lines before it."""
import collections
import json
import os
import random
import select
import signal
import subprocess
import sys
import tempfile
import threading
import time

sys.dont_write_bytecode = True
HERE = os.path.dirname(os.path.realpath(__file__))
for folder in ("../tools", ".."):
    sys.path.insert(0, os.path.join(HERE, folder))
from auditor.plans import Plan
from live_taps import Joined
from live_taps import Tap
from live_taps import asks_nothing
from live_taps import prefix_of
from pipes import Run
from pipes import Stuck
from pipes import plan_of
from pipes import write_all
from usage import words_of

# How long a case, and the wait of a tap for the other ones, may take, in seconds.
LIMIT, WAIT = 60, 20
VALUES = {"kind": ["a", "b", "c c"], "day": ["mo", "tu|we", "ü"]}
BINS, WIDTH = 12, 10


def within(rng, depth, names):
    """Filters of a line."""
    z = rng.randrange(depth + 1)
    parts = [f"in {z}/{rng.randrange(1 << z)}/{rng.randrange(1 << z)}"] if rng.random() < 0.3 else []
    if rng.random() < 0.3:
        name = rng.choice(names)
        parts.append(f"with {name}=" + "|".join(f'"{value}"' for value in rng.sample(VALUES[name], 2)))
    return "".join(f" {part}" for part in parts)


def line_of(rng, depth, names):
    """A line that asks, one at fault, or a note."""
    filters, size = within(rng, depth, names), 1 << depth
    time_of = f" time {rng.randrange(4)} {rng.randrange(4, 9)}" if rng.random() < 0.3 else ""
    kind = rng.choice("count count hist map map series window cross best stat told told fault note".split())
    if kind == "window":
        x, y = rng.randrange(size), rng.randrange(size)
        return f"window {x} {y} {rng.randrange(x, size + 1)} {rng.randrange(y, size + 1)}{time_of}"
    if kind == "fault":
        wrong = [
            "map 30",
            "hist absent",
            "count in 9/0/0",
            "nothing",
            "stat more",
            "count" + "x" * 5000,
            "count\r",
            "map 1 time 3 2",
        ]
        return rng.choice(wrong)
    return {
        "count": f"count{filters}{time_of}",
        "hist": f"hist {rng.choice(names)}{filters}",
        "told": "told",
        "stat": "stat",
        "map": f"map {rng.randrange(depth + 1)}{filters}{time_of}",
        "note": rng.choice(["", "   ", "# a note"]),
        "series": f"series {rng.randrange(3)} {rng.randrange(1, 4)} {rng.randrange(1, 6)}{filters}",
        "cross": f"cross {names[0]} {names[-1]}{filters}",
        "best": f"best {rng.randrange(depth + 1)} 3",
    }[kind]


class Feed(threading.Thread):
    """Writes a feed in pieces, with a pause before each."""

    def __init__(self, fd, text, rng):
        super().__init__(daemon=True)
        self.fd, self.text, self.rng = fd, text, rng
        self.most = rng.choice([0, 0.002, 0.002, 0.02])

    def run(self):
        text = self.text
        try:
            while text:
                size = self.rng.randrange(1, len(text) + 1 if self.rng.random() < 0.1 else min(len(text), 200) + 1)
                time.sleep(self.rng.random() * self.most)
                write_all(self.fd, text[:size])
                text = text[size:]
        finally:
            os.close(self.fd)


class Fault:
    """What one tap does wrong at one reply: the pieces that go on in its place, and what is to be said of it."""

    def __init__(self, rng, number):
        self.rng, self.number, self.whys, self.seen, self.told = rng, number, None, 0, 0
        self.kind = rng.choice(["missing", "half", "no reply", "other", "behind", "deaf"])

    def note(self, line):
        """A run may tell fewer records than it has seen, but none fewer than it has told."""
        self.seen = max(self.seen, prefix_of(line) or 0)
        self.told = max(self.told, prefix_of(line) or 0) if b"told" in line else self.told

    def pieces(self, line):
        reached = self.told if b"told" in line else self.seen
        if self.kind == "behind" and prefix_of(line) is not None and reached and b"nodes" not in line:
            value = json.loads(line)
            value["told" if "told" in value else "seen"] = self.rng.randrange(reached)
            return self.say("Behind", json.dumps(value, separators=(",", ":"), ensure_ascii=False).encode() + b"\n")
        if self.kind == "half":
            return self.say("TooFew", line[: self.rng.randrange(1, len(line))])
        if self.kind == "no reply":
            others = [b"{}\n", b"\n", b'{"told": 1}\n', b" " + line, line[:-1] + b"\r\n", b"x" * 100 + b"\n"]
            return self.say("NotReply", self.rng.choice(others))
        if self.kind == "other":
            others = [b'{"fault":"NoMemory"}\n', b'{"at":77,"fault":"BadTile"}\n']
            others += [b'{"told":18446744073709551615}\n'] if b"told" not in line else []
            return self.say("OtherRows", self.rng.choice(others))
        return self.say("TooFew", None)

    def say(self, why, line):
        self.whys = [why]
        return [(0, line), (0, None)]


class Share:
    """A run over pipes with a feed and an ask, and the tap before it."""

    def __init__(self, nanocube, plan, header, text, rng, folder, others):
        self.rng, self.others, self.problem = rng, others, None
        self.most, self.is_waiting, self.fault = rng.choice([0, 0.001, 0.001, 0.01]), False, None
        self.run = Run(nanocube, plan, LIMIT)
        (feed,), (ask,), (self.replies,) = self.run.open_all(header)
        self.feed = Feed(feed, text, random.Random(rng.random()))
        os.mkdir(folder)
        self.tap = Tap(folder, ask, self.lines(), self.question, self.reply)
        self.feed.start()

    def lines(self):
        while (line := self.replies.next()) is not None:
            yield line + b"\n"

    def pieces(self, line):
        """A line, at once or in two pieces."""
        if self.rng.random() < 0.8:
            return [(self.rng.random() * self.most, line)]
        at = self.rng.randrange(len(line))
        return [(self.rng.random() * self.most, part) for part in (line[:at], line[at:])]

    def question(self, number, line):
        fault = self.fault
        if fault and fault.kind == "deaf" and number == fault.number:
            # The question after this one cannot be put, or is not answered.
            fault.number, fault.whys = number + 1, ["NotAsked", "TooFew"]
            return [*self.pieces(line), (0, None)]
        return self.pieces(line)

    def waits_for(self, number):
        """Whether a question has not come to all runs. It comes to no more of them where one takes none."""
        is_deaf = any(share.fault and share.fault.whys and share.fault.number <= number for share in self.others)
        return not is_deaf and any(len(share.tap.asked) <= number for share in self.others)

    def reply(self, number, line):
        if self.is_waiting:
            end = time.monotonic() + WAIT
            while self.waits_for(number):
                if time.monotonic() > end:
                    self.problem = f"question {number + 1} is not put to all runs before the first reply to it is read"
                    return [(0, None)]
                time.sleep(0.0005)
        if self.fault and self.fault.kind != "deaf":
            if number == self.fault.number:
                return self.fault.pieces(line)
            self.fault.note(line)
        return self.pieces(line)

    def end(self):
        """The lines of the run's journal."""
        assert self.tap.join(LIMIT), "a tap has not ended"
        self.feed.join(LIMIT)
        status, report, *_ = self.run.wait()
        assert status == 0, (status, report)
        with open(self.run.path("journal.txt"), encoding="utf-8") as it:
            return list(it)


class Client:
    """add_live as a child, the questions that go into it and the lines that come back."""

    def __init__(self, words, top, rng):
        self.rng, self.said, self.held = rng, [], b""
        self.child = subprocess.Popen(words, cwd=top, stdin=-1, stdout=-1, bufsize=0)
        self.end = time.monotonic() + LIMIT

    def read(self):
        """What comes next, or nothing at the end."""
        if not select.select([self.child.stdout], [], [], max(0, self.end - time.monotonic()))[0]:
            raise Stuck("add_live replies nothing")
        part = self.child.stdout.read(65536)
        *lines, self.held = (self.held + part).split(b"\n")
        self.said += lines
        return part

    def converse(self, lines, how_ends):
        """Puts the lines, some after the reply to the one before and some together."""
        wanted = 0
        try:
            while lines:
                number = self.rng.choice([1, 1, 1, len(lines)])
                part, lines = lines[:number], lines[number:]
                self.child.stdin.write(b"".join(line + b"\n" for line in part))
                wanted += sum(not asks_nothing(line) for line in part)
                while len(self.said) < wanted and self.read():
                    pass
            self.child.stdin.write(how_ends)
        except BrokenPipeError:
            pass
        self.child.stdin.close()
        while self.read():
            pass
        assert not self.held, f"the last line has no line feed: {self.held}"
        return self.child.wait(max(1, self.end - time.monotonic()))

    def close(self):
        if self.child.poll() is None:
            self.child.kill()
        self.child.wait()
        for pipe in (self.child.stdin, self.child.stdout):
            pipe.close()


def drawn_plan(rng):
    depth, names = rng.randrange(1, 6), rng.sample(sorted(VALUES), 2)
    plan = plan_of(1, 1, rng.choice([1, 1, 7, 64]), depth, [(name, VALUES[name]) for name in names], WIDTH)
    return {**plan, "version": 2, "weight": "n"} if rng.random() < 0.4 else plan


def feed_text(rng, plan, header):
    """A feed's rows. Some are blank or refused, and it may end in mid-line."""
    lines = []
    for _ in range(rng.choice([0, 1, 20, 100, 300])):
        side = 1 << plan["depth"]
        fields = {"x": rng.randrange(side + (rng.random() < 0.05)), "y": rng.randrange(side)}
        fields |= {"time": rng.randrange(BINS * WIDTH), "n": rng.randrange(1, 1000)}
        fields |= {one["name"]: rng.choice(one["values"]) for one in plan["categories"]}
        lines.append(",".join(str(fields[name]) for name in header) if rng.random() > 0.03 else "")
    text = "".join(line + "\n" for line in lines).encode()
    return text[: -rng.randrange(1, 9)] if text and rng.random() < 0.3 else text


def stripped(line):
    """A question as it is read; none where it is too long."""
    line = line.removesuffix(b"\r")
    return line if len(line) <= 4096 else None


class Judge:
    """What is counted over all cases."""

    def __init__(self):
        self.replies, self.live, self.whys = 0, 0, collections.Counter()

    def case(self, nanocube, add_live, rng, top):
        plan, shares = drawn_plan(rng), []
        header = [
            "time",
            "x",
            "y",
            *(one["name"] for one in plan["categories"]),
            *([plan["weight"]] if "weight" in plan else []),
        ]
        rng.shuffle(header)
        first = ",".join(header).encode() + b"\n"
        client = None
        try:
            for number in range(rng.randrange(1, 7)):
                text = feed_text(rng, plan, header)
                shares.append(
                    Share(nanocube, plan, first, text, random.Random(rng.random()), f"{top}/{number}", shares)
                )
            names = [one["name"] for one in plan["categories"]]
            lines = [line_of(rng, plan["depth"], names).encode() for _ in range(rng.randrange(1, 25))]
            questions = [line for line in lines if not asks_nothing(line)]
            broken = self.prepare(rng, shares, len(questions))
            with open(f"{top}/plan.json", "w", encoding="utf-8") as it:
                json.dump(plan, it)
            pipes = [f"{number}/{end}" for number in range(len(shares)) for end in ("ask", "replies")]
            client = Client([add_live, "plan.json", "/dev/stdin", *pipes], top, random.Random(rng.random()))
            ends = rng.choice([b"", b"quit\n", b"quit\ncount\n", b" quit\n# no more\n", b"# no line feed"])
            status = client.converse(lines, ends)
            journals = [share.end() for share in shares]
            problems = [share.problem for share in shares if share.problem]
            assert not problems, problems[0]
            self.judge(Joined(Plan(plan), journals), shares, questions, client.said, status, broken)
        finally:
            if client:
                client.close()
            for share in shares:
                share.run.close()
                share.replies.close()

    def prepare(self, rng, shares, questions):
        """Has the taps wait for each other, or one of them go wrong; the number of that one, or none."""
        if rng.random() < 0.3:
            for share in shares:
                share.is_waiting = True
        if rng.random() < 0.33 and questions:
            number = rng.randrange(len(shares))
            shares[number].fault = Fault(random.Random(rng.random()), rng.randrange(questions))
            return number
        return None

    def judge(self, joined, shares, questions, said, status, broken):
        """Each line that came back, and how it ended."""
        fault = shares[broken].fault if broken is not None else None
        right = len(questions)
        if fault and fault.whys and fault.number < right:
            right = fault.number
            ways = [f"share {broken}/replies: reply {right + 1}: {why}" for why in fault.whys]
            assert status == 9 and len(said) == right + 1 and said[-1].decode() in ways, (
                status,
                said[-1:],
                right,
                ways,
            )
            self.whys[said[-1].split()[-1].decode()] += 1
        else:
            assert status == 0 and len(said) == right, (status, said[-1:], len(said), right)
        before = [0] * len(shares)
        for number, (line, sum_) in enumerate(zip(questions[:right], said)):
            prefixes = [prefix_of(share.tap.replied[number]) for share in shares]
            wanted = joined.reply(stripped(line), prefixes)
            assert sum_.decode() == wanted, (line, prefixes, sum_, wanted)
            if None not in prefixes and b"told" not in line:
                assert all(map(int.__le__, before, prefixes)), (line, before, prefixes)
                assert all(map(int.__le__, prefixes, joined.lengths())), (line, prefixes)
                before = prefixes
                self.live += prefixes != joined.lengths()
            self.replies += 1
        self.judge_asked(shares, questions, right, fault)

    def judge_asked(self, shares, questions, right, fault):
        """Each question comes to each run once, in its order, and nothing else does."""
        for share in shares:
            asked = [line.removesuffix(b"\n") for line in share.tap.asked]
            assert right <= len(asked) <= right + (fault is not None), (len(asked), right)
            for line, one in zip(questions, asked):
                assert stripped(one) == stripped(line), (line, one)


def main():
    words = words_of(__doc__, 2)
    nanocube, add_live = map(os.path.abspath, words[:2])
    cases, seed, first = (int(word) for word in [*words[2:], *"1000 1 0".split()[len(words) - 2 :]])
    judge = Judge()
    for number in range(first, cases):
        with tempfile.TemporaryDirectory(prefix="live-sums-") as top:
            try:
                judge.case(nanocube, add_live, random.Random(f"{seed} {number}"), top)
            except (AssertionError, Stuck, OSError, subprocess.TimeoutExpired) as wrong:
                print(f"wrong: case {number} of seed {seed}: {wrong}")
                return 1
    ended = ", ".join(f"{count} {why}" for why, count in sorted(judge.whys.items()))
    print(
        f"{cases - first} cases, {judge.replies} replies: each is the plain count over the journals joined, "
        f"{judge.live} of them over a "
        f"part; {sum(judge.whys.values())} runs that went wrong are named, with the reply and why: {ended}"
    )
    return 0


if __name__ == "__main__":
    signal.signal(signal.SIGPIPE, signal.SIG_IGN)
    signal.signal(signal.SIGTERM, lambda *_: sys.exit(143))
    sys.exit(main())
