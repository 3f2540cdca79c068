#!/usr/bin/env python3
"""Taps between `add_live` and its shares, and plain counts over the journals of shares, joined.

    taps = [Tap(folder, to, replies) ..]         # each with the two ends of a share's ask
    joined = Joined(plan, [journal ..])          # plan: that of auditor/plans.py; the lines of each share's journal
    joined.reply(line, [40, 2])                  # what is to be replied over the first 40 of the one and 2 of the other

The counts are those of `audit` (auditor/), which shares no code with the programs that are judged.

As a program, live_taps.py PLAN QUESTIONS ASK REPLIES .. stands in the place of add_live: it runs $TAPPED_LIVE with
a tap at each share, and keeps what each share replied in a new folder in $TAPPED_LOG."""
import json
import os
import re
import subprocess
import sys
import threading

sys.dont_write_bytecode = True
TOP = os.path.join(os.path.dirname(os.path.realpath(__file__)), "..")
sys.path.insert(0, TOP)
from auditor.counts import Columns
from auditor.queries import Fault
from auditor.queries import Reader
from auditor.queries import words_of

NUMBER = re.compile(rb'"(?:seen|told)":([0-9]+)')
NOT_ADDITIVE = '{"fault":"NotAdditive"}'


def asks_nothing(line):
    """Whether a line of a script has no reply."""
    return not line.strip(b" ") or line.startswith(b"#")


def prefix_of(reply):
    """How many records a share's reply is over, or none where it does not say."""
    found = NUMBER.search(reply)
    return int(found[1]) if found else None


def printed(value):
    return json.dumps(value, separators=(",", ":"), sort_keys=True, ensure_ascii=False)


class Joined:
    """The records of several journals as the columns of one list, of which the first ones of each are counted."""

    def __init__(self, plan, journals):
        self.plan, self.columns, self.starts = plan, Columns(plan), [0]
        for journal in journals:
            for line in journal:
                _, _, x, y, *values = map(int, line.split())
                weight = values.pop() if plan.weight else 1
                self.columns.add(x, y, values.pop(), weight, values)
            self.starts.append(len(self.columns))
        self.columns.finish()

    def lengths(self):
        return [end - start for start, end in zip(self.starts, self.starts[1:])]

    def rows(self, query, prefixes):
        """The rows over the first records of each journal: all are looked at, and the others are left out."""
        kept = self.columns.kept(query, len(self.columns))
        parts = [
            kept[start : start + number] + bytes(end - start - number)
            for start, end, number in zip(self.starts, self.starts[1:], prefixes)
        ]
        return getattr(self.columns, query.verb)(query, b"".join(parts))

    def reply(self, line, prefixes):
        """What is to be replied to a line."""
        try:
            query = Reader(words_of(line), self.plan).query()
        except Fault as fault:
            return printed({"at": fault.word, "fault": fault.name})
        if query.verb in ("best", "stat"):
            return NOT_ADDITIVE
        if query.verb == "told":
            return printed({"told": sum(prefixes)})
        return printed({"rows": self.rows(query, prefixes), "seen": sum(prefixes)})


class Tap:
    """Hands the questions of add_live on to a share, and the share's replies back, and keeps both. `question` and
    `reply` may be replaced: they get the number of the line, from 0, and the line, and give the pieces in which it
    goes on, with a pause in seconds before each; where one is None, the tap breaks off."""

    def __init__(self, folder, to, replies, question=None, reply=None):
        self.ask, self.replies = os.path.join(folder, "ask"), os.path.join(folder, "replies")
        for path in (self.ask, self.replies):
            os.mkfifo(path)
        self.to, self.source = to, replies
        self.question, self.reply = question or self.whole, reply or self.whole
        self.asked, self.replied, self.pause = [], [], threading.Event()
        self.threads = [threading.Thread(target=work, daemon=True) for work in (self.hand_on, self.hand_back)]
        for thread in self.threads:
            thread.start()

    def whole(self, number, line):
        return [(0, line)]

    def pass_on(self, pieces, fd):
        """Whether the pieces of a line went on whole."""
        for pause, piece in pieces:
            if pause:
                self.pause.wait(pause)
            if piece is None:
                return False
            while piece:
                piece = piece[os.write(fd, piece) :]
        return True

    def hand_on(self):
        try:
            with open(self.ask, "rb") as source:
                for line in source:
                    self.asked.append(line)
                    if not self.pass_on(self.question(len(self.asked) - 1, line), self.to):
                        break
        except OSError:
            pass
        finally:
            os.close(self.to)

    def hand_back(self):
        out = os.open(self.replies, os.O_WRONLY)
        try:
            for line in self.source:
                self.replied.append(line)
                if not self.pass_on(self.reply(len(self.replied) - 1, line), out):
                    break
        except OSError:
            pass
        finally:
            os.close(out)

    def join(self, seconds):
        """Whether both threads have ended."""
        for thread in self.threads:
            thread.join(seconds)
        return not any(thread.is_alive() for thread in self.threads)


def keep(file, tap):
    """Keeps each reply as it comes."""

    def reply(number, line):
        file.write(line)
        file.flush()
        return [(0, line)]

    tap.reply = reply


def main(words):
    plan, questions, *shares = words
    sessions = os.environ["TAPPED_LOG"]
    log = os.path.join(sessions, f"{len(os.listdir(sessions)):05}")
    os.mkdir(log)
    taps = []
    for number, (ask, replies) in enumerate(zip(shares[::2], shares[1::2])):
        folder = os.path.join(log, str(number))
        os.mkdir(folder)
        with open(os.path.join(folder, "name"), "w", encoding="utf-8") as it:
            it.write(ask)
        kept = open(os.path.join(folder, "kept"), "wb")
        tap = Tap(folder, os.open(ask, os.O_WRONLY), open(replies, "rb"))
        keep(kept, tap)
        taps.append(tap)
    names = [word for tap in taps for word in (tap.ask, tap.replies)]
    status = subprocess.run([os.environ["TAPPED_LIVE"], plan, questions, *names]).returncode
    with open(os.path.join(log, "ended"), "w", encoding="utf-8") as it:
        it.write(str(status))
    # The shares' pipes stay open for others: the threads that read them are left.
    os._exit(status)


if __name__ == "__main__":
    main(sys.argv[1:])
