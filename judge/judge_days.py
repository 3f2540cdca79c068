#!/usr/bin/env python3
"""Judges examples/days: days that change under load, and a client that asks across the changes.

python3 judge/judge_days.py NANOCUBE ADD_LIVE [CHANGES [RECORDS [SECONDS]]]

Two sources write RECORDS (6,000) in all, over so many days of SECONDS (2) that CHANGES (3) of the day fall among
them. A client asks meanwhile. Then the last day is closed too, and all is ended. By the kept rows each record is in
one day, once, and in its source's order. Each day's journal has just its rows. Each reply is the plain count over
the journals joined, as far as the shares of its session had come, which taps beside add_live tell; a past day
counts whole. `seen` never falls. It ends with 1 at the first thing that is wrong. The counts are those of `audit`,
which shares no code with the programs that are judged (live_taps.py)."""
import json
import os
import random
import signal
import subprocess
import sys
import tempfile
import time

sys.dont_write_bytecode = True
HERE = os.path.dirname(os.path.realpath(__file__))
for folder in ("../tools", "../client", ".."):
    sys.path.insert(0, os.path.join(HERE, folder))
from asks import Ask
from auditor.plans import read_plan
from live_taps import Joined
from live_taps import prefix_of
from usage import words_of

DEPTH, KINDS, SITES, WIDTH = 8, "abcd", ("north", "south"), 60
SOURCES, BLOCK, ALL_SEEN = 2, 4096, 300
HEADER = "time,x,y,kind,site,source,number\n"


def plan():
    return {
        "asks": ["one.txt"],
        "batch": 64,
        "categories": [{"name": "kind", "values": [*KINDS]}, {"name": "site", "values": [*SITES]}],
        "depth": DEPTH,
        "feeds": ["records.csv"],
        "finals": [],
        "journal": "journal.txt",
        "start": 0,
        "version": 1,
        "width": WIDTH,
    }


def row(rng, source, number):
    """A record of a source, at a place of few hundred, with what tells it from all others."""
    x, y = rng.randrange(16) * 7, rng.randrange(16) * 5
    return f"{number // 10},{x},{y},{rng.choice(KINDS)},{SITES[source]},{source},{number}\n"


def write_rows(path, source, count, rate):
    """Writes a source's rows at a rate, each whole, in writes that no other writer's part."""
    rng, begun, block = random.Random(source), time.monotonic(), b""
    fd = os.open(path, os.O_WRONLY)
    for number in range(count):
        line = row(rng, source, number).encode()
        early = number / rate - (time.monotonic() - begun) if number % 16 == 0 else 0
        if block and (early > 0 or len(block) + len(line) > BLOCK):
            os.write(fd, block)
            block = b""
        if early > 0:
            time.sleep(early)
        block += line
    os.write(fd, block)


def writer(*words):
    child = os.fork()
    if child == 0:
        try:
            write_rows(*words)
        finally:
            os._exit(0)
    return child


def question(rng):
    side = 1 << DEPTH
    place = rng.choice(["", f" in 2/{rng.randrange(2)}/{rng.randrange(2)}", f" with kind={rng.choice(KINDS)}|d"])
    rectangle = f"window 3 4 {rng.randrange(3, side)} {rng.randrange(4, side)}"
    return rng.choice(
        [
            f"count{place}",
            f"count{place} time {rng.randrange(20)} {rng.randrange(20, 2000)}",
            f"hist kind{place}",
            "cross site kind",
            f"map 4{place}",
            f"series 0 {rng.randrange(1, 200)} 40{place}",
            rectangle,
            "told",
            "best 2 3",
            "stat",
            "hist absent",
            "count in 9/0/0",
        ]
    )


def ask_while(folder, until, pause):
    """Questions and their replies, until something holds, and the longest wait."""
    rng, client, said, longest = random.Random(9), Ask(folder, 120, 60), [], 0.0
    while not until(said):
        line = question(rng)
        begun = time.monotonic()
        said.append((line, client.ask(line).decode()))
        longest = max(longest, time.monotonic() - begun)
        time.sleep(rng.random() * pause)
    client.close()
    return said, longest


def alive(children):
    """The children that have not ended."""
    return [child for child in children if os.waitid(os.P_PID, child, os.WEXITED | os.WNOHANG | os.WNOWAIT) is None]


def serve(nanocube, add_live, top, records, seconds, length):
    """The days under load: what was asked and replied, the longest wait, and what `days` said."""
    folder, log = f"{top}/days", f"{top}/sessions"
    os.mkdir(folder)
    os.mkdir(log)
    for name, text in (("plan.json", json.dumps(plan())), ("header.csv", HEADER)):
        with open(f"{folder}/{name}", "w", encoding="utf-8") as it:
            it.write(text)
    own = {"NANOCUBE": nanocube, "ADD_LIVE": f"{HERE}/live_taps.py", "TAPPED_LIVE": add_live, "TAPPED_LOG": log}
    with open(f"{top}/said.txt", "wb") as said:
        days = subprocess.Popen(
            [f"{HERE}/../examples/days/days", folder, str(length)], env={**os.environ, **own}, stderr=said
        )
    writers = []
    try:
        end = time.monotonic() + 60
        while not os.path.exists(f"{folder}/records.csv"):
            assert time.monotonic() < end and days.poll() is None, "days made no feed"
            time.sleep(0.01)
        rate = records / SOURCES / seconds
        writers = [writer(f"{folder}/records.csv", source, records // SOURCES, rate) for source in range(SOURCES)]
        said, longest = ask_while(folder, lambda _: not alive(writers), seconds / 750)
        days.send_signal(signal.SIGUSR1)
        end = time.monotonic() + ALL_SEEN

        def all_seen(said):
            assert time.monotonic() < end, f"not all records were seen: {said[-1]}"
            return bool(said) and prefix_of(said[-1][1].encode()) == records // SOURCES * SOURCES

        more, last = ask_while(folder, all_seen, 0.02)
        time.sleep(1)
        days.send_signal(signal.SIGTERM)
        status = days.wait(120)
    finally:
        for child in alive(writers):
            os.kill(child, signal.SIGKILL)
        for child in writers:
            os.waitpid(child, 0)
        if days.poll() is None:
            days.kill()
            days.wait()
    with open(f"{top}/said.txt", encoding="utf-8") as it:
        words = it.read()
    assert status == 0 and not words, f"days ended with status {status}: {words}"
    return said + more, max(longest, last)


def entry(number, line):
    """The journal's entry of a kept row."""
    at, x, y, kind, site = line.split(",")[:5]
    return f"1 {number} {x} {y} {KINDS.index(kind)} {SITES.index(site)} {int(at) // WIDTH}\n"


def journals(folder, records):
    """The journal of each day, each of just the day's kept rows, in which each record is once."""
    found, next_row = [], [0] * SOURCES
    drawn = [random.Random(source) for source in range(SOURCES)]
    for day in sorted(map(int, os.listdir(f"{folder}/days"))):
        with open(f"{folder}/days/{day}/records.csv", encoding="utf-8") as it:
            header, *rows = it
        assert header == HEADER, (day, header)
        for line in rows:
            source = int(line.split(",")[5])
            wanted = row(drawn[source], source, next_row[source])
            assert line == wanted, f"day {day} has {line!r} where {wanted!r} is the next record"
            next_row[source] += 1
        with open(f"{folder}/days/{day}/journal.txt", encoding="utf-8") as it:
            found.append(list(it))
        wanted = [entry(number, line) for number, line in enumerate(rows)]
        assert found[-1] == wanted, f"the journal of day {day} is not of its rows"
    assert next_row == [records // SOURCES] * SOURCES, f"{next_row} records of each source are kept"
    return found


def sessions(log, days):
    """For each reply, over how many records of each day it is: none where it does not say. A past day counts whole."""
    for name in sorted(os.listdir(log)):
        with open(f"{log}/{name}/ended", encoding="utf-8") as it:
            assert it.read() == "0", f"add_live of session {name}"
        replies = {}
        for share in filter(str.isdecimal, os.listdir(f"{log}/{name}")):
            with open(f"{log}/{name}/{share}/name", encoding="utf-8") as it:
                day, script = it.read().split("/")[1:]
            with open(f"{log}/{name}/{share}/kept", "rb") as it:
                replies[int(day), script] = [prefix_of(line) for line in it]
        assert (
            len({len(each) for each in replies.values()}) == 1
        ), f"shares of session {name} have replied unlike numbers of lines"
        for at in range(len(next(iter(replies.values())))):
            prefixes = [0] * len(days)
            for (day, script), each in replies.items():
                prefixes[day - 1] = each[at]
                assert script != "past.txt" or each[at] in (
                    None,
                    len(days[day - 1]),
                ), f"past day {day} counts {each[at]} in session {name}"
            yield prefixes


def judge(top, said, records):
    """How many replies were right, of how many sessions, and over how many lengths of the journals."""
    found = journals(f"{top}/days", records)
    with open(f"{top}/plan.json", "w", encoding="utf-8") as it:
        json.dump(plan(), it)
    joined = Joined(read_plan(f"{top}/plan.json"), found)
    seen, lengths, replies = 0, set(), iter(said)
    for prefixes in sessions(f"{top}/sessions", found):
        line, reply = next(replies)
        wanted = joined.reply(line.encode(), prefixes)
        assert reply == wanted, (line, prefixes, reply, wanted)
        if reply.startswith(('{"rows"', '{"told"')):
            assert sum(prefixes) >= seen, f"{seen} records were seen before {line}: {reply}"
            seen = sum(prefixes)
            lengths.add(seen)
    assert next(replies, None) is None, "more was replied than was asked"
    return len(found), len(lengths)


def main():
    words = words_of(__doc__, 2)
    nanocube, add_live = map(os.path.abspath, words[:2])
    changes, records, length = (int(word) for word in [*words[2:], *"3 6000 2".split()[len(words) - 2 :]])
    with tempfile.TemporaryDirectory(prefix="days-") as top:
        begun = time.monotonic()
        said, longest = serve(nanocube, add_live, top, records, changes * length, length)
        took = time.monotonic() - begun
        days, lengths = judge(top, said, records)
        count = len(os.listdir(f"{top}/sessions"))
    assert days > changes, f"{days} days"
    print(
        f"{days - 1} changes of day, {records} records, each in one day, once and in its order; {len(said)} replies "
        f"right over {lengths} lengths, in {count} sessions of add_live; {took:.0f} s, the longest wait for a reply "
        f"{1000 * longest:.0f} ms"
    )


if __name__ == "__main__":
    signal.signal(signal.SIGTERM, lambda *_: sys.exit(143))
    try:
        main()
    except AssertionError as wrong:
        print(f"wrong: {wrong}")
        sys.exit(1)
