"""feed_times.py PROGRAM PEER [--lines N] [--rounds R]: what reading a line of a feed takes, beside plain Rust.

PROGRAM reads by `save` with a plan that starts after all times: each row is split, its numbers are read and its value
is found, and then it is refused as too early, so that nothing is inserted. PEER is bench/feed_lines.rs, which reads the
same lines by the Rust crate `csv`. Printed for each feed: processor seconds for N lines (1,000,000), the least of R
rounds (9) in turn, and instructions a line where `valgrind` is installed, as the difference of 5,000 lines and of
none."""
import argparse
import json
import os
import re
import shutil
import subprocess
import sys
import tempfile

sys.path.insert(0, os.path.join(os.path.dirname(os.path.realpath(__file__)), "../judge"))
from pipes import plan_of
from runs import timed

LATE = 1 << 60


def four(i):
    return f"{i % 8},{i // 8 % 8},{'ab'[i % 2]},{i}"


def ten(i):
    return f"{i},p,{8 if i % 10 == 9 else i % 8},q,{i // 8 % 8},r,{'ab'[i % 2]},s,{i},t"


def quoted(i):
    return f"{i % 8},{i // 8 % 8},\"{'ab'[i % 2]}\",{i}"


def doubled(i):
    return f"{i % 8},{i // 8 % 8},\"{'ab'[i % 2]}\"\"\",{i}"


FEEDS = [
    ("four columns", "x,y,kind,time", four),
    ("ten columns", "id,a,x,b,y,c,kind,d,time,e", ten),
    ("four columns, one in quotes", "x,y,kind,time", quoted),
    ("four columns, one with a doubled quote", "x,y,kind,time", doubled),
]


def write_feed(path, header, line, count):
    with open(path, "w", encoding="utf-8") as it:
        it.write(header + "\n")
        it.writelines(line(i) + "\n" for i in range(count))


def instructions(words, folder):
    """How many instructions a command takes."""
    out = os.path.join(folder, "callgrind.out")
    subprocess.run(
        ["valgrind", "--tool=callgrind", f"--callgrind-out-file={out}", *words],
        cwd=folder,
        check=True,
        stdout=subprocess.DEVNULL,
        stderr=subprocess.DEVNULL,
    )
    with open(out, encoding="utf-8", errors="replace") as it:
        return int(re.search(r"(?m)^(?:summary|totals): (\d+)", it.read())[1])


def a_line(words, folder, header, line, count):
    feed, taken = os.path.join(folder, "feed0.csv"), []
    for lines in (0, count):
        write_feed(feed, header, line, lines)
        taken.append(instructions(words, folder))
    return (taken[1] - taken[0]) / count


def measure(programs, lines, rounds):
    for name, header, line in FEEDS:
        with tempfile.TemporaryDirectory() as folder:
            with open(os.path.join(folder, "plan.json"), "w", encoding="utf-8") as it:
                json.dump(plan_of(1, 0, 1, 3, [("kind", ["a", "b"])], 10, LATE), it)
            feed = os.path.join(folder, "feed0.csv")
            write_feed(feed, header, line, lines)
            size = os.path.getsize(feed) / 1e6
            least = [min(timed(words[0], words[1:], folder)[3] for _ in range(rounds)) for words in programs]
            told = [f"{seconds:.3f} s" for seconds in least]
            if shutil.which("valgrind"):
                told = [
                    f"{text}, {a_line(words, folder, header, line, min(lines, 5_000)):.0f} instructions a line"
                    for text, words in zip(told, programs)
                ]
            print(
                f"{name}, {size:.1f} MB: {told[0]}; plain Rust {told[1]}; {least[0] / least[1]:.2f} times", flush=True
            )


def main():
    words = argparse.ArgumentParser(description=__doc__, formatter_class=argparse.RawDescriptionHelpFormatter)
    words.add_argument("program")
    words.add_argument("peer")
    words.add_argument("--lines", type=int, default=1_000_000)
    words.add_argument("--rounds", type=int, default=9)
    given = words.parse_args()
    program, peer = os.path.abspath(given.program), os.path.abspath(given.peer)
    measure([[program, "save", "plan.json", "none.img"], [peer, "feed0.csv"]], given.lines, given.rounds)


if __name__ == "__main__":
    main()
