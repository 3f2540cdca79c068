#!/usr/bin/env python3
"""prepare_times.py [ROWS]: times `./prepare` over two CSVs of ROWS rows (1,000,000), each beside a loop of Python that
reads the same file by `csv.reader` and does nothing with it. Prints the least of three runs of each, by the clock and
in processor time, their ratio, and the most memory that prepare and its `sort` had, both at their greatest.

- wide: the export of examples/city, 22 columns and four categories, one row of 73 without coordinates;
- narrow: a date with seconds, a latitude, a longitude and one category."""
import csv
import datetime
import os
import random
import subprocess
import sys
import tempfile
import time

TOP = os.path.dirname(os.path.dirname(os.path.realpath(__file__)))
RUNS = 3
DRAWN = 100000
NARROW = "time when\nlatitude lat\nlongitude lon\ncategory kind kind\n"


def wide(folder, rows):
    """Some 100,000 drawn rows, as often as is needed."""
    words = [f"{TOP}/examples/city/make_export.py", "incidents", str(min(rows, DRAWN))]
    header, *lines = subprocess.run(words, stdout=subprocess.PIPE, text=True, check=True).stdout.splitlines(
        keepends=True
    )
    with open(f"{folder}/rows.csv", "w", encoding="utf-8") as it:
        it.write(header)
        it.writelines(lines[number % len(lines)] for number in range(rows))
    with open(f"{TOP}/examples/city/columns", encoding="utf-8") as it:
        return "".join(line for line in it if not line.startswith(("file", "scripts")))


def narrow(folder, rows):
    draw = random.Random(1)
    with open(f"{folder}/rows.csv", "w", encoding="utf-8") as it:
        it.write("when,lat,lon,kind\n")
        for _ in range(rows):
            when = datetime.datetime(2023, 1, 1) + datetime.timedelta(seconds=draw.randrange(365 * 86400))
            it.write(f"{when},{draw.uniform(41, 42):.6f},{draw.uniform(-88, -87):.6f},{draw.choice('abcdefg')}\n")
    return NARROW


def plain_seconds(path):
    """The seconds of the loop, by the clock and in processor time."""
    begun, used = time.perf_counter(), time.process_time()
    with open(path, encoding="utf-8", newline="") as it:
        for _ in csv.reader(it):
            pass
    return time.perf_counter() - begun, time.process_time() - used


def most_memory(process):
    """The kilobytes that a process had at most, or 0 where it has ended."""
    try:
        with open(f"/proc/{process}/status", encoding="utf-8") as it:
            return next((int(line.split()[1]) for line in it if line.startswith("VmHWM")), 0)
    except (FileNotFoundError, ProcessLookupError):
        return 0


def children_of(process):
    try:
        with open(f"/proc/{process}/task/{process}/children", encoding="utf-8") as it:
            return it.read().split()
    except FileNotFoundError:
        return []


def prepare_seconds(folder):
    """The seconds of a call, by the clock and in processor time, and the most megabytes of all its processes."""
    begun, used, most = time.perf_counter(), os.times(), {}
    ran = subprocess.Popen([f"{TOP}/prepare", "--no-capacity", folder], stderr=subprocess.DEVNULL)
    while ran.poll() is None:
        for process in [str(ran.pid), *children_of(ran.pid)]:
            most[process] = max(most.get(process, 0), most_memory(process))
        time.sleep(0.02)
    if ran.returncode:
        sys.exit(f"prepare ended with status {ran.returncode}")
    ended = os.times()
    processor = ended.children_user + ended.children_system - used.children_user - used.children_system
    return time.perf_counter() - begun, processor, sum(most.values()) / 1000


def main():
    if len(sys.argv) > 2 or not all(word.isdigit() for word in sys.argv[1:]):
        print("prepare_times.py [ROWS]", file=sys.stderr)
        return 2
    rows = int(sys.argv[1]) if sys.argv[1:] else 1000000
    print(f"{rows} rows; load average {os.getloadavg()[0]:.1f}")
    for make in wide, narrow:
        with tempfile.TemporaryDirectory() as folder:
            columns = make(folder, rows)
            with open(f"{folder}/columns", "w", encoding="utf-8") as it:
                it.write(columns)
            runs = [(*plain_seconds(f"{folder}/rows.csv"), *prepare_seconds(folder)) for _ in range(RUNS)]
        plain, plain_used, ours, used = (min(run[part] for run in runs) for part in range(4))
        print(
            f"{make.__name__}, by the clock: csv.reader {plain:.2f} s, prepare {ours:.2f} s, {ours / plain:.1f} times"
            " as long"
        )
        print(
            f"{make.__name__}, processor time: csv.reader {plain_used:.2f} s, prepare {used:.2f} s,"
            f" {used / plain_used:.1f} times as long"
        )
        print(f"{make.__name__}: {max(run[4] for run in runs):.0f} MB")
    return 0


sys.exit(main())
