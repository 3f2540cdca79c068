#!/usr/bin/python3
"""explore_times.py [--flat] [--scatter RECORDS] FOLDER [SECONDS]

Measures the page of ./explore over FOLDER, a folder of records or one with plan.json and its feeds, in a headless
browser of 1280 x 800: from a move of the mouse over the time series to all views redrawn, and what of it is the run,
the bridge and the browser; the same over the map; and how many questions 1, 8 and 20 clients of a WebSocket put in
SECONDS (5). The load of the machine is printed beside each line. With --flat there is no cube, and no clients are
counted; with --scatter it is so many records, each made of one of FOLDER's by moving it in place and time. Needs what
tools/check_explore needs."""
import csv
import json
import os
import random
import shutil
import statistics
import subprocess
import sys
import tempfile
import threading
import time

sys.dont_write_bytecode = True
TOP = os.path.dirname(os.path.dirname(os.path.realpath(__file__)))
sys.path.insert(0, f"{TOP}/tools")
from explorer_browser import Page
from explorer_run import Running
from websocket import WebSocket


def part(values, share):
    return sorted(values)[min(len(values) - 1, int(share * len(values)))] if values else float("nan")


def tell(text):
    print(f"{text}; load {os.getloadavg()[0]:.1f}", flush=True)


def redraws(page, name, selector, begin, end):
    """Drags the mouse slowly, so that there is a redraw for most moves, and tells what those took that asked."""
    page.settle()
    before = page.value("explorer.measured.length")
    page.drag(selector, begin, end, 120, 0.02)
    page.settle()
    time.sleep(0.2)
    asked = [each for each in page.value("explorer.measured")[before:] if each["asked"] and "painted" in each]
    if not asked:
        tell(f"{name}: no redraw had anything to ask")
        return
    painted, drawn = [each["painted"] for each in asked], [each["ms"] for each in asked]
    of = lambda word: statistics.median(each[word] for each in asked)
    bridge, wire = of("micros") / 1000, of("wire")
    tell(
        f"{name}: {len(asked)} redraws of {of('asked'):.0f} questions\n"
        f"  from the move to all views drawn {part(drawn, 0.5):.0f} ms, 95 of 100 in {part(drawn, 0.95):.0f}; "
        f"with the picture's next frame {part(painted, 0.5):.0f} and {part(painted, 0.95):.0f}\n"
        f"  of which run and bridge {bridge:.1f} ms, websocketd {wire - bridge:.1f}, the page "
        f"{part(drawn, 0.5) - wire:.1f}"
    )


def questions_of(page, plan):
    """The questions of one redraw, as the page put them, and how long the run takes for them where they are a
    script."""
    tiles, series, cells = page.value("[explorer.shown.tiles, explorer.shown.time.some, explorer.shown.parts[0].line]")
    lines = [f"hist {each['name']} in {tile}" for each in plan["categories"] for tile in tiles if tile != "0/0/0"]
    return [*lines, *series, cells]


def crowd(port, clients, seconds, lines):
    """How many questions these clients put, in messages of 20, each waiting for its replies."""
    done, ready = [0] * clients, threading.Barrier(clients)

    def ask(number):
        socket, drawn = WebSocket(port), random.Random(number)
        socket.put("count")
        socket.take()
        ready.wait()
        end = time.monotonic() + seconds
        while time.monotonic() < end:
            socket.put("\t".join(drawn.choice(lines) for _ in range(20)))
            done[number] += len(json.loads(socket.take()))
        socket.break_off()

    threads = [threading.Thread(target=ask, args=(number,)) for number in range(clients)]
    for thread in threads:
        thread.start()
    for thread in threads:
        thread.join()
    tell(f"{clients} clients: {sum(done) / seconds:,.0f} questions a second")


def run_alone(folder, plan, lines):
    """What the run itself takes for a question: a script of these lines over an image."""
    program = subprocess.run([f"{TOP}/tools/program_of"], stdout=-1, text=True, check=True).stdout.strip()
    with tempfile.TemporaryDirectory() as work:
        words = [program, "save", f"{folder}/plan.json", f"{work}/cube.img"]
        if subprocess.run(words, cwd=folder, stdout=subprocess.DEVNULL).returncode:
            tell("the run alone: not taken, since no image was saved")
            return
        times = []
        for many in (1, 200):
            with open(f"{work}/script", "w", encoding="utf-8") as it:
                it.write("\n".join(lines * many) + "\n")
            begun = time.monotonic()
            words = [program, "load", f"{folder}/plan.json", f"{work}/cube.img", f"{work}/script"]
            subprocess.run(words, stdout=subprocess.DEVNULL, check=True)
            times.append(time.monotonic() - begun)
        micros = 1e6 * (times[1] - times[0]) / 199 / len(lines)
        tell(f"the run alone: {micros:.1f} us for each of {len(lines)} such questions, as a script over an image")


def out_of(folder):
    return os.path.join(folder, "out") if os.path.exists(os.path.join(folder, "columns")) else folder


def records_of(folder):
    """How many rows the feeds of a folder have."""
    with open(f"{folder}/plan.json", encoding="utf-8") as it:
        feeds = json.load(it)["feeds"]
    count = 0
    for name in feeds:
        with open(f"{folder}/{name}", "rb") as it:
            count += sum(1 for _ in it) - 1
    return count


def scattered(folder, number, work):
    """A folder with so many records, in the order of time: those of another, each moved by some tiles and days."""
    with open(f"{folder}/plan.json", encoding="utf-8") as it:
        plan = json.load(it)
    with open(f"{folder}/feed.csv", encoding="utf-8", newline="") as it:
        header, *rows = csv.reader(it)
    drawn, size = random.Random(1), 2 ** plan["depth"]
    x, y, moment = (header.index(name) for name in ("x", "y", "time"))
    made = []
    for at in range(number):
        row = list(rows[at % len(rows)])
        for place in (x, y):
            row[place] = max(0, min(size - 1, int(row[place]) + round(drawn.gauss(0, size / 200))))
        row[moment] = max(plan["start"], int(row[moment]) + round(drawn.gauss(0, 10 * 86400)))
        made.append(row)
    made.sort(key=lambda row: row[moment])
    shutil.copy(f"{folder}/plan.json", work)
    with open(f"{work}/feed.csv", "w", encoding="utf-8", newline="") as it:
        csv.writer(it, lineterminator="\n").writerows([header, *made])
    return work


def main(words):
    flat = words[:1] == ["--flat"]
    words = words[flat:]
    number = int(words[1]) if words[:1] == ["--scatter"] and len(words) > 1 and words[1].isdecimal() else 0
    words = words[2:] if number else words
    if len(words) not in (1, 2) or not os.path.isdir(words[0]):
        print(__doc__, file=sys.stderr)
        return 2
    with tempfile.TemporaryDirectory() as work:
        folder = scattered(out_of(words[0]), number, work) if number else words[0]
        return measure(folder, float(words[1]) if len(words) == 2 else 5, flat)


def measure(folder, seconds, flat):
    explore = Running(TOP, [*["--flat"] * flat, folder], 900)
    page = Page(1280, 800)
    try:
        page.open(explore.url)
        records = records_of(out_of(folder))
        page.until(f"explorer.shown.seen === {records}", 900)
        page.until("document.getElementById('seen').textContent.includes('none arrive')")
        page.settle()
        with open(f"/proc/{explore.run_of()}/status", encoding="utf-8") as it:
            memory = next(int(line.split()[1]) // 1024 for line in it if line.startswith("VmHWM"))
        tell(f"{page.value('explorer.shown.seen'):,} records; the run has taken {memory:,} MB")
        plan = page.value("fetch('plan.json').then((answer) => answer.json())")
        redraws(page, "a brush", "#series", (0.2, 0.5), (0.6, 0.5))
        redraws(page, "a brush that is moved", "#series", (0.4, 0.5), (0.7, 0.5))
        redraws(page, "the map", "#map", (0.6, 0.5), (0.4, 0.55))
        lines = questions_of(page, plan)
        if flat:
            return 0
        for clients in (1, 8, 20):
            crowd(explore.port, clients, seconds, lines)
        run_alone(os.path.abspath(out_of(folder)), plan, lines)
    finally:
        page.close()
        explore.end()
    return 0


if __name__ == "__main__":
    sys.exit(main(sys.argv[1:]))
