"""run_times.py PROGRAM city [RECORDS]: times `run` of RECORDS records of a city's export in 8 feeds at batch 64 beside
8 asks of 20,000 lines, with the time of the journal's writing, and `demo` over as many lines of its own plan.
run_times.py PROGRAM image: times `save` of 200,000 generated records and of 1,000,000 of a city's export at batch
65,536, `load` of each image with one line, and beside them `run` of the same plan with the same line, and `cat` of the
image. run_times.py PROGRAM big: runs `big 100000` 20 times. run_times.py PROGRAM recount: times `recount` of 1,000
replies over a journal of 200,000 entries."""
import json
import os
import sys
import tempfile
import threading
import time

from runs import KINDS, step, timed

sys.path.insert(0, os.path.join(os.path.dirname(os.path.realpath(__file__)), "../tools"))
from usage import words_of


def write_plan(folder, plan):
    with open(os.path.join(folder, "plan.json"), "w") as it:
        json.dump(plan, it)


def write_asks(folder, asks, lines, line_of):
    """Scripts of so many lines, each made of a number that is drawn."""
    for a in range(asks):
        s = 100 + a
        with open(os.path.join(folder, f"ask{a}.txt"), "w") as it:
            for _ in range(lines):
                s = step(s)
                it.write(line_of(s))


def line_of_generated(s):
    return (
        f"count in 4/{(s >> 60) % 16}/{(s >> 50) % 16} with kind={'abcd'[(s >> 42) % 4]} time {(s >> 32) % 512} 1024\n"
    )


def line_of_city(s):
    return f"count in 12/{1050 + (s >> 62)}/{1518 + (s >> 56) % 4} with type=BATTERY time {(s >> 32) % 512} 1024\n"


def watch(path, seen, ended):
    """Notes when the file has its first bytes, and when it has its last."""
    size = 0
    while not ended.is_set():
        now = os.path.getsize(path) if os.path.exists(path) else 0
        if now > size:
            seen.setdefault("first", time.time())
            seen["last"], size = time.time(), now
        time.sleep(0.002)


def demo(program, folder, records):
    s = 1
    with open(os.path.join(folder, "demo.csv"), "w") as it:
        it.write("x,y,kind,time\n")
        for i in range(records):
            s = step(s)
            it.write(f"{s >> 61},{(s >> 50) % 8},{'ab'[(s >> 42) % 2]},{i * 7440 // records}\n")
    with open(os.path.join(folder, "count.txt"), "w") as it:
        it.write("count\n")
    status, out, seconds, busy, most = timed(program, ["demo", "demo.csv", "count.txt"], folder)
    assert status == 0 and out == f'{{"rows":[[{records}]],"seen":{records}}}\n'.encode(), (status, out)
    print(
        f"demo: {seconds:.2f} s, {busy:.2f} of processors, {records / seconds:.0f} records a second, {most:.0f} MB",
        flush=True,
    )


def city(program, records):
    with tempfile.TemporaryDirectory() as folder:
        KINDS["city"].write(folder, records, 8)
        write_asks(folder, 8, 20_000, line_of_city)
        write_plan(folder, KINDS["city"].plan(8, 64, 8, ()))
        seen, ended = {}, threading.Event()
        watcher = threading.Thread(target=watch, args=(os.path.join(folder, "journal.txt"), seen, ended))
        watcher.start()
        status, out, seconds, busy, most = timed(program, ["run", "plan.json"], folder)
        ended.set()
        watcher.join()
        assert status == 0 and out.endswith(f"journal: {records} entries\n".encode()), (status, out)
        print(
            (
                f"run: {seconds:.2f} s, {busy:.2f} of processors, {records / seconds:.0f} records a second,"
                f" {160_000 / seconds:.0f} replies a second, {most:.0f} MB; the journal's writing"
                f" {seen['last'] - seen['first']:.2f} s,"
                f" {os.path.getsize(os.path.join(folder, 'journal.txt')) / 1e6:.1f} MB"
            ),
            flush=True,
        )
        demo(program, folder, records)


def image(program):
    print("what: seconds, processor seconds, MB")
    for name, records, feeds in (("generated", 200_000, 1), ("city", 1_000_000, 8)):
        with tempfile.TemporaryDirectory() as folder:
            KINDS[name].write(folder, records, feeds)
            write_plan(folder, KINDS[name].plan(feeds, 65_536, 0, ["count.txt"]))
            with open(os.path.join(folder, "count.txt"), "w") as it:
                it.write("count\n")
            for words in (
                ["save", "plan.json", "cube.img"],
                ["load", "plan.json", "cube.img", "count.txt"],
                ["run", "plan.json"],
            ):
                status, out, seconds, busy, most = timed(program, words, folder)
                assert status == 0, (words, status, out)
                if words[0] == "load":
                    assert out == f'{{"rows":[[{records}]],"seen":{records}}}\n'.encode(), out
                print(f"{name}, {words[0]}: {seconds:.2f}, {busy:.2f}, {most:.0f}", flush=True)
            size = os.path.getsize(os.path.join(folder, "cube.img"))
            *_, seconds, busy, most = timed("cat", ["cube.img"], folder)
            print(f"{name}, cat of the image of {size} bytes: {seconds:.2f}, {busy:.2f}", flush=True)


def big(program):
    runs = [timed(program, ["big", "100000"], "/") for _ in range(20)]
    assert all(run[0] == 0 and run[1] == runs[0][1] for run in runs)
    print(runs[0][1].decode(), end="")
    for what, at in (("seconds", 2), ("processor seconds", 3), ("MB", 4)):
        print(f"{what}: {min(run[at] for run in runs):.2f} to {max(run[at] for run in runs):.2f}")


def recount(program):
    with tempfile.TemporaryDirectory() as folder:
        KINDS["generated"].write(folder, 200_000, 2)
        write_asks(folder, 1, 1_000, line_of_generated)
        write_plan(folder, KINDS["generated"].plan(2, 64, 0, ["ask0.txt"]))
        status, out, *_ = timed(program, ["run", "plan.json"], folder)
        assert status == 0, (status, out)
        for _ in range(3):
            status, out, seconds, busy, most = timed(
                program, ["recount", "plan.json", "journal.txt", "ask0.txt", "ask0.txt.out"], folder
            )
            print(
                f"{out.decode().strip()}: status {status}, {seconds:.2f} s, {busy:.2f} of processors, {most:.0f} MB",
                flush=True,
            )


def main():
    program, what = os.path.abspath(words_of(__doc__, 2)[0]), sys.argv[2]
    if what == "city":
        city(program, int(sys.argv[3]) if len(sys.argv) > 3 else 1_000_000)
    else:
        {"image": image, "big": big, "recount": recount}[what](program)


if __name__ == "__main__":
    main()
