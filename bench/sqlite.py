"""The same 200,000 generated records in SQLite, in memory, with two indexes: what the queries of the cube take
there."""
import resource
import sqlite3
import time


def step(s):
    return (s * 6364136223846793005 + 1442695040888963407) & ((1 << 64) - 1)


def timed(name, each, times, call):
    start = time.time()
    got = [call() for _ in range(times)][-1]
    print(f"{name}: {(time.time() - start) / times * each:.2f} ({got})")


RECORDS = 200_000
db = sqlite3.connect(":memory:")
db.execute("create table records (x int, y int, kind int, bin int)")
s = 1
rows = []
for _ in range(RECORDS):
    s = step(s)
    rows.append((s >> 54, (s >> 44) % 1024, (s >> 42) % 4, (s >> 32) % 1024))
start = time.time()
db.executemany("insert into records values (?, ?, ?, ?)", rows)
db.execute("create index by_place on records (x, y, kind, bin)")
db.execute("create index by_kind on records (kind, bin, x, y)")
db.execute("analyze")
print(f"load: {(time.time() - start) * 1e6 / RECORDS:.2f} us a record")

COUNT = "select count(*) from records where x >= ? and x < ? and y >= ? and y < ? and kind = ? and bin >= ? and bin < ?"
s = 77


def count():
    global s
    s = step(s)
    x, y, kind, first = (s >> 54) % 16, (s >> 44) % 16, (s >> 42) % 4, (s >> 32) % 512
    return db.execute(COUNT, (64 * x, 64 * x + 64, 64 * y, 64 * y + 64, kind, first, first + 400)).fetchone()[0]


timed("count, us", 1e6, 2000, count)
timed(
    "map 6, ms",
    1e3,
    5,
    lambda: len(db.execute("select y >> 4, x >> 4, count(*) from records group by 1, 2").fetchall()),
)
timed(
    "series of 1,000 bins, ms",
    1e3,
    5,
    lambda: len(db.execute("select bin, count(*) from records where bin < 1000 group by bin").fetchall()),
)
timed("hist kind, ms", 1e3, 5, lambda: len(db.execute("select kind, count(*) from records group by kind").fetchall()))
print(f"peak: {resource.getrusage(resource.RUSAGE_SELF).ru_maxrss / 1024:.0f} MB")
