"""steps.py: the steps that the lines of window_times take over the list of its records, and how many calls go down or count
before a bin. A call of a list takes a step for each record that it looks at: down all, or those up to the first that lies
there, and before all of them."""
N, DEPTH = 200_000, 20


def records():
    s, town = 1, False
    for _ in range(N):
        s = (s * 6364136223846793005 + 1442695040888963407) % 2 ** 64
        if town:
            yield 600_000 + (s >> 53) % 2_048, 400_000 + (s >> 42) % 2_048
        else:
            yield (s >> 44) % 1_048_576, (s >> 24) % 1_048_576
        town = not town


FIRST = {}
for place, (x, y) in enumerate(records()):
    for z in range(DEPTH + 1):
        FIRST.setdefault((z, x >> (DEPTH - z), y >> (DEPTH - z)), place)
CALLS = {"down": 0, "before": 0, "steps": 0}


def down(z, x, y):
    CALLS["down"] += 1
    CALLS["steps"] += FIRST.get((z, x, y), N - 1) + 1
    return (z, x, y) in FIRST


def count_tile():
    CALLS["before"] += 2
    CALLS["steps"] += 2 * N


def quadrants(z, x, y):
    return [(z + 1, 2 * x + i % 2, 2 * y + i // 2) for i in range(4)]


def window(z, x, y, rect):
    x0, y0, x1, y1 = rect
    side = 1 << (DEPTH - z)
    if x0 <= x * side and (x + 1) * side <= x1 and y0 <= y * side and (y + 1) * side <= y1:
        return count_tile()
    if x * side < x1 and x0 < (x + 1) * side and y * side < y1 and y0 < (y + 1) * side and x0 < x1 and y0 < y1:
        for tile in quadrants(z, x, y):
            if down(*tile):
                window(*tile, rect)


def best(z, x, y, levels):
    if levels == 0:
        for up in range(1, z + 1):
            down(up, x >> (z - up), y >> (z - up))
        return count_tile()
    for tile in quadrants(z, x, y):
        if down(*tile):
            best(*tile, levels - 1)


for name, walk in (("window 600500 400600 601500 401300", lambda: window(0, 0, 0, (600_500, 400_600, 601_500, 401_300))),
                   ("best 10 100", lambda: best(0, 0, 0, 10))):
    CALLS.update(down=0, before=0, steps=0)
    walk()
    print(f"{name}: {CALLS['down']} downs, {CALLS['before']} counts before a bin, {CALLS['steps']} steps")
