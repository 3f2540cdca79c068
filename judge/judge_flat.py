#!/usr/bin/env python3
"""Judges `flat`: the replies to random scripts are those of `load`, byte for byte, but that of `stat`.

python3 judge/judge_flat.py NANOCUBE [SCRIPTS [SEED]]

A case is a script of 12 lines over a plan with 1 to 4 categories, a weight or none and some batch, whose records are in
two feeds. NANOCUBE saves the cube of the feeds and loads it to answer the script (3,000), and `flat` answers it over
the feeds. Both end with 0. Then, of each plan, `flat` answers a script through a pipe: each line before the next is
sent. At last it counts so many points that it does so by threads, also where, with cc, a thread or all from one on are
refused. It is what tools/program_of names, and is made with CHECK_ALL=1 alone: else, where none stands, nothing is
judged. The last line begins with `ok` or `skipped`."""
import json
import os
import random
import shutil
import subprocess
import sys
import tempfile

TOP = os.path.dirname(os.path.dirname(os.path.realpath(__file__)))
sys.path.insert(0, f"{TOP}/tools")
from pipes import plan_of
from random_plans import lines_of, make, write
from usage import words_of

NO_CUBE = '{"fault":"NoCube"}\n'
# So many points are counted by threads. Each of the lines makes one, and selects these points.
MANY, THREADS = 300_000, 4
COUNTED = {
    "count with kind=v1": lambda y, kind, hour: kind == 1,
    "count in 1/0/0 time 100 400": lambda y, kind, hour: y < 128 and 100 <= hour < 400,
    "window 0 0 256 256 time 7 450": lambda y, kind, hour: 7 <= hour < 450,
    "window 0 0 128 128 with kind=v0": lambda y, kind, hour: y < 128 and kind == 0,
}


def program_flat():
    """The path of `flat`, or nothing where none stands."""
    words = [f"{TOP}/tools/program_of", *([] if os.environ.get("CHECK_ALL") == "1" else ["--standing"]), "flat"]
    return subprocess.run(words, stdout=subprocess.PIPE, text=True, check=False).stdout.strip()


def answers(program, folder, *words, **more):
    """The lines of a call that has to end with 0, with these variables besides."""
    env = {**os.environ, **more}
    done = subprocess.run([program, *words], cwd=folder, env=env, capture_output=True, text=True, check=False)
    assert done.returncode == 0, (folder, words, done.returncode, done.stdout[-300:])
    return done.stdout.splitlines(keepends=True)


def without_cube(replies):
    """The replies of a cube, with the line of none in place of its numbers."""
    return [NO_CUBE if reply.startswith('{"nodes"') else reply for reply in replies]


def by_pipe(flat, folder, script, wanted):
    """Sends a script line by line, and reads each reply before the next line is sent."""
    words = [flat, "plan", "/dev/stdin"]
    with subprocess.Popen(words, cwd=folder, stdin=subprocess.PIPE, stdout=subprocess.PIPE, text=True) as process:
        for line, reply in zip(lines_of(folder, script), wanted):
            process.stdin.write(line)
            process.stdin.flush()
            assert process.stdout.readline() == reply, (folder, script, line)
        process.stdin.close()
        assert process.wait() == 0, (folder, script)


def many_points(rng, folder):
    """Writes a plan, its feed of many points and a script that counts them, and returns the replies, by plain counts."""
    points = [tuple(rng.randrange(most) for most in (100, 130, 2, 500)) for _ in range(MANY)]
    rows = [f"{x},{y},v{kind},{hour}\n" for x, y, kind, hour in points]
    write(folder, "feed0.csv", "x,y,kind,time\n" + "".join(rows))
    write(folder, "plan", json.dumps(plan_of(1, 0, 1, 8, [("kind", ["v0", "v1"])])))
    write(folder, "script", "\n".join(COUNTED) + "\n")
    totals = [sum(has(*rest) for _, *rest in points) for has in COUNTED.values()]
    return [f'{{"rows":[[{total}]],"seen":{MANY}}}\n' for total in totals]


def by_threads(flat, rng):
    """Counts many points where no thread is refused, one, or all from one on. Returns how many runs that took."""
    with tempfile.TemporaryDirectory() as folder:
        wanted, refusals = many_points(rng, folder), [{}]
        library = f"{folder}/refuse.so"
        build = ["cc", "-shared", "-fPIC", "-O1", "-o", library, f"{TOP}/judge/refuse.c", "-ldl"]
        if shutil.which("cc") and not subprocess.run(build, check=False).returncode:
            kinds = [(kind, k) for kind in ("FAIL_THREAD", "FAIL_THREADS") for k in range(1, THREADS + 1)]
            refusals += [{"LD_PRELOAD": library, kind: str(k)} for kind, k in kinds]
        for refusal in refusals:
            given = answers(flat, folder, "plan", "script", **refusal)
            assert given == wanted, (refusal, given, wanted)
    return len(refusals)


def main():
    words = words_of(__doc__)
    nanocube, flat = os.path.abspath(words[0]), program_flat()
    if not flat:
        print("skipped flat: no flat stands, which `tools/program_of flat` makes")
        return
    scripts, seed = (int(word) for word in words[1:3] + ["3000", "1"][len(words[1:3]) :])
    rng = random.Random(seed)
    judged = replies = piped = 0
    while judged < scripts:
        with tempfile.TemporaryDirectory() as folder:
            plan = make(rng, folder)
            answers(nanocube, folder, "save", "plan", "image")
            for script in plan["asks"] + plan["finals"]:
                wanted = without_cube(answers(nanocube, folder, "load", "plan", "image", script))
                given = answers(flat, folder, "plan", script)
                assert given == wanted, (folder, script, given, wanted)
                judged += 1
                replies += len(wanted)
            by_pipe(flat, folder, script, wanted)
            piped += len(wanted)
    runs = by_threads(flat, rng)
    print(
        f"ok flat: {judged} scripts of {replies} replies as by a cube, {piped} lines through pipes, each at once, "
        f"and {runs} runs by threads"
    )


if __name__ == "__main__":
    main()
