"""judge_forms.py PROGRAM REFUSE.SO [FLAT]: answers a script over three records by `demo`, saves the cube of five records
and answers the script over its image, and by FLAT over the feeds, with each allocation, opening, read, write and closing
refused in turn, and judges the status, the output and the image of each run."""
import os
import subprocess
import sys
import tempfile
from collections import Counter

sys.path.insert(0, os.path.join(os.path.dirname(os.path.realpath(__file__)), "../tools"))
from usage import words_of

PLAN = (
    '{"version":1,"depth":3,"categories":[{"name":"kind","values":["a","b"]}],"start":0,"width":10,"batch":1,'
    '"feeds":["a.csv","b.csv"],"journal":"j.txt","asks":[],"finals":[]}'
)
FILES = {
    "plan.json": PLAN,
    "a.csv": "x,y,kind,time\n0,0,a,5\n7,7,b,12\n0,0,a,15\n",
    "b.csv": "x,y,kind,time\n3,4,b,90\n7,7,b,12\n",
    "q.txt": "count\nhist kind\nmap 1\nseries 0 1 10\ntold\nstat\nsum\n",
}
LACKING = b'{"fault":"NoMemory"}\n'
KINDS = ("FAIL_ALLOC", "FAIL_OPEN", "FAIL_READ", "FAIL_WRITE", "FAIL_CLOSE")


def run(program, folder, words, more):
    ran = subprocess.run([program, *words], cwd=folder, env={**os.environ, **more}, stdout=subprocess.PIPE)
    return ran.returncode, ran.stdout


def is_front(part, whole):
    """Whether the part is a front of the whole text, or of one in which some lines are that for out of memory."""
    got, wanted = part.split(b"\n"), whole.split(b"\n")
    if any(line not in (want, LACKING[:-1]) for line, want in zip(got[:-1], wanted)):
        return False
    want = wanted[len(got) - 1] if len(got) <= len(wanted) else None
    return want is not None and (want.startswith(got[-1]) or LACKING.startswith(got[-1]))


def judge(program, refuse, words, kind, number, whole, image):
    with tempfile.TemporaryDirectory() as folder:
        for name, text in FILES.items():
            open(os.path.join(folder, name), "w").write(text)
        kept = image if words[0] == "load" else None
        if kept is not None:
            open(os.path.join(folder, "cube.img"), "wb").write(kept)
        status, out = run(program, folder, words, {"LD_PRELOAD": refuse, kind: str(number)})
        path = os.path.join(folder, "cube.img")
        has = open(path, "rb").read() if os.path.exists(path) else None
        others = sorted(os.listdir(folder)) == sorted([*FILES, *(["cube.img"] if has is not None else [])])
        unchanged = all(open(os.path.join(folder, name)).read() == text for name, text in FILES.items())
        assert others and unchanged, (words, kind, number, "files")
        assert status in ((0, 4) if kind == "FAIL_ALLOC" else (0, 5, 6)), (words, kind, number, status)
        if words[0] == "save":
            assert status != 0 or (out == whole and has == image), (words, kind, number, out)
            assert has is None or image.startswith(has), (words, kind, number, "image")
            assert not out or has == image, (words, kind, number, "said of no image")
            assert whole.startswith(out), (words, kind, number, out)
        else:
            assert has == kept and (status != 0 or out == whole), (words, kind, number, out)
            assert is_front(out, whole) and (status == 4 or LACKING not in out), (words, kind, number, out)
        return status, "all" if out == whole else "none" if not out else "a part"


def main():
    program, refuse, *flat = map(os.path.abspath, words_of(__doc__, 2)[:3])
    with tempfile.TemporaryDirectory() as folder:
        for name, text in FILES.items():
            open(os.path.join(folder, name), "w").write(text)
        runs = {}
        for words in (
            ["demo", "a.csv", "q.txt"],
            ["save", "plan.json", "cube.img"],
            ["load", "plan.json", "cube.img", "q.txt"],
        ):
            status, out = run(program, folder, words, {})
            assert status == 0, (words, status, out)
            runs[words[0]] = (program, words, out)
        for program in flat:
            words = ["plan.json", "q.txt"]
            status, out = run(program, folder, words, {})
            assert status == 0, (words, status, out)
            runs["flat"] = (program, words, out)
        image = open(os.path.join(folder, "cube.img"), "rb").read()
    for name, (program, words, whole) in runs.items():
        for kind in KINDS:
            seen, number, idle = Counter(), 1, 0
            while idle < 3:
                status, said = judge(program, refuse, words, kind, number, whole, image)
                seen[status, said] += 1
                idle = idle + 1 if (status, said) == (0, "all") else 0
                number += 1
            print(
                f"{name}, {kind}: "
                + ", ".join(
                    f"{n} runs with status {s} and {said} of the output" for (s, said), n in sorted(seen.items())
                ),
                flush=True,
            )


main()
