#!/usr/bin/env python3
"""Judges `recount`: the replies of random scripts agree, and with another digit in a row they do not.

python3 judge/judge_recount.py PROGRAM [SCRIPTS [SEED]]

A case is a plan with 1 to 4 categories, a weight or none and some batch, records, asks that are answered while the
records come, and scripts that are answered at the end and again over the image that PROGRAM saves. PROGRAM recounts
each script (300), as `run` and as `load` answered it: all replies agree. Then a digit of one row is another, in one reply
of each script: the audit says `Wrong` at that reply, or `NotReply` where the row can be none. So the tables of the audit,
which goes once through the records, and those of the cube are held against each other."""
import os
import random
import re
import subprocess
import sys
import tempfile

sys.path.insert(0, os.path.join(os.path.dirname(os.path.realpath(__file__)), "../tools"))
from random_plans import lines_of, make, write
from usage import words_of


def damaged(rng, reply):
    """The reply with another digit in one of its rows, or nothing where it has no row."""
    end = reply.find('],"seen"')
    digits = [at.start() for at in re.finditer(r"\d(?=[\d,]*\])", reply[:end])] if reply.startswith('{"rows"') else []
    if not digits:
        return None
    at = rng.choice(digits)
    return reply[:at] + rng.choice([d for d in "0123456789" if d != reply[at]]) + reply[at + 1 :]


def judge(rng, program, folder, script, replies):
    """Recounts a script's replies as they are, and with another digit in one."""

    def said(lines):
        write(folder, "replies", "".join(lines))
        words = [program, "recount", "plan", "journal", script, "replies"]
        return subprocess.run(words, cwd=folder, capture_output=True, text=True, check=False).stdout

    assert said(replies) == f"recount: {len(replies)} replies agree, 0 without memory\n", (folder, script)
    places = [(n, other) for n, reply in enumerate(replies) if (other := damaged(rng, reply))]
    if not places:
        return 0
    n, other = rng.choice(places)
    audit = said(replies[:n] + [other] + replies[n + 1 :])
    assert audit in (f"recount: reply {n + 1}: {why}\n" for why in ("Wrong", "NotReply")), (folder, script, other, audit)
    return 1


def main():
    words = words_of(__doc__)
    program = os.path.abspath(words[0])
    scripts, seed = (int(word) for word in words[1:3] + ["300", "1"][len(words[1:3]) :])
    rng = random.Random(seed)
    judged = replies = found = 0
    while judged < scripts:
        with tempfile.TemporaryDirectory() as folder:
            plan = make(rng, folder)
            for call in (["run", "plan"], ["save", "plan", "image"]):
                assert subprocess.run([program, *call], cwd=folder, capture_output=True, check=False).returncode == 0
            for script in plan["asks"] + plan["finals"]:
                texts = [lines_of(folder, script + ".out")]
                if script in plan["finals"]:
                    load = [program, "load", "plan", "image", script]
                    done = subprocess.run(load, cwd=folder, capture_output=True, text=True, check=True)
                    texts.append(done.stdout.splitlines(keepends=True))
                for text in texts:
                    found += judge(rng, program, folder, script, text)
                    replies += len(text)
                    judged += 1
    print(f"{judged} texts of {replies} replies agree, and {found} with another digit are refused at its reply")


if __name__ == "__main__":
    main()
