"""refused_tests.py REFUSE.SO [--folder CRATES] [NAME..]: runs tests of the repository with each of their allocations
refused in turn.

REFUSE.SO is judge/refuse.c, built. The tests are built where they are not yet (`rt test`), or stand in another
checkout's folder CRATES. With each of the first allocations a test may end because it was out of memory before what it
tests began; with every later one it has to pass, and any other end is wrong. It prints how many allocations a test
makes, and how many are such first ones."""
import argparse
import os
import re
import subprocess
import sys

TOP = os.path.dirname(os.path.dirname(os.path.realpath(__file__)))
# The status of a test that passed, and of one whose result is that it was out of memory; an assertion ends a test by a
# signal.
PASSED, STARVED = 0, 101
# By crate: the tests, each with what it tests.
TESTS = {
    "time_table_tests": [
        ("keeps_its_counts_where_an_addition_is_refused", "1,000 additions to 300 bins"),
        ("keeps_its_counts_where_rows_are_given", "300 additions in rising bins, the even ones first"),
    ],
    "cube_callers": [("a_refused_insertion_changes_nothing", "a cube's fourth insertion")],
    "group_insert_tests": [("a_refused_group_changes_nothing", "64 points as a group into a cube of 200")],
}


def path_of(binary, test):
    """The test's whole path."""
    told = subprocess.run([binary, "--list"], capture_output=True, text=True).stdout
    return next(it for it in re.findall(r"(?m)^(\S+): test$", told) if it.split("::")[-1] == test)


def run(binary, path, refuse, more):
    ran = subprocess.run(
        [binary, path], env={**os.environ, "LD_PRELOAD": refuse, **more}, capture_output=True, text=True
    )
    return ran.returncode, ran.stderr


def judge(crate, test, what, folder, refuse):
    binary = f"{folder}/{crate}/out/{crate}_tests"
    if not os.path.isfile(binary):
        subprocess.run(["rt", "test", test], cwd=f"{folder}/{crate}", check=True, stdout=subprocess.DEVNULL)
    path = path_of(binary, test)
    status, told = run(binary, path, refuse, {"TELL_ALLOC": "1"})
    assert status == PASSED, (crate, test, status, told)
    count = int(re.search(r"allocations (\d+)", told)[1])
    ends = [run(binary, path, refuse, {"FAIL_ALLOC": str(number)})[0] for number in range(1, count + 1)]
    first = ends.count(STARVED)
    right = ends == [STARVED] * first + [PASSED] * (count - first)
    print(
        (
            f"{crate}, {test} ({what}): {count} allocations; out of memory with each of the first {first}, passed with"
            " the others"
            if right
            else f"{crate}, {test} ({what}): WRONG: {ends}"
        ),
        flush=True,
    )
    return right


def main():
    words = argparse.ArgumentParser(description=__doc__, formatter_class=argparse.RawDescriptionHelpFormatter)
    words.add_argument("refuse", type=os.path.abspath)
    words.add_argument("names", nargs="*", choices=[[], *TESTS], metavar="NAME")
    words.add_argument("--folder", default=f"{TOP}/crates", type=os.path.abspath)
    given = words.parse_args()
    results = [judge(name, *test, given.folder, given.refuse) for name in given.names or TESTS for test in TESTS[name]]
    sys.exit(0 if all(results) else 1)


if __name__ == "__main__":
    main()
