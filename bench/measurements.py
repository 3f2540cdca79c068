"""measurements.py PROGRAM [--before BEFORE] [--only NAME,..] [--folder FOLDER]: takes the figures of
docs/MEASUREMENTS.md, each beside its peer in the same run, and prints each command with what it printed and the
machine's load before it.

PROGRAM is what tools/program_of prints; BEFORE an earlier one, which is measured beside it where a section compares
programs. The peers are built in FOLDER (a new one): bench/groups.rs, nanocube.rs, prober.rs and tables.rs by `rustc`,
bench/feed_lines.rs by `cargo` with the crate `csv`, judge/refuse.c and bench/live_bytes.c by `gcc`. A section whose
peer cannot be built is skipped and named. bench/gate_times, which measures the gate, and a first build are not among
them: each takes the whole machine."""
import argparse
import os
import shutil
import subprocess
import sys
import tempfile
import time

sys.path.insert(0, os.path.join(os.path.dirname(os.path.realpath(__file__)), "../judge"))
import pipes  # All programs, peers too, are run with what `./nanocube` tells the C library.

BENCH = os.path.dirname(os.path.realpath(__file__))
JUDGE = os.path.realpath(f"{BENCH}/../judge")
SECTIONS = {
    "feeds": ["python3 {bench}/feed_times.py {program} {feed_lines}"],
    "lists": ["{bench}/measure.sh table_times", "{tables}"],
    "cube": ["{bench}/measure.sh cube_times", "{nanocube}", "python3 {bench}/sqlite.py"],
    "replies": ["python3 {bench}/reply_times.py {both} --peer {nanocube}"],
    "loading": ["python3 {bench}/load_times.py {both} --groups {groups}"],
    "memory": ["python3 {bench}/live_bytes.py {live_bytes} {both}"],
    "large": [
        (
            "python3 {bench}/load_times.py {both} --groups {groups} --records 2000000 --kinds generated,city --batches"
            " 1024,65536 --feeds 8"
        ),
        (
            "python3 {bench}/load_times.py {both} --groups {groups} --records 1000000 --kinds checkins --batches"
            " 64,65536 --feeds 1"
        ),
    ],
    "sessions": ["{bench}/measure.sh session_times"],
    "windows": [
        "{bench}/measure.sh window_times",
        "{bench}/measure.sh window_times cube",
        "python3 {bench}/window_times/steps.py",
    ],
    "images": ["{bench}/measure.sh --unproved image_times", "python3 {bench}/run_times.py {program} image"],
    "runs": [
        "python3 {bench}/run_times.py {program} city",
        "python3 {bench}/run_times.py {program} big",
        "python3 {bench}/run_times.py {program} recount",
    ],
    "pipes": [
        "python3 {judge}/soak.py {program}",
        "python3 {bench}/live_times.py idle {both}",
        "python3 {bench}/live_times.py latency {both} --seconds 3",
        (
            "python3 {bench}/live_times.py latency {both} --prober {prober} --batches 1 --rates 1,10000 --asks 1"
            " --pauses 2,100"
        ),
        "python3 {bench}/live_times.py city {both} --rounds 1",
        "python3 {bench}/live_times.py memory {program} --counts 3600,100000,1000000,4000000",
        "python3 {judge}/short_runs.py three {program} --runs 10000 --beside 4",
        "python3 {judge}/short_runs.py judged {program} --runs 1000 --beside 4",
    ],
    "scaling": ["python3 {bench}/scaling.py {program}"],
    "refused": [
        "python3 {judge}/judge_interrupted.py {program} {refuse}",
        "python3 {judge}/judge_interrupted.py {program} {refuse} 64",
        "python3 {judge}/judge_interrupted.py {program} {refuse} rows",
        "python3 {judge}/judge_forms.py {program} {refuse}",
        "python3 {judge}/refused_tests.py {refuse}",
    ],
    "least": ["python3 {judge}/judge_least.py {program}", "python3 {judge}/judge_one_image.py {program}"],
}
MANIFEST = """[package]
name = "feed_lines"
version = "0.1.0"
edition = "2021"
[dependencies]
csv = "1"
"""
# Where Debian's packages of crates lie, which serve where no registry is reached.
DEBIAN = "/usr/share/cargo/registry"


def cargo_project(folder):
    """A package of feed_lines.rs, whose crates come from Debian's packages where these are installed."""
    os.makedirs(f"{folder}/src", exist_ok=True)
    shutil.copy(f"{BENCH}/feed_lines.rs", f"{folder}/src/main.rs")
    with open(f"{folder}/Cargo.toml", "w", encoding="utf-8") as it:
        it.write(MANIFEST)
    if os.path.isdir(f"{DEBIAN}/csv-1.1.6"):
        os.makedirs(f"{folder}/.cargo", exist_ok=True)
        with open(f"{folder}/.cargo/config.toml", "w", encoding="utf-8") as it:
            it.write(f'[source.crates-io]\nreplace-with = "debian"\n[source.debian]\ndirectory = "{DEBIAN}"\n')


def build_peers(folder):
    """The path of each peer that could be built."""
    cargo_project(f"{folder}/feed_lines")
    commands = {
        name: (f"{folder}/{name}", ["rustc", "-O", "--edition", "2021", f"{BENCH}/{name}.rs", "-o", f"{folder}/{name}"])
        for name in ("groups", "nanocube", "prober", "tables")
    }
    commands["feed_lines"] = (
        f"{folder}/feed_lines/target/release/feed_lines",
        ["cargo", "build", "--release", "--quiet", "--manifest-path", f"{folder}/feed_lines/Cargo.toml"],
    )
    for name, source in (("refuse", f"{JUDGE}/refuse.c"), ("live_bytes", f"{BENCH}/live_bytes.c")):
        commands[name] = (
            f"{folder}/{name}.so",
            ["gcc", "-O2", "-shared", "-fPIC", "-o", f"{folder}/{name}.so", source],
        )
    built = {}
    for name, (path, words) in commands.items():
        where = f"{folder}/feed_lines" if name == "feed_lines" else folder
        if shutil.which(words[0]) and subprocess.run(words, cwd=where, capture_output=True).returncode == 0:
            built[name] = path
    return built


def take(command, words):
    """Runs a command, where all that it names is there, and prints it with what it printed."""
    try:
        text = command.format(**words)
    except KeyError as absent:
        print(f"skipped, for want of {absent}: {command}\n", flush=True)
        return True
    print(f"$ {text}    (load {os.getloadavg()[0]:.1f})", flush=True)
    begun = time.time()
    status = subprocess.run(text, shell=True, stderr=subprocess.STDOUT).returncode
    print(f"(status {status}, {time.time() - begun:.0f} s)\n", flush=True)
    return status == 0


def main():
    words = argparse.ArgumentParser(description=__doc__, formatter_class=argparse.RawDescriptionHelpFormatter)
    words.add_argument("program")
    words.add_argument("--before")
    words.add_argument(
        "--only", type=lambda text: text.split(","), default=[*SECTIONS], metavar="NAME,..", help=", ".join(SECTIONS)
    )
    words.add_argument("--folder")
    given = words.parse_args()
    folder = os.path.abspath(given.folder or tempfile.mkdtemp(prefix="measurements-"))
    program = os.path.abspath(given.program)
    both = f"{os.path.abspath(given.before)} {program}" if given.before else program
    known = {"bench": BENCH, "judge": JUDGE, "program": program, "both": both, **build_peers(folder)}
    print(f"{time.strftime('%Y-%m-%d')}, {len(os.sched_getaffinity(0))} processors, peers in {folder}\n", flush=True)
    results = [take(command, known) for name in given.only for command in SECTIONS[name]]
    print(f"{sum(results)} passed, {len(results) - sum(results)} failed")
    sys.exit(0 if all(results) else 1)


if __name__ == "__main__":
    main()
