#!/usr/bin/env python3
"""Tells by digests which program is of the sources of this checkout, and makes an unproved one where none is.

programs.py path CRATE    prints the path of the program to run, and makes it first where that is to be done
programs.py standing CRATE   prints the path of a program that stands, or ends with 1
programs.py which CRATE   prints `proved PATH DIGEST`, `unproved PATH DIGEST` or `none DIGEST`, and makes nothing
programs.py digest CRATE  prints the digest of the sources of the crate's program
programs.py proved CRATE DIGEST   notes that the program that stands in crates/CRATE/out was proved, of the sources with that digest

People and scripts call tools/program_of, which calls this where something changed. A program's sources are the lines of
crates.txt for its crate and the crates below it, and the files in their folders src, specs and proofs: from these and from its own
libraries `rt` proves and compiles it. Beside each program stands a stamp of four lines: the digest of its sources, the kit
(`rt version`), the digest of the program's bytes, and what proved it, or `unproved`.

crates/CRATE/out/CRATE       the proved program, which tools/build or `rt ci` leaves; CRATE.sources is its stamp
out/programs/CRATE-DIGEST    an unproved program, with its stamp CRATE-DIGEST.stamp
out/programs/CRATE.listing   the last answer, and the files on which it rests

tools/build, which ./prove calls, writes the stamp of what it proved. `rt ci` writes none: .ci/run has it written after it passed."""
import fcntl
import glob
import hashlib
import importlib.machinery
import importlib.util
import os
import re
import shutil
import signal
import subprocess
import sys
import time

TOP = os.path.dirname(os.path.dirname(os.path.realpath(__file__)))
PARTS = ("src", "specs", "proofs")
STANDS = "out/programs"
# As many unproved programs of a crate are kept: to go back to an earlier commit then takes no time.
KEPT = 4


def say(text):
    print(f"nanocube: {text}", file=sys.stderr, flush=True)


def text_of(path):
    try:
        with open(os.path.join(TOP, path), encoding="utf-8", errors="replace") as file:
            return file.read()
    except OSError:
        return ""


def digest_of(path):
    with open(os.path.join(TOP, path), "rb") as file:
        return hashlib.file_digest(file, "sha256").hexdigest()


def kit_file(command):
    """The file from which that command `rt` prints the kit."""
    return os.path.join(os.path.dirname(os.path.dirname(os.path.realpath(command))), "KIT-ID")


def kit():
    """What `rt version` prints, or nothing where there is no `rt`."""
    command = shutil.which("rt")
    if not command:
        return ""
    said = text_of(kit_file(command)).strip()
    return said or subprocess.run([command, "version"], capture_output=True, text=True).stdout.strip()


def pinned():
    return text_of("tools/kit").strip()


def lines_below(name):
    """The lines of crates.txt for a crate and for all below it, without notes."""
    lines = {}
    for line in text_of("crates.txt").splitlines():
        words = line.partition("#")[0].replace(":", " : ").split()
        if words:
            lines[words[0]] = words
    found, left = {}, [name]
    while left:
        name = left.pop()
        if name in lines and name not in found:
            found[name] = " ".join(lines[name])
            left += lines[name]
    return dict(sorted(found.items()))


class Sources:
    """The sources of a crate's program: their digest, and the files and folders that were looked at."""

    def __init__(self, name):
        self.began = int(time.time())
        self.seen = ["crates.txt"]
        total = hashlib.sha256()
        for crate, line in lines_below(name).items():
            total.update(f"{line}\n".encode())
            for part in PARTS:
                self.add_part(total, f"crates/{crate}/{part}")
        self.digest = total.hexdigest()

    def add_part(self, total, part):
        self.seen.append(part)
        for folder, folders, names in os.walk(f"{TOP}/{part}"):
            folders.sort()
            inside = os.path.relpath(folder, TOP)
            self.seen += [f"{inside}/{it}" for it in [*folders, *names]]
            for it in sorted(names):
                total.update(f"{inside}/{it} {digest_of(f'{inside}/{it}')}\n".encode())


class Program:
    """A place where a program may stand, and its stamp."""

    def __init__(self, path, stamp):
        self.path, self.stamp = path, stamp

    def is_of(self, sources, this_kit):
        """Whether it was made of these sources, by this kit where there is one, and its bytes are as they were made."""
        made_of, by_kit, made = [*text_of(self.stamp).splitlines(), "", "", ""][:3]
        if made_of != sources.digest or this_kit not in ("", by_kit) or not os.path.isfile(f"{TOP}/{self.path}"):
            return False
        if digest_of(self.path) != made:
            say(f"{self.path} is not run: its bytes are not those that were made, by {self.stamp}")
            return False
        return True

    def write_stamp(self, digest, by):
        lines = [digest, kit(), digest_of(self.path), by]
        replace_text(self.stamp, "\n".join(lines) + "\n")


def replace_text(path, text):
    """Writes the file beside its place and renames it, so that no call reads half of it."""
    part = f"{TOP}/{path}.{os.getpid()}.part"
    with open(part, "w", encoding="utf-8") as file:
        file.write(text)
    os.replace(part, f"{TOP}/{path}")


def proved_at(name):
    return Program(f"crates/{name}/out/{name}", f"crates/{name}/out/{name}.sources")


def unproved_at(name, sources):
    path = f"{STANDS}/{name}-{sources.digest[:12]}"
    return Program(path, f"{path}.stamp")


def standing(name, sources):
    """The state and the program of these sources that stands, a proved one where there is one."""
    this_kit = kit()
    for state, program in (("proved", proved_at(name)), ("unproved", unproved_at(name, sources))):
        if program.is_of(sources, this_kit):
            return state, program
    return "none", None


def listed(path):
    """A file's line in a listing: size, second of the last change and inode. tools/program_of makes the same."""
    try:
        found = os.lstat(os.path.join(TOP, path))
    except OSError:
        return f"-\t{path}"
    return f"{found.st_size} {int(found.st_ctime)} {found.st_ino}\t{path}"


def write_listing(name, sources, answer):
    """Keeps the answer beside all on which it rests. A file that changed in the second in which it was read could change
    once more in that second, and its line would stay: then there is no listing, and the next call reads all again."""
    command = shutil.which("rt") or ""
    paths = [*sources.seen]
    for program in (proved_at(name), unproved_at(name, sources)):
        paths += [program.path, program.stamp]
    paths += [command, kit_file(command)] if command else []
    lines = [listed(path) for path in paths]
    if all(line.startswith("-") or int(line.split()[1]) < sources.began for line in lines):
        replace_text(f"{STANDS}/{name}.listing", "\n".join([answer, command, str(len(lines)), *lines]) + "\n")


def answer_of(state, program, sources):
    return f"{state} {TOP}/{program.path} {sources.digest[:12]}" if program else f"none {sources.digest[:12]}"


def locked():
    """Waits until no other call makes a program here."""
    lock = open(f"{TOP}/{STANDS}/lock", "w", encoding="utf-8")
    try:
        fcntl.flock(lock, fcntl.LOCK_EX | fcntl.LOCK_NB)
    except BlockingIOError:
        say("another call is making a program: waiting for it")
        fcntl.flock(lock, fcntl.LOCK_EX)
    return lock


def builder():
    """tools/build_unproved as a module: it ends with this process, however that ends."""
    loader = importlib.machinery.SourceFileLoader("build_unproved", f"{TOP}/tools/build_unproved")
    made = importlib.util.module_from_spec(importlib.util.spec_from_loader("build_unproved", loader))
    loader.exec_module(made)
    return made


def remove_old(name):
    """Removes the oldest unproved programs, so that one more makes as many as are kept."""
    found = [it for it in glob.glob(f"{TOP}/{STANDS}/{name}-*") if re.search(r"-[0-9a-f]{12}$", it)]
    for path in sorted(found, key=os.path.getmtime)[: max(0, len(found) - KEPT + 1)]:
        for it in (f"{path}.stamp", path):
            if os.path.lexists(it):
                os.remove(it)


def make(name, sources):
    """Makes the unproved program of these sources, or says why not and returns false."""
    program = unproved_at(name, sources)
    room = f"{TOP}/{STANDS}/{name}.making"
    shutil.rmtree(room, ignore_errors=True)
    os.makedirs(room)
    remove_old(name)
    others = " (there is one of other sources, which is not run)" if has_other(name) else ""
    say(f"no program of these sources, {sources.digest[:12]}, stands here{others}")
    say(f"making {name} without checking its proofs, which ./prove does: 80 s of one processor, four slow ones took 1 min 25 s")
    try:
        if not builder().build(TOP, f"{TOP}/{program.path}", name, room):
            return False
    finally:
        shutil.rmtree(room, ignore_errors=True)
    if Sources(name).digest == sources.digest:
        program.write_stamp(sources.digest, "unproved")
    else:
        os.remove(f"{TOP}/{program.path}")
        say("the sources changed meanwhile")
    # From the next second on the listing counts.
    time.sleep(1 - time.time() % 1)
    return True


def has_other(name):
    return os.path.isfile(f"{TOP}/crates/{name}/out/{name}") or any(glob.glob(f"{TOP}/{STANDS}/{name}-*.stamp"))


def found_or_made(name):
    """The state, the program to run and its sources. A program that was made while the sources changed is not taken."""
    os.makedirs(f"{TOP}/{STANDS}", exist_ok=True)
    sources = Sources(name)
    state, program = standing(name, sources)
    while state == "none":
        with locked():
            sources = Sources(name)
            state, program = standing(name, sources)
            if state == "none" and not make(name, sources):
                sys.exit(1)
        sources = Sources(name)
        state, program = standing(name, sources)
    return state, program, sources


def path(name):
    if kit() and kit().split()[0] != pinned():
        say(f"this is {kit().split()[0]}, and the sources were last proved with {pinned()} (tools/kit)")
    state, program, sources = found_or_made(name)
    write_listing(name, sources, answer_of(state, program, sources))
    print(f"{TOP}/{program.path}")


def note_proved(name, digest):
    """Writes the stamp of a program that was proved, if the sources are still those with which its proof began."""
    if Sources(name).digest != digest:
        say(f"{name} is not noted as proved: its sources changed while they were proved")
        sys.exit(1)
    proved_at(name).write_stamp(digest, "proved")


def main(words):
    verb, name, *digest = [*words, "", ""][: max(2, len(words))]
    if (verb, len(words)) not in (("path", 2), ("standing", 2), ("which", 2), ("digest", 2), ("proved", 3)):
        print(__doc__.split("\n\n")[1], file=sys.stderr)
        return 2
    if verb == "path":
        path(name)
    elif verb in ("which", "standing"):
        sources = Sources(name)
        state, program = standing(name, sources)
        if verb == "which":
            print(answer_of(state, program, sources))
        elif program:
            print(f"{TOP}/{program.path}")
        else:
            return 1
    elif verb == "digest":
        print(Sources(name).digest)
    else:
        note_proved(name, digest[0])
    return 0


if __name__ == "__main__":
    for number in (signal.SIGTERM, signal.SIGHUP):
        signal.signal(number, lambda given, _: sys.exit(128 + given))
    try:
        sys.exit(main(sys.argv[1:]))
    except KeyboardInterrupt:
        say("interrupted")
        sys.exit(130)
    except OSError as error:
        say(f"the program cannot be found: {error}")
        sys.exit(1)
