"""What the scripts that try `./nanocube` share: a folder of its own for each call, and a terminal to type it in.

Usage: from rooms import PROGRAM, Room, Wrong, call_all, require."""
import concurrent.futures
import contextlib
import json
import os
import pty
import select
import shutil
import signal
import subprocess
import sys
import tempfile
import time

from pages import TOP

SCRIPT = f"{TOP}/nanocube"
LIVE = f"{TOP}/examples/live"
SECONDS = 60
# The long form of a check.
ALL = os.environ.get("CHECK_ALL") == "1"
FEED = "x,y,time,kind,place\n"
# A feed of 3,000 records under the plan of examples/live.
LONG_FEED = FEED + "".join(f"{i % 8},{i // 8 % 8},{i},theft,home\n" for i in range(3000))


class Wrong(Exception):
    """Something is not what is wanted."""


def require(holds, why):
    if not holds:
        raise Wrong(why)


def given_program():
    """The program that the script's one word names, or tools/program_of."""
    if len(sys.argv) > 1:
        return os.path.abspath(sys.argv[1])
    asked = subprocess.run([f"{TOP}/tools/program_of"], stdout=subprocess.PIPE, text=True, check=False)
    return asked.stdout.strip() if asked.returncode == 0 else sys.exit(asked.returncode)


PROGRAM = given_program()


class Room:
    """A folder of its own with a copy of examples/live, in which calls are made."""

    def __init__(self, files=None, without=()):
        self.top = tempfile.mkdtemp(prefix="words-")
        self.folder = f"{self.top}/live"
        shutil.copytree(LIVE, self.folder)
        os.chmod(self.top, 0o755)
        for name, text in (files or {}).items():
            self.put(name, text)
        for name in without:
            os.unlink(self.path(name))

    def __enter__(self):
        return self

    def __exit__(self, *fault):
        shutil.rmtree(self.top, ignore_errors=True)

    def path(self, name):
        return os.path.join(self.folder, name)

    def put(self, name, text):
        with open(self.path(name), "wb") as it:
            it.write(text if isinstance(text, bytes) else text.encode())

    def get(self, name):
        """What a file holds, or None where it is not there."""
        if not os.path.exists(self.path(name)):
            return None
        with open(self.path(name), "rb") as it:
            return it.read()

    def plan(self, **members):
        """The text of the plan with other members."""
        return json.dumps({**json.loads(self.get("plan.json")), **members})

    def shell(self, command, program=SCRIPT, terminal=False, at="live", seconds=SECONDS, **more):
        """The status, the standard output and the standard error of a command in which `nanocube` is the program. With
        a terminal the two are one text, the last: what a user sees."""
        # The script has the signal of `ulimit -f` ignored, so a call of the program is made so too.
        ignored = "" if program == SCRIPT else "trap '' XFSZ; "
        words = ["bash", "-c", f"{ignored}nanocube() {{ '{program}' \"$@\"; }}; {command}"]
        where = os.path.join(self.top, at)
        if terminal:
            return typed(words, where, **more)
        pipe = subprocess.PIPE
        child = subprocess.Popen(words, cwd=where, stdin=subprocess.DEVNULL, stdout=pipe, stderr=pipe,
                                 start_new_session=True, **more)
        try:
            out, said = child.communicate(timeout=seconds)
        except subprocess.TimeoutExpired:
            os.killpg(child.pid, signal.SIGKILL)
            child.communicate()
            raise
        return child.returncode, out, said.decode(errors="replace")

    def status(self, command, program=SCRIPT):
        return self.shell(command, program)[0]

    def wait_until_left(self):
        """Waits until no process runs in the folder: one that was killed ends when the system gets to it."""
        end = time.monotonic() + SECONDS
        while self.is_used():
            require(time.monotonic() < end, "a process stays in the folder")
            time.sleep(0.01)

    def is_used(self):
        for process in filter(str.isdigit, os.listdir("/proc")):
            with contextlib.suppress(OSError):
                if os.readlink(f"/proc/{process}/cwd") == self.folder:
                    return True
        return False

    def start(self, words):
        """A call of the script that goes on."""
        return subprocess.Popen([SCRIPT, *words], cwd=self.folder, stdin=subprocess.DEVNULL, stdout=subprocess.DEVNULL,
                                stderr=subprocess.PIPE, start_new_session=True)


def typed(words, where, **more):
    """The status of a command whose standard input, output and error are a terminal, and what it prints there."""
    master, slave = pty.openpty()
    child = subprocess.Popen(words, cwd=where, stdin=slave, stdout=slave, stderr=slave, start_new_session=True, **more)
    os.close(slave)
    seen = read_terminal(master, SECONDS)
    os.close(master)
    return child.wait(timeout=SECONDS), b"", seen.replace(b"\r\n", b"\n").decode(errors="replace")


def read_terminal(master, seconds):
    """What is printed at a terminal until nobody has it open any more."""
    seen, end = b"", time.monotonic() + seconds
    while select.select([master], [], [], max(0, end - time.monotonic()))[0]:
        try:
            seen += os.read(master, 65536)
        except OSError:
            break
    return seen


def program_of(script):
    """The process of the program that the script's process started, once it is that program."""
    end = time.monotonic() + SECONDS
    while time.monotonic() < end:
        with open(f"/proc/{script}/task/{script}/children", encoding="ascii") as it:
            processes = it.read().split()
        for process in processes:
            with contextlib.suppress(OSError):
                if os.path.samefile(f"/proc/{process}/exe", PROGRAM):
                    return int(process)
        time.sleep(0.005)
    raise Wrong("the program was not started")


def is_gone(process, seconds=SECONDS):
    """Whether a process has ended, or ends in time."""
    end = time.monotonic() + seconds
    while time.monotonic() < end:
        try:
            with open(f"/proc/{process}/stat", encoding="ascii") as it:
                if it.read().rsplit(")", 1)[1].split()[0] == "Z":
                    return True
        except OSError:
            return True
        time.sleep(0.01)
    return False


def judged(name, call, *words):
    """The line of a case: what the call answers where that is one, else by whether it raised."""
    try:
        return call(*words) or f"ok {name}"
    except (Wrong, OSError, subprocess.SubprocessError, ValueError) as why:
        return f"FAILED {name}: {' '.join(str(why).split())[:600]}"


def call_all(cases):
    """Tries cases, each a name, a call and its words, a few at a time, and prints their lines."""
    os.environ["NANOCUBE"] = PROGRAM
    # Python starts quickest from here, where there are several.
    os.environ["PATH"] = f"/usr/bin:/bin:{os.environ['PATH']}"
    # The caller may have had these ignored, as shells do for what runs in the background.
    signal.signal(signal.SIGINT, signal.default_int_handler)
    for number in (signal.SIGQUIT, signal.SIGHUP, signal.SIGTERM):
        signal.signal(number, signal.SIG_DFL)
    with concurrent.futures.ThreadPoolExecutor(4) as pool:
        for line in pool.map(lambda case: judged(*case), cases):
            print(line, flush=True)
