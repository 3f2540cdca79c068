"""Questions to a program, and its replies: over an image that a child has loaded, or over the asks of a live run.

    ask = Ask("folder of a run")                         # one client of all asks of the run, beside others
    ask.ask("hist kind")                                 # b'{"rows":[["theft",51],["battery",29]],"seen":80}'
    ask.close()

docs/FORMATS.md, "Several clients of one ask", has the protocol. Nothing waits without a limit of time. A line that
would have no reply, a program that has ended and a reply that does not come are a CubeError, one line for a person."""
import errno
import fcntl
import os
import random
import select
import subprocess
import time

from folder import FolderFault
from folder import read_plan

TOP = os.path.dirname(os.path.dirname(os.path.realpath(__file__)))
# How many seconds a reply may take, and how many bytes a line may have.
SECONDS, MOST_BYTES = 60, 4096


class CubeError(Exception):
    """Why there is no reply, in one line."""


class Fault(CubeError):
    """What is wrong with a line: the fault's name, the word's number from 1, the word, and its place in the line, from
    0."""

    def __init__(self, name, at, word="", place=None, why=""):
        super().__init__(f"{name} at word {at}" + (f", `{word}`" if word else "") + (f": {why}" if why else ""))
        self.name, self.at, self.word, self.place, self.why = name, at, word, place, why

    def reply(self):
        """What the program would reply."""
        return b'{"at":%d,"fault":"%s"}' % (self.at, self.name.encode())


def plan_in(path):
    try:
        return read_plan(path)
    except FolderFault as fault:
        raise CubeError(f"{fault}") from None


def question_of(line):
    """The bytes of a line that the program answers by one line. Any other line is not put; one that is at fault for
    its bytes is answered here as the program would."""
    try:
        question = line.encode() if isinstance(line, str) else bytes(line)
        question.decode()
    except UnicodeError:
        raise Fault("NotText", 1) from None
    if len(question) > MOST_BYTES:
        raise Fault("LongLine", 1)
    if b"\n" in question or b"\r" in question:
        raise CubeError("a question is one line")
    if not question.strip(b" ") or question.startswith((b"#", b"\xef\xbb\xbf")):
        raise CubeError("the line asks nothing")
    if question.strip(b" ").split(b" ")[0] == b"quit":
        raise CubeError("`quit` is not put: it would end the ask for all")
    return question


class Pipes:
    """The two ends by which a program is asked. Neither waits by itself; what waits here gives up at a time."""

    def __init__(self, name, to, source):
        self.name, self.to, self.source = name, to, source
        self.readable, self.writable = select.poll(), select.poll()
        self.readable.register(source, select.POLLIN)
        self.writable.register(to, select.POLLOUT)

    def exchange(self, question, end):
        """The reply to a question. Where this is broken off, `is_due` tells the next one that a reply may still
        come."""
        if self.is_due():
            self.settle(end)
        self.note_due(True)
        self.write(question + b"\n", end)
        reply = self.read(end)
        self.note_due(False)
        return reply[:-1]

    def settle(self, end):
        """Drops what has been left in the pipes: all that comes before the reply to a mark. The line feed before the
        mark ends a part of a line; alone it is an empty line, which has no reply."""
        mark = random.randrange(2**20, 2**31)
        self.write(b"\nseries %d 1 1\n" % mark, end)
        begin = b'{"rows":[[%d,' % mark
        while not self.read(end).splitlines()[-1].startswith(begin):
            pass

    def write(self, data, end):
        try:
            written = os.write(self.to, data)
        except BlockingIOError:
            written = 0
        except BrokenPipeError:
            raise self.ended() from None
        if written < len(data):
            self.wait(self.writable, end)
            self.write(data[written:], end)

    def read(self, end):
        """What comes, up to a line feed after which nothing is there yet."""
        parts = []
        while not parts or parts[-1][-1] != 10:
            self.wait(self.readable, end)
            part = os.read(self.source, 65536)
            if not part:
                raise self.ended()
            parts.append(part)
        return parts[0] if len(parts) == 1 else b"".join(parts)

    def wait(self, poll, end):
        if not poll.poll(max(0, 1000 * (end - time.monotonic()))):
            raise CubeError(f"{self.name} gave no reply in time")

    def ended(self):
        return CubeError(f"{self.name} has ended")

    def close(self):
        for number in (self.to, self.source):
            os.close(number)


class Loaded(Pipes):
    """A child that has loaded an image, and answers questions over it."""

    def __init__(self, plan, image, seconds):
        self.due, self.seconds = False, seconds
        words = [program_of(), "load", plan, image, "/dev/stdin"]
        try:
            # In a group of its own, so that Ctrl-C at a terminal does not end it.
            self.child = subprocess.Popen(words, stdin=-1, stdout=-1, bufsize=0, env=environment(), process_group=0)
        except OSError as fault:
            raise CubeError(f"{words[0]}: {fault.strerror}") from None
        for pipe in (self.child.stdin, self.child.stdout):
            os.set_blocking(pipe.fileno(), False)
        super().__init__("the program", self.child.stdin.fileno(), self.child.stdout.fileno())
        try:
            said = self.ask("told")
        except CubeError as fault:
            said = self.last_words() or f"{fault}".encode()
        if not said.startswith(b"{"):
            self.close()
            unread = f"{plan} or {image} cannot be read"
            raise CubeError(unread if self.child.returncode == 5 else f"{plan}, {image}: {said.decode()}")

    def last_words(self):
        """What the child said though it did not take a question."""
        try:
            return os.read(self.source, MOST_BYTES).strip()
        except BlockingIOError:
            return b""

    def ask(self, line):
        return self.exchange(question_of(line), time.monotonic() + self.seconds)

    def is_due(self):
        return self.due

    def note_due(self, due):
        self.due = due

    def ended(self):
        try:
            status = self.child.wait(2)
        except subprocess.TimeoutExpired:
            return CubeError("the program has closed its pipe")
        return CubeError("the program ended " + (f"with status {status}" if status >= 0 else f"by signal {-status}"))

    def close(self):
        """Ends the child: it finds the end of its script."""
        self.child.stdin.close()
        self.child.stdout.close()
        try:
            self.child.wait(2)
        except subprocess.TimeoutExpired:
            self.child.kill()
            self.child.wait()


def program_of(crate="cube_main"):
    try:
        return subprocess.run([f"{TOP}/tools/program_of", crate], stdout=-1, text=True, check=True).stdout.strip()
    except (OSError, subprocess.CalledProcessError):
        raise CubeError("tools/program_of found no program") from None


def environment():
    """What the program's C library is told."""
    with open(f"{TOP}/tools/glibc_tunables", encoding="utf-8") as it:
        return {"GLIBC_TUNABLES": it.read().strip(), **os.environ}


class SharedAsk(Pipes):
    """An ask of a live run, which its clients take in turn under the lock of a file."""

    def __init__(self, path, end):
        try:
            source = os.open(path + ".out", os.O_RDONLY | os.O_NONBLOCK | os.O_CLOEXEC)
            super().__init__(path, opened(path, end), source)
            self.lock = os.open(path + ".lock", os.O_RDWR | os.O_CREAT | os.O_CLOEXEC, 0o666)
        except OSError as fault:
            raise CubeError(f"{fault.filename}: {fault.strerror}") from None

    def take(self):
        """Whether the lock was free; it is this client's then."""
        try:
            fcntl.flock(self.lock, fcntl.LOCK_EX | fcntl.LOCK_NB)
        except BlockingIOError:
            return False
        return True

    def let_go(self):
        fcntl.flock(self.lock, fcntl.LOCK_UN)

    def is_due(self):
        return os.pread(self.lock, 1, 0)

    def note_due(self, due):
        if due:
            os.pwrite(self.lock, b"?", 0)
        else:
            os.ftruncate(self.lock, 0)

    def close(self):
        super().close()
        os.close(self.lock)


def opened(path, end):
    """A pipe opened for writing, once a run has it open for reading."""
    while True:
        try:
            return os.open(path, os.O_WRONLY | os.O_NONBLOCK | os.O_CLOEXEC)
        except OSError as fault:
            if fault.errno != errno.ENXIO:
                raise
        if time.monotonic() > end:
            raise CubeError(f"{path}: no run has it open")
        time.sleep(0.01)


class Ask:
    """One client of all asks of the live run in a folder. It is for one thread of one process; each other takes its
    own."""

    def __init__(self, folder, seconds=SECONDS, starting=2):
        """A reply may take so many seconds, and so many seconds from now on the run may still be opening its asks."""
        self.seconds, end = seconds, time.monotonic() + starting
        names = plan_in(os.path.join(folder, "plan.json")).get("asks")
        if not names:
            raise CubeError(f"{folder}/plan.json has no asks")
        self.asks = [SharedAsk(os.path.join(folder, name), end) for name in names]
        self.own = os.getpid() % len(self.asks)

    def ask(self, line):
        """The reply to a line, in bytes and without its line feed."""
        question, end = question_of(line), time.monotonic() + self.seconds
        ask = self.free(end)
        try:
            return ask.exchange(question, end)
        finally:
            ask.let_go()

    def free(self, end):
        """An ask that was free and is this client's now: its own, if that is free."""
        order, pause = self.asks[self.own :] + self.asks[: self.own], 0.0001
        while True:
            for ask in order:
                if ask.take():
                    return ask
            if time.monotonic() > end:
                raise CubeError("no ask of the run was free in time")
            time.sleep(pause)
            pause = min(2 * pause, 0.002)

    def close(self):
        for ask in self.asks:
            ask.close()
