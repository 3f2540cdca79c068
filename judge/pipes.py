"""A run of the program over pipes, for the scripts beside this one, of bench/ and of tools/.

Usage: from pipes import Run, Replies. It measures and prints nothing by itself. What imports it runs all programs,
peers too, with what `./nanocube` tells the C library.

The program opens its feeds in order and reads the header of each before it opens the next, then the asks, then the
finals, and then creates the outputs of the asks. `Run` opens the other ends in that order, and gives each opening and
the whole run a time limit, at which the program that was started here is killed and what its threads waited in is
told."""
import errno
import json
import os
import select
import shutil
import subprocess
import tempfile
import threading
import time

with open(os.path.join(os.path.dirname(os.path.realpath(__file__)), "../tools/glibc_tunables"), encoding="utf-8") as it:
    os.environ.setdefault("GLIBC_TUNABLES", it.read().strip())


class Stuck(Exception):
    """A run or a reply that did not come within its limit."""


def plan_of(feeds, asks, batch, depth, categories, width=1, start=0, finals=()):
    return {
        "asks": [f"ask{a}.txt" for a in range(asks)],
        "batch": batch,
        "categories": [{"name": name, "values": values} for name, values in categories],
        "depth": depth,
        "feeds": [f"feed{f}.csv" for f in range(feeds)],
        "finals": list(finals),
        "journal": "journal.txt",
        "start": start,
        "version": 1,
        "width": width,
    }


def waits_of(pid):
    """What each thread of the process waits in: the thread's state and the function of the kernel, as /proc tells."""
    told = []
    for task in sorted(os.listdir(f"/proc/{pid}/task"), key=int):
        state = open(f"/proc/{pid}/task/{task}/stat").read().rsplit(")", 1)[1].split()[0]
        told.append(f"{task}:{state}:{open(f'/proc/{pid}/task/{task}/wchan').read()}")
    return " ".join(told)


class Run:
    """A run of a plan in a folder of its own, whose feeds and asks are pipes, and the outputs of the asks too. `piped`
    names the pipes where they are others, and `call` is the form of the program with its words."""

    def __init__(self, program, plan, limit, finals=(), words=(), piped=None, call=("run", "plan.json")):
        self.folder = tempfile.mkdtemp(prefix="pipes-")
        self.end, self.stuck, self.plan, self.most = time.monotonic() + limit, None, plan, 0.0
        outputs = [ask + ".out" for ask in plan["asks"]]
        for name in plan["feeds"] + plan["asks"] + outputs if piped is None else piped:
            os.mkfifo(self.path(name))
        for name, text in [*finals, ("plan.json", json.dumps(plan))]:
            with open(self.path(name), "w") as it:
                it.write(text)
        self.report = open(self.path("report.txt"), "w+b")
        self.began = time.monotonic()
        self.child = subprocess.Popen(
            [*words, program, *call], cwd=self.folder, stdin=subprocess.DEVNULL, stdout=self.report
        )
        self.watch = threading.Timer(limit, self.give_up)
        self.watch.daemon = True
        self.watch.start()

    def __enter__(self):
        return self

    def __exit__(self, *fault):
        self.close()

    def path(self, name):
        return os.path.join(self.folder, name)

    def give_up(self):
        """Ends the run at its limit. The writers and readers here then meet closed pipes."""
        try:
            self.stuck = waits_of(self.child.pid)
        except OSError as fault:
            self.stuck = str(fault)
        self.child.kill()

    def open_to_write(self, name):
        """The writing end of a pipe, once the program has opened or is opening it."""
        while True:
            try:
                fd = os.open(self.path(name), os.O_WRONLY | os.O_NONBLOCK)
                os.set_blocking(fd, True)
                return fd
            except OSError as fault:
                if fault.errno != errno.ENXIO:
                    raise
            if (
                self.stuck is not None
                or time.monotonic() > self.end
                or os.waitid(os.P_PID, self.child.pid, os.WEXITED | os.WNOHANG | os.WNOWAIT)
            ):
                raise Stuck(f"{name} is not opened: {self.stuck}")
            time.sleep(0.0002)

    def open_all(self, header):
        """Opens what the run opens, in its order. The ends to write of feeds, after their headers, and of asks, and the
        replies."""
        replies = [Replies(self.path(ask + ".out"), self.end) for ask in self.plan["asks"]]
        feeds = []
        for name in self.plan["feeds"]:
            feeds.append(self.open_to_write(name))
            os.write(feeds[-1], header)
        return feeds, [self.open_to_write(name) for name in self.plan["asks"]], replies

    def processors(self):
        """The processor seconds that the program took so far, in all its threads."""
        return time.clock_gettime((~self.child.pid << 3) | 2)

    def note_memory(self):
        """Notes the most memory so far, as /proc tells. What wait4 tells begins with the memory of this script."""
        try:
            for line in open(f"/proc/{self.child.pid}/status"):
                if line.startswith("VmHWM:"):
                    self.most = int(line.split()[1]) / 1024
        except OSError:
            pass

    def wait(self):
        """The status, the report, the seconds since the start, those of the processors, and the most memory in MB."""
        while os.waitid(os.P_PID, self.child.pid, os.WEXITED | os.WNOHANG | os.WNOWAIT) is None:
            self.note_memory()
            time.sleep(0.001)
        seconds = time.monotonic() - self.began
        _, status, usage = os.wait4(self.child.pid, 0)
        self.child.returncode = os.waitstatus_to_exitcode(status)
        self.watch.cancel()
        if self.stuck is not None:
            raise Stuck(f"the run did not end: {self.stuck}")
        self.report.seek(0)
        return self.child.returncode, self.report.read().decode(), seconds, usage.ru_utime + usage.ru_stime, self.most

    def close(self):
        """Ends the program, where it goes on, and takes the folder away."""
        self.watch.cancel()
        if self.child.returncode is None:
            self.child.kill()
            self.child.wait()
        self.report.close()
        shutil.rmtree(self.folder, ignore_errors=True)


class Replies:
    """The lines of a pipe that the program writes, each within the limit. It may be opened before the program opens
    it."""

    def __init__(self, path, end):
        self.fd, self.end = os.open(path, os.O_RDONLY | os.O_NONBLOCK), end
        self.poll = select.poll()
        self.poll.register(self.fd, select.POLLIN)
        self.held, self.lines, self.at = b"", [], 0

    def more(self):
        """Reads what there is, and waits for it. False at the end."""
        for _, event in self.poll.poll(max(0, self.end - time.monotonic()) * 1000) or [(0, 0)]:
            if not event:
                raise Stuck("a reply did not come")
            part = os.read(self.fd, 1 << 16) if event & select.POLLIN else b""
            *self.lines, self.held = (self.held + part).split(b"\n")
            self.at = 0
            return bool(part)

    def next(self):
        """The next line, or none at the end."""
        while self.at == len(self.lines):
            if not self.more():
                return None
        self.at += 1
        return self.lines[self.at - 1]

    def close(self):
        os.close(self.fd)


def write_all(fd, data):
    """Writes all of it, which a reader that has gone ends by an OSError."""
    view = memoryview(data)
    while view:
        view = view[os.write(fd, view) :]
