"""A shell at a terminal of its own, for the scripts that try ./shell.

    terminal = Terminal(["./shell", "examples/city"], folder=TOP)
    terminal.said                                        # what it said before its first prompt
    terminal.ask("count")                                # what it shows for a line, up to the next prompt
    terminal.quit()                                      # its status"""
import os
import pty
import select
import time

PROMPT = "nanocube> "
# The seconds in which the prompt has to come back.
SECONDS = 60


class Terminal:
    """A process at a terminal, which has no home folder unless one is given."""

    def __init__(self, words, folder=".", **others):
        self.pid, self.end = pty.fork()
        if self.pid == 0:
            os.chdir(folder)
            os.execve(words[0], words, {**os.environ, "TERM": "dumb", "HOME": "", "COLUMNS": "80", "LINES": "18",
                                        **others})
        self.said = self.until_prompt()

    def until_prompt(self):
        """What comes up to the next prompt, which has to come in time. It begins a line, where a line drawn anew does not."""
        return self.until("\n" + PROMPT)[: -len(PROMPT)]

    def until(self, ending):
        """What comes up to this text, which has to come in time. What comes first begins a line."""
        found, end = b"", time.monotonic() + SECONDS
        while not (b"\n" + found).endswith(ending.encode()):
            if not select.select([self.end], [], [], max(0, end - time.monotonic()))[0]:
                raise AssertionError(f"no {ending!r} came after {found[-200:]!r}")
            try:
                found += os.read(self.end, 65536)
            except OSError:
                raise AssertionError(f"it ended after {found[-200:]!r}") from None
        return found.decode().replace("\r", "")

    def type(self, keys):
        os.write(self.end, keys.encode())

    def ask(self, line):
        """What is shown for a line, the line itself left out."""
        self.type(line + "\n")
        return self.until_prompt().partition("\n")[2]

    def quit(self):
        """Ends the shell at its prompt by Ctrl-D, and returns its status."""
        self.type("\x04")
        try:
            while os.read(self.end, 65536):
                pass
        except OSError:
            pass
        os.close(self.end)
        return os.waitstatus_to_exitcode(os.waitpid(self.pid, 0)[1])
