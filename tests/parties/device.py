"""The program as it runs as a device, with its log."""

import os
import select
import signal
import subprocess
import threading
import time

from parties.places import PATIENCE, PROGRAM


class Device:
    """The program as it runs, with its log."""

    started = []

    def __init__(self, *words, through=()):
        """The words of the command, and those of a program that runs it, if one does."""
        words = [*through, PROGRAM, "host", *words]
        self.process = subprocess.Popen(words, stderr=subprocess.PIPE)
        Device.started.append(self.process)
        # The lines of standard error as they are, and without their first word, which is the time.
        self.lines = []
        self.log = []
        self.begun = b""
        self.is_over = False
        self.changed = threading.Condition()
        threading.Thread(target=self.read, daemon=True).start()

    def read(self):
        while not self.is_over:
            select.select([self.process.stderr], [], [])
            with self.changed:
                self.take()
        self.process.stderr.close()

    def take(self):
        """Takes what the program has written by now."""
        while not self.is_over and select.select([self.process.stderr], [], [], 0)[0]:
            octets = os.read(self.process.stderr.fileno(), 65_536)
            *lines, self.begun = (self.begun + octets).split(b"\n")
            if not octets:
                self.is_over = True
                lines = [self.begun] if self.begun else []
            texts = [it.decode() for it in lines]
            self.lines += texts
            self.log += [it.split(" ", 1)[-1] for it in texts]
            self.changed.notify_all()

    def said(self, begin, count=1):
        """What the line of the log says that begins so, once there are as many."""
        end = time.monotonic() + PATIENCE
        with self.changed:
            while time.monotonic() < end:
                found = [it for it in self.log if it.startswith(begin)]
                if len(found) >= count:
                    return found[count - 1][len(begin):]
                if self.is_over:
                    break
                self.changed.wait(0.1)
        raise TimeoutError(f"the log has no {begin!r}: {self.log[-8:]}")

    def logged(self, *begins):
        """The lines of the log that begin so, as they are now."""
        with self.changed:
            self.take()
            return [it for it in self.log if it.startswith(begins)]

    def port(self):
        self.said("ready")
        host, port = self.said("listening for a controller: ").rsplit(":", 1)
        return host, int(port)

    def end(self, how=signal.SIGKILL):
        self.process.send_signal(how)
        return self.process.wait(PATIENCE)

    def refusal(self):
        """The status of a device that does not start, and what it says."""
        status = self.process.wait(PATIENCE)
        with self.changed:
            self.changed.wait_for(lambda: self.is_over, PATIENCE)
            return status, "\n".join(self.lines)


def end_all(since=0):
    """Ends what runs still of the programs that were started, but for so many of the first."""
    for process in Device.started[since:]:
        if process.poll() is None:
            process.kill()
            process.wait(PATIENCE)
