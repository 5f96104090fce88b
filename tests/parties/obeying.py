"""A host in C, by the lines of tests/c/obey.c."""

import subprocess

from parties.device import Device
from parties.places import ROOT


class Host:
    """A host. `status` is that of the last line, `sent` and `notices` what came since they were emptied."""

    def __init__(self, obey, table, keys, following=None):
        words = [*obey, table, keys] + ([following] if following else [])
        pipe = subprocess.PIPE
        self.running = subprocess.Popen(words, cwd=ROOT, stdin=pipe, stdout=pipe, text=True)
        Device.started.append(self.running)
        self.sent, self.notices, self.status = [], [], 0
        self.read()

    def ask(self, line):
        """Has a line done, and returns what else is printed than statuses, notices and packets."""
        self.running.stdin.write(f"{line}\n")
        self.running.stdin.flush()
        return self.read()

    def take(self, octets):
        self.ask(f"take {octets.hex()}")

    def read(self):
        self.status, others = 0, []
        for line in self.running.stdout:
            word, _, rest = line.rstrip("\n").partition(" ")
            if word == ".":
                return others
            if word == "status":
                self.status = int(rest)
            elif word == "+":
                self.notices.append(f"+ {rest}")
            elif word == ">":
                self.sent.append(bytes.fromhex(rest))
            else:
                others.append(line)
        raise AssertionError(f"{self.running.args} ends with {self.running.wait()}")

    def close(self):
        """Ends the program, which fails where a check of it did."""
        self.running.stdin.close()
        assert self.running.wait() == 0, f"{self.running.args} ends with {self.running.returncode}"
        self.running.stdout.close()
