"""What stands in for a kernel with an adapter, so that clients of BlueZ reach `gatt_shell serve` or `host`.

Each phone has two Unix sockets of sequenced packets: NAME.att, where each packet is one PDU of the
Attribute Protocol, and NAME.security, where a security level is asked for. bluetooth_socket.c joins
a client to them in place of the kernel's L2CAP socket.
"""

import contextlib
import os
import select
import socket
import subprocess
import threading
import time

from controller import Controller

HERE = os.path.dirname(os.path.realpath(__file__))
ROOT = os.path.dirname(HERE)
PATIENCE = 20


def compiled_socket(room):
    """Compiles what is preloaded into a client, into a folder."""
    path = f"{room}/bluetooth_socket.so"
    subprocess.run(["cc", "-shared", "-fPIC", "-O1", "-Wall", "-o", path, f"{HERE}/bluetooth_socket.c", "-ldl"], check=True)
    return path


class Kernel:
    """Serves a table to clients. A folder takes the sockets, and a file what passes."""

    def __init__(self, program, room, preload, table, keys, phones, recording, rows=None):
        self.room, self.preload, self.phones = room, preload, phones
        self.controller = Controller(program, os.path.join(ROOT, table), os.path.join(ROOT, keys), recording, rows)
        self.links = {}
        self.listening = []
        for name in phones:
            self.listen(name, "att", self.carry)
            self.listen(name, "security", self.secure)

    def listen(self, name, what, serve):
        path = f"{self.room}/{name}.{what}"
        if os.path.exists(path):
            os.unlink(path)
        listening = socket.socket(socket.AF_UNIX, socket.SOCK_SEQPACKET)
        listening.bind(path)
        listening.listen(4)
        self.listening.append(listening)

        def accept():
            while True:
                try:
                    client = listening.accept()[0]
                except OSError:
                    return
                serve(name, client)

        threading.Thread(target=accept, daemon=True).start()

    def carry(self, name, client):
        """Carries PDUs both ways until one side ends the connection."""
        link = self.links[name] = self.controller.connect(self.phones[name])

        def downwards():
            while (payload := link.heard.get()) is not None:
                try:
                    client.send(payload)
                except OSError:
                    return
            with contextlib.suppress(OSError):
                client.shutdown(socket.SHUT_RDWR)

        threading.Thread(target=downwards, daemon=True).start()
        while payload := self.received(client):
            link.send(payload)
        link.drop()
        del self.links[name]
        client.close()

    @staticmethod
    def received(client):
        try:
            return client.recv(1024)
        except OSError:
            return b""

    def secure(self, name, client):
        """Encrypts the connection that the client has just made, and tells what that is worth."""
        with client:
            wanted = self.received(client)
            self.wait(lambda: name in self.links)
            link = self.links.get(name)
            is_encrypted = bool(wanted and link and link.encrypt())
            client.send(bytes((self.phones[name].level if is_encrypted else 1,)))

    @staticmethod
    def wait(condition):
        until = time.monotonic() + PATIENCE
        while not condition() and time.monotonic() < until:
            time.sleep(0.005)

    def started(self, name, words):
        """Starts a client as the phone of this name, once an earlier connection of it has gone."""
        self.wait(lambda: name not in self.links)
        here = dict(os.environ, LD_PRELOAD=self.preload, INTEROP_PHONE=f"{self.room}/{name}", LC_ALL="C")
        return subprocess.Popen(words, env=here, stdin=subprocess.PIPE, stdout=subprocess.PIPE, stderr=subprocess.STDOUT)

    def run(self, name, words):
        """Runs a client to its end, and returns what it prints."""
        client = self.started(name, words)
        try:
            printed = client.communicate(timeout=PATIENCE)[0]
        except subprocess.TimeoutExpired:
            client.kill()
            printed = client.communicate()[0] + b"\n(it does not end)"
        return printed.decode(errors="replace")

    def close(self):
        for listening in self.listening:
            listening.shutdown(socket.SHUT_RDWR)
            listening.close()
        return self.controller.close()


class Session:
    """A client that reads lines, and prints on and on."""

    def __init__(self, kernel, name, words):
        self.kernel, self.name = kernel, name
        self.client = kernel.started(name, words)
        self.printed = b""

    def until(self, text, timeout=PATIENCE):
        """Returns what is printed up to a text and the rest of its line, or all there is in the time."""
        end = time.monotonic() + timeout
        output = self.client.stdout.fileno()
        while True:
            at = self.printed.find(text.encode())
            stop = self.printed.find(b"\n", at) if at >= 0 else -1
            if stop >= 0:
                part, self.printed = self.printed[:stop], self.printed[stop + 1 :]
                return part.decode(errors="replace")
            left = end - time.monotonic()
            if left <= 0 or not select.select([output], [], [], left)[0]:
                break
            more = os.read(output, 65536)
            if not more:
                break
            self.printed += more
        part, self.printed = self.printed, b""
        return part.decode(errors="replace") + f"\n(no '{text}')"

    def say(self, line, text, timeout=PATIENCE):
        """Gives the client a line, and returns what it prints up to a text."""
        self.client.stdin.write(line.encode() + b"\n")
        self.client.stdin.flush()
        return self.until(text, timeout)

    def close(self):
        self.client.terminate()
        self.client.communicate()
        self.kernel.wait(lambda: self.name not in self.kernel.links)
