"""Browsers that a test drives: Chromium by its debugging pipe, Firefox by its protocol Marionette."""

import base64
import json
import os
import shutil
import socket
import subprocess
import sys
import time

import pytest

from parties.places import late

# Starts a program with two descriptors as its third and fourth.
PIPED = """import fcntl, os, sys
read, write = (fcntl.fcntl(int(it), fcntl.F_DUPFD, 10) for it in sys.argv[1:3])
os.dup2(read, 3)
os.dup2(write, 4)
os.execv(sys.argv[3], sys.argv[3:])
"""
# How long a page may take to do what a test waits for, in seconds.
PATIENCE = late(60)


class Browser:
    """A browser without a window, with one page."""

    def evaluate(self, expression):
        """Returns the value of an expression of JavaScript in the page."""
        raise NotImplementedError

    def wait(self, expression):
        """Waits until an expression is true in the page."""
        end = time.monotonic() + PATIENCE
        while not self.evaluate(f"Boolean({expression})"):
            assert time.monotonic() < end, f"this never holds: {expression}"
            time.sleep(0.05)

    def text(self, name):
        """The text of an element, by its name."""
        return self.evaluate(f"document.getElementById({json.dumps(name)}).textContent")

    def enter(self, name, text):
        """Puts a text into a field, as somebody who types it."""
        self.evaluate(
            f"(() => {{ const it = document.getElementById({json.dumps(name)}); it.focus(); it.value = {json.dumps(text)};"
            " it.dispatchEvent(new Event('input', { bubbles: true })); })()"
        )

    def click(self, name):
        self.evaluate(f"document.getElementById({json.dumps(name)}).click()")


class Chromium(Browser):
    def __init__(self, program, folder):
        to_browser, self.out = os.pipe()
        self.inlet, from_browser = os.pipe()
        words = [program, "--headless", "--no-sandbox", "--disable-gpu", "--remote-debugging-pipe"]
        words += [f"--user-data-dir={folder}/chromium", "about:blank"]
        # The browser reads from descriptor 3 and writes to 4.
        words = [sys.executable, "-c", PIPED, str(to_browser), str(from_browser), *words]
        quiet = {"stdout": subprocess.DEVNULL, "stderr": subprocess.DEVNULL}
        self.process = subprocess.Popen(words, pass_fds=(to_browser, from_browser), **quiet)
        os.close(to_browser)
        os.close(from_browser)
        self.read, self.number, self.session = b"", 0, None

    def ask(self, method, **parameters):
        self.number += 1
        message = {"id": self.number, "method": method, "params": parameters}
        if self.session:
            message["sessionId"] = self.session
        os.write(self.out, json.dumps(message).encode() + b"\0")
        while True:
            while b"\0" not in self.read:
                read = os.read(self.inlet, 1 << 16)
                assert read, "Chromium has ended"
                self.read += read
            answer, _, self.read = self.read.partition(b"\0")
            answer = json.loads(answer)
            if answer.get("id") == self.number:
                assert "error" not in answer, answer
                return answer["result"]

    def open(self, address):
        self.session = None
        target = self.ask("Target.createTarget", url=address)["targetId"]
        self.session = self.ask("Target.attachToTarget", targetId=target, flatten=True)["sessionId"]

    def evaluate(self, expression):
        answer = self.ask("Runtime.evaluate", expression=expression, returnByValue=True, awaitPromise=True)
        assert "exceptionDetails" not in answer, answer
        return answer["result"].get("value")

    def save_picture(self, path, width, height):
        """Saves what a window of this size shows."""
        self.ask("Emulation.setDeviceMetricsOverride", width=width, height=height, deviceScaleFactor=1, mobile=False)
        picture = self.ask("Page.captureScreenshot", format="png")["data"]
        with open(path, "wb") as file:
            file.write(base64.b64decode(picture))

    def close(self):
        os.close(self.out)
        os.close(self.inlet)
        self.process.kill()
        self.process.wait()


class Firefox(Browser):
    def __init__(self, program, folder):
        profile = f"{folder}/firefox"
        os.makedirs(profile)
        with open(f"{profile}/user.js", "w", encoding="ascii") as file:
            file.write('user_pref("marionette.port", 0);\n')
        words = [program, "--headless", "--marionette", "--no-remote", "--profile", profile]
        quiet = {"stdout": subprocess.DEVNULL, "stderr": subprocess.DEVNULL}
        self.process = subprocess.Popen(words, env={**os.environ, "HOME": str(folder)}, **quiet)
        end = time.monotonic() + PATIENCE
        # Firefox writes the port that it has chosen to this file.
        while not (port := self.port_in(f"{profile}/MarionetteActivePort")):
            assert time.monotonic() < end and self.process.poll() is None, "Firefox does not listen"
            time.sleep(0.1)
        self.stream = socket.create_connection(("127.0.0.1", port)).makefile("rwb")
        self.number = 0
        self.receive()
        self.ask("WebDriver:NewSession")

    @staticmethod
    def port_in(path):
        try:
            with open(path, encoding="ascii") as file:
                return int(file.read() or 0)
        except FileNotFoundError:
            return 0

    def receive(self):
        digits = b""
        while (octet := self.stream.read(1)) != b":":
            assert octet, "Firefox has ended"
            digits += octet
        return json.loads(self.stream.read(int(digits)))

    def ask(self, command, **parameters):
        self.number += 1
        message = json.dumps([0, self.number, command, parameters]).encode()
        self.stream.write(b"%d:%s" % (len(message), message))
        self.stream.flush()
        _, _, fault, answer = self.receive()
        assert fault is None, fault
        return answer

    def open(self, address):
        # A new address behind `#` alone would not load the page anew.
        self.ask("WebDriver:Navigate", url="about:blank")
        self.ask("WebDriver:Navigate", url=address)

    def evaluate(self, expression):
        words = f"const done = arguments[0]; Promise.resolve({expression}).then(done)"
        return self.ask("WebDriver:ExecuteAsyncScript", script=words, args=[])["value"]

    def close(self):
        self.stream.close()
        self.process.kill()
        self.process.wait()


def started(kind, folder):
    """Starts a browser of this kind, or skips the test if there is none."""
    names = {Chromium: ("chromium", "chromium-browser", "google-chrome"), Firefox: ("firefox-esr", "firefox")}[kind]
    program = next(filter(None, map(shutil.which, names)), None)
    if program is None:
        pytest.skip(f"there is no {names[0]}")
    return kind(program, folder)
