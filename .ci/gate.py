"""The merge gate: every proof, the must-fail edits, and all tests.

Proofs and edits are made anew only where something has changed since a gate on this machine passed. Then
the tests in Python are played by the proved program, while the library for C is proved; by the program as
tools/unproved compiles it, under AddressSanitizer; and over the proved library, with what is C and Rust,
as far as the machine has compilers. Both are proved for aarch64 too, if it has an emulator.

Tests that fail side by side are played once more at the end, one after the other: many wait for a time
that a busy machine does not keep. The gate names those that passed only then.

A line is printed for each part as it ends, and a table of all parts at the end. After the table stands
what failed.
"""

import glob
import os
import re
import shutil
import subprocess
import sys
import threading
import time

ROOT = os.path.dirname(os.path.dirname(os.path.realpath(__file__)))
sys.path.insert(0, f"{ROOT}/tools")
import verdicts  # noqa: E402

PROGRAM = "crates/gatt_shell/out/gatt_shell"
UNPROVED = "crates/gatt_shell/out/unproved/gatt_shell"
ARCHIVE = "crates/gihandop_c/out/libgihandop_c.a"
REFUSED = "crates/refused_memory/out/refused_memory"
PAGE = "crates/playground/out/page.html"
AARCH64 = "aarch64-unknown-linux-gnu"
# The tests wait most of the time.
TESTS = ["tests/pytest", "-q", "-r", "fEs", "-n", str(3 * len(os.sched_getaffinity(0)))]
# The tests of what is made of the library for C, and of what is installed.
ARCHIVED = [f"test_{it}.py" for it in ("c_*", "install", "packages", "release", "rust*", "uninstall")]
EMULATED = "test_aarch64.py"
PAGED = "test_page.py"
NARROW = ("test_mcu.py", "test_firmware.py")
OTHERS = [f"--ignore-glob=*/{it}" for it in (*ARCHIVED, EMULATED, PAGED, *NARROW)]
# Those that need nothing that is proved.
FIRST = [f"tests/test_{it}.py" for it in ("claims", "launcher", "limits_page", "links", "pages", "traces", "unproved")]
# rt ci only notes an edit that does not apply or compile. It shows nothing.
BAD = re.compile(r"BAD EDIT|^FAILED|^failed:|^ERROR|^note: .* is not proved", re.MULTILINE)
# What a check takes at most, in bytes: 3.4 GB were seen, of device_session. The kit reckons with several times as much
# and proves no more than two large crates side by side, whatever the machine has.
MOST_OF_A_CHECK = 5 * 10**9
# The files with the limit of memory of a control group and with what it holds, in its two versions.
GROUPS = (
    ("/sys/fs/cgroup/memory.max", "/sys/fs/cgroup/memory.current"),
    ("/sys/fs/cgroup/memory/memory.limit_in_bytes", "/sys/fs/cgroup/memory/memory.usage_in_bytes"),
)
# If more tests of a part fail, the machine is not the reason.
MOST_AGAIN = 9
# What a part that passed prints of itself.
SHOWN = re.compile(r"^(?:SKIPPED .*|\d+ checks held|\d+ passed.*|rt: ok.*|.*skipped: .*)$", re.MULTILINE)


class Part:
    """A part of the gate, which runs commands one after the other until one fails."""

    ended = []
    printing = threading.Lock()

    def __init__(self, name, *commands, is_live=False, unless=None, **variables):
        """`is_live` prints the output as it comes. `unless` is a status for which the part is skipped."""
        self.name, self.commands, self.is_live, self.unless = name, commands, is_live, unless
        self.variables = {name: f"{ROOT}/{path}" for name, path in variables.items()}
        self.output, self.result, self.seconds, self.failed = "", "passed", 0, None
        self.thread = threading.Thread(target=self.run)

    def start(self):
        self.thread.start()
        return self

    def run(self):
        begun = time.monotonic()
        for words in self.commands:
            status = self.run_one(words)
            if status == self.unless:
                self.result = "skipped"
                break
            if status or (self.is_live and "BAD EDIT" in self.output):
                self.result, self.failed = "failed", words
                self.output += f"status {status} of {' '.join(words)}\n"
                break
        self.seconds = time.monotonic() - begun
        with Part.printing:
            Part.ended.append(self)
            if not self.is_live:
                print(self.output if self.result == "failed" else "\n".join(SHOWN.findall(self.output)))
            print(f"== {self.name}: {self.result} in {self.seconds:.0f} s", flush=True)

    def run_one(self, words):
        """Runs a command, and returns its status."""
        env = {**os.environ, **self.variables}
        pipe = {"stdin": subprocess.DEVNULL, "stdout": subprocess.PIPE, "stderr": subprocess.STDOUT}
        with subprocess.Popen(words, cwd=ROOT, env=env, text=True, errors="replace", **pipe) as command:
            for line in command.stdout:
                self.output += line
                if self.is_live:
                    print(line, end="", flush=True)
        return command.returncode

    def play_again(self):
        """Plays the tests that failed once more, one after the other and beside nothing."""
        names = list(dict.fromkeys(re.findall(r"(?m)^(?:FAILED|ERROR) (tests/[^\s[]+(?:\[.*?\])?)(?: - |$)", self.output)))
        if not self.failed or self.failed[0] != TESTS[0] or not 0 < len(names) <= MOST_AGAIN:
            return
        status = self.run_one([TESTS[0], "-q", "-r", "fEs", *names])
        if not status:
            self.result = "passed"
        print(*(f"{'failed again' if status else 'passed only alone'}: {it}" for it in names), sep="\n", flush=True)

    def has_passed(self):
        """Runs this part to its end. Returns whether nothing failed so far."""
        self.start()
        self.thread.join()
        return not any(it.result == "failed" for it in Part.ended)


def free_memory():
    """Returns the free memory in bytes, also by the limit of a control group."""
    with open("/proc/meminfo", encoding="utf-8") as file:
        found = [1024 * int(re.search(r"MemAvailable:\s+(\d+)", file.read())[1])]
    for limit, held in GROUPS:
        try:
            with open(limit, encoding="utf-8") as most, open(held, encoding="utf-8") as now:
                found.append(int(most.read()) - int(now.read()))
        except (OSError, ValueError):
            pass  # There is no such group, or its limit is `max`.
    return min(found)


def side_by_side():
    """Returns the variable with the number of crates that rt ci proves side by side, or none if memory is short."""
    number = min(len(os.sched_getaffinity(0)), free_memory() // MOST_OF_A_CHECK)
    return {"RT_JOBS": str(number)} if number > 1 and "RT_JOBS" not in os.environ else {}


def play():
    """Runs the parts. Those that begin once all is proved run side by side."""
    if not Part("documents", [*TESTS, *FIRST]).has_passed():
        return
    gate, proofs = verdicts.Gate(), Part("proofs and edits", ["rt", "ci"], is_live=True, **side_by_side())
    if not proofs.has_passed():
        return
    if why := gate.note(proofs.output):
        print(f"note: gatt_shell has no note of what it was proved from: {why}: `tools/prove --over-gate gatt_shell` proves it again", flush=True)
    # The launcher notes what the program was proved from: a copy of this checkout is then not proved again.
    if not Part("launcher", ["./gatt_shell", "--version"]).has_passed():
        return
    archived = sorted(it for name in ARCHIVED for it in glob.glob(f"tests/{name}", root_dir=ROOT))
    words = [*TESTS, *OTHERS, *(f"--ignore={it}" for it in FIRST)]
    tests = Part("tests", words, GATT_SHELL=PROGRAM, REFUSED_MEMORY=REFUSED).start()
    compiled = Part("program without proofs", ["nice", "-n", "10", "tools/unproved"], unless=69).start()
    archive = Part(
        "C and Rust", ["nice", "-n", "10", "tools/prove", "--over-gate", "gihandop_c"], [*TESTS, *archived],
        GATT_SHELL=PROGRAM, GIHANDOP_ARCHIVE=ARCHIVE,
    ).start()
    page = Part(
        "page in a browser", ["nice", "-n", "10", "tools/page", PAGE], [*TESTS, f"tests/{PAGED}"], unless=69,
        GATT_SHELL=PROGRAM, GIHANDOP_PAGE=PAGE,
    ).start()
    tests.thread.join()
    compiled.thread.join()
    if compiled.result == "passed":
        Part("tests without proofs", [*words, "-m", "not without_program"], GATT_SHELL=UNPROVED).has_passed()
    archive.thread.join()
    page.thread.join()
    if shutil.which("aarch64-linux-gnu-gcc") and shutil.which("qemu-aarch64"):
        prove = ["tools/prove", "--over-gate", "--target", AARCH64]
        play_emulated = [*TESTS, f"tests/{EMULATED}", *archived, "-k", "aarch64"]
        Part(
            "aarch64", [*prove, "gihandop_c"], [*prove, "gatt_shell"], play_emulated,
            GATT_SHELL=PROGRAM, GIHANDOP_ARCHIVE=ARCHIVE,
        ).has_passed()
    if shutil.which("arm-none-eabi-gcc"):
        Part("microcontroller", [*TESTS, *(f"tests/{it}" for it in NARROW)], GATT_SHELL=PROGRAM).has_passed()
    for part in Part.ended:
        part.play_again()


def main():
    if shutil.which("rt") is None:
        print(".ci/run: Rattle's command rt is not on PATH", file=sys.stderr)
        return 69
    with open(f"{ROOT}/README.md", encoding="utf-8") as file:
        readme, kit = file.read(), subprocess.run(["rt", "version"], capture_output=True, text=True).stdout.split()
    if not {kit[0], kit[-1]} <= set(re.findall(r"[\w-]+", readme)):
        print(f"note: README names another kit than this one, {' '.join(kit)}", file=sys.stderr)
    begun = time.monotonic()
    play()
    width = max(len(it.name) for it in Part.ended)
    print(f"\n{'part':{width}}  seconds")
    for it in Part.ended:
        print(f"{it.name:{width}}  {it.seconds:7.0f}  {it.result}")
    print(f"{'all':{width}}  {time.monotonic() - begun:7.0f}")
    failed = [it for it in Part.ended if it.result == "failed"]
    for it in failed:
        print(f"\nfailed: {it.name}")
        print("\n".join(line for line in it.output.splitlines() if BAD.search(line)) or it.output[-2_000:])
    return 1 if failed else 0


if __name__ == "__main__":
    sys.exit(main())
