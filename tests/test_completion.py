"""Compares the completions of bash, zsh and fish with the help of each command of gatt_shell and gihandop-keys.

A completion has to offer the commands and the options that the help lists, and no other. After an option whose
value is a file or a folder it has to offer these, and nothing after another option with a value. After
`tell SOCKET` it has to offer the commands that docs/DEVICE.md lists. At a terminal, each shell has to complete a
word by it.
"""

import argparse
import os
import pty
import re
import select
import shutil
import signal
import subprocess
import time

import pytest

from parties import PATIENCE, PROGRAM, ROOT, text_of
from parties.key_tool import KEYS

PLACE = f"{ROOT}/completions"
SHELLS = ["bash", "zsh", "fish"]
CONTROLLERS = "/sys/class/bluetooth"
# The commands of the program, besides `help`.
COMMANDS = ["att", "show", "check", "may", "compare", "expect", "run", "words", "serve", "host", "tell"]
# What a completion leaves to the shell, by the name that the help has for a value.
OFFERED = {"FILE": ["default"], "PATH": ["default"], "DIR": ["dirnames"], "KEYS": ["default"], "INFO": ["default"]}
# The arguments that are files.
FILES = {"TABLE", "KEYS", "SCRIPT", "SOCKET"}
# Has a function of the completion of bash offer words, which it prints, as it does the options that it sets.
BASH = f"""
    compopt() {{ shift; printf '%s\\n' "$@"; }}
    source {PLACE}/gatt_shell.bash
    COMP_WORDS=("$@") COMP_CWORD=$(($# - 1))
    _${{1//-/_}} "$1" "$word" "$before"
    printf '%s\\n' "${{COMPREPLY[@]}}"
"""
# The same for zsh, of which a completion is a file. What it has in place of compadd offers all words.
ZSH = f"""
    setopt no_unset
    compadd() {{ shift; print -rl -- "$@"; }}
    compset() {{ [[ $* == '-P *=' ]]; }}
    _files() {{ [[ $* == -/ ]] && print dirnames || print default; }}
    words=("$@") CURRENT=$# service=$1
    source {PLACE}/_gatt_shell
"""


@pytest.fixture(params=SHELLS)
def shell(request):
    """A shell that there is here."""
    if not shutil.which(request.param):
        pytest.skip(f"there is no {request.param} here")
    return request.param


@pytest.fixture
def offers(shell, folder):
    """What returns the words that a completion offers for the last word, and what it leaves to the shell."""
    how = {"stdin": subprocess.DEVNULL, "capture_output": True, "text": True, "cwd": folder}
    open(f"{folder}/x-file", "w", encoding="utf-8").close()
    os.mkdir(f"{folder}/x-folder")

    def printed(words, more=None):
        ran = subprocess.run(words, env={**os.environ, **(more or {})}, **how)
        assert (ran.returncode, ran.stderr) == (0, ""), f"{' '.join(words[-3:])}: is offered"
        return ran.stdout.split("\n")[:-1]

    def offers_of(*words):
        if shell == "bash":
            *_, before, word = words
            return [it for it in printed(["bash", "-uc", BASH, "bash", *words], {"word": word, "before": before}) if it]
        # `--rows`, `=` and `x` are one word.
        words = re.sub(r" = ?([^ ]*)$", r"=\1", " ".join(words)).split(" ")
        if shell == "zsh":
            found = printed(["zsh", "-fc", ZSH, "zsh", *words])
            word = words[-1].partition("=")[2] if "=" in words[-1] else words[-1]
            return [it for it in found if it and (it.startswith(word) or it in ("default", "dirnames"))]
        sources = "".join(f"source {PLACE}/{it}.fish; " for it in ("gatt_shell", "hci_bridge", "gihandop-keys"))
        found = printed(["fish", "--no-config", "-c", f"{sources}complete -C $argv[1]", " ".join(words)])
        # A description may follow a tab, and the value the option.
        found = [it.partition("\t")[0] for it in found]
        found = [it.partition("=")[2] or it for it in found]
        if "x-folder/" in found:
            return ["default" if "x-file" in found else "dirnames"]
        return found

    return offers_of


def all_offers(shell, offers, *words):
    """Returns what is offered for a first word: fish offers options only after a `-`."""
    return sorted(offers(*words, "") + (offers(*words, "-") if shell == "fish" else []))


def help_of(*words):
    ran = subprocess.run([PROGRAM, *words, "--help"], capture_output=True, text=True, check=True)
    return ran.stdout


def commands_of(text):
    return re.findall(r"(?m)^  (\w+)  +\w", text.partition("Commands:")[2].partition("Options:")[0])


def options_of(text):
    """Returns the long options of a help text, each with the name of its value."""
    listed = text.partition("Options:")[2]
    return dict(re.findall(r"(?m)^ +(?:-\w, )?(--[\w-]+)(?: <(\w+)>)?(?:$|  )", listed))


def lines_of_application():
    """Returns the commands that docs/DEVICE.md lists for an application."""
    table = re.search(r"(?ms)^\| Line \| .*?\n\n", text_of(f"{ROOT}/docs/DEVICE.md"))[0]
    return set(re.findall(r"`([a-z]+)[^`]*`", "".join(re.findall(r"(?m)^\| ([^|]*) \|", table))))


def controllers():
    """Returns the controllers of this machine."""
    there = os.listdir(CONTROLLERS) if os.path.isdir(CONTROLLERS) else []
    return sorted(it for it in there if ":" not in it)


def test_commands(shell, offers):
    """A completion offers the commands and options of the help, also after `help`."""
    about = help_of()
    commands = commands_of(about)
    assert sorted(commands) == sorted([*COMMANDS, "help"]), "the commands that are tried"
    assert all_offers(shell, offers, "gatt_shell") == sorted([*commands, *options_of(about)]), "gatt_shell"
    assert sorted(offers("gatt_shell", "help", "")) == sorted(commands), "gatt_shell help"
    assert sorted(offers("gatt_shell", "s")) == ["serve", "show"], "gatt_shell s"
    assert offers("gatt_shell", "other", "-") == [], "gatt_shell other"


@pytest.mark.parametrize("command", COMMANDS)
def test_a_command(offers, command):
    """A completion offers the options of a command, their values, and its arguments that are files."""
    text = help_of(command)
    options = options_of(text)
    assert sorted(offers("gatt_shell", command, "-")) == sorted(options), "-"
    for option, value in options.items():
        if value:
            wanted = OFFERED.get(value, [])
            assert offers("gatt_shell", command, option, "") == wanted, option
            assert offers("gatt_shell", command, option, "=") == wanted, f"{option}="
            assert offers("gatt_shell", command, option, "=", "x") == wanted, f"{option}=x"
    arguments = re.findall(r"(?m)^  [<[](\w+)[]>]$", text)
    for at, name in enumerate(arguments, 2):
        if name in FILES:
            assert offers("gatt_shell", command, *"x" * (at - 2), "") == ["default"], name
    if not arguments:
        assert offers("gatt_shell", command, "") == [], "no arguments"


def test_lines_of_application(offers):
    """After `tell SOCKET` a completion offers what an application may say."""
    found = offers("gatt_shell", "tell", "door.socket", "")
    assert sorted(found) == sorted(lines_of_application()), "gatt_shell tell SOCKET"


def test_bridge(offers):
    """The completion of hci_bridge offers the controllers of this machine, and then a path."""
    there = controllers()
    assert sorted(offers("hci_bridge", "")) == sorted(["--down", *there]), "hci_bridge"
    assert sorted(offers("hci_bridge", "--down", "")) == there, "hci_bridge --down"
    assert offers("hci_bridge", "--down", "hci0", "") == ["default"], "hci_bridge hci0"


KEY_COMMANDS = next(it for it in KEYS.parser()._actions if isinstance(it, argparse._SubParsersAction)).choices


def test_key_commands(shell, offers):
    """The completion of gihandop-keys offers the commands of its help."""
    assert all_offers(shell, offers, "gihandop-keys") == sorted([*KEY_COMMANDS, "--help"]), "gihandop-keys"


@pytest.mark.parametrize("command", KEY_COMMANDS)
def test_a_key_command(offers, command):
    """The completion of gihandop-keys offers the options of a command, their values, and its arguments."""
    actions = KEY_COMMANDS[command]._actions
    options = [it for it in actions if it.option_strings]
    assert sorted(offers("gihandop-keys", command, "-")) == sorted(it.option_strings[-1] for it in options), "-"
    for it in options:
        if it.nargs != 0:
            wanted = sorted(it.choices or OFFERED.get(it.metavar, []))
            assert sorted(offers("gihandop-keys", command, it.option_strings[-1], "")) == wanted, it.option_strings
    for at, it in enumerate(it for it in actions if not it.option_strings):
        wanted = sorted(it.choices or OFFERED.get(it.metavar, []))
        assert sorted(offers("gihandop-keys", command, *["x"] * at, "")) == wanted, it.metavar


class Terminal:
    """A shell at a terminal, in a folder, and what it prints without what moves the cursor."""

    def __init__(self, words, folder):
        self.printed = b""
        self.process, self.descriptor = pty.fork()
        if not self.process:
            try:
                os.chdir(folder)
                os.environ.update(TERM="dumb", HOME=folder, XDG_CONFIG_HOME=folder, XDG_DATA_HOME=folder)
                # fish loads completions only of a command that is there.
                os.environ["PATH"] = f"{folder}/bin:{os.environ['PATH']}"
                os.execvp(words[0], words)
            finally:
                os._exit(127)

    def type(self, octets):
        os.write(self.descriptor, octets)

    def text(self):
        text = re.sub(r"\x1b\[[^a-zA-Z]*[a-zA-Z]|[\r\a]", "", self.printed.decode(errors="replace"))
        # zsh takes back a space that it has put behind a word.
        while "\x08" in text:
            text = re.sub(r"[^\x08]?\x08", "", text, count=1)
        return text

    def shows(self, wanted):
        """Whether it prints a text at last."""
        end = time.monotonic() + PATIENCE
        while wanted not in self.text():
            if not select.select([self.descriptor], [], [], max(0, end - time.monotonic()))[0]:
                return False
            try:
                self.printed += os.read(self.descriptor, 4096)
            except OSError:
                return False
        return True

    def end(self):
        os.kill(self.process, signal.SIGKILL)
        os.close(self.descriptor)
        os.waitpid(self.process, 0)


# For each shell: how it is started, what loads its completion, and what makes it print a word.
AT_A_TERMINAL = {
    "bash": (["bash", "--norc", "--noprofile", "-i"], f"PS1=; source {PLACE}/gatt_shell.bash"),
    "zsh": (["zsh", "-f", "-i"], f"PS1=; fpath=({PLACE} $fpath); autoload -Uz compinit; compinit -D -u"),
    "fish": (["fish", "--no-config", "-i"], f"function fish_prompt; end; set fish_complete_path {PLACE}"),
}


def test_a_terminal(shell, folder):
    """A shell completes words at a terminal, by the completion that it loads by the name of the command."""
    open(f"{folder}/a table.toml", "w", encoding="utf-8").close()
    os.mkdir(f"{folder}/bin")
    os.symlink(os.path.abspath(PROGRAM), f"{folder}/bin/gatt_shell")
    words, load = AT_A_TERMINAL[shell]
    terminal = Terminal(words, folder)
    try:
        terminal.type(f"{load}; echo begun | tr a-z A-Z\n".encode())
        assert terminal.shows("BEGUN\n"), terminal.text()
        terminal.type(b"gatt_shell ho\tE --save-\tE a\tE --rows=a\tE")
        wanted = r"gatt_shell host E --save-updates E a\ table.toml E --rows=a\ table.toml E"
        assert terminal.shows(wanted), f"{shell} at a terminal: {terminal.text()!r}"
    finally:
        terminal.end()
