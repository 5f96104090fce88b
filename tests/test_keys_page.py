"""Runs the commands of docs/KEYS.md, and compares what they print with what the page shows."""

import os
import re
import subprocess

from parties import PROGRAM, ROOT, text_of


def is_shown(printed, shown):
    """Returns whether a page shows what is printed. `...` is any text of a line, and alone any lines."""
    lines = [
        r"(?:.*\n)*" if it == "..." else ".*".join(map(re.escape, it.split("..."))) + r"\n"
        for it in shown.splitlines()
    ]
    return re.fullmatch("".join(lines), printed) is not None


def test_page(folder):
    """The commands of docs/KEYS.md run in their order, in a folder that has what they name."""
    for name in ("tools", "tests", "examples", "docs"):
        os.symlink(f"{ROOT}/{name}", f"{folder}/{name}")
    os.symlink(PROGRAM, f"{folder}/gatt_shell")
    page = text_of(f"{ROOT}/docs/KEYS.md")
    blocks = re.findall(r"```sh\n(.*?)```\n(?:\n```(?:text|toml|ini)\n(.*?)```)?", page, re.DOTALL)
    assert len(blocks) > 3, "shows commands"
    for command, shown in blocks:
        if "systemctl" in command:
            continue
        how = {"stdin": subprocess.DEVNULL, "capture_output": True, "text": True, "timeout": 60}
        ran = subprocess.run(command, shell=True, cwd=folder, **how)
        printed = ran.stdout + ran.stderr
        assert is_shown(printed, shown), f"{command.strip()}: prints {printed!r}"
