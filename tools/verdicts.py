"""What gatt_shell and the library for C were proved from: notes beside them, and how they are checked.

Whatever proves such an output writes a note beside it, FILE.verdict: the sum of the sources, the sum of the
output, the kit, the target, the verdict and the axioms. `check` compares the sums with those of now. It compares no
times: a copy of a checkout is as good as the checkout.

The sum of the sources is that of the launcher: SHA-256 of the lines that sha256sum prints of crates.txt, of HANDLES,
and of src, specs and proofs of the crate and of all below it, in the order of their octets.
"""

import hashlib
import os
import re
import shutil
import subprocess

ROOT = os.path.dirname(os.path.dirname(os.path.realpath(__file__)))
PARTS = ("src", "specs", "proofs")
THIS_MACHINE = "x86_64-unknown-linux-gnu"
# The crates that are proved, each with its output and the place that `make install` gives it.
OUTPUTS = {"gatt_shell": ("gatt_shell", "bin/gatt_shell"), "gihandop_c": ("libgihandop_c.a", "lib/libgihandop_c.a")}
# What a program for another target is linked with.
LINKED = ("c/system.c", "c/heap.c")
# What takes the module of a crate and writes it for another machine.
WAY = ("tools/modules.py", "tools/rewriting.py")
# The page in a browser, and what it is made of besides its crate.
PAGE_CRATE, PAGE = "playground", f"{ROOT}/crates/playground/out/page.html"
PAGE_PARTS = (*WAY, "tools/page", "page/heap.c", "page/page.css", "page/page.html", "page/page.js")
# The processors of tools/mcu, and what the library for one is made of besides its crate.
MCU_CRATE, MICROCONTROLLERS = "gihandop_c", ("cortex-m4", "cortex-m33", "rv32imac")
MCU_PARTS = (*WAY, "tools/mcu", "include/gihandop.h", "mcu/gihandop_pool.h", "mcu/heap.ll", "mcu/pool.c", "mcu/shell.c")
# The wrong edits that tools/edits tries before a release, in a folder for each crate.
EDITS = "tests/edits"
# What tools/unproved and `tools/page --unproved` leave in all that they make.
MARK = b"(not proved)"
# By these a hook of git names its repository, which may be another one than this checkout.
for it in ("DIR", "WORK_TREE", "INDEX_FILE", "COMMON_DIR", "OBJECT_DIRECTORY", "ALTERNATE_OBJECT_DIRECTORIES", "NAMESPACE"):
    os.environ.pop(f"GIT_{it}", None)


class Refusal(Exception):
    """Why an output does not count as proved: the exit status, and a text for the user."""

    def __init__(self, status, text):
        super().__init__(text)
        self.status = status


def sum_of(path):
    """Returns the SHA-256 of a file."""
    with open(path, "rb") as file:
        return hashlib.sha256(file.read()).hexdigest()


def text_of(path):
    """Returns the text of a file, or nothing if there is none."""
    try:
        with open(path, encoding="utf-8", errors="replace") as file:
            return file.read()
    except OSError:
        return ""


def shown(path):
    """Returns the path of a file as seen from the checkout, if it is in it."""
    path = os.path.abspath(path)
    return os.path.relpath(path, ROOT) if path.startswith(f"{ROOT}/") else path


def out(crate, target=None):
    """Returns the folder of a crate's outputs for a target, or for this machine."""
    return f"{ROOT}/crates/{crate}/out{f'/{target}' if target else ''}"


def output(crate, target=None):
    """Returns the path of the program or of the library for C."""
    return f"{out(crate, target)}/{OUTPUTS[crate][0]}"


def mcu_output(name):
    """Returns the path of the library for a microcontroller that a release has."""
    return f"{out(MCU_CRATE)}/libgihandop_{name}.a"


def note_of(path):
    """Returns the path of the note beside an output."""
    return f"{path}.verdict"


def prove_words(crate, target=None):
    """Returns the command that proves and makes an output."""
    if crate == PAGE_CRATE:
        return f"tools/page {shown(PAGE)}"
    if target in MICROCONTROLLERS:
        return f"tools/mcu --cpu {target} {shown(mcu_output(target))}"
    return f"tools/prove{f' --target {target}' if target else ''} {crate}"


def hint(crate, target):
    return f"`{prove_words(crate, target)}` proves it"


def crates_below(top):
    """Returns the names of a crate and of all crates that it uses."""
    found = re.findall(r"(?m)^([a-z]\w*)[^:#\n]*:([^#\n]*)", text_of(f"{ROOT}/crates.txt"))
    uses = {name: words.split() for name, words in found}
    below, left = set(), [top]
    while left:
        name = left.pop()
        if name in uses and name not in below:
            below.add(name)
            left += uses[name]
    return below


def sum_of_sources(crate, target=None, parts=()):
    """Returns the sum of everything that a crate is proved from, as it is now, and of further files."""
    paths = [it for it in ("crates.txt", "HANDLES") if os.path.exists(f"{ROOT}/{it}")]
    paths += parts
    paths += LINKED if target and crate == "gatt_shell" else PAGE_PARTS if crate == PAGE_CRATE else []
    for name in crates_below(crate):
        for part in PARTS:
            for folder, _, files in os.walk(f"{ROOT}/crates/{name}/{part}"):
                paths += [os.path.relpath(f"{folder}/{it}", ROOT) for it in files]
    lines = sorted(f"{sum_of(f'{ROOT}/{it}')}  {it}\n".encode() for it in paths)
    return hashlib.sha256(b"".join(lines)).hexdigest()


def edited_crates():
    """Returns the crates that have edits for a release."""
    return sorted(it.name for it in os.scandir(f"{ROOT}/{EDITS}") if it.is_dir())


def edits_of(crate):
    """Returns the edits of a crate for a release, as CRATE/NAME.edit."""
    return sorted(f"{crate}/{it}" for it in os.listdir(f"{ROOT}/{EDITS}/{crate}") if it.endswith(".edit"))


def sum_of_edits(crate):
    """Returns the sum of a crate's sources, of those below it, and of its edits for a release, as they are now."""
    sums = [sum_of_sources(crate), *(f"{it} {sum_of(f'{ROOT}/{EDITS}/{it}')}" for it in edits_of(crate))]
    return hashlib.sha256("\n".join(sums).encode()).hexdigest()


def edits_note(crate):
    """Returns the path of the note that all edits of a crate for a release were refused."""
    return f"{out(crate)}/edits.refused"


def note_edits(crate):
    """Notes that all edits of a crate for a release were refused, by the kit of now."""
    os.makedirs(out(crate), exist_ok=True)
    with open(edits_note(crate), "w", encoding="utf-8") as file:
        file.write(f"{sum_of_edits(crate)} {kit()}\n")


def check_edits():
    """Checks that the edits for a release were tried on the sources as they are now. Errors: Refusal."""
    untried = [it for it in edited_crates() if text_of(edits_note(it)) != f"{sum_of_edits(it)} {kit()}\n"]
    if untried:
        raise Refusal(1, f"the wrong edits of {', '.join(untried)} were not tried on these sources: `tools/edits` tries them")


def kit():
    """Returns what `rt version` prints: the kit and its logic. Returns nothing if there is no rt."""
    if not shutil.which("rt"):
        return ""
    return subprocess.run(["rt", "version"], capture_output=True, text=True, check=False).stdout.strip()


def verdict_in(said):
    """Returns the lines of a log that a note has: the verdict and the axioms."""
    return [it for it in said.splitlines() if it.startswith(("logic=", "axioms "))]


def forget(crate, target=None):
    """Removes the note of an output that is proved again."""
    if crate in OUTPUTS and os.path.exists(note_of(output(crate, target))):
        os.remove(note_of(output(crate, target)))


def note(crate, target, began, said, path=None, parts=(), made_for=None):
    """Writes the note of an output that was just proved: from the sources with the sum `began`, which was
    taken before, and with the words `said` of the prover. `parts` are further files that it is made of, and
    `made_for` are a processor and an option of tools/mcu. Returns why there is no note, or nothing."""
    path = path or output(crate, target)
    lines = verdict_in(said)
    if not any(it.startswith("logic=proved ") for it in lines):
        return "the prover has printed no line logic=proved"
    if not kit():
        return "`rt version` prints nothing"
    if sum_of_sources(crate, target, parts) != began:
        return "the sources have changed meanwhile"
    head = [f"sources {began}", f"output {sum_of(path)}", f"kit {kit()}", f"target {target or THIS_MACHINE}"]
    head += [f"made-for {made_for}"] if made_for else []
    with open(f"{note_of(path)}.new", "w", encoding="utf-8") as file:
        file.write("\n".join([*head, *lines]) + "\n")
    os.replace(f"{note_of(path)}.new", note_of(path))
    return None


def gate_mark(crate):
    """Returns the path of the sum of the sources that the gate has proved."""
    return f"{out(crate)}/gate.sum"


def is_of_gate(crate):
    """Tells whether the gate has proved the sources of a crate as they are now."""
    return text_of(gate_mark(crate)).strip() == sum_of_sources(crate)


class Gate:
    """The notes before `rt ci`, which removes them with the outputs, and after it."""

    def __init__(self):
        self.sums = {it: sum_of_sources(it) for it in OUTPUTS}
        self.notes = {it: text_of(note_of(output(it))) for it in OUTPUTS}

    def note(self, said):
        """Notes what `rt ci` has proved. A program that it takes from an earlier run keeps its note, if it is
        the same program. Returns why gatt_shell has no note, or nothing."""
        for crate, began in self.sums.items():
            if sum_of_sources(crate) == began:
                os.makedirs(out(crate), exist_ok=True)
                with open(gate_mark(crate), "w", encoding="utf-8") as file:
                    file.write(f"{began}\n")
        crate = "gatt_shell"
        part = re.search(rf"(?ms)^== {crate}$(.*?)^rt: {crate} proved$", said)
        if part:
            return note(crate, None, self.sums[crate], part[1])
        with open(note_of(output(crate)), "w", encoding="utf-8") as file:
            file.write(self.notes[crate])
        try:
            check(crate)
        except Refusal:
            forget(crate)
            return "an earlier run proved it"
        return None


def values_of(path):
    """Returns the first words of a note's lines, each with what follows it."""
    return dict(it.partition(" ")[::2] for it in text_of(note_of(path)).splitlines())


def check_mcu(name):
    """Returns what `check` does of the library for a microcontroller, and the option that it was made with.
    Errors: Refusal."""
    path = mcu_output(name)
    said = check(MCU_CRATE, None, path, MCU_PARTS, hint(MCU_CRATE, name))
    made_for, _, option = values_of(path).get("made-for", "").partition(" ")
    if made_for != name:
        raise Refusal(1, f"{shown(path)} was made for {made_for or 'no processor'}, not for {name}: {hint(MCU_CRATE, name)}")
    return [*said, f"made for {name} by tools/mcu {option}"]


def check(crate, target=None, path=None, parts=(), how=None):
    """Returns the note of an output as its lines, if the output is the file that was proved, from the
    sources as they are now, with these further files, and by the kit of now. Errors: Refusal, which says
    how to prove it."""
    path = path or output(crate, target)
    name, beside, how = shown(path), shown(note_of(path)), how or hint(crate, target)
    if not os.path.isfile(path):
        raise Refusal(1, f"there is no {name}: {how}")
    with open(path, "rb") as file:
        if MARK in file.read():
            raise Refusal(1, f"{name} is compiled without proofs: {how}")
    if not os.path.isfile(note_of(path)):
        over = "" if target or crate not in OUTPUTS else f" (after the gate: `tools/prove --over-gate {crate}`)"
        raise Refusal(1, f"there is no {beside}, which says what {name} was proved from: {how}{over}")
    said, values = verdict_in(text_of(note_of(path))), values_of(path)
    lines = [it for it in said if it.startswith("logic=")]
    if len(lines) != 1 or not re.match(r"logic=proved( [\w-]+=\S+)+$", lines[0]):
        raise Refusal(1, f"{beside} has {len(lines)} verdicts in place of one line logic=proved: {how}")
    of_logic = dict(re.findall(r"([\w-]+)=(\S+)", lines[0]))
    wanted = target or THIS_MACHINE
    for it in (values.get("target"), of_logic.get("target", wanted)):
        if it != wanted:
            raise Refusal(1, f"the verdict in {beside} is of {it}, not {wanted}: {how}")
    noted = values.get("kit", "")
    now = kit() or noted
    if noted.rpartition(" ")[2] != of_logic.get("sum") or noted != now:
        raise Refusal(1, f"the verdict in {beside} is of the logic {of_logic.get('sum')}, by {noted}, and the kit is {now}: {how}")
    if values.get("output") != sum_of(path):
        raise Refusal(1, f"{name} is not the file that was proved, whose sum {beside} has: {how}")
    if values.get("sources") != sum_of_sources(crate, target, parts):
        raise Refusal(1, f"the sources of {crate} are not those that were proved, whose sum {beside} has: {how}")
    return [f"sha256 {values['output']}", f"sources {values['sources']}", *said]


def line_of_git(*words):
    """Returns what a command of git prints of the checkout, or None if it fails."""
    if not os.path.exists(f"{ROOT}/.git") or not shutil.which("git"):
        return None
    ran = subprocess.run(["git", *words], cwd=ROOT, capture_output=True, text=True, check=False)
    return None if ran.returncode else ran.stdout.strip()


def commit():
    """Returns the commit of the checkout, in words."""
    name, changes = line_of_git("rev-parse", "HEAD"), line_of_git("status", "--porcelain", "-uno")
    if not name or changes is None:
        return "unknown: this is no checkout of git"
    return f"{name}, and changes that are not committed" if changes else name


def verdicts_head(kits, target=None):
    """Returns the first lines of VERDICTS."""
    return [f"commit  {commit()}", *(f"kit     {it}" for it in kits), f"target  {target or THIS_MACHINE}"]


def verdicts_text(target=None, paths=None):
    """Returns the text of VERDICTS, with what `check` says of each output. Errors: Refusal."""
    paths = paths or {}
    checked = {crate: check(crate, target, paths.get(crate)) for crate in OUTPUTS}
    kits = sorted({values_of(paths.get(crate) or output(crate, target))["kit"] for crate in OUTPUTS})
    lines = verdicts_head(kits, target)
    for crate, said in checked.items():
        lines += ["", OUTPUTS[crate][1], *(f"    {it}" for it in said)]
    linked = " and ".join(LINKED) if target else "the C functions of the kit"
    lines += ["", "Not proved, since it is C", f"    {linked}, which bin/gatt_shell is linked with"]
    lines += ["    bin/hci_bridge and lib/libgihandop_heap.a"]
    return "\n".join(lines) + "\n"
