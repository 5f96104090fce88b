"""A folder where a device saves its state or its subscriptions, and the phones that come there."""

import os

from parties.application import Application
from parties.controller import controller_at
from parties.device import Device
from parties.places import GUEST, GUEST_KEY, KEY, OWNER, text_of, write_text
from parties.tables import KEYS, TABLE, after_table, spelled, state_text

# The connections of the phones.
AT_STRANGER, AT_OWNER, AT_GUEST = 64, 65, 66


class Home:
    """A folder with a table, a state and a socket, where one device lives at a time."""

    def __init__(self, folder, table=TABLE, saved="state"):
        self.folder = folder
        self.table = write_text(f"{folder}/table.toml", table)
        self.place = f"{folder}/saved"
        os.mkdir(self.place)
        self.path = f"{self.place}/state"
        self.saved = ["--state", self.place] if saved == "state" else ["--rows", self.path]
        self.socket = f"{folder}/socket"

    def device(self, *words, through=()):
        return self.second("--application", self.socket, *self.saved, *words, through=through)

    def second(self, *words, through=()):
        """A device with the table of this home, and with other words."""
        return Device(self.table, KEYS, "--listen", "127.0.0.1:0", *words, through=through)

    def start(self, *words, through=()):
        """A device, its controller, and the owner with the key."""
        device = self.device(*words, through=through)
        controller = controller_at(device)
        controller.is_advertised()
        owner_comes(controller)
        return device, controller

    def application(self):
        """An application that has read what a new one reads."""
        # The answer ends what a new application reads.
        application = Application(self.socket, "application")
        application.welcome = []
        while (line := application.line()) and line not in ("END", "ok"):
            application.welcome.append(line)
        return application

    def application_after(self, device, application):
        """The application that comes after one that has read all, and is gone."""
        count = len(device.logged("application gone"))
        application.close()
        device.said("application gone", count + 1)
        return self.application()

    def state(self):
        """The text that is saved, or none if there is no file."""
        return text_of(self.path) if os.path.exists(self.path) else None


def has_saved(what, home, subscriptions=(), values=()):
    """The state has these lines, octet for octet."""
    assert after_table(home.state()) == after_table(state_text(TABLE, subscriptions, values)), what


def is_refused(what, home, second, parts, status=1):
    """A second device ends so, with these parts in its message, and changes nothing of the first one's."""
    before = home.state()
    found, told = second.refusal()
    assert found == status, f"{what}: its status"
    assert [it for it in parts if it not in told] == [], f"{what}: its message ({told})"
    assert home.state() == before, f"{what}: the file"
    assert [it for it in os.listdir(home.place) if it.endswith(".new")] == [], f"{what}: what is left"


def owner_comes(controller):
    controller.connect(AT_OWNER, OWNER)
    controller.encrypt(AT_OWNER, KEY)


def guest_comes(controller):
    controller.connect(AT_GUEST, GUEST)
    controller.encrypt(AT_GUEST, GUEST_KEY)


def ask(controller, pdu, at=AT_OWNER):
    """What a phone is answered, whatever it hears of values before."""
    answer = controller.ask(at, pdu)
    while answer and answer[:2] in ("1b", "1d"):
        answer = controller.hears(at)
    return answer


def write(controller, attribute, value, at=AT_OWNER):
    return ask(controller, f"12{spelled(attribute)}{value}", at)


def read(controller, attribute, at=AT_OWNER):
    """The value that a phone reads, or its error."""
    found = ask(controller, f"0a{spelled(attribute)}", at)
    return found[2:] if found and found.startswith("0b") else found


def end(*them):
    """Ends devices, and closes what is none."""
    for it in them:
        it.end() if isinstance(it, Device) else it.close()
