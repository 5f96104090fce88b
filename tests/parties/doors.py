"""The lock of examples/door.toml: a device that serves it, its parties, and what a phone says to it."""

from parties.application import Application
from parties.controller import controller_at
from parties.device import Device
from parties.places import DOOR, OWNER, STRANGER

LISTEN = ["--listen", "127.0.0.1:0"]
# What a controller is sent first.
RESET = bytes.fromhex("01030c00")
# A phone reads the name of the device.
NAME_READ, NAME = "0a0300", "0b4c6f636b"
# The handle of the long value, and how a phone reads the code, which an application has to allow.
LONG, CODE_READ = 21, "0a0d00"


class Waiting:
    """A device of examples/door.toml that no controller has reached yet, and the path of its socket."""

    def __init__(self, folder, *words, through=()):
        self.path = f"{folder}/socket"
        self.device = Device(*DOOR, *LISTEN, "--application", self.path, *words, through=through)

    def application(self, line=None):
        """An application, which may say a line first."""
        return Application(self.path, line)

    def initialise(self):
        """A controller connects, and is initialised."""
        self.controller = controller_at(self.device)
        assert self.controller.is_advertised(), "it is initialised"


class Door(Waiting):
    """A device of examples/door.toml, the controller that it has initialised, and the path of its socket."""

    def __init__(self, folder, *words, through=()):
        super().__init__(folder, *words, through=through)
        self.initialise()

    def owner_comes(self, handle):
        """The owner connects, with the key."""
        self.controller.connect(handle, OWNER)
        assert self.controller.encrypt(handle), "the owner's key"


def begun(folder, *words):
    """A device that no controller has reached yet, and its application, which has read so."""
    door = Waiting(folder, *words)
    door.device.port()
    application = door.application()
    assert application.line() == "+ waiting", "no controller"
    return door, application


def waiting(folder, *words):
    """A device that no controller has reached yet, and its application."""
    door, application = begun(folder, *words)
    return door.device, application


def serving(folder, *words):
    """A device that serves, its application, and its controller."""
    door, application = begun(folder, *words)
    door.initialise()
    assert application.line() == "+ serving", "a controller"
    return door.device, application, door.controller


def visitor(application, controller, peer=STRANGER, handle=64):
    """A phone connects. Returns the name that its connection has for an application."""
    controller.connect(handle, peer)
    return application.line().split()[2]
