"""What runs beside a test."""

import threading

from parties.places import PATIENCE


class Act:
    """A function that runs beside a test, in a thread."""

    def __init__(self, function, *arguments):
        self.function, self.arguments = function, arguments
        self.error = None
        self.thread = threading.Thread(target=self.run, daemon=True)
        self.thread.start()

    def run(self):
        try:
            self.function(*self.arguments)
        except Exception as error:
            self.error = error

    def end(self, seconds=PATIENCE):
        """Waits for its end, and raises what it raised."""
        self.thread.join(seconds)
        assert not self.thread.is_alive(), f"{self.function.__name__} ends"
        if self.error:
            raise self.error
