"""The time since a tool began, before what it says."""
import threading
import time


class Clock:
    """Prints one line at a time, each begun with the time since the clock was made, as [1:02:03]."""

    def __init__(self):
        self.begin = time.monotonic()
        self.printing = threading.Lock()

    def seconds(self):
        return time.monotonic() - self.begin

    def say(self, text):
        with self.printing:
            print(f"[{lasting(self.seconds())}] {text}", flush=True)

    def pass_on(self, text):
        """Prints a line of another program as it is."""
        with self.printing:
            print(text, flush=True)


def lasting(seconds):
    """A time in hours, minutes and seconds."""
    minutes, seconds = divmod(int(seconds), 60)
    return f"{minutes // 60}:{minutes % 60:02}:{seconds:02}"
