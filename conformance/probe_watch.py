"""What watches a run: whether the probe could run all the while, and whether the reflector answered all the while. Where one
of both was late, what is missing may only be late too, and is played again."""

import threading
import time

from probe_wire import Client

WATCHED = 0.05  # seconds of each sleep of a watch, and between two PINGs of a beat
STALL = 0.25  # seconds more than that, or for an answer, by which it is late
LOST = 4  # seconds behind which an answer comes no more: a reflector that is gone isn't late


class Late(threading.Thread):
    """A thread that notes what was late."""

    def __init__(self):
        super().__init__(daemon=True)
        self.noted = []  # when each time was over, and how many seconds it was

    def notes(self, seconds):
        if seconds > STALL:
            self.noted.append((time.monotonic(), seconds))

    def seconds_since(self, moment):
        """How many seconds of it were late, in all, since then."""
        return sum(seconds for over, seconds in list(self.noted) if over > moment)


class Watch(Late):
    """Notes when this machine kept the probe from running for a while."""

    def __init__(self):
        super().__init__()
        self.began = time.monotonic()  # when it began to sleep

    def run(self):
        while True:
            time.sleep(WATCHED)
            now = time.monotonic()
            self.notes(now - self.began - WATCHED)
            self.began = now

    def seconds_since(self, moment):
        """The while that may end just now is counted too."""
        now = time.monotonic()
        while self.began < now:
            time.sleep(WATCHED)
        return super().seconds_since(moment)


class Beat(Late):
    """A member that asks the reflector by one PING after another, and notes when a PONG was late. One that doesn't come at all
    is none: it may be that the reflector has ended."""

    def __init__(self, call, address, module):
        super().__init__()
        self.client = Client("beat", call, address, [])
        self.module = module
        self.asked = None  # when the PING was sent whose PONG is waited for
        self.is_over = False

    def run(self):
        pong = None
        while not self.is_over:
            self.client.forgets()
            if pong is None:  # so it begins, and goes on where it may be in no more
                self.client.says("CONN", self.module)
            sent = self.client.pings_once()
            self.asked = sent.at
            pong = self.client.wait_for_kind(b"PONG", LOST, 0)
            self.notes(pong.at - sent.at if pong else 0)
            self.asked = None
            time.sleep(WATCHED)

    def seconds_since(self, moment):
        """The PONG that is waited for just now is counted too."""
        now = time.monotonic()
        while (self.asked or now) < now:
            time.sleep(WATCHED)
        return super().seconds_since(moment)

    def leaves(self):
        self.is_over = True
        self.client.says("DISC")
