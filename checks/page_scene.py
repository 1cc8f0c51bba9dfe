"""Writes what a reflector writes, live: books with moments by the clock, a board, and the lock of the folder; and serves a page
of it. For checks of m17-page; the records are those of made_books.py."""

import ctypes
import fcntl
import json
import os
import signal
import socket
import subprocess
import sys
import threading
import time
import types

sys.path.insert(0, os.path.dirname(os.path.abspath(__file__)))
sys.path.insert(0, os.path.join(os.path.dirname(os.path.abspath(__file__)), "..", "examples"))
from made_books import BUSY, CONTINUED, OPENED, TIMED_OUT, join, leave, packet  # noqa: E402
from make import END_BIT, book_header, stream_packet  # noqa: E402
from starved import Wait  # noqa: E402

ASKED, STOPPED = 1, 4
# In seconds, on a machine that does much else; whoever talks says a frame so often.
PATIENCE, FRAME = 120, 0.04
# The status with which a page ends whose port somebody else has.
NO_PORT = 5


class Scene:
    """A run of a reflector that began so many seconds ago."""

    def __init__(self, folder, letters, ago=0, is_locked=True, has_board=False):
        self.folder, self.letters, self.began = folder, letters, time.time() - ago
        # `told` is how many records the board has told of.
        self.lock, self.told = None, 3
        os.makedirs(folder, exist_ok=True)
        if is_locked:
            self.lock = open(os.path.join(folder, "lock"), "a", encoding="ascii")
            fcntl.flock(self.lock, fcntl.LOCK_EX | fcntl.LOCK_NB)
        if has_board:
            open(os.path.join(folder, "board"), "wb").close()
        for letter in letters:
            with open(os.path.join(folder, f"{letter}.book"), "wb") as book:
                book.write(book_header(letter, 180_000))

    def moment(self):
        return int(1000 * (time.time() - self.began))

    def write(self, letter, data, moment=None):
        """Adds records, and where the moment is an earlier one gives the file the time that it would have had."""
        path = os.path.join(self.folder, f"{letter}.book")
        with open(path, "ab") as book:
            book.write(data)
        if moment is not None:
            os.utime(path, (self.began + moment / 1000, self.began + moment / 1000))

    def join(self, letter, place, call, listens=0, moment=None):
        self.write(letter, join(0, self.moment() if moment is None else moment, place, call, listens), moment)

    def leave(self, letter, place, why=ASKED):
        self.write(letter, leave(0, self.moment(), place, why))

    def say(self, letter, place, call, number, stream=0x1234, is_last=False, moment=None, verdict=None):
        at = self.moment() if moment is None else moment
        frame = stream_packet(stream, number | END_BIT * is_last, call)
        self.write(letter, packet(0, at, place, verdict or (CONTINUED if number else OPENED), frame), moment)

    def talk(self, letter, place, call, moment, frames, is_last=True, stream=0x1234):
        """An over that was: its frames 40 ms apart."""
        data = b""
        for number in range(frames):
            frame = stream_packet(stream, number | END_BIT * (is_last and number == frames - 1), call)
            data += packet(0, moment + 40 * number, place, CONTINUED if number else OPENED, frame)
        self.write(letter, data, moment + 40 * frames - 40)

    def tell(self, letter, records, admitted, talker):
        """A line of the board."""
        with open(os.path.join(self.folder, "board"), "ab") as board:
            board.write(f"{letter} records {records} admitted {admitted} at {self.moment()} talker {talker}\n".encode("ascii"))

    def end(self):
        if self.lock:
            self.lock.close()
            self.lock = None


def crowded_books(folder, places):
    """As many members as a reflector has places, or more, and talkers in each module: what a large page is made of."""
    os.mkdir(folder)
    for letter in "ABCDEFGHIJKLMNOPQRSTUVWXYZ":
        with open(os.path.join(folder, f"{letter}.book"), "wb") as book:
            book.write(book_header(letter))
            book.write(b"".join(join(0, 5, place, f"Z{place}XX/{letter}") for place in range(places)))
            book.write(packet(0, 9, 3, OPENED, stream_packet(7, 0, "-/.-/.-/.")))


class Talker:
    """One who talks for as long as the check does something else: `say` is called for each frame, with its number."""

    def __init__(self, say):
        self.say, self.number, self.done = say, 0, threading.Event()
        self.thread = threading.Thread(target=self.talk, daemon=True)

    def talk(self):
        while not self.done.wait(FRAME):
            self.say(self.number)
            self.number += 1

    def __enter__(self):
        self.thread.start()
        return self

    def __exit__(self, *_):
        self.done.set()
        self.thread.join()


def words_of(folder, **further):
    """The words of a page, for checks that ask its modules."""
    told = {"folder": folder, "board": None, "said": None, "call": None, "parrots": "", "names": [], "every": 5, "locked": False,
            "bind": "127.0.0.1", "port": 0}
    return types.SimpleNamespace(**{**told, **further})


def end_with_parent():
    """A check that is ended by a signal leaves no page behind."""
    ctypes.CDLL(None).prctl(1, signal.SIGTERM)


def free_port():
    with socket.socket() as own:
        own.bind(("127.0.0.1", 0))
        return own.getsockname()[1]


class Page:
    """A page that is served, for as long as a check needs it."""

    def __init__(self, script, folder, *words):
        self.words = [script, *words, folder]
        self.start()
        self.awaits(self.has_begun, "an answer")

    def start(self):
        self.port = free_port()
        words = [*self.words, "--port", str(self.port)]
        self.process = subprocess.Popen(words, stdin=subprocess.DEVNULL, preexec_fn=end_with_parent)

    def has_begun(self):
        """Where somebody else has taken the port meanwhile, it begins once more."""
        if self.process.poll() == NO_PORT:
            self.start()
        return self.asks("/status.json")[0] == 200

    @classmethod
    def at(cls, port):
        """A page that somebody else serves."""
        page = cls.__new__(cls)
        page.port, page.process = port, None
        return page

    def sends(self, data, patience=PATIENCE):
        """What comes back for these bytes, until the end."""
        with socket.create_connection(("127.0.0.1", self.port), patience) as own:
            own.sendall(data)
            got = b""
            while more := own.recv(1 << 16):
                got += more
        return got

    def opens(self, data, buffer=None):
        """A connection on which these bytes were sent; with a small buffer who reads nothing has taken little."""
        own = socket.socket()
        if buffer:
            own.setsockopt(socket.SOL_SOCKET, socket.SO_RCVBUF, buffer)
        own.settimeout(PATIENCE)
        own.connect(("127.0.0.1", self.port))
        own.sendall(data)
        return own

    def asks(self, path, host="127.0.0.1", method="GET"):
        """Status, fields and body of an answer; status 0 where there is none."""
        try:
            got = self.sends(f"{method} {path} HTTP/1.1\r\nHost: {host}\r\n\r\n".encode("latin-1"))
        except OSError:
            return 0, {}, b""
        head, _, body = got.partition(b"\r\n\r\n")
        first, *fields = head.decode("latin-1").split("\r\n")
        told = dict(field.split(": ", 1) for field in fields)
        return int(first.split(" ")[1]) if first else 0, told, body

    def status(self):
        return json.loads(self.asks("/status.json")[2])

    def module(self, letter):
        return next((module for module in self.status()["modules"] if module["module"] == letter), {})

    def awaits(self, is_so, what):
        wait = Wait(lambda: [self.process.pid] if self.process else [])
        while wait.goes_on(PATIENCE):
            assert self.process is None or self.process.poll() in (None, NO_PORT), "the page has ended"
            if found := is_so():
                return found
            time.sleep(0.05)
        raise wait.fault(what)

    def most_memory(self):
        """The most that it ever took, in bytes."""
        with open(f"/proc/{self.process.pid}/status", encoding="ascii") as lines:
            return 1024 * next(int(line.split()[1]) for line in lines if line.startswith("VmHWM"))

    def close(self):
        self.process.terminate()
        assert self.process.wait(PATIENCE) == 0, "the page did not end with 0"
