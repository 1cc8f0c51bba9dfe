#!/usr/bin/env python3
"""A reflector of two modules with a file that is a pipe, which takes 4 KiB and then nothing, and talks beside it, for checks
of what a disk that hangs does. The arguments are the program, what hangs, how many datagrams are sent, and, where the pipe
is drained in the end, a file for what came out of it. It is ended where it goes on for half a minute too long. What hangs is
one of

    book     the book of module A, while the datagrams are said there as frames
    other    the same, and seven seconds later 300 frames are said in module B
    trace    the trace of the link, while the datagrams are ones that no packet is, and then somebody asks for a place
    board    the board, whose pipe takes nothing, while the datagrams are said in module A as frames
    all      the books of eight modules, whose pipes take nothing, and no datagrams are sent

It prints how many frames were heard, in module B too, or that who asked was let in; what the reflector printed, its status,
and whether it ended in time. The status is 1 where a talk could not begin.
"""

import fcntl
import os
import select
import socket
import subprocess
import sys
import threading
import time

sys.path.insert(0, os.path.join(os.path.dirname(os.path.abspath(__file__)), "..", "examples"))
from make import address, stream_packet  # noqa: E402

SET_PIPE_SIZE = 1031
SERVES_SECONDS = {"book": 10, "other": 20, "trace": 14, "board": 5, "all": 2}
MODULES = "ABCDEFGH"
PIPES = {"book": ["kept/A.book"], "other": ["kept/A.book"], "trace": ["kept/link0.trace"], "board": ["board"]}
PIPES["all"] = [f"kept/{module}.book" for module in MODULES]
PATIENCE_SECONDS = 30
BURST = 8


def free_port():
    with socket.socket(socket.AF_INET, socket.SOCK_DGRAM) as one:
        one.bind(("127.0.0.1", 0))
        return one.getsockname()[1]


class Member:
    """One that is in a module. In a thread of its own it counts what it hears, and answers each PING."""

    def __init__(self, port, call, module):
        self.socket = socket.socket(socket.AF_INET, socket.SOCK_DGRAM)
        self.socket.connect(("127.0.0.1", port))
        self.name = call
        self.call = address(call)
        self.module = module
        self.heard = 0
        self.is_in = threading.Event()
        threading.Thread(target=self.hear, daemon=True).start()

    def hear(self):
        while True:
            select.select([self.socket], [], [])
            try:
                data = self.socket.recv(64)
            except OSError:
                time.sleep(0.01)
                continue
            self.heard += data[:4] == b"M17 "
            if data == b"ACKN":
                self.is_in.set()
            if data[:4] == b"PING":
                self.socket.send(b"PONG" + self.call)

    def join(self):
        for _ in range(25):
            try:
                self.socket.send(b"CONN" + self.call + self.module)
            except OSError:
                pass
            if self.is_in.wait(0.2):
                return
        sys.exit("not let in")

    def say(self, frames):
        """Some 2,000 frames a second, in bursts that a lane of 64 has room for: a slow clock makes few sleeps long."""
        for number in range(frames):
            self.socket.send(stream_packet(0x1234, number, self.name))
            if number % BURST == BURST - 1:
                time.sleep(0.004)
        time.sleep(0.5)


def talk(port, module, frames, listener, talker):
    """Two join a module, and one says so many frames. How many the other heard."""
    members = [Member(port, call, module) for call in (listener, talker)]
    for member in members:
        member.join()
    members[1].say(frames)
    return members[0].heard


def junk(port, count):
    """So many datagrams that are no packets, some thousands a second."""
    with socket.socket(socket.AF_INET, socket.SOCK_DGRAM) as stranger:
        for number in range(count):
            stranger.sendto(b"x" * 60, ("127.0.0.1", port))
            if number % 100 == 0:
                time.sleep(0.02)


def hanging_pipe(path):
    """A pipe of that name, from which nothing is read yet."""
    os.mkfifo(path)
    end = os.open(path, os.O_RDONLY | os.O_NONBLOCK)
    fcntl.fcntl(end, SET_PIPE_SIZE, 4096)
    return end


def fill(path):
    """Has that pipe take nothing more."""
    full = os.open(path, os.O_WRONLY | os.O_NONBLOCK)
    os.write(full, bytes(4096))


def end_of(serves, patience):
    """What it printed; and where it is not at its end after so many seconds it is ended."""
    try:
        return serves.communicate(timeout=patience)[0].decode()
    except subprocess.TimeoutExpired:
        serves.kill()
        return serves.communicate()[0].decode()


def drain(end, book):
    """All that comes out of the pipe, until nobody writes to it any more."""
    os.set_blocking(end, True)
    with open(book, "wb") as out:
        while data := os.read(end, 4096):
            out.write(data)


def main():
    program, hangs, count, book = sys.argv[1], sys.argv[2], int(sys.argv[3]), sys.argv[4:]
    os.mkdir("kept")
    if hangs != "trace":
        os.symlink("/dev/null", "kept/link0.trace")
    end = [hanging_pipe(path) for path in PIPES[hangs]][0]
    if hangs in ("board", "all"):
        for path in PIPES[hangs]:
            fill(path)
    port, seconds, modules = free_port(), SERVES_SECONDS[hangs], MODULES if hangs == "all" else "AB"
    words = ["serve", "--call", "M17-TST", "--modules", modules, "--for", str(seconds), "--pace", "0", "--book", "kept"]
    words += ["--board", "board"] if hangs == "board" else []
    start = time.monotonic()
    serves = subprocess.Popen([program, *words, f"127.0.0.1:{port}"], stdout=subprocess.PIPE)
    if hangs == "trace":
        Member(port, "N0CALL", b"A").join()
        junk(port, count)
        Member(port, "AB1CD", b"B").join()
        print("let in")
    elif hangs != "all":
        print("heard", talk(port, b"A", count, "N0CALL", "AB1CD"))
    if hangs == "other":
        time.sleep(7)
        print("heard in B", talk(port, b"B", 300, "N1CALL", "AB2CD"))
    if book:
        drain(end, book[0])
    print(end_of(serves, start + seconds + PATIENCE_SECONDS - time.monotonic()), end="")
    in_time = time.monotonic() - start < seconds + PATIENCE_SECONDS
    print("status", serves.returncode, "in time" if in_time else "late")


main()
