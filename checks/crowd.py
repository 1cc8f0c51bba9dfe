#!/usr/bin/env python3
"""What many do at a reflector of module A on the loopback, for checks of `m17 serve`.

usage: crowd.py asks PORT               somebody asks for a module that isn't served, where nobody is in and all sleep
       crowd.py comes PORT COUNT        so many peers come and go, one after the other, each from a port of its own
       crowd.py talks PORT COUNT BOOK   a member sends so many frames, and goes; it waits for the book of the module now and then

The status is 1 where an answer never came.
"""

import os
import socket
import sys
import time

sys.dont_write_bytecode = True
sys.path.insert(0, os.path.join(os.path.dirname(os.path.abspath(__file__)), "..", "examples"))
from make import address, stream_packet  # noqa: E402

CALL = address("AB1CD")
TRIES, SECONDS = 20, 0.5
# So many frames are sent before the member waits for an answer, and so many records may be on their way to the book.
TOGETHER, WAITING = 32, 1000
HEADER, JOIN, PACKET = 17, 37, 97


class Peer:
    def __init__(self, port):
        self.socket = socket.socket(socket.AF_INET, socket.SOCK_DGRAM)
        self.socket.connect(("127.0.0.1", port))
        self.socket.settimeout(SECONDS)

    def asks(self, said, wanted):
        """Says it until this is answered, since a datagram may be lost."""
        for _ in range(TRIES):
            self.socket.send(said)
            try:
                while self.socket.recv(64)[:4] != wanted:
                    pass
                return
            except OSError:
                pass
        sys.exit(f"{said[:4]} was never answered by {wanted}")


def asks(port):
    for _ in range(5):
        time.sleep(0.5)
        Peer(port).asks(b"CONN" + CALL + b"Z", b"NACK")


def comes(port, count):
    peers = [Peer(port) for _ in range(count)]
    for peer in peers:
        peer.asks(b"CONN" + CALL + b"A", b"ACKN")
        peer.asks(b"DISC" + CALL, b"DISC")


def waits_for(book, size):
    for _ in range(1200):
        if os.path.getsize(book) >= size:
            return
        time.sleep(0.05)
    sys.exit(f"{book} never had {size} bytes")


def talks(port, count, book):
    """Of the same few frames most are told as repeats, and each has a record."""
    frames = [stream_packet(0x1234, number, "AB1CD") for number in range(TOGETHER)]
    peer = Peer(port)
    peer.asks(b"CONN" + CALL + b"A", b"ACKN")
    for number in range(count):
        peer.socket.send(frames[number % TOGETHER])
        if number % TOGETHER == TOGETHER - 1:
            peer.asks(b"PING" + CALL, b"PONG")
            waits_for(book, HEADER + JOIN + PACKET * max(0, number - WAITING))
    waits_for(book, HEADER + JOIN + PACKET * count)
    peer.asks(b"DISC" + CALL, b"DISC")


if __name__ == "__main__":
    deed, *numbers = sys.argv[1:]
    if deed == "talks":
        talks(int(numbers[0]), int(numbers[1]), numbers[2])
    else:
        {"asks": asks, "comes": comes}[deed](*map(int, numbers))
