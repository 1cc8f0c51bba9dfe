#!/usr/bin/env python3
"""Sends datagrams that are no packets to a reflector on the loopback, for a check of `m17 serve`: of every length from 0 to
2,000 one of random bytes and one that begins as a packet does, every such beginning with each short length, some of
40,000 bytes, and, where the system lets it, some from port 0. Half of them come from a stranger, half from a member of
module B.

The member says PING after every few and waits for the PONG, so that the socket of the reflector has room for all. The
argument is the reflector's port. It prints how many datagrams it sent that have to be refused. The status is 3 where
the reflector went before all were sent, and 1 where the stranger was answered.
"""

import random
import socket
import struct
import sys

MAGICS = (b"M17 ", b"CONN", b"LSTN", b"ACKN", b"NACK", b"PING", b"PONG", b"DISC")
LENGTHS = {b"M17 ": (54,), b"CONN": (11,), b"LSTN": (11,), b"ACKN": (4,), b"NACK": (4,), b"PING": (10,)}
LENGTHS.update({b"PONG": (10,), b"DISC": (4, 10)})
CALLSIGN = bytes.fromhex("00004B13D106")
LONGEST = 2000
SHORT = 70
HUGE = 40000
TOGETHER = 24


def is_packet(data):
    """Whether the datagram may be a packet. Random bytes with the magic of a stream packet have the wrong CRC."""
    return data[:4] != b"M17 " and len(data) in LENGTHS.get(data[:4], ())


def begun(draw, magic, length):
    return (magic + draw.randbytes(LONGEST))[:length]


def datagrams():
    draw = random.Random(17)
    for length in range(LONGEST + 1):
        yield draw.randbytes(length)
        yield begun(draw, MAGICS[length % len(MAGICS)], length)
    for length in range(4, SHORT):
        for magic in MAGICS:
            yield begun(draw, magic, length)
    for magic in MAGICS:
        yield (magic + CALLSIGN + b"A").ljust(HUGE, b"\0")
    yield bytes(HUGE)


class Member:
    """A member of module B, which knows when the reflector has taken all that came before."""

    def __init__(self, reflector):
        self.reflector = reflector
        self.socket = socket.socket(socket.AF_INET, socket.SOCK_DGRAM)
        self.socket.settimeout(5)
        self.ask(b"CONN" + CALLSIGN + b"B", b"ACKN")

    def ask(self, said, wanted):
        self.socket.sendto(said, self.reflector)
        while True:
            try:
                heard = self.socket.recv(64)
            except socket.timeout:
                heard = b"DISC"
            if heard[:4] == b"DISC":
                print("the reflector went")
                sys.exit(3)
            if heard[:4] == wanted:
                return


def from_port_0(port):
    """Datagrams from port 0, to which no answer can be sent. Only some systems and users may send them."""
    data = b"CONN" + CALLSIGN + b"B"
    try:
        with socket.socket(socket.AF_INET, socket.SOCK_RAW, socket.IPPROTO_UDP) as raw:
            for _ in range(3):
                raw.sendto(struct.pack("!HHHH", 0, port, 8 + len(data), 0) + data, ("127.0.0.1", port))
    except OSError:
        pass


def main():
    port = int(sys.argv[1])
    reflector = "127.0.0.1", port
    member = Member(reflector)
    stranger = socket.socket(socket.AF_INET, socket.SOCK_DGRAM)
    sent = bytes_since = 0
    for data in datagrams():
        if is_packet(data):
            continue
        (stranger if sent % 2 else member.socket).sendto(data, reflector)
        sent += 1
        bytes_since += len(data)
        if sent % TOGETHER == 0 or bytes_since > HUGE:
            member.ask(b"PING" + CALLSIGN, b"PONG")
            bytes_since = 0
    from_port_0(port)
    member.ask(b"PING" + CALLSIGN, b"PONG")
    stranger.setblocking(False)
    try:
        print("the stranger was answered:", stranger.recv(64))
        sys.exit(1)
    except BlockingIOError:
        print(sent)


if __name__ == "__main__":
    main()
