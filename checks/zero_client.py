#!/usr/bin/env python3
"""A client of a reflector that leaves the CRC of its stream packets out, as some hotspots do. The arguments are the port on the
loopback, how many packets of one stream it sends, 40 ms apart, and for how many seconds it stays then; two more are the callsign
of their sender, where it isn't the client's, and the id of their stream. It prints how many voice packets it was sent. The status
is 1 where it was not let in.
"""

import os
import select
import socket
import sys
import time

sys.path.insert(0, os.path.join(os.path.dirname(os.path.abspath(__file__)), "..", "examples"))
from make import END_BIT, address, stream_packet  # noqa: E402

CALL = address("AB1CD")


class Client:
    def __init__(self, port):
        self.socket = socket.socket(socket.AF_INET, socket.SOCK_DGRAM)
        self.socket.connect(("127.0.0.1", port))
        self.frames = 0
        self.is_in = False

    def hear_until(self, moment):
        """Answers each PING, and counts voice packets, until then."""
        while (rest := moment - time.monotonic()) > 0:
            if not select.select([self.socket], [], [], rest)[0]:
                return
            try:
                data = self.socket.recv(64)
            except OSError:
                continue
            self.frames += data[:4] == b"M17 "
            self.is_in = self.is_in or data == b"ACKN"
            if data[:4] == b"PING":
                self.socket.send(b"PONG" + CALL)

    def join(self):
        """Asks for five seconds, since an answer may be lost."""
        for _ in range(25):
            try:
                self.socket.send(b"CONN" + CALL + b"A")
            except OSError:
                pass
            self.hear_until(time.monotonic() + 0.2)
            if self.is_in:
                return
        sys.exit("not let in")


def main():
    port, count, seconds = map(int, sys.argv[1:4])
    sender, stream = sys.argv[4:] or ("AB1CD", "0x4321")
    client = Client(port)
    client.join()
    start = time.monotonic()
    for number in range(count):
        client.hear_until(start + 0.04 * number)
        packet = stream_packet(int(stream, 16), number | END_BIT * (number == count - 1), sender)
        client.socket.send(packet[:52] + b"\0\0")
    client.hear_until(time.monotonic() + seconds)
    client.socket.send(b"DISC" + CALL)
    print("heard", client.frames)


if __name__ == "__main__":
    main()
