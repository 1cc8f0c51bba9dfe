"""The probe's end of the wire: its packets, a client on a port of its own, and what it sent and what came.

Moments are seconds of `time.monotonic`. Where the system stamps datagrams as they come in (Linux), that is the moment of one
that came, so it doesn't matter how late the probe reads it.
"""

import os
import select
import socket
import struct
import sys
import time
from collections import namedtuple

from packets import BROADCAST, crc, decode, encode, packet_text

SO_TIMESTAMPNS = 35
STAMP = struct.Struct("@ll")
END_BIT = 0x8000
VOICE_STREAM = 0x0005
MOST_BYTES = 2048

ACKN, NACK, DISC = b"ACKN", b"NACK", b"DISC"

Heard = namedtuple("Heard", "at data")
Sent = namedtuple("Sent", "at data")
Line = namedtuple("Line", "at who way data")  # way is ">" for what was sent and "<" for what came


def control(kind, call, module=""):
    """CONN or LSTN with a module's letter; PING, PONG or DISC without."""
    return kind.encode() + encode(call).to_bytes(6, "big") + module.encode()


def frame(sid, number, last, source, to=BROADCAST, kind=VOICE_STREAM, meta=bytes(14), payload=None):
    """A stream packet; its payload is drawn where none is given, so that no two are alike."""
    body = b"M17 " + sid.to_bytes(2, "big") + to.to_bytes(6, "big") + source.to_bytes(6, "big")
    body += kind.to_bytes(2, "big") + meta + (number | END_BIT * last).to_bytes(2, "big")
    return with_crc(body + (os.urandom(16) if payload is None else payload))


def with_crc(body):
    return body + crc(body).to_bytes(2, "big")


def words(data):
    """What `m17 show` says of these bytes."""
    return packet_text(decode(data))


def stream_id(data):
    """The stream id of what looks like a stream packet, or None."""
    return int.from_bytes(data[4:6], "big") if data[:4] == b"M17 " and len(data) >= 6 else None


def stamp_of(ancillary):
    """When a datagram came in, by the system's stamp, or else now. The two clocks are read one behind the other, in the order
    by which it may seem to have come later than it did, and never earlier."""
    wall = time.time()
    now = time.monotonic()
    for level, kind, data in ancillary:
        if level == socket.SOL_SOCKET and kind == SO_TIMESTAMPNS and len(data) >= STAMP.size:
            seconds, nanoseconds = STAMP.unpack(data[: STAMP.size])
            return min(now, now - (wall - seconds - nanoseconds / 1e9))
    return now


class Client:
    """A port of its own that speaks to one reflector and hears it alone."""

    def __init__(self, name, call, to, log, answers=True):
        self.name = name
        self.call = call
        self.to = to
        self.log = log
        self.answers = answers  # whether it answers a PING, as a hotspot does
        self.is_member = False
        self.came = []
        self.pings = self.pongs = 0  # how many PINGs it sent, and PONGs that came
        self.pong_at = None  # when the last PONG came
        self.judged = 0  # how much of what came was looked at for frames
        self.has_sent = False
        self.own = socket.socket(socket.AF_INET6 if ":" in to[0] else socket.AF_INET, socket.SOCK_DGRAM)
        if sys.platform.startswith("linux"):
            self.own.setsockopt(socket.SOL_SOCKET, SO_TIMESTAMPNS, 1)
        self.own.connect(to)

    def send(self, data):
        """Sends these bytes; the moment is from just before."""
        self.has_sent = True
        sent = Sent(time.monotonic(), data)
        self.log.append(Line(sent.at, self.name, ">", data))
        try:
            self.own.send(data)
        except OSError:
            pass  # that nobody listens is seen by what doesn't come
        return sent

    def says(self, kind, module=""):
        return self.send(control(kind, self.call, module))

    def pings_once(self):
        self.pings += 1
        return self.says("PING")

    def read(self, seconds=0):
        """Takes all that is there, and waits at most so long for a first one."""
        if not select.select([self.own], [], [], max(0, seconds))[0]:
            return
        while True:
            try:
                data, ancillary, _, _ = self.own.recvmsg(MOST_BYTES, 64, socket.MSG_DONTWAIT)
            except OSError:  # nothing more is there, or nobody listens at the other end
                return
            self.take(Heard(stamp_of(ancillary), data))

    def take(self, heard):
        self.came.append(heard)
        self.log.append(Line(heard.at, self.name, "<", heard.data))
        kind = heard.data[:4]
        if kind == b"PONG":
            self.pongs += 1
            self.pong_at = heard.at
        if kind == b"PING" and self.answers:
            self.send(control("PONG", self.call))

    def wait_for(self, test, seconds, since):
        """The first of what came from that place on whose bytes pass the test, or None after so many seconds."""
        until = time.monotonic() + seconds
        place = since
        while True:
            self.read(0)
            for heard in self.came[place:]:
                if test(heard.data):
                    return heard
            place = len(self.came)
            left = until - time.monotonic()
            if left <= 0:
                return None
            self.read(left)

    def wait_for_kind(self, kind, seconds, since):
        return self.wait_for(lambda data: data[:4] == kind, seconds, since)

    def controls(self, since):
        """What came from that place on that is neither a stream packet nor a PING."""
        return [heard.data for heard in self.came[since:] if heard.data[:4] not in (b"M17 ", b"PING")]

    def new_frames(self):
        """The stream packets that came and were not asked for yet."""
        came, self.judged = self.came[self.judged :], len(self.came)
        return [heard for heard in came if stream_id(heard.data) is not None]

    def forgets(self):
        """All that was sent and came."""
        self.came.clear()
        self.log.clear()
        self.judged = 0

    def close(self):
        self.own.close()
