"""What may stand before a reflector's ear or behind its mouth, for `faulty_reflector.py`: a filled CRC, a guard against frames
that come round, and a pace. The probe has to find that all rules are kept with them, too."""

from collections import deque
from itertools import dropwhile

from packets import crc

SECOND = 1000
GUARD_MS = 10000
GUARD_FRAMES = 16384
PACE_PLACES = 256


def is_frame(data):
    """Whether it looks like a stream packet, whatever its CRC is."""
    return len(data) == 54 and data[:4] == b"M17 "


def filled(data):
    """A datagram that is a stream packet but for a CRC of 0000, with its right CRC."""
    if is_frame(data) and data[52:] == b"\0\0":
        return data[:52] + crc(data[:52]).to_bytes(2, "big")
    return data


class Guard:
    """An echo is a stream packet whose bytes the same peer sent before its latest one with other bytes: the last such copy came
    at most ten seconds before, is one of the last 16,384 stream packets of the link, and the peer has sent no DISC since."""

    def __init__(self):
        self.sent = {}  # by peer, the moments, numbers and bytes of its stream packets since its DISC, the oldest first
        self.count = 0

    def is_echo(self, moment, peer, data):
        if data[:4] == b"DISC" and len(data) in (4, 10):
            self.sent.pop(peer, None)
        if not is_frame(data):
            return False
        sent = self.sent.setdefault(peer, deque())
        while sent and self.count - sent[0][1] > GUARD_FRAMES:
            sent.popleft()
        before = dropwhile(lambda one: one[2] == data, reversed(sent))  # from the latest one with other bytes back
        copy = next((one for one in before if one[2] == data), None)
        sent.append((moment, self.count, data))
        self.count += 1
        return copy is not None and moment <= copy[0] + GUARD_MS


class Pace:
    """To one peer a frame passes where fewer than so many to it passed in the last second, and where none did, fewer than 256
    other peers were sent frames then. The moment is the greatest that came so far."""

    def __init__(self, most):
        self.most = most
        self.now = 0
        self.told = {}

    def is_over(self, moment, peer, data):
        if not is_frame(data) or self.most == 0:
            return False
        self.now = max(self.now, moment)
        for other, moments in list(self.told.items()):
            while moments and self.now - moments[0] > SECOND:
                moments.popleft()
            if not moments:
                del self.told[other]
        told = self.told.setdefault(peer, deque())
        if len(told) >= self.most or len(self.told) > PACE_PLACES:
            return True
        told.append(self.now)
        return False
