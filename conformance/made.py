"""`make`: the trace of an evening of twelve hotspots on three modules, drawn from a seed."""

from files import TRACE_MAGIC
from packets import BROADCAST, crc, encode



class Turns:
    """One module's part of the evening."""

    def __init__(self):
        self.left = self.rest = self.number = 0
        self.who = self.sid = self.held = None


def made_packet(hotspot, sid, frame, is_last=False):
    body = b"M17 " + sid.to_bytes(2, "big") + BROADCAST.to_bytes(6, "big") + made_source(hotspot)
    body += b"\0\5" + bytes(14) + (frame + (0x8000 if is_last else 0)).to_bytes(2, "big") + bytes([frame % 256]) * 16
    return body + crc(body).to_bytes(2, "big")


def made_source(hotspot):
    return encode("HOT" + chr(ord("A") + hotspot)).to_bytes(6, "big")


def made_datagram(moment, hotspot, data):
    peer = bytes([4, 10, 0, 0, hotspot + 1]) + (17000).to_bytes(2, "big")
    return b"\1" + moment.to_bytes(8, "big") + peer + bytes([len(data)]) + data


def make(seed, count):
    state = seed

    def draw(k):
        nonlocal state
        state = (6364136223846793005 * state + 1442695040888963407) % 2**64
        return state // 2**33 % k

    def turn(t, m):
        """The next entry of module m, as a hotspot and a packet; None for a quiet one."""
        if t.rest > 0:
            t.rest -= 1
            return None
        if t.held is not None:
            held, t.held = t.held, None
            return t.who, made_packet(t.who, t.sid, held)
        if t.left == 0:
            t.who = m + 3 * draw(4)
            t.sid = draw(65536)
            t.left = 25 + draw(100)
            t.number = 0
        d = draw(20)
        if d == 0 and t.number > 0:
            return t.who, made_packet(t.who, t.sid, t.number - 1)
        if d == 1:
            other = m + 3 * (((t.who - m) // 3 + 1) % 4)
            return other, made_packet(other, t.sid ^ 1, 0)
        if d == 2 and t.left >= 3:
            t.held = t.number
            t.number += 2
            t.left -= 2
            return t.who, made_packet(t.who, t.sid, t.held + 1)
        packet = made_packet(t.who, t.sid, t.number, t.left == 1)
        t.number += 1
        t.left -= 1
        if t.left == 0:
            t.rest = 5
        return t.who, packet

    modules = [Turns(), Turns(), Turns()]
    yield TRACE_MAGIC
    for j in range(count):
        if j < 12:
            yield made_datagram(0, j, b"CONN" + made_source(j) + b"ABC"[j % 3 : j % 3 + 1])
            continue
        u = j - 12
        moment = 40 * (u // 3 + 1)
        if u % 300 < 12:
            yield made_datagram(moment, u % 300, b"PONG" + made_source(u % 300))
            continue
        said = turn(modules[u % 3], u % 3)
        yield made_datagram(moment, *said) if said else b"\2" + moment.to_bytes(8, "big")
