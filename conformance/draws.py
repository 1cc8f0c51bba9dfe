"""Random choices, packets, talk and moments, from which the cases are made."""

from packets import BROADCAST, FIRST_WITHOUT_CALLSIGN, GROUPS, crc, encode

LAST_MOMENT = 2**64 - 1


class Draw:
    """Random choices that are the same for the same seeds, whatever the version of Python."""

    def __init__(self, *seeds):
        self.state = 0
        for byte in repr(seeds).encode():
            self.state = (self.state ^ byte) * 0x100000001B3 % 2**64
            self.next()

    def next(self):
        self.state = (self.state + 0x9E3779B97F4A7C15) % 2**64
        mixed = self.state
        mixed = (mixed ^ mixed >> 30) * 0xBF58476D1CE4E5B9 % 2**64
        mixed = (mixed ^ mixed >> 27) * 0x94D049BB133111EB % 2**64
        return mixed ^ mixed >> 31

    def below(self, bound):
        return self.next() % bound

    def between(self, least, most):
        return least + self.below(most - least + 1)

    def chance(self, percent):
        return self.below(100) < percent

    def pick(self, choices):
        return choices[self.below(len(choices))]

    def weighted(self, weights):
        """One of the keys, as often as its weight says."""
        at = self.below(sum(weights.values()))
        for key, weight in weights.items():
            at -= weight
            if at < 0:
                return key
        raise AssertionError

    def bytes(self, length):
        return bytes(self.below(256) for _ in range(length))

    def some(self, choices):
        return [choice for choice in choices if self.chance(50)]


# ---- packets


def stream(sid, frame, last=False, source=None, payload=bytes(16), lsd=None):
    """A stream packet; `lsd` are the 28 bytes of its link setup data, where they matter."""
    source = encode("AB1CD") if source is None else source
    lsd = lsd or BROADCAST.to_bytes(6, "big") + source.to_bytes(6, "big") + b"\0\5" + bytes(14)
    body = b"M17 " + sid.to_bytes(2, "big") + lsd
    body += (frame % 0x8000 + (0x8000 if last else 0)).to_bytes(2, "big") + payload
    return body + crc(body).to_bytes(2, "big")


def named(kind, source, module=""):
    return kind.encode() + source.to_bytes(6, "big") + module.encode()


def sealed(packet):
    """The packet with its CRC made right."""
    return packet[:52] + crc(packet[:52]).to_bytes(2, "big")


STATIONS = ("AB1CD", "N0CALL", "HOT", " A", "-", "/.", "M17-TST", ".........", "W1A-5/P")
OF_GROUPS = ("#AB", "#A", "#  -", "#........")
CALLSIGNS = [encode(text) for text in STATIONS + OF_GROUPS]
NO_CALLSIGNS = [0, BROADCAST, GROUPS, FIRST_WITHOUT_CALLSIGN, BROADCAST - 1]


def any_callsign(draw):
    return draw.between(GROUPS + 1, FIRST_WITHOUT_CALLSIGN - 1) if draw.chance(30) else draw.between(1, GROUPS - 1)


def any_packet(draw):
    kind = draw.pick(("CONN", "LSTN", "ACKN", "NACK", "PING", "PONG", "DISC", "DISC4", "M17", "M17"))
    if kind in ("ACKN", "NACK"):
        return kind.encode()
    if kind == "DISC4":
        return b"DISC"
    if kind == "M17":
        lsd = None
        if draw.chance(60):
            addresses = [draw.pick(CALLSIGNS + NO_CALLSIGNS + [draw.below(2**48)]) for _ in range(2)]
            lsd = b"".join(address.to_bytes(6, "big") for address in addresses) + draw.bytes(16)
        return stream(draw.below(65536), draw.below(65536), draw.chance(20), None, draw.bytes(16), lsd)
    source = draw.pick(CALLSIGNS) if draw.chance(70) else any_callsign(draw)
    module = chr(ord("A") + draw.below(26)) if kind in ("CONN", "LSTN") else ""
    return named(kind, source, module)


def spoiled(draw, data):
    """The bytes with something wrong with them, most times."""
    way = draw.below(10)
    data = bytearray(data)
    if way == 0 or not data:
        return draw.bytes(draw.pick((0, 1, 3, 4, 9, 10, 11, 12, 53, 54, 55, 63, 64)))
    at = draw.below(len(data))
    if way == 1:
        return bytes(data[:at])
    if way == 2:
        return bytes(data[:at] + data[at + 1 :])
    if way == 3:
        return bytes(data[:at] + draw.bytes(1) + data[at:])
    if way == 4 and len(data) >= 10:
        data[4:10] = draw.pick(NO_CALLSIGNS).to_bytes(6, "big")
    elif way == 5 and len(data) == 11:
        data[10] = draw.pick(b"@[az\0\xff")
    elif way == 6 and len(data) == 54:
        data[52 + draw.below(2)] ^= 1 << draw.below(8)
    elif way == 7:
        data[draw.below(min(4, len(data)))] ^= 1 << draw.below(8)
    else:
        data[at] ^= 1 << draw.below(8)
    return bytes(data)


# ---- the talk of some senders: streams with repeats, late frames, ends, and frames after the end

AHEAD = {1: 60, 0: 8, 2: 6, -1: 5, -2: 2, 16383: 3, 16384: 3, 16385: 1, 32767: 1, 3: 2, -5: 1, 1000: 1}


class Talk:
    def __init__(self, draw, senders, sids=4):
        self.draw = draw
        self.senders = senders
        self.sids = [draw.below(65536) for _ in range(sids)] + [0, 1]
        self.streams = {}  # sid and number by sender
        self.sender = draw.pick(senders)

    def frame(self):
        """A sender and its next packet."""
        draw = self.draw
        if draw.chance(15):
            self.sender = draw.pick(self.senders)
        sender = self.sender
        sid, frame = self.streams.get(sender, (None, 0))
        if sid is None or draw.chance(7):
            sid = draw.pick(self.sids)
            frame = draw.weighted({0: 8, 32760: 1, 32767: 1, draw.below(32768): 1})
        else:
            frame = (frame + draw.weighted(AHEAD)) % 0x8000
        self.streams[sender] = sid, frame
        packet = stream(sid, frame, draw.chance(6), draw.pick(CALLSIGNS), draw.bytes(1) * 16)
        return sender, spoiled(draw, packet) if draw.chance(3) else packet


def talked_out(draw, senders, limit, start):
    """Moments, senders and packets: a stream goes on until its limit has passed, with almost no gap that frees the floor; and
    then what comes at the milliseconds that count, of the limit, the silence and the memory of a stream. Once or twice."""
    holder = draw.pick(senders)
    others = [sender for sender in senders if sender != holder]
    sid = draw.below(65536)
    number = draw.pick((0, 0, 32700))
    gap = (1500, 1599) if limit >= 20000 else (limit // 10, limit // 5)
    call = draw.pick(CALLSIGNS)
    said = []

    def holder_says(moment):
        nonlocal number
        number = (number + draw.pick((1, 1, 1, 1, 2, 16383 if draw.chance(3) else 1))) % 0x8000
        said.append((moment, holder, stream(sid, number, False, call)))

    def other_says(moment, is_last):
        said.append((moment, draw.pick(others), stream(draw.pick((sid, sid ^ 1)), number, is_last, draw.pick(CALLSIGNS))))

    opened = start
    for _ in range(draw.between(1, 2)):
        moment = opened
        while moment < opened + limit:
            last = moment
            holder_says(moment)
            if draw.chance(8):
                other_says(moment, draw.chance(30))
            if draw.chance(4):
                said.append((moment, *said[-1][1:]))  # as it was
            moment += draw.between(*gap)
        for before in (2, 1):
            if draw.chance(50) and last < opened + limit - before:
                last = opened + limit - before
                holder_says(last)
        edges = [opened + limit, opened + limit, opened + limit + 1, last + 1599, last + 1600]
        edges += [last + 1601 + draw.below(8000), last + 9998, last + 9999, last + 9999]
        for moment in sorted(edge for edge in edges if draw.chance(60) and edge >= opened + limit):
            way = draw.below(20)
            if way < 5:
                other_says(moment, draw.chance(70))
            elif way < 7:
                said.append((moment, holder, stream(sid, number - draw.pick((0, 0, 1)), draw.chance(30), call)))
            elif way == 7:
                said.append((moment, holder, stream(sid ^ 2, number, draw.chance(70), call)))
            else:
                holder_says(moment)
        opened = last + 10000
        if draw.chance(80):
            holder_says(opened)
    return [(min(moment, LAST_MOMENT), sender, packet) for moment, sender, packet in said]


# ---- what peers say where frames come again


def comes_again(draw, said, peers=3):
    """A peer and what it says next, where `said` has all that was said before: mostly the next frame of its stream, or a frame of
    before, of this stream or an older one; else what another peer said, a DISC, or what only looks like a frame."""
    peer = draw.below(peers)
    own = [data for other, data in said if other == peer]
    way = draw.weighted({"next": 40, "again": 35, "last": 6, "others": 8, "disc": 5, "like": 15})
    data = stream(1 + len(own) // 12, len(own), draw.chance(8), payload=bytes([peer]) * 16)
    if way == "again" and own:
        data = draw.pick(own[-30:])
    elif way == "last" and own:
        data = own[-1]
    elif way == "others" and said:
        data = draw.pick(said[-30:])[1]
    elif way == "disc":
        data = draw.pick((b"DISC", named("DISC", encode("AB1CD"))))
    elif way == "like":
        data = like_a_frame(draw, data)
    return peer, data[:52] + b"\0\0" if len(data) == 54 and draw.chance(20) else data


def like_a_frame(draw, frame):
    """A frame with a wrong CRC; what ends in zeros as one without a CRC, but is a byte too short or too long, or has another magic;
    or what is no packet at all."""
    body = frame[:52]
    return draw.pick(
        (
            body + draw.pick((b"\0\1", b"\1\0", b"\xff\xff", bytes((frame[52], frame[53] ^ 1)))),
            draw.pick((body[:51] + b"\0\0", body + b"\0\0\0", frame[:53] + b"\0\0")),
            draw.pick((b"m17 ", b"M27 ", b"M16 ", b"M17_")) + body[4:] + b"\0\0",
            b"M17 " + draw.bytes(draw.pick((0, 49, 51))),
        )
    )


def around_the_memory(draw, most=16384):
    """Peers and what they say: pairs of frames of one stream; so many packets of another peer that the first ones of some pairs
    are still among the last packets, `most` of them; then the first frame of each pair again."""
    pairs = draw.between(10, 30)
    said = [(0, stream(1, number)) for number in range(2 * pairs)]
    others = [(1, stream(2, number)[:52] + b"??") for number in range(2)]
    count = most + 1 - 2 * pairs + draw.below(pairs - 1)
    return said + (count // 2 * others + others)[:count] + said[::2]


class Clock:
    """Moments that creep, jump, go back and meet each bound of the rules to the millisecond."""

    BOUNDS = (20, 40, 1000, 1599, 1600, 1601, 3000, 9999, 10000, 10001, 29999, 30000, 30001)

    def __init__(self, draw, steps, start=None):
        self.draw = draw
        self.steps = steps
        self.greatest = self.moment = draw.pick((0, 0, 0, 19, 2990, 10**12)) if start is None else start
        self.recent = [self.moment]

    def next(self):
        draw = self.draw
        way = draw.weighted(self.steps)
        if way == "still":
            moment = self.moment
        elif way == "step":
            moment = self.greatest + draw.pick((1, 10, 20, 20, 39, 40, 40, 40, 41))
        elif way == "bound":
            moment = draw.pick(self.recent) + draw.pick(self.BOUNDS)
        elif way == "tick":
            edge = draw.pick((20, 3000, 3000))
            moment = self.greatest // edge * edge + edge + draw.pick((-1, 0, 0, 1))
        elif way == "jump":
            moment = self.greatest + draw.below(draw.pick((100, 2000, 12000, 40000)))
        elif way == "back":
            moment = draw.pick((0, self.greatest - draw.below(5000), draw.below(self.greatest + 1)))
        else:
            moment = draw.pick((LAST_MOMENT, LAST_MOMENT - 1, 2**63, 2**32, LAST_MOMENT - 30000))
        self.moment = min(max(moment, 0), LAST_MOMENT)
        self.greatest = max(self.greatest, self.moment)
        self.recent = self.recent[-5:] + [self.moment]
        return self.moment


CALM = {"still": 10, "step": 80, "tick": 5, "bound": 1, "jump": 2, "back": 2}
SHARP = {"still": 20, "step": 30, "bound": 30, "tick": 8, "jump": 6, "back": 6}
WILD = {"still": 10, "step": 40, "bound": 20, "tick": 6, "jump": 12, "back": 10, "far": 2}
