"""Cases of `replay`: evenings of many kinds, and traces with wrong bytes."""

import made
from files import TRACE_MAGIC
from draws import CALLSIGNS, CALM, SHARP, WILD, Clock, Talk, any_packet, named, spoiled, stream, talked_out


def datagram(moment, peer, data):
    six, ip, port = peer
    head = b"\1" + moment.to_bytes(8, "big") + (b"\6" if six else b"\4") + ip + port.to_bytes(2, "big")
    return head + bytes([len(data)]) + data


def quiet(moment):
    return b"\2" + moment.to_bytes(8, "big")


FAULT = b"\3"


def some_peers(draw, count):
    """Peers that differ in one part only here and there, IPv4 and IPv6."""
    peers = []
    while len(peers) < count:
        port = draw.pick((17000, 17000, 17000, 17001, 0, 65535))
        if draw.chance(75):
            peer = False, bytes([10, 0, draw.pick((0, 0, 200)), draw.below(250)]), port
        else:
            first = draw.pick((b"\x20\x01\x0d\xb8", b"\x0a\0\0\1", b"\xfe\x80\0\0"))
            peer = True, first + bytes(11) + bytes([draw.below(250)]), port
        if peer not in peers:
            peers.append(peer)
    return peers


class Evening:
    """Peers that connect, talk, answer and leave, as the weights of the deeds say."""

    def __init__(self, draw, peers, served, deeds, steps, callsigns=2, start=None):
        self.draw = draw
        self.peers = peers
        self.served = served
        self.deeds = deeds
        self.clock = Clock(draw, steps, start)
        self.talk = Talk(draw, peers, draw.between(1, 3))
        self.calls = [draw.pick(CALLSIGNS) for _ in range(callsigns)]
        self.entries = []
        self.gone = set()  # those that said DISC and have not come again

    def module(self):
        return self.draw.pick(self.served) if self.draw.chance(93) else chr(ord("A") + self.draw.below(26))

    def says(self, peer, data):
        self.entries.append(datagram(self.clock.next(), peer, data))
        if data[:4] == b"DISC":
            self.gone.add(peer)
        elif data[:4] in (b"CONN", b"LSTN"):
            self.gone.discard(peer)

    def everyone_joins(self):
        self.some_join(self.peers)

    def some_join(self, peers):
        for peer in peers:
            self.says(peer, named("CONN", self.draw.pick(self.calls), self.draw.pick(self.served)))

    def deed(self):
        draw = self.draw
        peer = draw.pick(self.peers)
        source = draw.pick(self.calls)
        deed = draw.weighted(self.deeds)
        if deed == "talk":
            peer, packet = self.talk.frame()
            if draw.chance(40 if peer in self.gone else 1):
                self.says(peer, named("CONN", source, draw.pick(self.served)))
            self.says(peer, packet)
        elif deed == "quiet":
            self.entries.append(quiet(self.clock.next()))
        elif deed == "fault":
            self.entries.extend([FAULT] * draw.pick((1, 1, 1, 2, 7, 14, 15)))
        elif deed == "sixteen":
            self.entries.extend([FAULT] * draw.pick((15, 16, 17, 31)))
        elif deed in ("CONN", "LSTN"):
            self.says(peer, named(deed, source, self.module()))
        elif deed == "DISC4":
            self.says(peer, b"DISC")
        elif deed in ("PING", "PONG", "DISC"):
            self.says(peer, named(deed, source))
        elif deed in ("ACKN", "NACK"):
            self.says(peer, deed.encode())
        elif deed == "spoiled":
            self.says(peer, spoiled(draw, any_packet(draw))[:64])
        else:
            self.says(peer, any_packet(draw))

    def goes_on(self, count):
        for _ in range(count):
            self.deed()
        return self

    def trace(self):
        return TRACE_MAGIC + b"".join(self.entries)


def replay_words(draw, served=None, parrots=None, places=None):
    """The words of `replay` in one of their spellings; about half of them ask for the summary."""
    options = {}
    if served:
        options["modules"] = "".join(served)
    if parrots:
        options["parrots"] = "".join(parrots)
    if places is not None:
        options["places"] = draw.pick(("%d", "%d", "%03d", "%06d")) % places
    if draw.chance(50):
        # None, some that are soon over, and the one that goes without saying.
        options["limit"] = draw.pick(("0", "1", "1", "2", "5", "20", "180"))
    if draw.chance(15):
        options["call"] = draw.pick(("N0CALL", " A", "M17-ABC C", ".", "-"))
    words = []
    for name, value in options.items():
        words += ["--%s=%s" % (name, value)] if draw.chance(40) else ["--" + name, value]
    if draw.chance(50):
        words = draw.pick((["--summary"] + words, words + ["--summary"]))
    return ["replay"] + words + (["--"] if draw.chance(3) else [])


DEEDS = {
    "talk": 60, "CONN": 5, "LSTN": 3, "PONG": 8, "PING": 3, "DISC": 2, "DISC4": 2, "ACKN": 1, "NACK": 1,
    "quiet": 8, "fault": 1, "spoiled": 3, "any": 2,
}  # fmt: skip
COMING_AND_GOING = {
    "talk": 15, "CONN": 25, "LSTN": 15, "PONG": 8, "PING": 3, "DISC": 8, "DISC4": 8, "ACKN": 2, "NACK": 2,
    "quiet": 8, "fault": 1, "spoiled": 3, "any": 2,
}  # fmt: skip


WAITING = {"quiet": 9, "PONG": 1}
WAITING_AND_LEAVING = {"quiet": 30, "PONG": 3, "PING": 2, "CONN": 1, "DISC": 1}


def served_by(draw):
    return draw.pick((["A"], ["A", "B"], ["A", "B", "C"], ["C", "A", "B"], ["Z", "M", "A"], ["D"]))


def short_trace(draw):
    return Evening(draw, some_peers(draw, 2), ["A"], DEEDS, CALM).goes_on(8).trace()


def replay_evening(draw):
    served = served_by(draw)
    evening = Evening(draw, some_peers(draw, draw.between(2, 6)), served, DEEDS, CALM)
    evening.everyone_joins()
    return replay_words(draw, served), evening.goes_on(draw.between(20, 200)).trace()


def replay_sharp(draw):
    served = served_by(draw)[:2]
    evening = Evening(draw, some_peers(draw, draw.between(2, 4)), served, DEEDS, SHARP)
    evening.everyone_joins()
    return replay_words(draw, served), evening.goes_on(draw.between(20, 150)).trace()


def replay_crowd(draw):
    served = served_by(draw)
    evening = Evening(draw, some_peers(draw, draw.between(3, 10)), served, COMING_AND_GOING, CALM)
    return replay_words(draw, served, places=draw.between(1, 4)), evening.goes_on(draw.between(10, 120)).trace()


def replay_silence(draw):
    """Peers that are heard of rarely, by what decodes and by what doesn't."""
    served = served_by(draw)
    deeds = {"PONG": 10, "ACKN": 4, "NACK": 4, "PING": 4, "quiet": 15, "spoiled": 10, "talk": 8, "CONN": 10, "LSTN": 5}
    steps = {"bound": 50, "jump": 25, "tick": 10, "still": 10, "step": 5, "back": 5}
    evening = Evening(draw, some_peers(draw, draw.between(1, 5)), served, deeds, steps)
    evening.everyone_joins()
    places = draw.pick((None, None, 1, 2, 3))
    return replay_words(draw, served, places=places), evening.goes_on(draw.between(5, 80)).trace()


def replay_moves(draw):
    """Connecting again, with another module, kind or callsign."""
    served = ["A", "B", "C"]
    deeds = {"CONN": 30, "LSTN": 20, "talk": 30, "DISC": 3, "DISC4": 3, "quiet": 3, "PONG": 3}
    evening = Evening(draw, some_peers(draw, draw.between(1, 4)), served, deeds, CALM, callsigns=draw.between(1, 3))
    places = draw.pick((None, None, 1, 2, 3))
    return replay_words(draw, places=places), evening.goes_on(draw.between(10, 100)).trace()


def replay_strangers(draw):
    """All kinds of packets from peers that are not connected, most of the time."""
    deeds = dict.fromkeys(("PING", "PONG", "DISC", "DISC4", "ACKN", "NACK", "any", "talk", "quiet"), 10)
    deeds["CONN"] = 2
    evening = Evening(draw, some_peers(draw, draw.between(1, 6)), ["A", "B", "C"], deeds, CALM)
    return replay_words(draw), evening.goes_on(draw.between(5, 60)).trace()


def replay_faults(draw):
    served = served_by(draw)
    deeds = dict(DEEDS, fault=15, sixteen=draw.pick((0, 1, 8)))
    evening = Evening(draw, some_peers(draw, draw.between(2, 8)), served, deeds, CALM)
    evening.some_join(evening.peers[:2])
    trace = evening.goes_on(draw.between(5, 60)).trace()
    return replay_words(draw, served), trace + (draw.bytes(1) if draw.chance(15) else b"")


def replay_hostile(draw):
    """Datagrams of any bytes, among some that are none."""
    served = served_by(draw)
    deeds = {"spoiled": 50, "any": 25, "CONN": 10, "talk": 15}
    evening = Evening(draw, some_peers(draw, draw.between(1, 5)), served, deeds, WILD)
    return replay_words(draw, served), evening.goes_on(draw.between(5, 80)).trace()


def replay_wild(draw):
    served = served_by(draw)
    evening = Evening(draw, some_peers(draw, draw.between(1, 6)), served, dict(COMING_AND_GOING, sixteen=1), WILD)
    parrots = draw.some(served)
    places = draw.pick((None, 1, 2, 3, 5))
    return replay_words(draw, served, parrots, places), evening.goes_on(draw.between(5, 150)).trace()


def replay_many(draw):
    """More peers than places, at the largest tables too."""
    places = draw.pick((None, 63, 64, 65, 128, 255, 256))
    count = (places or 64) + draw.between(-1, 3)
    peers = some_peers(draw, count)
    evening = Evening(draw, peers, ["A", "B", "C"], COMING_AND_GOING, {"still": 90, "step": 10})
    evening.everyone_joins()
    return replay_words(draw, places=places), evening.goes_on(draw.between(20, 120)).trace()


def replay_all_letters(draw):
    served = [chr(ord("A") + index) for index in range(26)]
    evening = Evening(draw, some_peers(draw, draw.between(2, 12)), served, DEEDS, CALM)
    evening.everyone_joins()
    return replay_words(draw, served, draw.some(served)), evening.goes_on(draw.between(10, 100)).trace()


def recording(draw, evening, peer, count):
    """One stream of the peer, frame by frame, with other deeds between."""
    sid = draw.below(65536)
    first = draw.pick((0, 0, 0, 32760))
    has_end = draw.chance(60)
    for index in range(count):
        is_last = has_end and index == count - 1
        evening.says(peer, stream(sid, first + index, is_last, draw.pick(CALLSIGNS), draw.bytes(1) * 16))
        if draw.chance(4):
            evening.deed()


def replay_parrot(draw):
    """Recordings of some frames, with and without the end bit, and time for their echoes."""
    served = draw.pick((["A"], ["A", "B"]))
    steps = {"step": 80, "still": 12, "tick": 3, "jump": 2, "bound": 2, "back": 1}
    evening = Evening(draw, some_peers(draw, draw.between(1, 4)), served, DEEDS, steps)
    evening.everyone_joins()
    for _ in range(draw.between(1, 3)):
        count = draw.between(1, 12)
        recording(draw, evening, draw.pick(evening.peers), count)
        if draw.chance(70):
            around_echoes(draw, evening, draw.between(1, count + 2))
            if draw.chance(60):
                break
        evening.deeds = draw.pick((WAITING, WAITING_AND_LEAVING, DEEDS))
        evening.goes_on(draw.between(5, 60))
    words = replay_words(draw, served, draw.pick((["A"], served)))
    return words if "--summary" in words else words[:1] + ["--summary"] + words[1:], evening.trace()


def around_echoes(draw, evening, count):
    """Events at the milliseconds around the moments at which the first echoes are due."""
    closed_at = evening.clock.greatest
    if draw.chance(40):
        closed_at += draw.pick((1599, 1600, 1601))
        evening.entries.append(quiet(closed_at))
    for index in range(count):
        moment = closed_at + 1000 + 40 * index + draw.pick((-1, 0, 0, 1))
        if draw.chance(30):
            evening.entries.append(datagram(moment, draw.pick(evening.peers), named("PING", CALLSIGNS[0])))
        else:
            evening.entries.append(quiet(moment))
        evening.clock.greatest = moment


def replay_parrot_full(draw):
    """A recording around the most that is kept, and events enough for all its echoes."""
    steps = {"step": 1}
    peers = some_peers(draw, draw.between(1, 2))
    evening = Evening(draw, peers, ["A"], {"quiet": 1}, steps)
    evening.everyone_joins()
    recording(draw, evening, peers[0], draw.between(745, 755))
    moment = evening.clock.greatest + 2000
    for index in range(draw.pick((700, 760, 760, 800))):
        moment += draw.pick((40, 40, 41, 60))
        if index % 100 == 0:
            evening.entries.append(datagram(moment, peers[0], named("PONG", CALLSIGNS[0])))
        else:
            evening.entries.append(quiet(moment))
    return ["replay", "--summary", "--modules", "A", "--parrots", "A"], evening.trace()


def replay_limit(draw):
    """A stream is talked out under a limit, the one that goes without saying or none; the others stay in."""
    peers = some_peers(draw, draw.between(2, 3))
    limit = draw.pick((1, 1, 2, 5, 20, 180, 180))
    start = draw.pick((0, 40, 10**9))
    calls = {peer: draw.pick(CALLSIGNS) for peer in peers}
    entries = [datagram(start, peer, named("CONN", calls[peer], "A")) for peer in peers]
    for moment, peer, packet in talked_out(draw, peers, 1000 * limit, start):
        entries.append(datagram(moment, peer, packet))
        if draw.chance(15):
            entries += [datagram(moment, other, named("PONG", calls[other])) for other in peers]
        elif draw.chance(10):
            entries.append(quiet(moment + draw.below(20)))
    words = ["replay"] + (["--parrots", "A"] if draw.chance(30) else []) + (["--summary"] if draw.chance(30) else [])
    if draw.chance(10):
        words.append("--limit=0")
    elif limit != 180 or draw.chance(30):
        words += ["--limit", str(limit)]
    return words, TRACE_MAGIC + b"".join(entries)


def replay_made(draw):
    """A made evening, and now and then one that is repeated or followed by another."""

    def evening():
        return b"".join(made.make(draw.below(2**64), draw.between(0, 400)))

    trace = evening()
    way = draw.below(5)
    if way == 0:
        trace += evening()[8:]
    elif way == 1:
        trace += trace[8:]
    elif way == 2:
        trace += FAULT * draw.pick((1, 15, 16)) + evening()[8:]
    served = draw.pick((None, None, ["A", "B"], ["A", "B", "C", "D"]))
    parrots = draw.pick((None, None, ["A"], ["A", "B"]))
    return replay_words(draw, served, parrots, draw.pick((None, None, 4, 11, 12))), trace


def replay_bytes(draw):
    """Traces with wrong bytes, cut short, or with something behind them."""
    evening = Evening(draw, some_peers(draw, 2), ["A"], dict(DEEDS, fault=10), CALM)
    entries = evening.goes_on(draw.between(0, 12)).entries
    way = draw.below(8)
    trace = evening.trace()
    if way == 0:
        trace = trace[: draw.below(len(trace) + 1)]
    elif way == 1:
        trace = spoiled(draw, trace)
    elif way == 2:
        trace += draw.bytes(draw.between(1, 3))
    elif way == 3:
        trace = spoiled(draw, trace[:8])[:8] + trace[8 : draw.pick((8, 9, len(trace)))]
    elif way == 4:
        bad = b"\1" + bytes(8) + draw.pick((b"\5", b"\0", b"\4", b"\6")) + draw.bytes(draw.below(30))
        trace += bad[: draw.between(1, len(bad))]
    elif way == 5:
        peer = some_peers(draw, 1)[0]
        length = draw.pick((63, 64, 65, 255))
        trace += datagram(0, peer, b"x" * length)[: draw.pick((-1, 2**10))] + draw.pick((b"", FAULT))
    elif way == 6:
        trace = TRACE_MAGIC + b"".join(draw.pick(entries) for _ in entries) + FAULT * draw.pick((0, 16))
    else:
        trace = draw.bytes(draw.below(40))
    return replay_words(draw), trace
