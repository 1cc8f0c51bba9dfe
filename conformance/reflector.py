"""What a reflector does: the floor, a module with its members, and a link with its peers.

All moments are milliseconds, and come with what is heard: nothing here reads a clock.
"""

from collections import OrderedDict, namedtuple

from packets import Refused, Stream, crc, decode, with_source

# ---- the floor of a module: who may speak

FLOOR_MS = 1600
STREAM_MEMORY_MS = 10000

# An admitted frame, with the moment of the one that opened the floor for it.
Frame = namedtuple("Frame", "member moment packet opened")
Verdict = namedtuple("Verdict", "word value", defaults=(None,))


class Member:
    """One membership of a module, from its join to its leave."""

    def __init__(self, place, generation=0, peer=None, listens=False):
        self.place = place
        self.generation = generation
        self.peer = peer
        self.listens = listens
        self.is_in = True
        self.own = None  # its last admitted frame


class Floor:
    def __init__(self, limit):
        self.limit = limit  # how long one may talk; 0 is as long as one likes
        self.moment = 0  # the greatest so far
        self.last = None  # the last admitted frame, whoever sent it

    def moves_to(self, moment):
        self.moment = max(self.moment, moment)

    def has_run_out(self, frame):
        """Whether the limit has passed since the floor was opened for this frame."""
        return self.limit != 0 and self.moment - frame.opened >= self.limit

    def holding(self):
        """The last admitted frame, where its sender holds the floor by it."""
        last = self.last
        is_held = last and not last.packet.last and self.moment - last.moment < FLOOR_MS and last.member.is_in
        return last if is_held and not self.has_run_out(last) else None

    def verdict(self, member, packet):
        if member is None or not member.is_in:
            return Verdict("not-member")
        if member.listens:
            return Verdict("listen-only")
        held = self.holding()
        if held and (held.member is not member or held.packet.sid != packet.sid):
            return Verdict("busy", held.member)
        own = member.own
        if own and own.packet.sid == packet.sid and self.moment - own.moment < STREAM_MEMORY_MS:
            if own.packet.last:
                return Verdict("after-end")
            ahead = (packet.number - own.packet.number) % 0x8000
            if ahead == 0:
                return Verdict("repeat")
            if ahead >= 0x4000:
                return Verdict("late", own.packet.number)
            if self.has_run_out(own):
                return Verdict("timed-out")
        return Verdict("continued" if held else "opened")

    def judge(self, member, packet):
        """The verdict; an admitted frame becomes the floor's and the sender's last one."""
        verdict = self.verdict(member, packet)
        if verdict.word in ("opened", "continued"):
            opened = self.moment if verdict.word == "opened" else self.last.opened
            self.last = member.own = Frame(member, self.moment, packet, opened)
        return verdict


# ---- a module: its members, its floor, and what it says to whom

PING_MS = 3000
RECORDED_FRAMES = 750
ECHO_DELAY_MS = 1000
FRAME_MS = 40


class Recording:
    """What a parrot module keeps of one stream."""

    def __init__(self, member):
        self.member = member
        self.frames = []
        self.closed_at = None
        self.given = 0

    def due(self, moment):
        """The next frame to echo, if it is time for it."""
        if self.closed_at is None or self.given == len(self.frames):
            return None
        if moment - self.closed_at < ECHO_DELAY_MS + FRAME_MS * self.given:
            return None
        packet = self.frames[self.given]
        self.given += 1
        frame = packet.number | (0x8000 if packet.last or self.given == len(self.frames) else 0)
        body = packet.bytes[:4] + (packet.sid ^ 0xFFFF).to_bytes(2, "big") + packet.bytes[6:34]
        body += frame.to_bytes(2, "big") + packet.bytes[36:52]
        return body + crc(body).to_bytes(2, "big")


class Module:
    def __init__(self, name, is_parrot, limit, say):
        self.name = name  # the reflector's address
        self.is_parrot = is_parrot
        self.say = say  # say(peer, datagram)
        self.members = {}  # by place
        self.floor = Floor(limit)
        self.recording = None

    def in_order(self):
        return [self.members[place] for place in sorted(self.members)]

    def tick(self, moment):
        """What each event does first, and all that a tick and a stop do."""
        before = self.floor.moment
        self.floor.moves_to(moment)
        if self.floor.moment // PING_MS > before // PING_MS:
            for member in self.in_order():
                self.say(member.peer, with_source(b"PING", self.name))
        recording = self.recording
        if recording:
            if recording.closed_at is None and not self.floor.holding():
                recording.closed_at = self.floor.moment
            echo = recording.due(self.floor.moment)
            if echo:
                self.say(recording.member.peer, echo)

    def join(self, moment, member):
        self.tick(moment)
        self.members[member.place] = member
        self.say(member.peer, b"ACKN")

    def leave(self, moment, member, farewell):
        """The farewell is empty for a member that moves."""
        self.tick(moment)
        if self.recording and self.recording.member is member:
            self.recording = None
        member.is_in = False
        del self.members[member.place]
        if farewell:
            self.say(member.peer, farewell)

    def reply(self, moment, member, datagram):
        self.tick(moment)
        self.say(member.peer, datagram)

    def packet(self, moment, member, packet):
        self.tick(moment)
        verdict = self.floor.judge(member, packet)
        if verdict.word in ("opened", "continued"):
            for other in self.in_order():
                if other is not member:
                    self.say(other.peer, packet.bytes)
            if self.is_parrot:
                self.record(verdict, member, packet)
        return verdict

    def record(self, verdict, member, packet):
        if verdict.word == "opened":
            self.recording = Recording(member)
        if len(self.recording.frames) < RECORDED_FRAMES:
            self.recording.frames.append(packet)
        if packet.last:
            self.recording.closed_at = self.floor.moment


# ---- a link: its known peers, and what it does with each thing that it hears

SILENCE_MS = 30000
TICK_MS = 20
LOST_AFTER = 16  # faults in a row

Datagram = namedtuple("Datagram", "moment peer bytes")
Quiet = namedtuple("Quiet", "moment")
Fault = namedtuple("Fault", "")
Peer = namedtuple("Peer", "six ip port")  # ordered by its fields; four bytes of IPv4 and then zeros
Known = namedtuple("Known", "kind source letter member")


def peer_text(peer):
    if peer.six:
        return "[%s]:%d" % (":".join(peer.ip[i : i + 2].hex() for i in range(0, 16, 2)), peer.port)
    return "%d.%d.%d.%d:%d" % (*peer.ip[:4], peer.port)


class Link:
    """One link with its modules. `hear` gives a word to count and the text of the entry's line."""

    def __init__(self, plan, say):
        self.name = plan.name
        self.places = plan.places
        self.say = say
        self.modules = {
            letter: Module(plan.name, letter in plan.parrots, plan.limit, say) for letter in sorted(plan.modules)
        }
        self.moment = 0
        self.known = {}  # by peer
        self.heard_at = OrderedDict()  # the known peers' last heard moments, which never fall, the least first
        self.faults = 0
        self.is_lost = False

    def hear(self, entry):
        if isinstance(entry, Fault):
            self.faults += 1
            if self.faults == LOST_AFTER:
                self.is_lost = True
                self.end()
            return "fault", "fault"
        self.faults = 0
        self.moves_to(entry.moment)
        if isinstance(entry, Quiet):
            return "quiet", "quiet"
        packet = decode(entry.bytes)
        if isinstance(packet, Refused):
            return "refused", "refused " + packet.reason
        if entry.peer in self.known:
            self.heard_at[entry.peer] = self.moment
            self.heard_at.move_to_end(entry.peer)
        return self.handle(entry.peer, packet)

    def moves_to(self, moment):
        before = self.moment
        self.moment = max(before, moment)
        silent = []
        for peer, heard_at in self.heard_at.items():
            if self.moment - heard_at < SILENCE_MS:
                break
            silent.append(peer)
        for peer in sorted(silent):
            self.leaves(peer, with_source(b"DISC", self.name))
        if self.moment // TICK_MS > before // TICK_MS:
            for module in self.modules.values():
                module.tick(self.moment)

    def leaves(self, peer, farewell):
        known = self.known.pop(peer)
        del self.heard_at[peer]
        self.modules[known.letter].leave(self.moment, known.member, farewell)

    def handle(self, peer, packet):
        known = self.known.get(peer)
        kind = "M17" if isinstance(packet, Stream) else packet.kind
        if kind in ("CONN", "LSTN"):
            return self.connect(peer, known, packet)
        if kind in ("ACKN", "NACK"):
            return "stray", "stray"
        if known is None:
            if kind == "DISC" and packet.source is not None:
                self.say(peer, b"DISC")
            return "not-connected", "not-connected"
        module = self.modules[known.letter]
        if kind == "M17":
            verdict = module.packet(self.moment, known.member, packet)
            text = "late %d" % verdict.value if verdict.word == "late" else verdict.word
            return verdict.word, known.letter + " " + text
        if kind == "PING":
            module.reply(self.moment, known.member, with_source(b"PONG", self.name))
            return "pong", known.letter + " pong"
        if kind == "PONG":
            return "alive", known.letter + " alive"
        self.leaves(peer, b"DISC")
        return "leave", known.letter + " leave"

    def connect(self, peer, known, packet):
        if packet.module not in self.modules:
            self.say(peer, b"NACK")
            return "not-served", "not-served " + packet.module
        if known and (known.kind, known.source, known.letter) == (packet.kind, packet.source, packet.module):
            self.modules[known.letter].reply(self.moment, known.member, b"ACKN")
            return "again", known.letter + " again"
        if known:
            self.leaves(peer, b"")
        taken = {other.member.place for other in self.known.values()}
        if len(taken) >= self.places:
            self.say(peer, b"NACK")
            return "full", "full"
        place = min(set(range(self.places)) - taken)
        member = Member(place, peer=peer, listens=packet.kind == "LSTN")
        self.known[peer] = Known(packet.kind, packet.source, packet.module, member)
        self.heard_at[peer] = self.moment
        self.modules[packet.module].join(self.moment, member)
        return "join", packet.module + " join"

    def end(self):
        for peer in sorted(self.known):
            self.leaves(peer, with_source(b"DISC", self.name))
        for module in self.modules.values():
            module.tick(self.moment)
