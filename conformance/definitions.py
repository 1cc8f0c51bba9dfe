"""The floor, the parrot, a module's items, a link's peers and what is an echo, looked up in the whole list of what happened.

Nothing is kept between two questions but the answers themselves: each is a search through the list. So this is slow. It
shares nothing with the floor, the module and the link of `reflector.py`, nor with the guard of `before_the_ear.py`, and the
tests compare the two on short inputs. Positions count from 0.
"""

from collections import Counter, namedtuple

from packets import Control, Refused, Stream, crc, decode
from reference import COUNTED, TALLIED
from reflector import Datagram, Fault, Quiet, peer_text

# A join has a member, its peer and whether it listens; a leave a member and its farewell; a packet a member and the
# packet; a reply a member and the datagram; the kind `other` has nothing.
FIELDS = "index moment kind member peer listens farewell packet datagram"
Event = namedtuple("Event", FIELDS, defaults=(None,) * 6)
Place = namedtuple("Place", "place generation")


class Trail:
    """The events of one module."""

    def __init__(self, events, places, is_parrot, name, limit):
        self.events = events
        self.places = places
        self.limit = limit
        self.is_parrot = is_parrot
        self.name = name
        self.verdicts = []
        self.echoes = []
        for n in range(len(events)):  # each looks at smaller positions alone
            self.verdicts.append(self._verdict(n) if events[n].kind == "packet" else None)
            self.echoes.append(self._echo(n) if is_parrot else None)

    def now(self, n):
        return max(event.moment for event in self.events[: n + 1])

    def before(self, n):
        return self.now(n - 1) if n else 0

    def joined(self, k, n):
        """Where k joined, if it is in before position n."""
        if k.place >= self.places:
            return None
        for j in range(n - 1, -1, -1):
            event = self.events[j]
            if event.kind == "join" and event.member.place == k.place:
                return j if event.member == k else None
            if event.kind == "leave" and event.member == k:
                return None
        return None

    def is_in(self, k, n):
        return self.joined(k, n) is not None

    def those_in(self, n):
        members = {event.member for event in self.events[:n] if event.kind == "join"}
        return sorted(k for k in members if self.is_in(k, n))

    def is_admitted(self, n):
        return self.verdicts[n] is not None and self.verdicts[n][0] in ("opened", "continued")

    def holder(self, n):
        admitted = [a for a in range(n) if self.is_admitted(a)]
        if not admitted:
            return None
        a = admitted[-1]
        joined = self.joined(self.events[a].member, n)
        if self.events[a].packet.last or self.now(n) - self.now(a) >= 1600 or joined is None or joined >= a:
            return None
        return None if self.is_out_of_time(a, n) else a

    def is_out_of_time(self, a, n):
        """Whether, at n, the limit has passed since the last opened position at or below a."""
        opened = [o for o in range(a + 1) if self.verdicts[o] is not None and self.verdicts[o][0] == "opened"]
        return self.limit > 0 and self.now(n) - self.now(opened[-1]) >= self.limit

    def own(self, n):
        k = self.events[n].member
        joined = self.joined(k, n)
        admitted = [a for a in range(joined + 1, n) if self.is_admitted(a) and self.events[a].member == k]
        if not admitted:
            return None
        a = admitted[-1]
        if self.events[a].packet.sid != self.events[n].packet.sid or self.now(n) - self.now(a) >= 10000:
            return None
        return a

    def _verdict(self, n):
        k, packet = self.events[n].member, self.events[n].packet
        joined = self.joined(k, n)
        if joined is None:
            return "not-member", None
        if self.events[joined].listens:
            return "listen-only", None
        holder = self.holder(n)
        if holder is not None:
            held = self.events[holder]
            if held.member != k or held.packet.sid != packet.sid:
                return "busy", held.member
        own = self.own(n)
        if own is not None:
            y = self.events[own].packet
            if y.last:
                return "after-end", None
            if packet.number == y.number:
                return "repeat", None
            if (packet.number - y.number) % 32768 >= 16384:
                return "late", y.number
            if self.is_out_of_time(own, n):
                return "timed-out", None
        return ("opened" if holder is None else "continued"), None

    def value(self, n):
        """The bytes that a book keeps beside a verdict."""
        value = self.verdicts[n][1]
        if isinstance(value, Place):
            return value.place.to_bytes(4, "big") + value.generation.to_bytes(8, "big")
        return (value or 0).to_bytes(12, "big")

    def _echo(self, n):
        opened = [o for o in range(n) if self.verdicts[o] is not None and self.verdicts[o][0] == "opened"]
        if not opened:
            return None
        o = opened[-1]
        k = self.events[o].member
        joined = self.joined(k, n)
        if joined is None or joined >= o:
            return None
        held = [a for a in range(o, n) if self.is_admitted(a)][:750]
        closes = [
            c
            for c in range(o, n + 1)
            if (c < n and self.is_admitted(c) and self.events[c].packet.last) or (c > o and self.holder(c) is None)
        ]
        q = sum(self.echoes[e] is not None for e in range(o + 1, n))
        if not closes or q >= len(held) or self.now(n) - self.now(closes[0]) < 1000 + 40 * q:
            return None
        packet = self.events[held[q]].packet
        last = packet.last or q == len(held) - 1
        body = b"M17 " + (0xFFFF - packet.sid).to_bytes(2, "big") + packet.bytes[6:34]
        body += (packet.number + 32768 * last).to_bytes(2, "big") + packet.bytes[36:52]
        return k, body + crc(body).to_bytes(2, "big")

    def given(self, n):
        """The items of event n, each with its member; a farewell of a move has no bytes."""
        event = self.events[n]
        those_in = self.those_in(n)
        items = []
        if self.now(n) // 3000 > self.before(n) // 3000:
            items += [(k, b"PING" + self.name.to_bytes(6, "big")) for k in those_in]
        if self.echoes[n]:
            items.append(self.echoes[n])
        if event.kind == "join":
            items += [(k, b"") for k in those_in if k.place == event.member.place]
            items.append((event.member, b"ACKN"))
        if event.kind == "leave" and self.is_in(event.member, n):
            items.append((event.member, event.farewell))
        if self.is_admitted(n):
            items += [(k, event.packet.bytes) for k in those_in if k != event.member]
        if event.kind == "reply" and self.is_in(event.member, n):
            items.append((event.member, event.datagram))
        return items


def trail_of(records, limit):
    """What happened, by the records of a book."""
    kinds = {1: "join", 2: "leave", 3: "packet"}
    events = []
    for n, record in enumerate(records):
        member = Place(record.place, record.generation)
        events.append(
            Event(n, record.moment, kinds[record.kind], member, listens=record.listens, packet=record.packet)
        )
    return Trail(events, 256, False, 0, limit)


def broken_rule(records, trail, n):
    """The first rule that the record at this position breaks; None where it breaks none."""
    record, member = records[n], trail.events[n].member
    if n and record.moment < records[n - 1].moment:
        return "moment"
    if record.kind == 1 and any(other.place == member.place for other in trail.those_in(n)):
        return "member"
    if record.kind == 2 and not trail.is_in(member, n):
        return "member"
    if record.kind == 3 and (record.verdict, record.value) != (trail.verdicts[n][0], trail.value(n)):
        return "verdict"
    return None


def check_line(head, records):
    """What `check` says of a book with this head and these records."""
    trail = trail_of(records, head.limit)
    rules = [broken_rule(records, trail, n) for n in range(len(records))]
    for n, rule in enumerate(rules):
        if rule:
            return "input refused at %d: %s" % (n, rule)
    opened = [n for n in range(len(records)) if trail.verdicts[n] and trail.verdicts[n][0] == "opened"]
    admitted = [n for n in range(len(records)) if trail.is_admitted(n)]
    return "legal %d records %d streams %d admitted" % (len(records), len(opened), len(admitted))


def judged(records):
    """The verdicts of moments, talkers and packets, None for a refused one: every talker has joined at moment 0."""
    talkers = sorted({talker for _, talker, _ in records})
    events = [Event(n, 0, "join", Place(talker, 0), listens=False) for n, talker in enumerate(talkers)]
    for moment, talker, packet in records:
        kind = "packet" if isinstance(packet, Stream) else "other"
        events.append(Event(len(events), moment, kind, Place(talker, 0), packet=packet))
    return Trail(events, 65536, False, 0, 180000).verdicts[len(talkers) :]


class House:
    """One link's heard list with its modules: what becomes of each entry, and what is said to each peer."""

    def __init__(self, plan, entries):
        self.plan = plan
        self.heard = entries[: self.end_of(entries)]
        self.is_lost = len(self.heard) < len(entries) or self.ends_by_faults(self.heard, len(self.heard) - 1)
        self.packets = [decode(entry.bytes) if isinstance(entry, Datagram) else None for entry in self.heard]
        self.asking = {}
        self.members = {}  # of the asking entries that have one, by index
        for j in range(len(self.heard)):
            if self.asks(j):
                self.choose_place(j)
        self.routed = {letter: [] for letter in sorted(plan.modules)}
        self.direct = []
        self.lines = [self.verdict(j) for j in range(len(self.heard))]
        self.route()
        self.trails = {
            letter: Trail(events, plan.places, letter in plan.parrots, plan.name, plan.limit)
            for letter, events in self.routed.items()
        }

    # -- the heard list

    def ends_by_faults(self, entries, j):
        """The last of 16 faults in a row, counted from the first one of a row."""
        row = 0
        while row <= j and isinstance(entries[j - row], Fault):
            row += 1
        return row == 16

    def end_of(self, entries):
        for j in range(len(entries)):
            if self.ends_by_faults(entries, j):
                return j + 1
        return len(entries)

    def ends(self, j):
        return j == len(self.heard) or (self.is_lost and j == len(self.heard) - 1)

    def is_timed(self, j):
        return j < len(self.heard) and isinstance(self.heard[j], (Datagram, Quiet))

    def moment(self, j):
        moments = [entry.moment for entry in self.heard[: j + 1] if not isinstance(entry, Fault)]
        return max([0] + moments)

    def is_from(self, x, j):
        return isinstance(self.heard[j], Datagram) and self.heard[j].peer == x

    def packet_of(self, x, j):
        """What x sent at j, where it decodes."""
        return self.packets[j] if self.is_from(x, j) and not isinstance(self.packets[j], Refused) else None

    def heard_at(self, x, j):
        below = [i for i in range(j) if self.packet_of(x, i)]
        return self.moment(below[-1]) if below else None

    def is_silent(self, x, j):
        heard_at = self.heard_at(x, j)
        return self.is_timed(j) and heard_at is not None and self.moment(j) - heard_at >= 30000

    def known_by(self, x, j):
        """The asking entry by which x is known before j."""
        for i in range(j - 1, -1, -1):
            if self.is_from(x, i) and i in self.members:
                return None if any(self.breaks(x, i, e) for e in range(i + 1, j)) else i
        return None

    def breaks(self, x, i, e):
        packet = self.packet_of(x, e)
        is_disc = isinstance(packet, Control) and packet.kind == "DISC"
        takes_place = e in self.members and self.members[e].place == self.members[i].place
        return self.ends(e) or self.is_silent(x, e) or is_disc or (packet and self.asks(e)) or takes_place

    def still_known_by(self, x, j):
        return None if self.is_silent(x, j) else self.known_by(x, j)

    def peers_before(self, j):
        return sorted({entry.peer for entry in self.heard[:j] if isinstance(entry, Datagram)})

    def connects(self, j):
        packet = self.packets[j]
        return packet if isinstance(packet, Control) and packet.kind in ("CONN", "LSTN") else None

    def asks(self, j):
        if j not in self.asking:
            self.asking[j] = self._asks(j)
        return self.asking[j]

    def _asks(self, j):
        wanted = self.connects(j)
        if not wanted or wanted.module not in self.plan.modules:
            return False
        i = self.still_known_by(self.heard[j].peer, j)
        return i is None or self.packets[i].bytes != wanted.bytes

    def choose_place(self, j):
        own = self.heard[j].peer
        others = [self.still_known_by(x, j) for x in self.peers_before(j) if x != own]
        taken = [self.members[i].place for i in others if i is not None]
        if len(taken) < self.plan.places:
            place = min(place for place in range(self.plan.places) if place not in taken)
            earlier = sum(member.place == place for member in self.members.values())
            self.members[j] = Place(place, earlier)

    # -- what becomes of an entry

    def verdict(self, j):
        entry, packet = self.heard[j], self.packets[j]
        if isinstance(entry, Fault):
            return "fault"
        if isinstance(entry, Quiet):
            return "quiet"
        if isinstance(packet, Refused):
            return "refused " + packet.reason
        i = self.still_known_by(entry.peer, j)
        letter = self.packets[i].module if i is not None else None
        if isinstance(packet, Stream):
            return None if i is not None else "not-connected"
        if self.connects(j):
            if packet.module not in self.plan.modules:
                return "not-served " + packet.module
            if not self.asks(j):
                return letter + " again"
            return packet.module + " join" if j in self.members else "full"
        if packet.kind in ("ACKN", "NACK"):
            return "stray"
        if i is None:
            return "not-connected"
        return letter + {"PING": " pong", "PONG": " alive", "DISC": " leave"}[packet.kind]

    def post(self, letter, j, kind, **fields):
        self.routed[letter].append(Event(j, self.moment(j), kind, **fields))

    def post_leave(self, x, i, j, farewell):
        self.post(self.packets[i].module, j, "leave", member=self.members[i], farewell=farewell)

    def route(self):
        name = self.plan.name.to_bytes(6, "big")
        for j in range(len(self.heard) + (not self.is_lost)):
            if self.is_timed(j):
                for x in self.peers_before(j):
                    i = self.known_by(x, j)
                    if i is not None and self.is_silent(x, j):
                        self.post_leave(x, i, j, b"DISC" + name)
                if self.moment(j) // 20 > (self.moment(j - 1) if j else 0) // 20:
                    for letter in self.routed:
                        self.post(letter, j, "other")
            if self.ends(j):
                for x in self.peers_before(j):
                    i = self.still_known_by(x, j)
                    if i is not None:
                        self.post_leave(x, i, j, b"DISC" + name)
                for letter in self.routed:
                    self.post(letter, j, "other")
            elif isinstance(self.heard[j], Datagram) and not isinstance(self.packets[j], Refused):
                self.route_packet(j, self.heard[j].peer, self.packets[j], name)

    def route_packet(self, j, x, packet, name):
        i = self.still_known_by(x, j)
        letter = self.packets[i].module if i is not None else None
        member = self.members[i] if i is not None else None
        if self.connects(j):
            if packet.module not in self.plan.modules:
                self.direct.append((x, b"NACK"))
            elif not self.asks(j):
                self.post(letter, j, "reply", member=member, datagram=b"ACKN")
            else:
                if i is not None:
                    self.post_leave(x, i, j, b"")
                if j in self.members:
                    listens = packet.kind == "LSTN"
                    self.post(packet.module, j, "join", member=self.members[j], peer=x, listens=listens)
                else:
                    self.direct.append((x, b"NACK"))
        elif isinstance(packet, Stream):
            if i is not None:
                self.post(letter, j, "packet", member=member, packet=packet)
        elif packet.kind == "DISC":
            if i is not None:
                self.post_leave(x, i, j, b"DISC")
            elif len(packet.bytes) == 10:
                self.direct.append((x, b"DISC"))
        elif packet.kind == "PING" and i is not None:
            self.post(letter, j, "reply", member=member, datagram=b"PONG" + name)

    # -- texts

    def replay_lines(self):
        lines = list(self.lines)
        for letter, trail in self.trails.items():
            for n, event in enumerate(trail.events):
                if event.kind == "packet":
                    word, value = trail.verdicts[n]
                    lines[event.index] = "%s %s" % (letter, word) + (" %d" % value if word == "late" else "")
        return lines

    def said(self):
        """Each peer with the datagrams that are said to it, in no order."""
        said = list(self.direct)
        for trail in self.trails.values():
            peer_of = {event.member: event.peer for event in trail.events if event.kind == "join"}
            for n in range(len(trail.events)):
                said += [(peer_of[k], datagram) for k, datagram in trail.given(n) if datagram]
        return Counter(said)

    def status_and_output(self, is_summary):
        lines = self.replay_lines()
        out = ["%d %s" % numbered for numbered in enumerate(lines)]
        if is_summary:
            out = self.summary(lines)
        if self.is_lost:
            out.append("link lost")
        return (7 if self.is_lost else 0), "".join(line + "\n" for line in out).encode()

    def summary(self, lines):
        words = Counter(word for line in lines for word in line.split()[:2] if len(word) > 1)
        out = ["entries %d" % len(lines)]
        out += ["%s %d" % (word, words[word]) for word in COUNTED]
        said = self.said()
        for peer in self.peers_before(len(self.heard)):
            tally = Counter()
            for (to, datagram), times in said.items():
                if to == peer:
                    tally[datagram[:4]] += times
            kinds = (b"ACKN", b"NACK", b"PING", b"PONG", b"DISC", b"M17 ")
            texts = ["%s %d" % (TALLIED[kind], tally[kind]) for kind in kinds]
            out.append("peer %s %s" % (peer_text(peer), " ".join(texts)))
        return out


def is_echo(past, peer, moment, data):
    """Whether the datagram that this peer says next is an echo, where `past` has the datagrams that were heard before it."""

    def is_packet(entry):
        return len(entry.bytes) == 54 and entry.bytes.startswith(b"M17 ")

    def last_below(place, test):
        return next((n for n in range(place - 1, -1, -1) if past[n].peer == peer and test(past[n])), -1)

    def packets_to(place):
        return sum(map(is_packet, past[: place + 1]))

    turned = last_below(len(past), lambda entry: is_packet(entry) and entry.bytes != data)
    said = last_below(turned, lambda entry: is_packet(entry) and entry.bytes == data)
    left = last_below(len(past), lambda entry: entry.bytes.startswith(b"DISC") and len(entry.bytes) in (4, 10))
    parted = last_below(left, is_packet)
    if said < 0 or not is_packet(Datagram(moment, peer, data)):
        return False
    is_kept = packets_to(len(past)) < packets_to(said) + 16384
    return packets_to(parted) < packets_to(said) and is_kept and moment <= past[said].moment + 10000
