"""A run of a reflector as `m17-log` tells it, out of the records of its books and the datagrams of its traces. It lies where that
script lies, or in ../lib/m17 from there.
"""

from m17_books import number, peer_text, refusal
from m17_runs import Member, Over, Run

# In milliseconds: an over is told as silent some time after the floor is free, since a record may be read late; so long a
# datagram of a trace waits for the record that says what became of it.
TOLD_SILENT, WAITING = 2000, 2000
# How many datagrams of a trace may wait for their records.
MOST_WAITING = 100_000
# Neither a module nor a callsign.
STRANGER = None, None


class LoggedRun(Run):
    """One run of the reflector: what it tells as lines, and what was refused since the last count."""

    def __init__(self, letters, put, every):
        super().__init__()
        self.letters, self.put, self.every = letters, put, 1000 * every
        self.peers, self.waiting, self.counts = {}, {}, {}
        self.count_at = None

    def take(self, moment, event):
        self.advance(moment)
        getattr(self, "datagram" if event[0] == "datagram" else "note")(moment, *event[1:])

    def note(self, moment, letter, record):
        asked = None if record[0] == 2 else self.waiting.pop((record[1], number(record[2:10])), None)
        self.record(moment, letter, record, asked[1] if asked else None)

    def joins(self, moment, key, member):
        fields = {"callsign": member.call, "listens": member.listens}
        if member.peer:
            self.peers[member.link, member.peer] = key
            fields["peer"] = peer_text(*member.peer)
        self.put(moment, "join", key[0], **fields, link=member.link)

    def leaves(self, moment, key, member, cause):
        if self.peers.get((member.link, member.peer)) == key:
            del self.peers[member.link, member.peer]
        self.put(moment, "leave", key[0], callsign=member.call, cause=cause)

    def begins(self, moment, letter, over):
        self.put(moment, "begin", letter, talker=over.talker, stream=over.stream, callsign=self.call(over.member))

    def ends(self, moment, letter, over, cause):
        fields = {"talker": over.talker, "seconds": over.milliseconds() / 1000, "packets": over.packets, "sent": over.sent()}
        self.put(moment, "end", letter, **fields, cause=cause)

    def refuses(self, moment, key, verdict):
        self.count(moment, self.by(key), verdict)

    def datagram(self, moment, link, index, peer, data):
        """One that may come to a record waits for that: a stream packet that has one is no refused one."""
        by = self.by(self.peers.get((link, peer)))
        if len(data) == 54 and data[:4] == b"M17 " or refusal(data) is None and data[:4] in (b"CONN", b"LSTN"):
            self.waiting[link, index] = moment, peer, by, data
            if len(self.waiting) > MOST_WAITING:
                self.judge_first()
        elif cause := refusal(data):
            self.count(moment, by, cause)

    def judge_first(self):
        """No book says what became of the first that waits. One of a member that is no refused packet asked again for what
        the member has, or its book tells nothing any more."""
        moment, _peer, by, data = self.waiting.pop(next(iter(self.waiting)))
        cause, is_asking = refusal(data), data[:4] != b"M17 "
        if not cause and is_asking and chr(data[10]) not in self.letters:
            cause = "not-served"
        elif not cause and by == STRANGER:
            cause = "full" if is_asking else "not-connected"
        if cause:
            self.count(moment, by, cause)

    def by(self, key):
        return (key[0], self.call(key)) if key else STRANGER

    def count(self, moment, by, cause):
        """Counts a refused packet, of a member or of a stranger."""
        self.counts[(*by, cause)] = self.counts.get((*by, cause), 0) + 1
        if self.count_at is None:
            self.count_at = moment + self.every

    def tell_counts(self, moment):
        for (letter, call, cause), count in sorted(self.counts.items(), key=str):
            fields = {"callsign": call} if call else {}
            self.put(moment, "refused", letter, cause=cause, count=count, **fields)
        self.counts = {}
        self.count_at = None

    def advance(self, moment):
        """Time has come to this moment, in milliseconds since the start."""
        while self.waiting and moment - next(iter(self.waiting.values()))[0] >= WAITING:
            self.judge_first()
        self.end_silent(moment, TOLD_SILENT)
        if self.count_at is not None and moment >= self.count_at:
            self.tell_counts(self.count_at)

    def restarts(self, moment):
        super().restarts(moment)
        self.tell_counts(moment)

    def state(self):
        """All that it knows, in what JSON has: bytes as hex digits."""
        told = {"letters": self.letters, "every": self.every, "count_at": self.count_at}
        told["members"] = [[*spell(key), m.call, m.link, spell(m.peer), m.listens, m.since] for key, m in self.members.items()]
        told["overs"] = [[letter, {**vars(over), "member": spell(over.member)}] for letter, over in self.overs.items()]
        waiting = self.waiting.items()
        told["waiting"] = [[*key, moment, *map(spell, (peer, by, (data,)))] for key, (moment, peer, by, data) in waiting]
        told["counts"] = [[*key, count] for key, count in self.counts.items()]
        return told

    def go_on(self, told):
        """Takes what another process knew."""
        self.count_at = None if told["count_at"] is None else int(told["count_at"])
        for letter, place, call, link, peer, listens, since in told["members"]:
            key = letter, bytes.fromhex(place)
            self.members[key] = Member(call, link, unspell(peer), listens, since)
            if peer:
                self.peers[link, unspell(peer)] = key
        for letter, fields in told["overs"]:
            self.overs[letter] = over = Over(0, None, "", "", 0)
            vars(over).update(fields, member=(letter, bytes.fromhex(fields["member"][1])))
        for link, index, moment, peer, by, data in told["waiting"]:
            self.waiting[link, index] = moment, unspell(peer), tuple(by), bytes.fromhex(data[0])
        self.counts = {(module, call, cause): int(count) for module, call, cause, count in told["counts"]}


def spell(parts):
    return parts and [part.hex() if isinstance(part, bytes) else part for part in parts]


def unspell(parts):
    return parts and tuple(map(bytes.fromhex, parts))
