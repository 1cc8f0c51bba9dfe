"""What the records of books come to: who is in the modules of a reflector, who talks, and how each over ended. `m17-log` and
`m17-page` have it from here, so that both say the same. It lies where they lie, or in ../lib/m17 from there.
"""

from m17_books import END_BIT, VERDICTS, WHYS, callsign, number

# How an over ended: its last packet came; none came for so long that the floor was free; the limit on talking ended it; its
# member left; the reflector ended in order, and said so; it began anew without that.
LET_GO, SILENT, TIMED_OUT, LEFT, STOPPED, RESTART = "let go", "silent", "timed out", "left", "stopped", "restart"
# In milliseconds: after so long without an admitted packet the floor is free, and so long is a frame.
FREE, FRAME = 1600, 40
# Where a Join says whether it is to listen only.
LISTENS = 30


class Member:
    def __init__(self, call, link, peer=None, listens=False, since=0):
        self.call, self.link, self.peer, self.listens, self.since = call, link, peer, listens, since


class Over:
    def __init__(self, moment, member, talker, stream, frame):
        self.first = self.last = moment
        self.member, self.talker, self.stream = member, talker, stream
        self.packets = 1
        self.numbers = [frame, frame]

    def milliseconds(self):
        """From its first packet to the end of its last."""
        return self.last + FRAME - self.first

    def sent(self):
        """How many packets it had by their numbers."""
        return max((self.numbers[1] - self.numbers[0]) % END_BIT + 1, self.packets)


class Run:
    """One run of the reflector, as far as it was read. Who looks on is told by `joins`, `leaves`, `begins`, `ends` and
    `refuses`. A member is named by its module and by place and generation."""

    def __init__(self):
        self.members, self.overs = {}, {}

    def record(self, moment, letter, record, peer=None):
        """Takes a record; that of a Join with the address that it came from, where that is known."""
        kind, key = record[0], (letter, record[18:30])
        if kind == 1:
            self.members[key] = Member(callsign(record[31:37]), record[1], peer, record[LISTENS] == 1, moment)
            self.joins(moment, key, self.members[key])
        elif kind == 2:
            self.leave(moment, key, WHYS[(record[30] - 1) % len(WHYS)])
        else:
            self.packet(moment, key, VERDICTS[(record[30] - 1) % len(VERDICTS)], record[43:])

    def leave(self, moment, key, cause):
        over = self.overs.get(key[0])
        if over and over.member == key:
            self.end(key[0], STOPPED if cause == STOPPED else LEFT)
        self.leaves(moment, key, self.members.pop(key, Member("?", 0)), cause)

    def packet(self, moment, key, verdict, packet):
        letter, frame = key[0], number(packet[34:36])
        over = self.overs.get(letter)
        if verdict == "continued" and over:
            over.packets += 1
            over.last, over.numbers[1] = moment, frame % END_BIT
        elif verdict in ("opened", "continued"):
            if over:
                # A floor that was neither given up nor silent so long was free by the limit alone.
                self.end(letter, SILENT if moment - over.last >= FREE else TIMED_OUT)
            over = Over(moment, key, callsign(packet[12:18]), packet[4:6].hex().upper(), frame % END_BIT)
            self.overs[letter] = over
            self.begins(moment, letter, over)
        else:
            # A packet is timed out by the last admitted one of its sender, and so by the over of the sender, if it has one.
            if verdict == "timed-out" and over and over.member == key:
                self.end(letter, TIMED_OUT)
            self.refuses(moment, key, verdict)
            return
        if frame & END_BIT:
            self.end(letter, LET_GO)

    def end(self, letter, cause, moment=None):
        over = self.overs.pop(letter)
        self.ends(over.last if moment is None else moment, letter, over, cause)

    def end_silent(self, moment, patience=FREE):
        """Ends the overs of which nothing was heard for so long."""
        for letter, over in list(self.overs.items()):
            if moment - over.last >= patience:
                self.end(letter, SILENT)

    def restarts(self, moment):
        """The reflector has started anew, so all are out."""
        for letter in sorted(self.overs):
            self.end(letter, RESTART, moment)
        for key in list(self.members):
            self.leave(moment, key, RESTART)

    def call(self, key):
        """The callsign of a member."""
        return self.members[key].call if key in self.members else "?"
