"""What `m17-book` says of the records of a book, a line for each. It lies where that lies, or in ../lib/m17 from there."""

from m17_books import END_BIT, KEPT_TAIL, MAGIC_BYTES, RECORDS, VERDICTS, WHYS, callsign, number, utc, version_of


class Stop(Exception):
    """Ends the work with a status and a line that says why."""

    def __init__(self, status, line):
        super().__init__(line)
        self.status = status


def refused(place, why):
    return Stop(1, f"book refused at {place}: {why}")


def word(words, code, place):
    if not 0 < code <= len(words):
        raise refused(place, "field")
    return words[code - 1]


class Lines:
    """What was read of a book: the place behind it, and the bytes there that are no whole record yet. It keeps the
    callsign of each member that is in. `start` is None where the lines have milliseconds."""

    def __init__(self, start, is_later):
        self.start, self.is_later = start, is_later
        self.place = self.moment = 0
        self.held = self.tail = b""
        self.letter = None
        self.members = {}

    def lines(self, more):
        """The lines of all records that are whole with these further bytes."""
        data = self.held + more
        at = 0 if self.letter else self.head(data)
        if at and self.is_later:
            yield self.said("restart")
        while self.letter and at < len(data):
            kind = data[at]
            if kind not in RECORDS:
                raise refused(self.place + at, f"kind {kind:02X}")
            if at + RECORDS[kind] > len(data):
                break
            yield self.line(kind, data[at : at + RECORDS[kind]], self.place + at)
            at += RECORDS[kind]
        self.held = data[at:]
        self.tail = (self.tail + data[:at])[-KEPT_TAIL:]
        self.place += at

    def head(self, data):
        """Reads the head, and says how many bytes it has; 0 while not all of them are there."""
        version = version_of(data)
        if len(data) >= MAGIC_BYTES and not version:
            raise refused(0, "field")
        if not version or len(data) < version.head:
            return 0
        self.letter = chr(data[MAGIC_BYTES])
        return version.head

    def line(self, kind, record, place):
        member = record[18:30]
        self.moment = number(record[10:18])
        if kind == 1:
            self.members[member] = callsign(record[31:37])
            return self.said(f"join {self.members[member]}" + " listens" * record[30])
        if kind == 2:
            return self.said(f"leave {self.members.pop(member, '?')} {word(WHYS, record[30], place + 30)}")
        return self.said(self.packet(member, record, place))

    def said(self, text):
        when = self.moment if self.start is None else utc(self.start + self.moment)
        return f"{when} {self.letter} {text}\n"

    def packet(self, member, record, place):
        verdict = word(VERDICTS, record[30], place + 30)
        if verdict == "late":
            verdict += f" {number(record[41:43])}"
        packet = record[43:]
        source, field = callsign(packet[12:18]), number(packet[34:36])
        sender = self.members.get(member, "?")
        text = f"{verdict} {source} stream {packet[4:6].hex().upper()} number {field % END_BIT}"
        return text + " last" * (field >= END_BIT) + (f" by {sender}" if sender != source else "")
