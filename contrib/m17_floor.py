"""The floor rule once more, for `m17-book --check`: whether a book is legal, and if not, which record breaks the rule, and what
that rests on. Written from docs/floor.md alone. It lies where that script lies, or in ../lib/m17 from there.
"""

from m17_book_lines import Lines
from m17_books import END_BIT, GROUPS, MAGIC_BYTES, RECORDS, VERDICTS, VERSIONS
from m17_books import callsign, has_callsign, limit_of, number, refusal, version_of

READ_AT_ONCE = 1 << 16
# How long the floor is held and a stream remembered, in milliseconds.
FLOOR_MS, STREAM_MEMORY_MS = 1600, 10000


class Refused(Exception):
    """What --check refuses: the place, the reason, and what it says below."""

    def __init__(self, place, reason, *told):
        super().__init__(f"input refused at {place}: {reason}")
        self.told = told


def is_value(record):
    """Whether the value is one that the verdict has."""
    verdict, value = VERDICTS[record[30] - 1], record[31:43]
    if verdict == "busy":
        return number(value[:4]) < 256
    return number(value) < END_BIT if verdict == "late" else not any(value)


OF_EACH = (
    ("link", 1, 1, "0 to 3", lambda record: record[1] < 4),
    ("place", 18, 4, "0 to 255", lambda record: number(record[18:22]) < 256),
)


def fields_of(version):
    """Of each kind the fields that are not free: name, place, length, what is allowed, and whether a record has that."""
    those = "that of a callsign or a group" if version.groups else "that of a callsign"
    most = version.verdicts

    def may_join(record):
        return has_callsign(record[31:37]) and (version.groups or number(record[31:37]) < GROUPS)

    return {
        1: OF_EACH
        + (
            ("listen", 30, 1, "0 or 1", lambda record: record[30] < 2),
            ("callsign", 31, 6, those, may_join),
        ),
        2: OF_EACH + (("why", 30, 1, "1 to 5", lambda record: 0 < record[30] < 6),),
        3: OF_EACH
        + (
            ("verdict", 30, 1, f"1 to {most}", lambda record: 0 < record[30] <= most),
            ("value", 31, 12, "what the verdict has", is_value),
            ("packet", 43, 54, "a stream packet with its CRC", lambda record: refusal(record[43:97]) is None),
        ),
    }


class Kept:
    """A record that a later one may rest on: its number, the byte at which it begins, and what it says."""

    def __init__(self, index, at, record):
        self.index, self.at, self.record = index, at, record
        self.member, self.moment = record[18:30], number(record[10:18])
        self.own = None  # of a Join: the last admitted packet of the member
        self.opened = self.moment  # of an admitted packet: the moment at which its stream opened the floor
        if record[0] == 3:
            self.stream, field = record[47:49], number(record[77:79])
            self.number, self.is_last = field % END_BIT, field >= END_BIT


def who(member):
    return f"place {number(member[:4])}, generation {number(member[4:])}"


def said_verdict(verdict, value):
    if verdict == "busy":
        return f"busy by {who(value)}"
    return f"late {number(value)}" if verdict == "late" else verdict


class Checker:
    """Goes through the records of a book once, and keeps the Joins of those who are in, by place, and the last admitted
    packet. Each method that says what the rule says also says why, and which record that rests on."""

    def __init__(self, start):
        self.start, self.letter, self.limit = start, None, 0
        self.those_in, self.last, self.before = {}, None, None
        self.count = self.streams = self.admitted = 0
        self.breach = None

    def take(self, record, at):
        """Judges the next record, unless one before it is not legal."""
        if self.breach is None:
            try:
                self.judge(Kept(self.count, at, record))
            except Refused as breach:
                self.breach = breach
        self.count += 1

    def judge(self, now):
        if self.before and now.moment < self.before.moment:
            raise self.broken(now, "moment", f"no moment is below the one before it, {self.before.moment}", self.before)
        self.before = now
        place = number(now.member[:4])
        held = self.those_in.get(place)
        if now.record[0] == 1:
            if held:
                raise self.broken(now, "member", f"nobody joins at place {place} while {who(held.member)} is in", held)
            self.those_in[place] = now
        elif now.record[0] == 2:
            if not held or held.member != now.member:
                raise self.broken(now, "member", f"only who is in leaves, and {self.not_in(place)}", held)
            del self.those_in[place]
        else:
            self.judge_packet(now)

    def judge_packet(self, now):
        kept = VERDICTS[now.record[30] - 1], now.record[31:43]
        verdict, value, why, rests_on = self.rule(now)
        value = value.rjust(12, b"\0")
        if kept != (verdict, value):
            text = f"{said_verdict(verdict, value)}, and not {said_verdict(*kept)}: {why}"
            raise self.broken(now, "verdict", text, rests_on)
        if verdict in ("opened", "continued"):
            if verdict == "opened":
                self.streams += 1
            else:
                now.opened = self.last.opened
            self.admitted += 1
            self.last = self.those_in[number(now.member[:4])].own = now

    def rule(self, now):
        """The verdict on a packet, its value, why, and the record that it rests on, or None."""
        place = number(now.member[:4])
        join = self.those_in.get(place)
        if not join or join.member != now.member:
            return "not-member", b"", self.not_in(place), join
        if join.record[30]:
            return "listen-only", b"", "it joined to listen only", join
        holder, why_free = self.holder(now)
        if holder and holder.member != now.member:
            return "busy", holder.member, "another has the floor", holder
        if holder and holder.stream != now.stream:
            return "busy", holder.member, "it has the floor by another stream", holder
        own = join.own
        if own and own.stream == now.stream and now.moment - own.moment < STREAM_MEMORY_MS:
            if own.is_last:
                return "after-end", b"", "its stream has ended", own
            if own.number == now.number:
                return "repeat", b"", "its last admitted packet has that number", own
            if (now.number - own.number) % END_BIT >= END_BIT // 2:
                return "late", own.number.to_bytes(2, "big"), "its last admitted packet has a later number", own
            if self.has_run_out(own, now):
                return "timed-out", b"", f"its stream opened {now.moment - own.opened} ms ago", own
        if holder:
            return "continued", b"", "it has the floor", holder
        return "opened", b"", f"nobody has the floor, since {why_free}", self.last

    def holder(self, now):
        """The packet by which the floor is held, or None and why it is free."""
        last = self.last
        if not last:
            return None, "nothing was admitted yet"
        if last.is_last:
            return None, "the last stream has ended"
        if now.moment - last.moment >= FLOOR_MS:
            return None, f"nothing was admitted for {now.moment - last.moment} ms"
        if self.has_run_out(last, now):
            return None, f"the last stream opened {now.moment - last.opened} ms ago"
        join = self.those_in.get(number(last.member[:4]))
        if not join or join.member != last.member or join.index > last.index:
            return None, "who had it left"
        return last, None

    def has_run_out(self, admitted, now):
        """Whether the limit on talking has passed since the stream of an admitted packet opened the floor."""
        return self.limit and now.moment - admitted.opened >= self.limit

    def not_in(self, place):
        join = self.those_in.get(place)
        return f"at place {place} is generation {number(join.member[4:])}" if join else f"nobody is in at place {place}"

    def broken(self, now, rule, text, rests_on):
        told = [self.told(now), f"the rule says: {text}"] + ([self.told(rests_on)] if rests_on else [])
        return Refused(now.index, rule, *told)

    def told(self, kept):
        lines = Lines(self.start, False)
        lines.letter = self.letter
        lines.members = {join.member: callsign(join.record[31:37]) for join in self.those_in.values()}
        line = lines.line(kept.record[0], kept.record, kept.at)
        return f"record {kept.index}, byte {kept.at}, {who(kept.member)}: {line.rstrip()}"

    def said(self):
        if self.breach:
            raise self.breach
        return f"legal {self.count} records {self.streams} streams {self.admitted} admitted\n"


def check_head(file):
    """Reads the head: the version, the letter of the module, and the limit on talking."""
    newest = VERSIONS[-1]
    begins = f"a book begins with {newest.magic.decode()} and a letter, A to Z"
    data = file.read(MAGIC_BYTES)
    version = version_of(data)
    if len(data) == MAGIC_BYTES and not version:
        place = next(place for place, byte in enumerate(newest.magic) if data[place] != byte)
        raise Refused(place, "field", f"{begins}; byte {place} is {data[place]:02X}")
    data += file.read((version or newest).head - len(data))
    if len(data) > MAGIC_BYTES and not ord("A") <= data[MAGIC_BYTES] <= ord("Z"):
        raise Refused(MAGIC_BYTES, "field", f"{begins}; byte {MAGIC_BYTES} is {data[MAGIC_BYTES]:02X}")
    if not version or len(data) < version.head:
        raise Refused(len(data), "cut", f"{begins}; this has {len(data)} bytes")
    return version, chr(data[MAGIC_BYTES]), limit_of(data)


def check_form(fields, record, at, index):
    """Refuses a record with a wrong field, or one that is cut."""
    kind, begins = record[0], f"record {index} begins at byte {at}"
    if kind not in RECORDS:
        raise Refused(at, f"kind {kind:02X}", f"{begins}; kinds are 01 (join), 02 (leave) and 03 (packet)")
    for name, place, length, allowed, has_it in fields[kind]:
        if place + length <= len(record) and not has_it(record):
            found = record[place : place + length].hex().upper()
            raise Refused(at + place, "field", f"{begins}; its {name} is {found}; allowed is {allowed}")
    if len(record) < RECORDS[kind]:
        raise Refused(at + len(record), "cut", f"{begins}; {len(record)} of its {RECORDS[kind]} bytes are there")


class Counted:
    """A file whose bytes are counted as they come out of it."""

    def __init__(self, file):
        self.file, self.bytes, self.most = file, 0, None

    def read(self, most):
        data = self.file.read(most)
        if self.most is None:
            self.most = (version_of(data) or VERSIONS[-1]).most
        self.bytes += len(data)
        return data

    def said(self):
        """What is said of a size that the reflector's own command refuses."""
        if self.bytes <= self.most:
            return ""
        return f"larger than m17 check reads: {self.bytes} bytes, and not {self.most}\n"


def check_records(file, checker):
    """Reads a book to its end. It is judged as far as it is a book."""
    version, checker.letter, checker.limit = check_head(file)
    fields = fields_of(version)
    place, held = version.head, b""
    while True:
        more = file.read(READ_AT_ONCE)
        data, at = held + more, 0
        while at < len(data):
            size = RECORDS.get(data[at], 1)
            if at + size > len(data) and more:
                break
            record = data[at : at + size]
            check_form(fields, record, place + at, checker.count)
            checker.take(record, place + at)
            at += size
        place, held = place + at, data[at:]
        if not more:
            return


def check_file(file, start):
    """Says that a book is legal, or refuses it."""
    checker = Checker(start)
    check_records(file, checker)
    return checker.said() + file.said()
