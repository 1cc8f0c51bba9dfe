"""Cases of `check`: legal books, books with something changed, and wrong bytes."""

from files import ONE, TWO, VERDICTS, book_head, value_bytes
from packets import Stream, decode
from reflector import Floor, Member
from draws import CALLSIGNS, CALM, LAST_MOMENT, SHARP, WILD, Clock, Talk, sealed, spoiled, stream


def book_record(kind, link, index, moment, member, rest):
    place, generation = member
    return b"".join(
        (
            bytes([kind, link]),
            index.to_bytes(8, "big"),
            moment.to_bytes(8, "big"),
            place.to_bytes(4, "big"),
            generation.to_bytes(8, "big"),
            rest,
        )
    )


class Book:
    """The records of one module: joins, leaves and packets, each with its right verdict."""

    def __init__(self, draw, steps, version=TWO):
        self.draw = draw
        self.version = version
        self.clock = Clock(draw, dict(steps, back=0))
        # None, one that is soon over, or the one that a reflector has by itself.
        self.limit = draw.pick((0, 1, 40, 1600, 5000, draw.below(20000), 180000, 2**64 - 1)) if version.limit_bytes else 0
        self.floor = Floor(self.limit)
        self.members = {}  # by place
        self.places = [0, 1, 2, draw.pick((3, 255))]
        self.talk = Talk(draw, self.places, draw.between(1, 3))
        self.generations = draw.pick(([0], [0, 1], [0, 1, 2**64 - 1]))
        self.records = []
        self.moment = 0

    def add(self, kind, member, rest):
        draw = self.draw
        key = member.place, member.generation
        link = draw.below(4)
        self.records.append(book_record(kind, link, draw.below(2**64), self.moment, key, rest))

    def joins_or_leaves(self, place):
        """Who isn't in joins; who is in leaves, sometimes."""
        draw = self.draw
        member = self.members.get(place)
        if member is None:
            member = Member(place, draw.pick(self.generations), listens=draw.chance(20))
            self.members[place] = member
            calls = [call for call in CALLSIGNS if call < self.version.end_of_calls]
            self.add(1, member, bytes([member.listens]) + draw.pick(calls).to_bytes(6, "big"))
        elif draw.chance(25):
            del self.members[place]
            member.is_in = False
            self.add(2, member, bytes([draw.between(1, 5)]))
        else:
            return False
        return True

    def deed(self):
        draw = self.draw
        self.moment = max(self.moment, self.clock.next())
        self.floor.moves_to(self.moment)
        place = draw.pick(self.places)
        if draw.chance(20) and self.joins_or_leaves(place):
            return
        place, packet = self.talk.frame()
        packet = decode(packet)
        if not isinstance(packet, Stream):
            return
        member = self.members.get(place)
        if member is None or draw.chance(3):
            member = Member(place, draw.pick((0, 0, 1, 7)))
            member.is_in = False
            current = self.members.get(place)
            if current and current.generation == member.generation:
                member = current
        verdict = self.floor.judge(member, packet)
        code = bytes([VERDICTS.index(verdict.word) + 1])
        self.add(3, member, code + value_bytes(verdict) + packet.bytes)

    def data(self):
        letter = ord("A") + self.draw.below(26)
        head = book_head(letter, self.limit) if self.version == TWO else ONE.magic + bytes([letter])
        return head + b"".join(self.records)


def some_book(draw, version=TWO):
    book = Book(draw, draw.pick((CALM, SHARP, WILD)), version)
    for _ in range(draw.between(0, 100)):
        book.deed()
    return book


def a_book(draw, least, version=TWO):
    """A book with so many records at least."""
    book = Book(draw, draw.pick((CALM, SHARP, WILD)), version)
    while len(book.records) < least:
        book.deed()
    return book


def check_legal(draw):
    return ["check"], some_book(draw).data()


def check_broken(draw):
    """A legal book with one record changed, left out, repeated or moved."""
    book = some_book(draw)
    if book.records:
        spoil_records(draw, book.records)
    return ["check"], book.data()


def spoil_records(draw, records):
    at = draw.below(len(records))
    way = draw.below(8)
    if way == 0:
        del records[at]
    elif way == 1:
        records.insert(at, records[at])
    elif way == 2:
        records[at], records[at - 1] = records[at - 1], records[at]
    elif way == 3:
        records.insert(at + 1, join_again(draw, records[at]))
    elif way == 4:
        records[at] = with_another_member(draw, records[at])
    elif way == 5:
        records[at] = with_another_moment(draw, records[at])
    else:
        telling = [index for index, record in enumerate(records) if record[0] == 3 and record[30] in (3, 5)]
        packets = [index for index, record in enumerate(records) if record[0] == 3]
        choices = telling if telling and draw.chance(60) else packets
        if choices:
            at = draw.pick(choices)
            records[at] = with_another_verdict(draw, records[at])


def moment_of(record):
    return int.from_bytes(record[10:18], "big")


def join_again(draw, record):
    """A join at the place of a record, now or a millisecond before it."""
    moment = max(0, moment_of(record) - draw.pick((0, 1)))
    member = record[21], int.from_bytes(record[22:30], "big") ^ draw.pick((0, 1, 2**63))
    return book_record(1, 0, 0, moment, member, b"\0" + CALLSIGNS[0].to_bytes(6, "big"))


def with_another_member(draw, record):
    record = bytearray(record)
    if draw.chance(50):
        record[21] = draw.pick((0, 1, 2, 3, 255))
    elif record[0] == 1 and draw.chance(50):
        record[30] ^= 1  # it listens, or it doesn't
    else:
        record[29] ^= draw.pick((1, 2))
    return bytes(record)


def with_another_moment(draw, record):
    moment = max(0, moment_of(record) + draw.pick((-1, 1, -1600, 1600, -10000, 10000)))
    return record[:10] + min(moment, LAST_MOMENT).to_bytes(8, "big") + record[18:]


def with_another_verdict(draw, record):
    """Another verdict, another value, or another packet of the same length."""
    record = bytearray(record)
    way = draw.below(4)
    if way < 2 and record[30] == 3:
        record[draw.pick((34, 42))] ^= 1
    elif way < 2 and record[30] == 5:
        record[42] ^= 1
    elif way < 2:
        record[30] = draw.between(1, 9)
        if record[30] not in (3, 5):
            record[31:43] = bytes(12)
    else:
        record[77 + draw.below(2)] ^= draw.pick((1, 0x80))
        record[43:97] = sealed(bytes(record[43:97]))
    return bytes(record)


ENDS_OF_CALLSIGNS = (0, 1, 40**9 - 1, 40**9, 40**9 + 1, 40**9 + 40**8 - 1, 40**9 + 40**8, 2**48 - 1)
FIELDS = {
    # of all records: where the field is, and values of it
    "link": (1, (b"\3", b"\4", b"\xff")),
    "place": (18, (b"\0\0\0\xff", b"\0\0\1\0", b"\1\0\0\0")),
    # of a join
    "listens": (30, (b"\1", b"\2")),
    "callsign": (31, tuple(a.to_bytes(6, "big") for a in ENDS_OF_CALLSIGNS)),
    # of a leave
    "why": (30, (b"\0", b"\1", b"\5", b"\6")),
    # of a packet: verdict and value
    "verdict": (30, tuple(bytes([code]) + bytes(12) for code in range(11))),
    "busy": (30, tuple(b"\3" + (place << 64 | 5).to_bytes(12, "big") for place in (0, 255, 256, 2**31))),
    "late": (30, tuple(b"\5" + number.to_bytes(12, "big") for number in (0, 0x7FFF, 0x8000, 1 << 16, 1 << 95))),
    "other": (30, tuple(bytes([code]) + bytes(11) + b"\1" for code in (1, 2, 4, 6, 7, 8, 9))),
}
FIELDS_OF = {1: ("link", "place", "listens", "callsign"), 2: ("link", "place", "why")}
FIELDS_OF[3] = ("link", "place", "verdict", "busy", "late", "other", "packet", "packet")


def at_a_bound(draw):
    """A record of which one field is at a bound or beyond it."""
    kind = draw.pick((1, 2, 3, 3, 3))
    packet = stream(1, 0)
    rest = {1: b"\0" + CALLSIGNS[0].to_bytes(6, "big"), 2: b"\1", 3: b"\7" + bytes(12) + packet}[kind]
    record = book_record(kind, 0, 0, 0, (0, 0), rest)
    field = draw.pick(FIELDS_OF[kind])
    if field == "packet":
        return record[:43] + spoiled(draw, packet).ljust(54, b"\0")[:54]
    at, values = FIELDS[field]
    value = draw.pick(values)
    return record[:at] + value + record[at + len(value) :]


def bounds(draw, version):
    """A record with a field at a bound, behind some that are right."""
    book = a_book(draw, draw.below(5), version)
    data = bytearray(book.data())
    data[8] = draw.pick(b"AZA@[")
    return bytes(data) + at_a_bound(draw)


def check_bounds(draw):
    return ["check"], bounds(draw, TWO)


def wrong_bytes(draw, version):
    data = some_book(draw, version).data()
    head = 9 + version.limit_bytes
    data = data[: draw.pick((head, 60, 200, len(data)))]
    way = draw.below(9)
    if way == 0:
        data = data[: draw.below(len(data) + 1)]
    elif way == 1:
        data = data[: draw.below(head + 1)]
    elif way == 8:
        data = draw.pick((ONE, TWO)).magic + data[8:]
    elif way == 2:
        data += draw.pick((b"\t", b"\0", b"\4", b"\1", b"\xff"))
    elif way == 3:
        data = spoiled(draw, data)
    else:
        data = data[:head] + at_a_bound(draw)
        data = data[: draw.below(len(data))] if draw.chance(15) else data
    return data


def check_bytes(draw):
    return ["check"], wrong_bytes(draw, TWO)


# ---- books of version 1


def migrate_legal(draw):
    return ["migrate"], some_book(draw, ONE).data()


def migrate_broken(draw):
    """Nothing is judged: what breaks a rule is written as it stands."""
    book = some_book(draw, ONE)
    if book.records:
        spoil_records(draw, book.records)
    return ["migrate"], book.data()


def migrate_bounds(draw):
    return ["migrate"], bounds(draw, ONE)


def migrate_bytes(draw):
    return ["migrate"], wrong_bytes(draw, ONE)
