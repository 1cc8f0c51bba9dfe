"""The files: traces of what a link heard, and books of what a module did."""

from collections import namedtuple

from packets import Stream, decode, has_callsign, number
from reflector import Datagram, Fault, Peer, Quiet


class InputRefused(Exception):
    def __init__(self, place, reason):
        Exception.__init__(self, "input refused at %d: %s" % (place, reason))


FILE_LIMIT = 67108864


class Fields:
    """The fields of an input, one after another. A field is judged when all its bytes are there."""

    def __init__(self, data, most=FILE_LIMIT):
        if len(data) > most:
            raise InputRefused(most, "large")
        self.data = data
        self.at = 0

    def take(self, length, is_allowed=lambda field: True):
        field = self.data[self.at : self.at + length]
        if len(field) < length:
            raise InputRefused(len(self.data), "cut")
        if not is_allowed(field):
            raise InputRefused(self.at, "field")
        self.at += length
        return field

    def number(self, length, least=0, most=2**64 - 1):
        return number(self.take(length, lambda field: least <= number(field) <= most))

    def magic(self, magic):
        found = self.take(len(magic))
        for place, byte in enumerate(magic):
            if found[place] != byte:
                raise InputRefused(place, "field")

    def kind(self, kinds):
        """The kind byte of the next entry or record; None at the end of the input."""
        if self.at == len(self.data):
            return None
        kind = self.take(1)[0]
        if kind not in kinds:
            raise InputRefused(self.at - 1, "kind %02X" % kind)
        return kind


TRACE_MAGIC = b"M17TRACE"
TRACE_ENTRIES = 1000000


def read_trace(data):
    fields = Fields(data)
    fields.magic(TRACE_MAGIC)
    entries = []
    while True:
        if len(entries) == TRACE_ENTRIES and fields.at < len(data):
            raise InputRefused(fields.at, "large")
        kind = fields.kind((1, 2, 3))
        if kind is None:
            return entries
        if kind == 1:
            entries.append(read_datagram(fields))
        elif kind == 2:
            entries.append(Quiet(fields.number(8)))
        else:
            entries.append(Fault())


def read_datagram(fields):
    moment = fields.number(8)
    family = fields.take(1, lambda field: field in (b"\4", b"\6"))
    ip = fields.take(4 if family == b"\4" else 16)
    port = fields.number(2)
    length = fields.number(1, 0, 64)
    return Datagram(moment, Peer(family == b"\6", ip.ljust(16, b"\0"), port), fields.take(length))


VERDICTS = ("opened", "continued", "busy", "repeat", "late", "after-end", "not-member", "listen-only", "timed-out")

# A version of books: how it begins, how many bytes its limit has, how many verdicts it knows, and the first address above
# those that may join.
Version = namedtuple("Version", "magic limit_bytes verdicts end_of_calls")
ONE = Version(b"M17BOOK1", 0, 8, 40**9)
TWO = Version(b"M17BOOK2", 8, 9, 40**9 + 40**8)

Head = namedtuple("Head", "letter limit")
Record = namedtuple("Record", "kind moment place generation listens verdict value packet")


def book_head(letter, limit):
    """What a book of version 2 begins with."""
    return TWO.magic + bytes([letter]) + limit.to_bytes(8, "big")


def read_book(data, version=TWO, to_its_end=True):
    """The head and the records: a book is judged that is a book to its end."""
    fields = Fields(data, FILE_LIMIT + version.limit_bytes)
    fields.magic(version.magic)
    head = Head(fields.number(1, ord("A"), ord("Z")), fields.number(version.limit_bytes))
    records = book_records(fields, version)
    return head, list(records) if to_its_end else records


def book_records(fields, version):
    while True:
        kind = fields.kind((1, 2, 3))
        if kind is None:
            return
        fields.number(1, 0, 3)  # link
        fields.number(8)  # index
        moment = fields.number(8)
        place = fields.number(4, 0, 255)
        generation = fields.number(8)
        listens = verdict = value = packet = None
        if kind == 1:
            listens = fields.number(1, 0, 1) == 1
            fields.take(6, lambda field: has_callsign(number(field)) and number(field) < version.end_of_calls)
        elif kind == 2:
            fields.number(1, 1, 5)  # why
        else:
            verdict = VERDICTS[fields.number(1, 1, version.verdicts) - 1]
            value = fields.take(12, lambda field: is_value(verdict, field))
            packet = decode(fields.take(54, lambda field: isinstance(decode(field), Stream)))
        yield Record(kind, moment, place, generation, listens, verdict, value, packet)


def is_value(verdict, field):
    if verdict == "busy":
        return number(field[:4]) <= 255
    if verdict == "late":
        return number(field) < 0x8000
    return field == bytes(12)


def value_bytes(verdict):
    if verdict.word == "busy":
        return verdict.value.place.to_bytes(4, "big") + verdict.value.generation.to_bytes(8, "big")
    return (verdict.value or 0).to_bytes(12, "big")
