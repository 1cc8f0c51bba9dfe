"""Cases of `check`: books in which a rule is broken at a place, and one book with each byte changed in turn."""

from books import a_book, at_a_bound, book_record, moment_of
from draws import CALLSIGNS, sealed, stream
from files import book_head


# ---- one rule broken at a place


def changed(record, at, value):
    return record[:at] + value + record[at + len(value) :]


def generation_of(record):
    return int.from_bytes(record[22:30], "big")


def joined_before(records, at):
    """The Joins of the members that are in at a position, by place."""
    those_in = {}
    for record in records[:at]:
        if record[0] == 1:
            those_in[record[21]] = record
        elif record[0] == 2:
            those_in.pop(record[21], None)
    return those_in


def breach_moment(draw, records, at):
    """The moment falls: by one, below the first one, or to 0."""
    before = moment_of(records[at - 1]) if at else 0
    moment = draw.pick((before - 1, before - 1, 0, moment_of(records[0]) - 1))
    if 0 <= moment < before:
        records[at] = changed(records[at], 10, moment.to_bytes(8, "big"))


def breach_join(draw, records, at):
    """A Join where a member is in: the very same, another generation, or one that listens."""
    those_in = joined_before(records, at)
    if those_in:
        join = those_in[draw.pick(sorted(those_in))]
        generation = generation_of(join) ^ draw.pick((0, 1, 2**32, 2**63))
        moment = moment_of(records[at]) if at < len(records) else moment_of(records[-1])
        join = changed(changed(join, 10, moment.to_bytes(8, "big")), 22, generation.to_bytes(8, "big"))
        records.insert(at, changed(join, 30, bytes([draw.below(2)])))


def breach_leave(draw, records, at):
    """A Leave of a member that isn't in: where nobody is, or where another generation is."""
    those_in = joined_before(records, at)
    place = draw.pick(sorted(those_in) + [0, 1, 255])
    generation = draw.pick((0, 1, 2**64 - 1))
    if place in those_in:
        generation = generation_of(those_in[place]) ^ draw.pick((1, 2**32, 2**63))
    moment = moment_of(records[min(at, len(records) - 1)])
    records.insert(at, book_record(2, 0, 0, moment, (place, generation), bytes([draw.between(1, 5)])))


def breach_forgotten(draw, records, at):
    """A Join, a Leave or a packet that was admitted isn't there."""
    those = [n for n, record in enumerate(records) if record[0] < 3 or record[30] < 3]
    if those:
        del records[min(those, key=lambda n: abs(n - at))]


def breach_verdict(draw, records, at):
    """Another verdict, with a value that it may have."""
    packets = [n for n, record in enumerate(records) if record[0] == 3]
    if packets:
        at = min(packets, key=lambda n: abs(n - at))
        code = draw.between(1, 9)
        value = {3: (draw.below(4) << 64).to_bytes(12, "big"), 5: draw.below(0x8000).to_bytes(12, "big")}
        records[at] = changed(records[at], 30, bytes([code]) + value.get(code, bytes(12)))


def breach_overlap(draw, records, at):
    """A packet opens a stream, or goes on with one, while another member has the floor."""
    refused = [n for n, record in enumerate(records) if record[0] == 3 and record[30] == 3]
    if refused:
        at = min(refused, key=lambda n: abs(n - at))
        records[at] = changed(records[at], 30, bytes([draw.pick((1, 1, 2))]) + bytes(12))


def breach_value(draw, records, at):
    """Another holder, or another last number."""
    telling = [n for n, record in enumerate(records) if record[0] == 3 and record[30] in (3, 5)]
    if telling:
        at = min(telling, key=lambda n: abs(n - at))
        bits = draw.pick((1 << 64, 1 << 71, 1, 1 << 32, 1 << 63) if records[at][30] == 3 else (1, 1 << 8, 1 << 14))
        value = int.from_bytes(records[at][31:43], "big") ^ bits
        records[at] = changed(records[at], 31, value.to_bytes(12, "big"))


def breach_packet(draw, records, at):
    """Another stream, another number, an end bit more or less."""
    packets = [n for n, record in enumerate(records) if record[0] == 3]
    if packets:
        at = min(packets, key=lambda n: abs(n - at))
        packet = bytearray(records[at][43:])
        packet[draw.pick((4, 5, 34, 35))] ^= draw.pick((1, 2, 0x40, 0x80))
        records[at] = changed(records[at], 43, sealed(bytes(packet)))


def breach_listens(draw, records, at):
    """A member listens that didn't, or the other way round."""
    joins = [n for n, record in enumerate(records) if record[0] == 1]
    if joins:
        at = min(joins, key=lambda n: abs(n - at))
        records[at] = changed(records[at], 30, bytes([1 - records[at][30]]))


BREACHES = (
    breach_moment,
    breach_join,
    breach_leave,
    breach_forgotten,
    breach_verdict,
    breach_verdict,
    breach_overlap,
    breach_overlap,
    breach_value,
    breach_packet,
    breach_listens,
)


def breach_book(draw):
    book = a_book(draw, draw.between(1, 90))
    for _ in range(draw.pick((1, 1, 1, 2))):
        if book.records:  # the only one may be gone
            draw.pick(BREACHES)(draw, book.records, draw.below(len(book.records)))
    return book


def check_breach(draw):
    """One rule broken, or two, at some record of a legal book."""
    return ["check"], breach_book(draw).data()


def check_breach_and_bytes(draw):
    """A rule is broken, and behind it or before it the bytes are no book: of these alone is told."""
    data = breach_book(draw).data()
    way = draw.below(4)
    if way == 0:
        data = data[: draw.between(len(data) * 2 // 3, len(data) - 1)]
    elif way == 1:
        data += draw.pick((b"\t", b"\0", b"\4", b"\1", b"\2\0\0", b"\3"))
    else:
        data += at_a_bound(draw)
    return ["check"], data


def check_long(draw):
    """A book that is longer than a reader's buffer: legal, or broken, cut or of another kind somewhere in it."""
    book = a_book(draw, draw.between(700, 1600))
    if draw.chance(50):
        draw.pick(BREACHES)(draw, book.records, draw.below(len(book.records)))
    data = book.data()
    way = draw.below(8)
    if way == 0:
        data = data[: draw.between(65000, 66000)]
    elif way == 1:
        data += draw.pick((b"\t", b"\1"))
    return ["check"], data


# ---- each byte of one book


def each_verdict():
    """The records of a short legal book in which each verdict comes, and members leave and come again."""
    call = b"\0" + CALLSIGNS[0].to_bytes(6, "big")
    listens = b"\1" + call[1:]
    far = 255, 2**64 - 1
    steps = (
        (1, 0, (0, 0), call),
        (1, 0, far, call),
        (1, 0, (1, 0), listens),
        (3, 0, (0, 0), (1, 0, stream(1, 5))),
        (3, 0, far, (3, 0, stream(2, 0))),
        (3, 40, (0, 0), (4, 0, stream(1, 5))),
        (3, 40, (0, 0), (5, 5, stream(1, 4))),
        (3, 80, (0, 0), (2, 0, stream(1, 6, True))),
        (3, 80, (0, 0), (6, 0, stream(1, 7))),
        (3, 80, (1, 0), (8, 0, stream(1, 0))),
        (3, 80, (0, 1), (7, 0, stream(1, 0))),
        (3, 120, far, (1, 0, stream(2, 1))),
        (3, 160, (0, 0), (3, 255 << 64 | 2**64 - 1, stream(1, 8))),
        (2, 200, far, b"\1"),
        (1, 200, (255, 0), call),
        (3, 200, (255, 0), (1, 0, stream(2, 1))),
        (3, 1799, (0, 0), (3, 255 << 64, stream(3, 0))),
        (3, 1800, (0, 0), (1, 0, stream(3, 0))),
        (3, 3000, (0, 0), (2, 0, stream(3, 1))),
        (3, 3700, (0, 0), (9, 0, stream(3, 2))),
    )
    for kind, moment, member, rest in steps:
        if kind == 3:
            verdict, value, packet = rest
            rest = bytes([verdict]) + value.to_bytes(12, "big") + packet
        yield book_record(kind, 0, 0, moment, member, rest)


def with_each_byte_changed(masks):
    """A name and the bytes of each book that differs from that one in one byte."""
    data = book_head(ord("A"), 1900) + b"".join(each_verdict())
    yield "as it is", data
    for at in range(len(data)):
        for mask in masks:
            yield "byte %d ^ %02X" % (at, mask), changed(data, at, bytes([data[at] ^ mask]))
