"""The books among the vectors, each with its name and what it shows."""

from books import book_record
from draws import stream
from files import ONE as VERSION_1
from files import TWO, book_head
from packets import encode


def book(*parts, limit=0):
    return book_head(ord("A"), limit) + b"".join(parts)


def joined(moment, place, generation=0, listens=0, callsign="AB1CD"):
    return book_record(1, 0, 0, moment, (place, generation), bytes([listens]) + encode(callsign).to_bytes(6, "big"))


def joined_as(address):
    """A join of who has this address, or of nobody where that is no callsign's."""
    return book_record(1, 0, 0, 0, (0, 0), b"\0" + address.to_bytes(6, "big"))


def left(moment, place, generation=0, why=1):
    return book_record(2, 0, 0, moment, (place, generation), bytes([why]))


def judged(moment, place, packet, verdict, value=bytes(12), generation=0):
    return book_record(3, 0, 0, moment, (place, generation), bytes([verdict]) + value + packet)


def by(place, generation=0):
    """The value of a busy verdict."""
    return place.to_bytes(4, "big") + generation.to_bytes(8, "big")


def behind(number):
    """The value of a late verdict."""
    return number.to_bytes(12, "big")


def spoiled_crc(packet):
    return packet[:53] + bytes([packet[53] ^ 1])


MOST = 2**64 - 1
TALK = (
    joined(0, 0),
    joined(0, 255, MOST),
    joined(0, 1, 0, 1),
    judged(0, 0, stream(1, 5), 1),
    judged(0, 255, stream(2, 0), 3, by(0), MOST),
    judged(40, 0, stream(1, 5), 4),
    judged(40, 0, stream(1, 4), 5, behind(5)),
    judged(40, 0, stream(1, 6, True), 2),
    judged(80, 0, stream(1, 7), 6),
    judged(80, 1, stream(1, 0), 8),
    judged(80, 7, stream(1, 0), 7),
    judged(80, 0, stream(1, 0), 7, bytes(12), 1),
    left(80, 0),
    joined(80, 0, 1),
    judged(80, 0, stream(1, 7), 1, bytes(12), 1),
)
# The member at place 0 talks, and the one at place 1 is in.
ONE = joined(0, 0), joined(0, 1), judged(0, 0, stream(1, 0), 1)

BOOKS = (
    ("nothing", book(), "A book without records."),
    ("legal", book(*TALK), "Each verdict once."),
    ("all-places", book(*[joined(0, place, place) for place in range(256)]), "256 members are in."),
    (
        "groups",
        book(
            joined(0, 0, callsign="#A"),
            joined(0, 1, listens=1, callsign="#........"),
            joined(0, 2, callsign="........."),
            judged(0, 0, stream(1, 0, True, encode("#A")), 1),
            judged(0, 2, stream(2, 0, True, encode("#AB")), 1),
        ),
        "A group's callsign is one as that of a station is.",
    ),
    ("first-callsign", book(joined_as(1)), "The least address of a station."),
    ("no-callsign", book(joined_as(0)), "The address below it is no callsign's."),
    ("no-group", book(joined_as(0xEE6B28000000)), "Nor is that between stations and groups."),
    ("behind-groups", book(joined_as(0xF46109000000)), "Nor that behind the last group."),
    ("last-moment", book(joined(MOST, 0), judged(MOST, 0, stream(1, 0), 1)), "The last moment."),
    # moments and members
    ("moment", book(joined(10, 0), joined(9, 0, 1)), "A moment that falls, and then a held place."),
    ("moment-of-packet", book(joined(1, 0), judged(0, 0, stream(1, 0), 2)), "The moment comes before the verdict."),
    ("held-place", book(joined(10, 0), joined(10, 0, 1)), "A join at a place that is held."),
    ("same-member", book(*ONE, joined(0, 0)), "The very member that is in joins again."),
    ("leave", book(joined(0, 0), left(0, 0, 1)), "A leave of a member that isn't in."),
    ("generation", book(*ONE, left(0, 0, 2**32)), "A generation has 64 bits."),
    # verdicts
    ("verdict", book(*TALK[:4], judged(0, 255, stream(2, 0), 1, bytes(12), MOST)), "Two streams at once."),
    ("overlap", book(*ONE, judged(0, 1, stream(2, 0), 2)), "Another stream doesn't go on while the floor is held."),
    (
        "behind-a-leave",
        book(*ONE, left(0, 1), joined(0, 1), judged(0, 1, stream(2, 0), 1)),
        "Behind a leave two streams overlap.",
    ),
    ("floor-of-who-left", book(*ONE, left(0, 0), judged(0, 1, stream(2, 0), 1)), "Who leaves gives up the floor."),
    (
        "comes-again",
        book(*ONE, left(40, 0), joined(40, 0), judged(40, 0, stream(1, 0), 1)),
        "Who leaves and joins again has no last frame.",
    ),
    ("left", book(joined(0, 0), left(0, 0), judged(0, 0, stream(1, 0), 1)), "Who left speaks no more."),
    ("listens", book(joined(0, 0, 0, 1), judged(0, 0, stream(1, 0), 1)), "Who listens opens nothing."),
    ("kind-of-verdict", book(*ONE, judged(0, 0, stream(1, 0), 6)), "A repeat is not after the end."),
    (
        "holder",
        book(*TALK[:4], judged(0, 255, stream(2, 0), 3, by(0, 1), MOST)),
        "A busy verdict names the holder.",
    ),
    ("nobody-there", book(*ONE, judged(0, 1, stream(2, 0), 3, by(9))), "Busy by one that isn't in."),
    ("own-second", book(*ONE, judged(0, 0, stream(2, 0), 3, by(0))), "Busy by one's own other stream."),
    ("late", book(*ONE, judged(0, 0, stream(1, 32767), 5, behind(1))), "A late verdict names the last number."),
    (
        "silence",
        book(
            *ONE,
            judged(1599, 1, stream(2, 0), 3, by(0)),
            judged(1600, 1, stream(2, 1), 1),
            judged(3199, 0, stream(1, 1), 3, by(1)),
            judged(3200, 0, stream(1, 1), 1),
        ),
        "The floor is free 1,600 ms after the last admitted frame.",
    ),
    (
        "memory",
        book(*ONE, judged(9999, 0, stream(1, 0), 4), judged(10000, 0, stream(1, 0), 1)),
        "A frame is remembered less than 10,000 ms.",
    ),
    # a limit on talking
    (
        "limit",
        book(*ONE, judged(39, 0, stream(1, 1), 2), judged(40, 0, stream(1, 2), 9), judged(40, 1, stream(2, 0), 1), limit=40),
        "A stream loses the floor once the limit has passed since it was opened.",
    ),
    ("limit-passed", book(*ONE, judged(40, 0, stream(1, 1), 2), limit=40), "What comes then is timed out."),
    ("limit-to-come", book(*ONE, judged(39, 0, stream(1, 1), 9), limit=40), "And nothing that comes before."),
    ("no-limit", book(*ONE, judged(1500, 0, stream(1, 1), 2), judged(1500, 0, stream(1, 1), 4)), "0 is no limit."),
    (
        "limit-remembered",
        book(*ONE, judged(10039, 0, stream(1, 1), 1), judged(10039, 0, stream(1, 2), 2), limit=40),
        "A stream that was timed out opens again once it is forgotten.",
    ),
    ("limit-of-default", book(limit=180000), "The limit that a reflector has by itself."),
    # what is no book
    ("old", b"M17BOOK1A", "A book of version 1."),
    ("cut-limit", book()[:-1], "The limit is a field."),
    ("module", TWO.magic + b"a\0", "The module byte is a field."),
    ("value", book(judged(0, 0, stream(1, 0), 5, behind(32768))), "The value is a field."),
    ("packet", book(judged(0, 0, spoiled_crc(stream(1, 0)), 7)), "So is the packet."),
    ("kind", book(joined(0, 0), b"\4"), "An unknown kind of record."),
    ("cut", book(joined(0, 0), joined(0, 0))[:-1], "A book is read whole first."),
    ("cut-first", book(*ONE, joined(0, 0), b"\3"), "What is no book is not judged."),
    ("kind-first", book(*ONE, joined(0, 0), b"\t"), "The same at an unknown kind."),
)


def old(*parts):
    return ONE_OF_OLD + b"".join(parts)


ONE_OF_OLD = VERSION_1.magic + b"A"
GROUP = book_record(1, 0, 0, 0, (0, 0), b"\0" + encode("#AB").to_bytes(6, "big"))

# The same as version 1, with what `migrate` does.
OLD_BOOKS = (
    ("nothing", old(), "A book without records."),
    ("legal", old(*TALK), "Each verdict once."),
    ("not-legal", old(joined(10, 0), joined(9, 0, 1)), "Nothing is judged."),
    ("group", old(GROUP), "Groups didn't join."),
    ("timed-out", old(*ONE, judged(0, 0, stream(1, 1), 9)), "Nothing was timed out."),
    ("new", book(), "A book of version 2."),
    ("cut", old(joined(0, 0))[:-1], "A book is read whole first."),
)
