#!/usr/bin/env python3
"""Writes books of the modules A and B and the trace of link 0 into the folder that the argument names, for checks of m17-log
and m17-book: records and entries as docs/protocol.md lays them out, made here from the layouts. With a second word, `limit`,
it writes a book of A alone, in which one may talk for a second.
"""

import os
import sys

sys.path.insert(0, os.path.join(os.path.dirname(os.path.abspath(__file__)), "..", "examples"))
from make import END_BIT, address, book_header, datagram, quiet, stream_packet  # noqa: E402

ASKED, SILENT = 1, 3
OPENED, CONTINUED, BUSY, LISTENS, TIMED_OUT = 1, 2, 3, 8, 9
MOST = 2**64 - 1


def record(kind, index, moment, place, rest, link=0):
    """30 bytes that every record has, of the member of generation 7 at that place, and the rest of it."""
    head = bytes([kind, link]) + index.to_bytes(8, "big") + moment.to_bytes(8, "big")
    return head + place.to_bytes(4, "big") + (7).to_bytes(8, "big") + rest


def join(index, moment, place, call, listens=0, link=0):
    return record(1, index, moment, place, bytes([listens]) + address(call), link)


def leave(index, moment, place, why):
    return record(2, index, moment, place, bytes([why]))


def packet(index, moment, place, verdict, frame, holder=None):
    value = bytes(12) if holder is None else holder.to_bytes(4, "big") + (7).to_bytes(8, "big")
    return record(3, index, moment, place, bytes([verdict]) + value + frame)


def book_a():
    """AB1CD passes on what W1XYZ says, one of whose packets is lost; N0CALL listens, and speaks all the same."""
    yield join(0, 100, 0, "AB1CD")
    yield join(1, 150, 1, "N0CALL", 1)
    for number in (0, 1, 3, 4 | END_BIT):
        verdict = CONTINUED if number else OPENED
        yield packet(10 + number % END_BIT, 1000 + 40 * (number % END_BIT), 0, verdict, stream_packet(0x1234, number, "W1XYZ"))
    yield packet(20, 1300, 1, LISTENS, stream_packet(0x77, 0, "N0CALL"))
    yield packet(21, 1340, 1, LISTENS, stream_packet(0x77, 1, "N0CALL"))
    yield leave(22, 2000, 0, ASKED)
    yield leave(40, 40000, 1, SILENT)


def book_b():
    """HOTB, of another link, speaks while A is spoken in, and breaks off; then HOTC speaks and leaves without an end."""
    yield join(0, 120, 2, "HOTB", link=1)
    yield join(30, 900, 3, "HOTC")
    for number in range(3):
        yield packet(31, 1010 + 40 * number, 2, CONTINUED if number else OPENED, stream_packet(9, number, "HOTB"))
    yield packet(31, 1100, 3, BUSY, stream_packet(8, 0, "HOTC"), 2)
    yield packet(32, 5000, 3, OPENED, stream_packet(8, 1, "HOTC"))
    yield leave(33, 5500, 3, ASKED)
    yield join(34, 70000, 4, "A", link=3)


def talk(moment, place, stream, frames, call):
    """The packets of a stream, 40 ms apart."""
    for number in range(frames):
        verdict = CONTINUED if number else OPENED
        yield packet(9, moment + 40 * number, place, verdict, stream_packet(stream, number, call))


def book_with_limit():
    """AB1CD is talked out four times: by another who begins first, by its own next stream, by what it goes on to send, and by
    nothing, since it was silent for longer."""
    yield join(0, 100, 0, "AB1CD")
    yield join(1, 100, 1, "N0CALL")
    yield from talk(200, 0, 1, 25, "AB1CD")
    yield packet(9, 1200, 1, OPENED, stream_packet(2, 0 | END_BIT, "N0CALL"))
    yield from talk(1240, 0, 3, 25, "AB1CD")
    yield from talk(2240, 0, 4, 25, "AB1CD")
    for moment, number in ((3240, 25), (3280, 26)):
        yield packet(9, moment, 0, TIMED_OUT, stream_packet(4, number, "AB1CD"))
    yield from talk(4000, 0, 5, 2, "AB1CD")
    yield packet(9, 5640, 1, OPENED, stream_packet(6, 0 | END_BIT, "N0CALL"))
    yield packet(9, 5640, 0, TIMED_OUT, stream_packet(5, 2 | END_BIT, "AB1CD"))


def trace():
    """What the log has from it: addresses, datagrams that are no packets, and requests that came to nothing."""
    zeros = stream_packet(9, 0, "AB1CD")[:52] + b"\0\0"
    wrong = stream_packet(9, 0, "AB1CD")[:53] + b"\0"
    yield datagram(100, 1, b"CONN" + address("AB1CD") + b"A")
    yield datagram(150, 2, b"LSTN" + address("N0CALL") + b"A")
    yield datagram(160, 1, zeros)
    yield datagram(170, 1, zeros)
    yield datagram(180, 1, wrong)
    yield datagram(190, 9, b"junk!")
    yield datagram(200, 9, b"CONM" + address("W1XYZ") + b"D")
    yield datagram(200, 9, b"CONN" + bytes(6) + b"D")
    yield datagram(200, 9, b"CONN" + address("W1XYZ") + b"d")
    yield datagram(210, 9, b"CONN" + address("W1XYZ") + b"D")
    for index in range(10, 15):
        yield datagram(1000 + 40 * (index - 10), 1, stream_packet(0x1234, index - 10, "W1XYZ"))
    yield datagram(1200, 8, b"CONN" + address("W1XYZ") + b"A")
    yield datagram(1220, 8, stream_packet(9, 0, "HOTB"))
    yield datagram(1240, 1, b"CONN" + address("AB1CD") + b"A")
    yield b"\x03"
    yield quiet(5000)


def main():
    folder = sys.argv[1]
    if sys.argv[2:] == ["limit"]:
        with open(os.path.join(folder, "A.book"), "wb") as out:
            out.write(book_header("A", 1000) + b"".join(book_with_limit()))
        return
    for letter, parts in (("A", book_a()), ("B", book_b())):
        with open(os.path.join(folder, letter + ".book"), "wb") as out:
            out.write(book_header(letter) + b"".join(parts))
    with open(os.path.join(folder, "link0.trace"), "wb") as out:
        out.write(b"M17TRACE" + b"".join(trace()))


if __name__ == "__main__":
    main()
