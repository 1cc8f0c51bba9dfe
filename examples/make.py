#!/usr/bin/env python3
"""Writes the example inputs beside this file: judge.bin for `m17 judge`, show.hex for `m17 show`, evening.trace for
`m17 replay`, talk.script for `m17 talk`, and evening.book and disputed.book, which `contrib/m17-book` reads.

With words it writes a script for `m17 talk` to standard output, of so many frames (25 a second) of one stream:

    make.py script CALLSIGN FRAMES > my.script

The packets are made here from their layouts, and their CRCs by the plain division, so that the examples owe nothing to
the program that reads them. All numbers have their highest byte first.
"""

import os
import sys

LETTERS = " ABCDEFGHIJKLMNOPQRSTUVWXYZ0123456789-/."
BROADCAST = b"\xff" * 6
END_BIT = 0x8000
VOICE_STREAM = 0x0005


def address(callsign):
    """A callsign as six bytes: its letters are the digits of a number to base 40, the first letter least significant.
    That of a group, # and up to eight letters, begins at 40^9."""
    start, letters = (40**9, callsign[1:]) if callsign.startswith("#") else (0, callsign)
    value = 0
    for letter in reversed(letters):
        value = 40 * value + LETTERS.index(letter)
    return (start + value).to_bytes(6, "big")


def crc(data):
    """The remainder of the division by x^16 + 0x5935, from FFFF on, the most significant bit of each byte first."""
    remainder = 0xFFFF
    for byte in data:
        remainder ^= byte << 8
        for _ in range(8):
            remainder <<= 1
            if remainder & 0x10000:
                remainder ^= 0x15935
    return remainder


def stream_packet(stream_id, number, source, payload=bytes(16)):
    """54 bytes: magic, stream id, link setup data (DST, SRC, TYPE, META), frame number with its end bit, payload, CRC."""
    body = b"M17 " + stream_id.to_bytes(2, "big")
    body += BROADCAST + address(source) + VOICE_STREAM.to_bytes(2, "big") + bytes(14)
    body += number.to_bytes(2, "big") + payload
    return body + crc(body).to_bytes(2, "big")


def record(moment, talker, packet):
    """64 bytes: the moment in milliseconds, the talker's number, the packet."""
    return moment.to_bytes(8, "big") + talker.to_bytes(2, "big") + packet


def judge_records():
    """Two talkers on one module. Beside each record stands what `judge` says of it."""

    def first(number):
        return stream_packet(0x1234, number, "AB1CD")

    def second(number):
        return stream_packet(0x5678, number, "N0CALL")

    spoiled = bytearray(second(2))
    spoiled[53] ^= 1

    return [
        record(0, 0, first(0)),  # 0 opened
        record(20, 1, second(0)),  # 1 busy 0
        record(40, 0, first(1)),  # 2 continued
        record(80, 0, first(2)),  # 3 continued
        record(1679, 1, second(0)),  # 4 busy 0: the holder was silent for 1,599 ms
        record(1680, 1, second(1)),  # 5 opened: for 1,600 ms, so the floor is given up
        record(1700, 0, first(3)),  # 6 busy 1
        record(1720, 1, second(1)),  # 7 repeat
        record(1740, 1, bytes(spoiled)),  # 8 refused crc: the last bit of the packet is wrong
        record(1760, 1, second(3)),  # 9 continued: number 2 was lost on the way
        record(1780, 1, second(2)),  # 10 late 3
        record(1800, 1, second(4 | END_BIT)),  # 11 continued: the last frame
        record(1840, 1, second(5)),  # 12 after-end
        record(1880, 0, stream_packet(0x1235, 0, "AB1CD")),  # 13 opened: the floor is free
    ]


def show_packets():
    """A hotspot's connection, as seen on the reflector's port, and one packet that is refused."""
    hotspot = address("AB1CD")
    reflector = address("M17-TST")
    return [
        b"CONN" + hotspot + b"A",
        b"ACKN",
        stream_packet(0x1234, 0, "AB1CD", bytes(range(0x00, 0x10))),
        stream_packet(0x1234, 1, "AB1CD", bytes(range(0x10, 0x20))),
        stream_packet(0x1234, 2 | END_BIT, "AB1CD", bytes(range(0x20, 0x30))),
        b"PING" + reflector,
        b"PONG" + hotspot,
        b"CONN" + hotspot + b"[",  # refused module 5B
        b"DISC" + hotspot,
        b"DISC",
    ]


def datagram(moment, host, data):
    """An entry of a trace: kind 1, the moment, family 4, the address 10.0.0.host, port 17000, the length, the bytes."""
    peer = bytes([10, 0, 0, host]) + (17000).to_bytes(2, "big")
    return b"\x01" + moment.to_bytes(8, "big") + b"\x04" + peer + bytes([len(data)]) + data


def quiet(moment):
    """An entry of a trace: nothing came until this moment."""
    return b"\x02" + moment.to_bytes(8, "big")


def evening():
    """A talker and a listener on module A, and a stranger. Beside each entry stands what `replay` says of it."""
    talker = address("AB1CD")
    listener = address("N0CALL")

    def frame(number):
        return stream_packet(0x1234, number, "AB1CD")

    return b"M17TRACE" + b"".join(
        [
            datagram(0, 1, b"CONN" + talker + b"A"),  # 0 A join
            datagram(40, 1, frame(0)),  # 1 A opened
            datagram(50, 2, b"LSTN" + listener + b"A"),  # 2 A join: to listen only
            datagram(80, 1, frame(1)),  # 3 A continued
            datagram(90, 2, stream_packet(0x5678, 0, "N0CALL")),  # 4 A listen-only
            datagram(120, 1, frame(2)),  # 5 A continued
            datagram(125, 1, frame(2)),  # 6 A repeat: the network sent it twice
            datagram(130, 2, b"DISC" + listener),  # 7 A leave
            datagram(160, 1, frame(3 | END_BIT)),  # 8 A continued: the last frame
            datagram(200, 3, frame(4)),  # 9 not-connected
            datagram(220, 3, b"CONN" + address("W1XYZ") + b"D"),  # 10 not-served D
            datagram(240, 3, b"hello"),  # 11 refused length 5
            quiet(3000),  # 12 quiet: and a PING goes out
            datagram(3020, 1, b"PONG" + talker),  # 13 A alive
            b"\x03",  # 14 fault: the socket failed
            quiet(33020),  # 15 quiet: the talker was silent for 30,000 ms and leaves
        ]
    )


ASKED, SILENT = 1, 3
OPENED, CONTINUED, REPEAT, LISTENS_ONLY = 1, 2, 4, 8


def book_header(letter, limit=180000):
    """What a book begins with: its version, the letter of its module, and the limit on talking in milliseconds."""
    return b"M17BOOK2" + letter.encode() + limit.to_bytes(8, "big")


def book_record(kind, index, moment, place, rest):
    """A record of a book: kind, link 0, the number of the entry, moment, the member of generation 0 at the place; the rest."""
    head = bytes([kind, 0]) + index.to_bytes(8, "big") + moment.to_bytes(8, "big")
    return head + place.to_bytes(4, "big") + bytes(8) + rest


def joined(index, moment, place, callsign, listens=0):
    return book_record(1, index, moment, place, bytes([listens]) + address(callsign))


def left(index, moment, place, why):
    return book_record(2, index, moment, place, bytes([why]))


def judged(index, moment, place, verdict, packet):
    return book_record(3, index, moment, place, bytes([verdict]) + bytes(12) + packet)


def evening_book():
    """The book of module A of that evening: what became of the entries by which somebody came, spoke or left."""

    def frame(number):
        return stream_packet(0x1234, number, "AB1CD")

    return book_header("A") + b"".join(
        [
            joined(0, 0, 0, "AB1CD"),
            judged(1, 40, 0, OPENED, frame(0)),
            joined(2, 50, 1, "N0CALL", 1),
            judged(3, 80, 0, CONTINUED, frame(1)),
            judged(4, 90, 1, LISTENS_ONLY, stream_packet(0x5678, 0, "N0CALL")),
            judged(5, 120, 0, CONTINUED, frame(2)),
            judged(6, 125, 0, REPEAT, frame(2)),
            left(7, 130, 1, ASKED),
            judged(8, 160, 0, CONTINUED, frame(3 | END_BIT)),
            left(15, 33020, 0, SILENT),
        ]
    )


def disputed_book():
    """A book that isn't legal: N0CALL opens a stream while AB1CD has the floor."""
    return book_header("A") + b"".join(
        [
            joined(0, 0, 0, "AB1CD"),
            joined(1, 10, 1, "N0CALL"),
            judged(2, 40, 0, OPENED, stream_packet(0x1234, 0, "AB1CD")),
            judged(3, 80, 0, CONTINUED, stream_packet(0x1234, 1, "AB1CD")),
            judged(4, 90, 1, OPENED, stream_packet(0x5678, 0, "N0CALL")),  # by the rule it is busy
            judged(5, 130, 1, CONTINUED, stream_packet(0x5678, 1 | END_BIT, "N0CALL")),
        ]
    )


def script(callsign, frames):
    """What a client says in frames / 25 seconds: the frames of one stream, the last with the end bit. A record has 62 bytes:
    the milliseconds since the client became connected, and the packet.
    """
    records = []
    for number in range(frames):
        field = number | END_BIT if number == frames - 1 else number
        packet = stream_packet(0x1234, field, callsign, bytes([number % 256]) * 16)
        records.append((40 * number).to_bytes(8, "big") + packet)
    return b"".join(records)


def write_script(words):
    """Writes the script that the words ask for, or ends with what is wrong with them."""
    if len(words) != 2 or not words[1].isdigit() or not 1 <= int(words[1]) <= 16384:
        sys.exit("make.py: it is to be: make.py script CALLSIGN FRAMES, with 1 to 16384 frames")
    letters = words[0][1:] if words[0].startswith("#") else words[0]
    most = 8 if words[0].startswith("#") else 9
    if not 1 <= len(letters) <= most or letters.endswith(" ") or not set(letters) <= set(LETTERS):
        sys.exit(f"make.py: {words[0]} is no callsign: up to nine of A to Z (upper case), 0 to 9, - / . or a group, as #AB")
    sys.stdout.buffer.write(script(words[0], int(words[1])))


def main():
    if sys.argv[1:2] == ["script"]:
        write_script(sys.argv[2:])
        return
    folder = os.path.dirname(os.path.abspath(__file__))
    with open(os.path.join(folder, "judge.bin"), "wb") as out:
        out.write(b"".join(judge_records()))
    with open(os.path.join(folder, "show.hex"), "w") as out:
        for packet in show_packets():
            out.write(packet.hex().upper() + "\n")
    with open(os.path.join(folder, "evening.trace"), "wb") as out:
        out.write(evening())
    with open(os.path.join(folder, "talk.script"), "wb") as out:
        out.write(script("AB1CD", 25))
    with open(os.path.join(folder, "evening.book"), "wb") as out:
        out.write(evening_book())
    with open(os.path.join(folder, "disputed.book"), "wb") as out:
        out.write(disputed_book())


if __name__ == "__main__":
    main()
