#!/usr/bin/env python3
"""make_input.py records|lines COUNT: an input for `judge` or `show`, the same bytes at each run.

A net on one module with twelve talkers, one stream after another. About one packet in twenty is a repeat, one in twenty
comes from somebody who interrupts, and a few are spoiled. `lines` has control packets of every kind among the stream
packets, refused ones, digits of both cases, and line ends with and without a carriage return.
"""

import random
import sys

END_BIT = 0x8000
BROADCAST = b"\xff" * 6
CALLSIGNS = 40**9


def steps_of_a_byte(remainder):
    for _ in range(8):
        remainder = remainder << 1 ^ (0x15935 if remainder & 0x8000 else 0)
    return remainder


TABLE = [steps_of_a_byte(byte << 8) for byte in range(256)]


def crc(data, remainder=0xFFFF):
    for byte in data:
        remainder = (remainder << 8 & 0xFFFF) ^ TABLE[remainder >> 8 ^ byte]
    return remainder


class Stream:
    """The packets of one stream. What they have in common is spelled, and its CRC begun, once."""

    def __init__(self, stream_id, source, payload):
        self.head = b"M17 " + stream_id.to_bytes(2, "big") + BROADCAST + source.to_bytes(6, "big") + b"\0\5" + bytes(14)
        self.begun = crc(self.head)
        self.payload = payload

    def packet(self, number):
        tail = number.to_bytes(2, "big") + self.payload
        return self.head + tail + crc(tail, self.begun).to_bytes(2, "big")


def source_of(talker):
    return 96_608 + 64_000 * talker


def spoiled(packet, draw):
    wrong = bytearray(packet)
    wrong[draw.randrange(54)] ^= 1 << draw.randrange(8)
    return bytes(wrong)


def packets(count, draw):
    """So many moments, talkers and stream packets."""
    moment = 0
    made = 0
    while made < count:
        talker = draw.randrange(12)
        stream = Stream(draw.randrange(65536), source_of(talker), draw.randbytes(16))
        frames = draw.randrange(25, 125)
        for number in range(frames):
            last = number + 1 == frames
            packet = stream.packet(number | (END_BIT if last else 0))
            yield moment, talker, packet
            made += 1
            dice = draw.randrange(100)
            if dice < 5:
                yield moment, talker, packet
            elif dice < 10:
                other = (talker + 1) % 12
                yield moment, other, Stream(number, source_of(other), bytes(16)).packet(0)
            elif dice < 12:
                yield moment, talker, spoiled(packet, draw)
            moment += 40
        moment += draw.choice((200, 2_000))


def records(count, draw, out):
    for n, (moment, talker, packet) in enumerate(packets(count, draw)):
        if n == count:
            return
        out.write(moment.to_bytes(8, "big") + talker.to_bytes(2, "big") + packet)


def control_packet(draw):
    kind = draw.choice((b"CONN", b"LSTN", b"ACKN", b"NACK", b"PING", b"PONG", b"DISC", b"NONE"))
    if kind in (b"ACKN", b"NACK"):
        return kind
    source = draw.randrange(CALLSIGNS).to_bytes(6, "big")
    if kind in (b"CONN", b"LSTN"):
        return kind + source + bytes([ord("A") + draw.randrange(28)])
    return kind + source[: draw.choice((0, 6, 6, 5))]


def lines(count, draw, out):
    for n, (_, _, packet) in enumerate(packets(count, draw)):
        if n == count:
            return
        text = (packet if n % 3 else control_packet(draw)).hex()
        end = "\r\n" if n % 19 == 0 else "\n"
        out.write(((text if n % 7 == 0 else text.upper()) + end).encode())


def main():
    words = sys.argv[1:]
    writers = {"records": records, "lines": lines}
    if len(words) != 2 or words[0] not in writers or not words[1].isdigit():
        sys.exit(__doc__.splitlines()[0])
    writers[words[0]](int(words[1]), random.Random(17), sys.stdout.buffer)


if __name__ == "__main__":
    main()
