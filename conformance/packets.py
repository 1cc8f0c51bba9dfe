"""Addresses, the CRC, and the packets of the wire with their lines.

All numbers in packets and files have their highest byte first.
"""

from collections import namedtuple

# ---- addresses and callsigns

LETTERS = " ABCDEFGHIJKLMNOPQRSTUVWXYZ0123456789-/."
BROADCAST = 2**48 - 1
GROUPS = 40**9  # no callsign itself: a group's address is this and the sum of its letters
FIRST_WITHOUT_CALLSIGN = GROUPS + 40**8


def encode(text):
    """The address of a callsign, or None: 1 to 9 letters, or # and 1 to 8 letters, of which the last is no space."""
    start, letters = (GROUPS, text[1:]) if text[:1] == "#" else (0, text)
    if not letters or len(text) > 9 or letters[-1] == " " or any(letter not in LETTERS for letter in letters):
        return None
    return start + sum(LETTERS.index(letter) * 40**place for place, letter in enumerate(letters))


def has_callsign(address):
    return 1 <= address < FIRST_WITHOUT_CALLSIGN and address != GROUPS


def address_text(address):
    """An address as lines show it: its callsign, `broadcast`, or else 12 hex digits."""
    if not has_callsign(address):
        return "broadcast" if address == BROADCAST else "%012X" % address
    text = ""
    if address > GROUPS:
        text, address = "#", address - GROUPS
    while address:
        text += LETTERS[address % 40]
        address //= 40
    return text


# ---- the CRC of stream packets: polynomial x^16 + 0x5935, from FFFF on, most significant bit first


def _shifted(remainder):
    for _ in range(8):
        remainder = remainder << 1 ^ (0x15935 if remainder & 0x8000 else 0)
    return remainder


CRC_OF_BYTE = [_shifted(byte << 8) for byte in range(256)]


def crc(data):
    remainder = 0xFFFF
    for byte in data:
        remainder = (remainder << 8 & 0xFFFF) ^ CRC_OF_BYTE[remainder >> 8 ^ byte]
    return remainder


# ---- packets

Stream = namedtuple("Stream", "sid number last bytes")
Control = namedtuple("Control", "kind source module bytes")
Refused = namedtuple("Refused", "reason")

MAGICS = {
    4: (b"ACKN", b"NACK", b"DISC"),
    10: (b"PING", b"PONG", b"DISC"),
    11: (b"CONN", b"LSTN"),
    54: (b"M17 ",),
}


def number(data):
    return int.from_bytes(data, "big")


def decode(data):
    """The packet that the bytes are, or the first reason why they are none."""
    if len(data) not in MAGICS:
        return Refused("length %d" % len(data))
    magic = data[:4]
    if magic not in MAGICS[len(data)]:
        return Refused("magic %s" % magic.hex().upper())
    if len(data) == 54:
        found, expected = number(data[52:]), crc(data[:52])
        if found != expected:
            return Refused("crc %04X %04X" % (found, expected))
        frame = number(data[34:36])
        return Stream(number(data[4:6]), frame % 0x8000, frame >= 0x8000, data)
    source = module = None
    if len(data) >= 10:
        source = number(data[4:10])
        if not has_callsign(source):
            return Refused("address %s" % address_text(source))
    if len(data) == 11:
        if not ord("A") <= data[10] <= ord("Z"):
            return Refused("module %02X" % data[10])
        module = chr(data[10])
    return Control(magic.decode(), source, module, data)


def with_source(kind, source):
    """PING, PONG or DISC with its From address."""
    return kind + source.to_bytes(6, "big")


# ---- the lines of `show`


def packet_text(packet):
    if isinstance(packet, Refused):
        return "refused " + packet.reason
    if isinstance(packet, Stream):
        return stream_text(packet)
    text = packet.kind.lower()
    if packet.source is not None:
        text += " " + address_text(packet.source)
    if packet.module is not None:
        text += " " + packet.module
    return text


def stream_text(packet):
    data = packet.bytes
    kind = number(data[18:20])
    return " ".join(
        (
            "stream %04X" % packet.sid,
            "dst " + address_text(number(data[6:12])),
            "src " + address_text(number(data[12:18])),
            "type %04X" % kind,
            ("packet", "stream")[kind & 1],
            ("reserved", "data", "voice", "both")[kind >> 1 & 3],
            "enc %d sub %d can %d" % (kind >> 3 & 3, kind >> 5 & 3, kind >> 7 & 15),
            "meta " + data[20:34].hex().upper(),
            "number %d last %d" % (packet.number, packet.last),
            "payload " + data[36:52].hex().upper(),
        )
    )
