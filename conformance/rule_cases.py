#!/usr/bin/env python3
"""Drawn rule texts and datagrams: the same for the same seed and number.

    rule_cases.py SEED NUMBER

writes the text, and its datagrams as hex digits to standard error.
"""

import sys

from draws import Draw, stream
from packets import BROADCAST, GROUPS, LETTERS, encode

CALLS = ("AB1CD", "AB1C", "N0CALL", "N0", "N1CALL", "M17-TST", "#CLUB", "#C", "#CLUBBER", "CLUB", ".........", "A", "A B", " A")
NO_CALLS = (0, GROUPS, BROADCAST, GROUPS + 40**8)
EDGES = ("ABCDEFGHI*", "#ABCDEFGH*", "ABCDEFGHIJ*", "#ABCDEFGHI*", "ABCDEFGHI", "#ABCDEFGH", "ABCDEFGHIJ", "#ABCDEFGHI")
WRONG_PARTS = {
    "act": ("", "Allow", "allows", "reject", "deny\t", "\xe9"),
    "kind": ("", "CONN", "all", "listen", "*", "any\r"),
    "modules": ("", "a", "ABA", "A*", "**", "A,B", "0", "\xc9"),
    "pattern": ("", "a", "A ", "ABCDEFGHIJ", "#", "##*", "A#", "A#*", "**", "*A", "A**", "ABCDEFGHIJ*", "#ABCDEFGHI*", "A\r", "\xe9*"),
}


def pattern(draw):
    if draw.chance(12):
        return "*"
    call = draw.pick(CALLS)
    return call[: draw.between(0, len(call))] + "*" if draw.chance(55) else call


def modules(draw):
    letters = [chr(letter) for letter in range(ord("A"), ord("E")) if draw.chance(40)]
    return "".join(reversed(letters) if draw.chance(30) else letters) or "*"


def rule(draw, spoil):
    kind = draw.pick(("conn", "lstn", "talk", "any"))
    parts = {
        "act": draw.pick(("allow", "deny")),
        "kind": kind,
        "modules": modules(draw) if kind != "talk" and draw.chance(60) else "*",
        "pattern": pattern(draw),
    }
    if spoil and draw.chance(15):
        parts.update(kind="talk", modules="AB")
    elif spoil and draw.chance(20):
        parts["pattern"] = draw.pick(EDGES)
    elif spoil:
        for name in parts if draw.chance(20) else [draw.pick(sorted(parts))]:
            if draw.chance(80):
                parts[name] = draw.pick(WRONG_PARTS[name])
    texts = list(parts.values())
    if spoil and draw.chance(15):
        texts = texts[: draw.below(4)]
    return " ".join(texts)


def line(draw, spoil):
    if draw.chance(8):
        return ""
    if draw.chance(8):
        return ";" + draw.pick(("", " a closed group", "\xff\x00", "deny any * *"))
    return rule(draw, spoil)


def text(draw):
    count = draw.weighted({0: 3, 1: 15, 5: 40, 20: 20, 1000: 1})
    spoil = draw.chance(40)
    lines = [line(draw, spoil and draw.chance(40)) for _ in range(draw.between(0, count))]
    if draw.chance(40):
        lines.append("deny %s * *" % draw.pick(("any", "any", "talk", "conn")))
    ends = draw.pick(("\n", "\n", "\r\n"))
    data = ends.join(lines) + ("" if draw.chance(50) else ends)
    data = data.encode("latin-1")
    if draw.chance(3):
        data = (data + b"\n" * 65537)[: draw.between(65534, 65538)]
    return data


def datagram(draw):
    address = draw.pick(NO_CALLS) if draw.chance(10) else encode(draw.pick(CALLS))
    letter = bytes([draw.between(ord("A"), ord("E"))])
    data = {
        "conn": b"CONN" + address.to_bytes(6, "big") + letter,
        "lstn": b"LSTN" + address.to_bytes(6, "big") + letter,
        "talk": stream(draw.below(65536), draw.below(100), source=address),
        "ping": b"PING" + address.to_bytes(6, "big"),
        "bytes": draw.bytes(draw.below(60)),
    }[draw.weighted({"conn": 30, "lstn": 25, "talk": 35, "ping": 5, "bytes": 5})]
    if data and draw.chance(6):
        place = draw.below(len(data))
        data = data[:place] + bytes([data[place] ^ 1 << draw.below(8)]) + data[place + 1 :]
    return data


def case(seed, index):
    """A rule text, and datagrams."""
    draw = Draw("rules", seed, index)
    return text(draw), [datagram(draw) for _ in range(40)]


if __name__ == "__main__":
    data, datagrams = case(int(sys.argv[1]), int(sys.argv[2]))
    sys.stdout.buffer.write(data)
    for each in datagrams:
        sys.stderr.write(each.hex().upper() + "\n")
