"""Writes captures into the folder that it is called in, each as NAME.pcap: every form of file and type of link that
contrib/m17-pcap reads, and what it has to skip or to refuse.

The datagrams come from port 40000 of 192.0.2.1 and 2001:db8::1, but for one that is the example of docs/protocol.md.
"""

import struct

PORT = 17000
TCP, UDP = 6, 17
SENDER_4 = bytes([192, 0, 2, 1])
SENDER_6 = bytes.fromhex("20010db8000000000000000000000001")
ETHERNET, RAW, COOKED, COOKED_2 = 1, 101, 113, 276
USB = 189
# The moment of a first packet, in milliseconds: the next second begins 10 ms later.
START = 1_700_000_000_990


def udp(payload, port=PORT, size=None, source=40000):
    return struct.pack(">HHHH", source, port, 8 + len(payload) if size is None else size, 0) + payload


def ipv4(body, kind=UDP, part=0, options=b"", source=SENDER_4):
    size = 20 + len(options)
    header = struct.pack(">BBHHHBBH", 0x40 + size // 4, 0, size + len(body), 1, part, 64, kind, 0)
    return header + source + SENDER_4 + options + body


def ipv6(body, kind=UDP):
    return struct.pack(">IHBB", 6 << 28, len(body), kind, 64) + SENDER_6 + SENDER_6 + body


def extended(kind, size, body, following=UDP):
    """An IPv6 packet in which a header of so many bytes stands before the body."""
    return ipv6(bytes([following, size // 8 - 1]) + bytes(size - 2) + body, kind)


def fragment_6(offset, more, body):
    return ipv6(struct.pack(">BBHI", UDP, 0, offset << 3 | more, 7) + body, 44)


def kind_of(packet):
    return b"\x08\x00" if packet[0] >> 4 == 4 else b"\x86\xdd"


def ethernet(packet, tags=b""):
    return (b"\x02" * 12 + tags + kind_of(packet) + packet).ljust(60, b"\xaa")


def cooked(packet, direction=0, tags=b""):
    return struct.pack(">HHH8x", direction, 1, 6) + tags + kind_of(packet) + packet


def cooked_2(packet, direction=0):
    return kind_of(packet) + struct.pack(">2xIHBB8x", 2, 1, direction, 6) + packet


def loopback(packet, order, family):
    return struct.pack(order + "I", 2 if packet[0] >> 4 == 4 else family) + packet


def pcap(link, records, order="<", magic=0xA1B2C3D4, unit=1000, version=(2, 4)):
    """Records are the milliseconds since the start, the frame, and its full size where that is another one."""
    made = struct.pack(order + "IHHiIII", magic, *version, 0, 0, 262144, link)
    for moment, frame, *full in records:
        seconds, rest = divmod(START + moment, 1000)
        made += struct.pack(order + "IIII", seconds, rest * 1_000_000 // unit, len(frame), (full + [len(frame)])[0])
        made += frame
    return made


def block(order, kind, body):
    size = 12 + len(body) + -len(body) % 4
    return struct.pack(order + "II", kind, size) + body.ljust(size - 12, b"\x00") + struct.pack(order + "I", size)


def section(order, major=1):
    return block(order, 0x0A0D0D0A, struct.pack(order + "IHHq", 0x1A2B3C4D, major, 0, -1))


def option(order, code, value):
    return struct.pack(order + "HH", code, len(value)) + value + bytes(-len(value) % 4)


def interface(order, link, options=b"", snap=0):
    return block(order, 1, struct.pack(order + "HHI", link, 0, snap) + options)


def packet(order, number, ticks, frame, full=None):
    fields = struct.pack(order + "IIIII", number, ticks >> 32, ticks & 0xFFFFFFFF, len(frame), full or len(frame))
    return block(order, 6, fields + frame + bytes(-len(frame) % 4) + option(order, 2, bytes(4)))


def old_packet(order, number, ticks, frame):
    fields = struct.pack(order + "HHIIII", number, 0, ticks >> 32, ticks & 0xFFFFFFFF, len(frame), len(frame))
    return block(order, 2, fields + frame)


def simple_packet(order, frame, full=None):
    return block(order, 3, struct.pack(order + "I", full or len(frame)) + frame)


def links():
    """Over each type of link two datagrams to the port, ACKN over IPv4 and DISC over IPv6, among others."""
    four, six = ipv4(udp(b"ACKN")), ipv6(udp(b"DISC"))
    packets = [ipv4(udp(b"PING", PORT + 1)), four, ipv4(udp(b"PONG"), TCP), six, ipv6(udp(b"PONG"), 59)]
    kinds = {
        "ethernet": (ETHERNET, ethernet),
        "tagged": (ETHERNET, lambda packet: ethernet(packet, b"\x81\x00\x00\x05")),
        "twice-tagged": (ETHERNET, lambda packet: ethernet(packet, b"\x88\xa8\x00\x05\x81\x00\x00\x06")),
        "with-checksums": (ETHERNET | 0x54000000, lambda packet: ethernet(packet) + b"\xbb" * 4),
        "cooked": (COOKED, cooked),
        "cooked-tagged": (COOKED, lambda packet: cooked(packet, tags=b"\x81\x00\x00\x05")),
        "cooked-2": (COOKED_2, cooked_2),
        "raw": (RAW, bytes),
        "null": (0, lambda packet: loopback(packet, "<", 30)),
        "null-swapped": (0, lambda packet: loopback(packet, ">", 24)),
        "loop": (108, lambda packet: loopback(packet, ">", 28)),
    }
    made = {name: pcap(link, [(0, frame(each)) for each in packets]) for name, (link, frame) in kinds.items()}
    made["only-ipv4"] = pcap(228, [(0, four), (0, six)])
    made["only-ipv6"] = pcap(229, [(0, four), (0, six)])
    arp = b"\x02" * 12 + b"\x08\x06" + bytes(28)
    made["other-protocols"] = pcap(ETHERNET, [(0, arp), (0, arp[:12] + b"\x00\x26" + bytes(38))])
    return made


def forms():
    """The example of docs/protocol.md in each form of file: ACKN at 40 ms. At 0 and 259 ms comes what is for others."""
    example = ipv4(udp(b"ACKN", source=PORT), source=bytes([127, 0, 0, 1]))
    other = ipv4(udp(b"", PORT + 1))
    packets = [(0, other), (40, example), (259, other)]
    made = {}
    for order, name in (("<", "little"), (">", "big")):
        made[f"micro-{name}"] = pcap(RAW, packets, order)
        made[f"nano-{name}"] = pcap(RAW, packets, order, 0xA1B23C4D, 1)
        blocks = [packet(order, 0, (START + moment) * 1000, each) for moment, each in packets]
        made[f"ng-{name}"] = section(order) + interface(order, RAW) + b"".join(blocks)
    return made


def sections():
    """Two sections with interfaces of their own. The moments are 0, 10 and 10, then 500, 501 and 1,000 ms."""
    little = section("<") + interface("<", ETHERNET, snap=61)
    little += interface("<", RAW, option("<", 2, b"tun0") + option("<", 9, b"\x09") + option("<", 0, b""))
    little += block("<", 4, bytes(4)) + block("<", 0x80000001, b"none of ours")
    little += packet("<", 1, START * 1_000_000, ipv4(udp(b"ACKN")))
    little += packet("<", 0, (START + 10) * 1000 + 999, ethernet(ipv6(udp(b"NACK"))))
    little += simple_packet("<", ethernet(ipv4(udp(b"DISC"))))
    little += simple_packet("<", ethernet(ipv4(udp(bytes(19)))), 90)
    # A later section: ticks of a 1,024th from the second in which the capture began, and others of a millisecond.
    since = option(">", 14, (START // 1000).to_bytes(8, "big"))
    big = section(">") + interface(">", COOKED_2, option(">", 9, b"\x8a") + since)
    big += interface(">", RAW, option(">", 9, b"\x03"))
    big += packet(">", 0, 1526, cooked_2(ipv6(udp(b"PING"))))
    big += old_packet(">", 1, START + 501, ipv4(udp(b"PONG")))
    big += packet(">", 1, START + 1000, ipv4(udp(b"")))
    return {"sections": little + big}


def sizes():
    """Padding, options of IPv4, headers of IPv6, and datagrams of lengths from nothing to 129 bytes."""
    router_alert = bytes([0x94, 4, 0, 0])
    headers = [extended(kind, size, udp(b"LSTN")) for kind, size in ((0, 8), (43, 24), (60, 16))]
    chain = ipv6(b"\x3c\x00" + bytes(6) + b"\x2b\x00" + bytes(6) + b"\x11\x00" + bytes(6) + udp(b"CONN"), 0)
    lengths = [ipv4(udp(b"\xaa" * count)) for count in (64, 65, 128, 129)]
    packets = [ipv4(udp(b"ACKN"), options=router_alert), ipv4(udp(b"")), *headers, chain, *lengths]
    return {"sizes": pcap(ETHERNET, [(0, ethernet(each)) for each in packets])}


def skipped():
    """The second fragments look as if they began a datagram to the port."""
    whole = udp(bytes(8) + udp(b"PONG"))
    parts = [ipv4(whole[:16], part=0x2000), ipv4(whole[16:], part=2)]
    parts += [fragment_6(0, 1, whole[:16]), fragment_6(2, 0, whole[16:])]
    parts += [ipv4(udp(bytes(8), PORT + 1), part=0x2000), fragment_6(0, 0, udp(b"ACKN"))]
    cut = ipv4(udp(b"DISC"))
    records = [(0, cut[:-1], len(cut)), (0, cut[:23], len(cut)), (0, cut[:9], len(cut)), (0, cut)]
    records.append((0, ipv4(udp(b"", PORT + 1))[:26], 28))
    wrong = [ipv4(udp(b"ACKN", size=13)), ipv4(udp(b"ACKN", size=7)), ipv4(udp(b"NACK", size=9)), ipv4(udp(b""))[:20]]
    sent = [cooked(ipv4(udp(b"ACKN")), 4), cooked(ipv4(udp(b"NACK"))), cooked(ipv4(udp(b"DISC", PORT + 1)), 4)]
    sent_2 = [cooked_2(ipv6(udp(b"ACKN")), 4), cooked_2(ipv6(udp(b"NACK")), 3)]
    return {
        "fragments": pcap(RAW, [(0, each) for each in parts]),
        "cut-short": pcap(RAW, records),
        "wrong-lengths": pcap(RAW, [(0, each) for each in wrong]),
        "sent": pcap(COOKED, [(0, each) for each in sent]),
        "sent-2": pcap(COOKED_2, [(0, each) for each in sent_2]),
    }


def clocks():
    def at(*moments):
        return pcap(RAW, [(moment, ipv4(udp(b""))) for moment in moments])

    end = [(moment, ipv4(udp(b"", PORT + (moment == 102)))) for moment in (0, 20, 61, 102)]
    # Ticks of a second and of a millisecond.
    far = section("<") + interface("<", RAW, option("<", 9, b"\x00")) + interface("<", RAW, option("<", 9, b"\x03"))
    for interface_number, ticks in ((0, 0), (1, 2**64 - 1), (0, 2**63)):
        far += packet("<", interface_number, ticks, ipv4(udp(b"")))
    return {
        "quiet": pcap(RAW, end),
        "back": at(1000, 1030, 0, 1025, 1066),
        "most-entries": at(0, 19_999_980),
        "more-entries": at(0, 19_999_981),
        "bytes": pcap(RAW, [(0, ipv6(udp(bytes(count)))) for count in (64, 64, 27, 0)]),
        "far": far,
    }


def refused():
    small = ipv4(udp(b"ACKN"))
    start = section("<") + interface("<", RAW) + packet("<", 0, 0, small)
    usb = section("<") + interface("<", USB)
    return {
        "unknown-link": pcap(USB, []),
        "ng-unknown-link": usb + interface("<", RAW) + packet("<", 1, 0, small) + packet("<", 0, 0, small),
        "old-version": pcap(RAW, [], version=(2, 3)),
        "ng-new-version": section("<", 2),
        "long-record": pcap(RAW, [(0, small)]) + struct.pack("<IIII", 0, 0, 262145, 262145) + bytes(262145),
        "ng-no-order": section("<").replace(b"\x4d\x3c\x2b\x1a", b"M<+."),
        "ng-two-lengths": start + block("<", 4, b"")[:-1] + b"\x01",
        "ng-odd-length": start + struct.pack("<III", 4, 14, 14),
        "ng-no-interface": start + packet("<", 1, 0, small),
        "ng-too-few": start + block("<", 6, bytes(16)),
        "ng-too-long": start + block("<", 6, struct.pack("<IIIII", 0, 0, 0, 9, 9) + bytes(8)),
    }


def main():
    for make in (links, forms, sections, sizes, skipped, clocks, refused):
        for name, made in make().items():
            with open(f"{name}.pcap", "wb") as file:
                file.write(made)


if __name__ == "__main__":
    main()
