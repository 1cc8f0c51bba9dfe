"""Reads lines of hex digits, and writes a capture file that has each as a UDP datagram to port 17000, over IPv4 with
options and over IPv6, in Ethernet frames that are filled up to 60 bytes, as network cards do it."""

import struct
import sys

PORT = 17000
UDP = 17
SHORTEST_FRAME = 60


def datagram(payload):
    return struct.pack(">HHHH", 40000, PORT, 8 + len(payload), 0) + payload


def over_ipv4(payload):
    """A router alert stands as the option, so that the header has 24 bytes."""
    udp = datagram(payload)
    header = struct.pack(">BBHHHBBH", 0x46, 0, 24 + len(udp), 1, 0, 64, UDP, 0)
    return header + bytes([127, 0, 0, 1]) * 2 + bytes([0x94, 4, 0, 0]) + udp


def over_ipv6(payload):
    udp = datagram(payload)
    here = bytes(15) + b"\x01"
    return struct.pack(">IHBB", 6 << 28, len(udp), UDP, 64) + here * 2 + udp


def main():
    out = sys.stdout.buffer
    out.write(struct.pack("<IHHiIII", 0xA1B2C3D4, 2, 4, 0, 0, 262144, 1))
    for second, line in enumerate(sys.stdin):
        payload = bytes.fromhex(line)
        for kind, packet in ((0x0800, over_ipv4(payload)), (0x86DD, over_ipv6(payload))):
            frame = (b"\x02" * 12 + kind.to_bytes(2, "big") + packet).ljust(SHORTEST_FRAME, b"\xaa")
            out.write(struct.pack("<IIII", second, 0, len(frame), len(frame)) + frame)


if __name__ == "__main__":
    main()
