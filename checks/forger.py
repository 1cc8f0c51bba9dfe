"""Says datagrams of UDP in the name of others: as root alone, for checks/circles.py and bench/attacks."""

import socket
import struct

UDP_HEADER = 8


def sum_of_words(data):
    """The checksum of UDP, over the addresses too, which IPv6 wants."""
    total = sum(struct.unpack(f"!{(len(data) + 1) // 2}H", data + bytes(len(data) % 2)))
    while total >> 16:
        total = (total & 0xFFFF) + (total >> 16)
    return ~total & 0xFFFF or 0xFFFF


class Forger:
    def __init__(self, family=socket.AF_INET):
        self.family = family
        self.socket = socket.socket(family, socket.SOCK_RAW, socket.IPPROTO_RAW)

    def say(self, source, target, data):
        """Both are a host and a port."""
        length = UDP_HEADER + len(data)
        hosts = socket.inet_pton(self.family, source[0]) + socket.inet_pton(self.family, target[0])
        udp, checksum = struct.pack("!HHH", source[1], target[1], length), 0
        if self.family == socket.AF_INET:
            ip = struct.pack("!BBHHHBBH", 0x45, 0, 20 + length, 0, 0, 64, socket.IPPROTO_UDP, 0) + hosts
        else:
            ip = struct.pack("!IHBB", 6 << 28, length, socket.IPPROTO_UDP, 64) + hosts
            checksum = sum_of_words(hosts + struct.pack("!HH", socket.IPPROTO_UDP, length) + udp + data)
        self.socket.sendto(ip + udp + struct.pack("!H", checksum) + data, (target[0], 0))

    def close(self):
        self.socket.close()
