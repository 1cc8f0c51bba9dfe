#!/usr/bin/env python3
"""A reflector for one client, for checks of `m17 talk`: it lets the client in, says back each of its stream packets, and
ends with it. Before it lets the client in, it sends datagrams of many lengths that are no packets, and a stranger tells
the client to go. The arguments are the address to bind, and the file for the port.
"""

import os
import socket
import sys

address, place = sys.argv[1:]
family = socket.AF_INET6 if ":" in address else socket.AF_INET
own = socket.socket(family, socket.SOCK_DGRAM)
stranger = socket.socket(family, socket.SOCK_DGRAM)
own.bind((address, 0))
own.settimeout(20)
with open(place + ".part", "w", encoding="ascii") as out:
    out.write(str(own.getsockname()[1]))
os.rename(place + ".part", place)

while True:
    data, peer = own.recvfrom(2048)
    kind = data[:4]
    if kind in (b"CONN", b"LSTN"):
        for length in [*range(80), 1472, 2000]:
            own.sendto(bytes(length), peer)
        stranger.sendto(b"DISC", peer)
        own.sendto(b"ACKN", peer)
        own.sendto(b"PING" + data[4:10], peer)
    elif kind == b"M17 ":
        own.sendto(data, peer)
    elif kind == b"DISC":
        own.sendto(b"DISC", peer)
        break
