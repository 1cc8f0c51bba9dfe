#!/usr/bin/env python3
"""A small reflector over UDP with faults to choose from, to see whether the probe finds them. It is that of `reflector.py`,
and with a fault one of the functions there is another one (`planted.py`).

    conformance/faulty_reflector.py --fault floor.repeat-is-admitted 127.0.0.1:17000
    conformance/faulty_reflector.py --list

Without a fault it keeps the rules. It goes on until it is killed. With `--port-file` it writes its port there, so that it can
be started at port 0.
"""

import argparse
import os
import select
import socket
import sys
import time

sys.dont_write_bytecode = True
sys.path.insert(0, os.path.dirname(os.path.abspath(__file__)))

import reflector  # noqa: E402
from before_the_ear import Guard, Pace, filled  # noqa: E402
from packets import encode  # noqa: E402
from planted import FAULTS  # noqa: E402
from reference import Plan  # noqa: E402

TICK = 0.02
REST = 1.0
MOST_BYTES = 2048


class Served:
    """A reflector at a port."""

    def __init__(self, options):
        host, port = options.address.rsplit(":", 1)
        self.own = socket.socket(socket.AF_INET, socket.SOCK_DGRAM)
        self.own.setsockopt(socket.SOL_SOCKET, socket.SO_RCVBUF, 1 << 20)
        self.own.bind((host, int(port)))
        self.began = time.monotonic()
        self.denied = encode(options.deny) if options.deny else None
        self.fills = options.fill_crc
        self.guard = Guard() if options.guard else None
        self.pace = Pace(options.pace)
        plan = Plan(encode(options.call), set(options.modules), set(options.parrots), options.places, 1000 * options.limit)
        self.link = reflector.Link(plan, self.say)

    def moment(self):
        return int(1000 * (time.monotonic() - self.began))

    def say(self, peer, data):
        if self.pace.is_over(self.moment(), peer, data):
            return
        self.own.sendto(data, (socket.inet_ntoa(peer.ip[:4]), peer.port))

    def is_denied(self, data):
        """Whether it is a CONN, a LSTN or a frame of the callsign that is denied."""
        if self.denied is None:
            return False
        packet = reflector.decode(data)
        if isinstance(packet, reflector.Stream):
            return int.from_bytes(data[12:18], "big") == self.denied
        return getattr(packet, "kind", None) in ("CONN", "LSTN") and packet.source == self.denied

    def hears(self, data, place):
        peer = reflector.Peer(False, socket.inet_aton(place[0]) + bytes(12), place[1])
        data = filled(data) if self.fills else data
        if self.is_denied(data):
            self.link.denies(peer)
            self.link.hear(reflector.Quiet(self.moment()))
        elif self.guard and self.guard.is_echo(self.moment(), peer, data):
            self.link.hear(reflector.Quiet(self.moment()))
        else:
            self.link.hear(reflector.Datagram(self.moment(), peer, data))

    def goes_on(self):
        while True:
            if select.select([self.own], [], [], TICK if self.link.known else REST)[0]:
                self.hears(*self.own.recvfrom(MOST_BYTES))
            else:
                self.link.hear(reflector.Quiet(self.moment()))


def words():
    parser = argparse.ArgumentParser(description=__doc__, formatter_class=argparse.RawDescriptionHelpFormatter)
    parser.add_argument("address", nargs="?", default="127.0.0.1:0", metavar="ADDRESS:PORT")
    parser.add_argument("--fault", choices=sorted(FAULTS))
    parser.add_argument("--list", action="store_true", help="says the faults, and the scenes that are meant to find each")
    parser.add_argument("--call", default="M17-TST")
    parser.add_argument("--modules", default="ABC")
    parser.add_argument("--parrots", default="")
    parser.add_argument("--places", type=int, default=64)
    parser.add_argument("--limit", type=int, default=180)
    parser.add_argument("--deny", help="a callsign that may not connect, listen or speak")
    parser.add_argument("--fill-crc", action="store_true", help="fills in a CRC of 0000")
    parser.add_argument("--guard", action="store_true", help="doesn't hear frames that come round")
    parser.add_argument("--pace", type=int, default=0, help="how many frames are said to one peer in a second, 0 for any")
    parser.add_argument("--port-file")
    return parser.parse_args()


def main():
    options = words()
    if options.list:
        for name, fault in sorted(FAULTS.items()):
            print("%-42s %s" % (name, " ".join(fault.scenes)))
        return
    reflector.Link.denies = lambda link, peer: None  # who is denied is told nothing, but for a fault
    if options.fault:
        FAULTS[options.fault].plant()
    served = Served(options)
    if options.port_file:
        with open(options.port_file + ".part", "w", encoding="ascii") as file:
            file.write(str(served.own.getsockname()[1]))
        os.rename(options.port_file + ".part", options.port_file)
    served.goes_on()


if __name__ == "__main__":
    main()
