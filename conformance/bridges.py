#!/usr/bin/env python3
"""A bridge by the rules (docs/bridge.md, docs/client.md), and a comparison of the command `bridge` with it over UDP.

    python3 conformance/bridges.py --program ./m17 --seed 1 --cases 3000

`bridge` says of what each side hears what is said there and how many packets pass. A case draws what the reflectors of both
sides say, plays them to the program over the loopback, one datagram after another, and gives what the program heard, with its
moments, to `bridge`. What was said on each side and the printed line have to be the same. Behind each datagram a PING waits
for its PONG, so that it is known what was heard before what. A case in which a pause comes too near to 1,600 ms is played
again, four times at the most; one that is still undecided then has neither passed nor failed. The last line is `N passed, M
failed`, and the status is 0 where none failed.
"""

import argparse
import concurrent.futures
import socket
import subprocess
import sys
import time

from draws import Draw, named, stream
from packets import Refused, Stream, decode, encode

NEAR, FAR = 0, 1
WAY_MS = 1600
RETRY_MS = 1000
MOST_TRIES = 5
SILENCE_MS = 30000
LOST_AFTER = 16

QUIET, DATAGRAM, FAULT, END = "quiet", "datagram", "fault", "end"


class Client:
    """A client by its table: what it says and keeps of each thing heard."""

    def __init__(self, call, module):
        self.call = call
        self.module = module
        self.state = "idle"
        self.moment = self.conn_at = self.left_at = self.heard_at = 0
        self.tries = 0
        self.kept = None

    def asks(self):
        self.conn_at = self.moment
        self.tries += 1
        return [named("CONN", self.call, self.module)]

    def time(self, at):
        """The time rule at a moment."""
        self.moment = max(self.moment, at)
        if self.state == "idle":
            self.state = "connecting"
            return self.asks()
        if self.state == "connecting" and self.moment - self.conn_at >= RETRY_MS:
            if self.tries < MOST_TRIES:
                return self.asks()
            self.state = "closed"
        elif self.state == "connected" and self.moment - self.heard_at >= SILENCE_MS:
            self.state = "closed"
        elif self.state == "leaving" and self.moment - self.left_at >= RETRY_MS:
            self.state = "closed"
        return []

    def hears(self, at, data):
        """A datagram of the reflector: what is said, and the packet that is kept, if one is."""
        was_idle = self.state == "idle"
        said = self.time(at)
        packet = decode(data)
        if was_idle or isinstance(packet, Refused):
            return said, None
        kind = "stream" if isinstance(packet, Stream) else packet.kind
        if self.state == "connecting":
            if kind == "ACKN":
                self.state, self.heard_at = "connected", self.moment
            elif kind in ("NACK", "DISC"):
                self.state = "closed"
        elif self.state == "connected":
            self.heard_at = self.moment
            if kind == "PING":
                return said + [named("PONG", self.call)], None
            if kind == "DISC":
                self.state = "closed"
            if kind == "stream" and self.is_new(packet):
                self.kept = packet
                return said, packet
        elif self.state == "leaving" and kind == "DISC":
            self.state = "closed"
        return said, None

    def is_new(self, packet):
        last = self.kept
        return last is None or last.sid != packet.sid or 1 <= (packet.number - last.number) % 32768 <= 16383

    def leaves(self):
        if self.state in ("connecting", "connected"):
            self.state, self.left_at = "leaving", self.moment
            return [named("DISC", self.call)]
        if self.state == "idle":
            self.state = "closed"
        return []


def bridge(call, modules, heard, waits=None):
    """What is said on each side, how many packets of each passed, and whether an ear was lost, where the ears of both sides,
    near and far, hear these lists in turn. An entry is ("quiet", at), ("datagram", at, bytes of the reflector), ("fault",) or
    ("end",). What passes by the time that has gone by, or doesn't, is added to `waits`, as the two moments."""
    clients = [Client(call, module) for module in modules]
    said = [[], []]
    passed = []  # of each packet that passed its side, the bridge's moment, and whether it was the last of its stream
    faults = [0, 0]
    moment = turn = 0
    while True:
        side = turn % 2
        place, turn = turn // 2, turn + 1
        entry = heard[side][place] if place < len(heard[side]) else (END,)
        faults[side] = faults[side] + 1 if entry[0] == FAULT else 0
        kept = None
        if entry[0] == QUIET:
            moment = max(moment, entry[1])
            said[side] += clients[side].time(entry[1])
        elif entry[0] == DATAGRAM:
            moment = max(moment, entry[1])
            own, kept = clients[side].hears(*entry[1:])
            said[side] += own
        if kept is not None and clients[1 - side].state == "connected":
            before = passed[-1] if passed else None
            is_free = before is None or before[0] == side or before[2]
            if not is_free and waits is not None:
                waits.append((before[1], moment))
            if is_free or moment - before[1] >= WAY_MS:
                passed.append((side, moment, kept.last))
                said[1 - side].append(kept.bytes)
        if entry[0] == END or LOST_AFTER in faults or "closed" in (clients[NEAR].state, clients[FAR].state):
            break
    for side in (NEAR, FAR):
        said[side] += clients[side].leaves()
    return said, [sum(one[0] == side for one in passed) for side in (NEAR, FAR)], LOST_AFTER in faults


# ---- cases

CALL = encode("AB1CD")
MODULES = ("A", "B")
PING = named("PING", encode("M17-TST"))
PONG = named("PONG", CALL)


def drawn(seed, number):
    """What the reflectors say: a list of steps, each with its side, a pause in milliseconds before it, the bytes, and whether
    they come from somebody else's port."""
    draw = Draw(seed, "bridge", number)
    talks = [[draw.below(65536), draw.below(32768)] for _ in (NEAR, FAR)]
    side = draw.below(2)
    steps = []
    for _ in range(draw.between(4, 14)):
        if draw.chance(30):
            side = 1 - side
        pause = draw.weighted({0: 90, 1200: 3, 1900: 7})
        last = draw.chance(20)
        sid, frame = talks[side]
        kind = draw.weighted({"next": 70, "again": 8, "late": 5, "other": 7, "wrong": 5, "stranger": 5})
        packet = stream(sid, frame + {"again": -1, "late": -3}.get(kind, 0), last)
        if kind == "wrong":
            packet = packet[:53] + bytes([packet[53] ^ 1])
        steps.append((side, pause, packet, kind == "stranger"))
        if kind in ("next", "other"):
            talks[side][1] = (frame + 1) % 32768
        if kind == "other" or last and draw.chance(70):
            talks[side] = [draw.below(65536), draw.below(32768)]
    return steps, draw.below(2)


class Undecided(Exception):
    """A pause came too near to 1,600 ms."""


class NotHeard(Exception):
    """The program did not answer."""


class Side:
    """A reflector of the comparison, which has one client."""

    def __init__(self):
        self.own = socket.socket(socket.AF_INET, socket.SOCK_DGRAM)
        self.own.bind(("127.0.0.1", 0))
        self.own.settimeout(20)
        self.peer = "127.0.0.1:%d" % self.own.getsockname()[1]
        self.client = None
        self.said = []

    def hear(self):
        try:
            data, self.client = self.own.recvfrom(64)
        except socket.timeout:
            raise NotHeard("a side heard nothing for 20 seconds") from None
        self.said.append(data)
        return data

    def say(self, data):
        self.own.sendto(data, self.client)

    def wait_for(self, data):
        while self.hear() != data:
            pass

    def rest(self):
        """What is still to be read."""
        self.own.settimeout(0)
        try:
            while True:
                self.hear()
        except OSError:
            pass


def milliseconds():
    return time.monotonic_ns() // 1000000


def play(program, steps, ends):
    """Plays a case: what the program printed, its status, what was said on each side, and what each heard: each step with the
    side, the least and the greatest moment at which it can have been heard, and the bytes."""
    sides = [Side(), Side()]
    stranger = socket.socket(socket.AF_INET, socket.SOCK_DGRAM)
    words = [program, "bridge", "--call", "AB1CD", "--near", "127.0.0.1:0", "--near-peer", sides[NEAR].peer, "--near-module",
             MODULES[NEAR], "--far", "127.0.0.1:0", "--far-peer", sides[FAR].peer, "--far-module", MODULES[FAR], "--for", "60"]
    heard = []
    with subprocess.Popen(words, stdin=subprocess.DEVNULL, stdout=subprocess.PIPE) as child:
        try:
            for side in sides:
                side.hear()
            for number, side in enumerate(sides):
                side.say(b"ACKN")
                side.say(PING)
                side.wait_for(PONG)
                heard += [(number, 0, 0, b"ACKN"), (number, 0, 0, PING)]
            start = milliseconds()
            for number, pause, data, is_strange in steps:
                time.sleep(pause / 1000)
                side = sides[number]
                least = milliseconds() - start
                if is_strange:
                    stranger.sendto(data, side.client)
                else:
                    side.say(data)
                side.say(PING)
                side.wait_for(PONG)
                most = milliseconds() - start
                heard += [(number, least, most, None if is_strange else data), (number, most, most, PING)]
            sides[ends].say(b"DISC")
            heard.append((ends, milliseconds() - start, milliseconds() - start, b"DISC"))
            printed = child.communicate(timeout=20)[0]
        except BaseException:
            child.kill()
            raise
    for side in sides:
        side.rest()
        side.own.close()
    stranger.close()
    return printed, child.returncode, [side.said for side in sides], heard


def as_lists(heard):
    """What each side heard, as `bridge` takes it, and between which moments each moment in it can have been."""
    lists = [[(QUIET, 0)], [(QUIET, 0)]]
    between = {}
    for place, (side, least, most, data) in enumerate(heard):
        at = (least + most) / 2 + place / 1000000  # each moment once
        between[at] = (least, most)
        lists[side].append((QUIET, at) if data is None else (DATAGRAM, at, data))
        lists[1 - side].append((QUIET, at))
    return lists, between


def is_near_the_edge(first, second):
    """Whether from the one to the other, each between two moments, it may be less than 1,600 ms, and may be as much."""
    return second[0] - first[1] - 5 < WAY_MS <= second[1] - first[0] + 5


def without_repeats(said):
    """What was said, with one CONN for all of a client that had to ask more than once."""
    return [data for n, data in enumerate(said) if n == 0 or data[:4] != b"CONN"]


def compared(program, seed, number):
    """Why a case failed, or nothing where it passed."""
    steps, ends = drawn(seed, number)
    for _ in range(5):
        printed, status, said, heard = play(program, steps, ends)
        lists, between = as_lists(heard)
        waits = []
        wanted, passed, _ = bridge(CALL, MODULES, lists, waits)
        if not any(is_near_the_edge(between[before], between[at]) for before, at in waits):
            break
    else:
        raise Undecided()
    line = b"bridged near %d far %d\n" % tuple(passed)
    if (printed, status) != (line, 0):
        return "it printed %r with status %d, and not %r" % (printed, status, line)
    for side in (NEAR, FAR):
        if without_repeats(said[side]) != wanted[side]:
            return "on the %s side it said %s, and not %s" % (
                ("near", "far")[side], [data.hex() for data in said[side]], [data.hex() for data in wanted[side]])
    return None


def main():
    parser = argparse.ArgumentParser(description=__doc__, formatter_class=argparse.RawDescriptionHelpFormatter)
    parser.add_argument("--program", required=True)
    parser.add_argument("--seed", type=int, default=1)
    parser.add_argument("--cases", type=int, default=300)
    parser.add_argument("--case", type=int, help="one case alone")
    parser.add_argument("--jobs", type=int, default=16, help="how many at once")
    given = parser.parse_args()
    numbers = range(given.cases) if given.case is None else [given.case]
    failed = undecided = 0
    with concurrent.futures.ThreadPoolExecutor(given.jobs) as pool:
        played = {pool.submit(compared, given.program, given.seed, number): number for number in numbers}
        for one in concurrent.futures.as_completed(played):
            try:
                why = one.result()
            except Undecided:
                undecided += 1
                continue
            except (NotHeard, subprocess.TimeoutExpired) as error:
                why = str(error)
            if why is not None:
                failed += 1
                if failed <= 10:
                    print("case %d: %s" % (played[one], why), flush=True)
    if undecided:
        print("%d undecided: their pauses came too near to 1,600 ms, as on a machine with too much else to do" % undecided)
    print("%d passed, %d failed" % (len(numbers) - failed - undecided, failed))
    return 1 if failed else 0


if __name__ == "__main__":
    sys.exit(main())
