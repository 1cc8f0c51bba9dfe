#!/usr/bin/env python3
"""Reflectors in circles, on the loopback: whether a frame that was said ends there.

usage: circles.py PROGRAM [SCENE]..     all scenes, at the same time, in some 75 seconds
       circles.py --list                their names

In each scene reflectors are joined in a circle, by bridges, or as an attacker would: by CONNs that are forged in the name of
the other one's port, for which it must be root. Somebody says 2, 40 and 5,000 streams of one frame each, which leave the floor
free at once; others listen. Then somebody says one stream of frames that are ahead of each other in turn. No frame may be heard
more often than four times, and five seconds after the last one nothing may be heard. No pace bounds what a circle may do. Each way of
each bridge is heard before, and one of the circles is seen to go round where there is no guard, until the pace ends it.
Other scenes have what no guard may keep out: each frame is to be heard once. And one has what the pace bounds.
"""

import collections
import contextlib
import itertools
import os
import select
import socket
import subprocess
import sys
import tempfile
import threading
import time

sys.dont_write_bytecode = True
sys.path[:0] = [os.path.join(os.path.dirname(os.path.abspath(__file__)), *where) for where in ((), ("..", "examples"))]
from forger import Forger  # noqa: E402
from make import END_BIT, address, stream_packet  # noqa: E402

HERE, HERE_6 = "127.0.0.1", "::1"
NO_PACE, NO_GUARD, PACE_ALONE = ("--pace", "0"), ("--no-guard", "--pace", "0"), ("--no-guard",)
MOST_TIMES, TRIES, PACE = 4, 12, 100
# Seconds: until those who join and bridge are in; how long a circle has to end; how long nothing may be heard then; how long a
# circle of one stream has to show.
PATIENCE, REST, LISTENED, SLOW, ONE_TRY = 30, 5, 2, 15, 0.7
RUNS = 180
# Many frames are said in one scene at a time.
MANY = threading.Lock()


def free_port(family=socket.AF_INET):
    with socket.socket(family, socket.SOCK_DGRAM) as own:
        own.bind(("", 0))
        return own.getsockname()[1]


class Lab:
    """The processes and sockets of a scene, which end with it."""

    def __init__(self, program):
        self.program, self.processes, self.peers = program, [], []
        self.streams = itertools.count(60_000)
        self.folder = tempfile.TemporaryDirectory()

    def runs(self, *words):
        said = open(os.path.join(self.folder.name, f"{len(self.processes)}"), "wb")
        with said:
            process = subprocess.Popen([self.program, *words], stdin=subprocess.DEVNULL, stdout=said, stderr=said)
        self.processes.append(process)

    def reflector(self, links=1, places=(HERE,), modules="AB", words=NO_PACE):
        """Starts one, and waits until it answers. What comes back are its ports. (Another scene may take a port first.)"""
        until = time.monotonic() + PATIENCE
        while time.monotonic() < until:
            ports = [free_port() for _ in range(links)]
            bound = [f"[{place}]:{port}" if ":" in place else f"{place}:{port}" for place in places for port in ports]
            self.runs("serve", "--call", "M17-TST", "--modules", modules, "--for", str(RUNS), *words, *bound)
            asker = self.peer(ports[0])
            while time.monotonic() < until and self.processes[-1].poll() is None:
                asker.say(b"DISC" + address("AB1CD"))
                if asker.hears(0.1) and self.processes[-1].poll() is None:
                    return ports
        raise TimeoutError("the reflector did not start")

    def bridge(self, near, far, modules="AA", call="BRIDGE", near_port=0):
        self.runs("bridge", "--call", call, "--for", str(RUNS), "--near", f"{HERE}:{near_port}", "--near-peer", f"{HERE}:{near}",
                  "--near-module", modules[0], "--far", f"{HERE}:0", "--far-peer", f"{HERE}:{far}", "--far-module", modules[1])

    def peer(self, port):
        self.peers.append(Peer(port))
        return self.peers[-1]

    def member(self, port, module="A", call="AB1CD", kind=b"CONN"):
        peer = self.peer(port)
        peer.joins(module, call, kind)
        return peer

    def listener(self, port, module="A"):
        return self.member(port, module, "N0CALL", b"LSTN")

    def close(self):
        for process in self.processes:
            process.kill()
            process.wait()
        for peer in self.peers:
            peer.socket.close()
        self.folder.cleanup()


class Peer:
    """A peer with a port of its own, that answers each PING while it hears."""

    def __init__(self, port):
        self.socket = socket.socket(socket.AF_INET, socket.SOCK_DGRAM)
        self.socket.setsockopt(socket.SOL_SOCKET, socket.SO_RCVBUF, 1 << 22)
        self.socket.bind((HERE, 0))
        self.to, self.call, self.heard = (HERE, port), "AB1CD", collections.Counter()

    def say(self, data):
        self.socket.sendto(data, self.to)

    def hears(self, seconds):
        """How many datagrams come in that time. Frames are counted by their bytes."""
        until, count = time.monotonic() + seconds, 0
        while select.select([self.socket], [], [], max(0, until - time.monotonic()))[0] and time.monotonic() < until:
            data, count = self.socket.recv(2048), count + 1
            if data[:4] == b"PING":
                self.say(b"PONG" + address(self.call))
            if data[:4] == b"M17 ":
                self.heard[data] += 1
        return count

    def joins(self, module, call, kind):
        self.call = call
        until = time.monotonic() + PATIENCE
        while time.monotonic() < until:
            self.say(kind + address(call) + module.encode("ascii"))
            wait = time.monotonic() + 0.5
            while select.select([self.socket], [], [], max(0, wait - time.monotonic()))[0]:
                if self.socket.recv(2048) == b"ACKN":
                    return
        raise TimeoutError("not let in")


def join(*pairs, host=HERE):
    """Joins two links, each of which takes the other one for a member from now on."""
    forger = Forger(socket.AF_INET6 if ":" in host else socket.AF_INET)
    for one, two in 3 * pairs:
        forger.say((host, two), (host, one), b"CONN" + address("W1XYZ") + b"A")
        forger.say((host, one), (host, two), b"CONN" + address("W1XYZ") + b"A")
    forger.close()
    time.sleep(0.2)


def streams(count, call="AB1CD", first=1):
    """So many streams of one frame each."""
    return [stream_packet(first + number, END_BIT, call) for number in range(count)]


class Ear(threading.Thread):
    """Lets peers hear while somebody speaks."""

    def __init__(self, peers):
        super().__init__(daemon=True)
        self.peers, self.is_over = peers, False
        self.start()

    def run(self):
        while not self.is_over:
            for peer in self.peers:
                peer.hears(0.01)

    def end(self):
        self.is_over = True
        self.join()


def is_cut(talker, listeners, frames, pause=0):
    """Says the frames, and whether some were heard, none too often, and none five seconds after the last."""
    ear = Ear([talker, *listeners])
    with MANY if pause else contextlib.nullcontext():
        for frame in frames:
            talker.say(frame)
            time.sleep(pause)
    time.sleep(REST)
    ear.end()
    for peer in listeners:
        peer.hears(0.1)
        times = max(peer.heard.values(), default=0)
        assert peer.heard and times <= MOST_TIMES, f"{len(peer.heard)} frames were heard, one {times} times"
        peer.heard.clear()
    late = [frames_in_a_while(listeners)]
    if late[0]:  # a bridge on a busy machine hands on what its buffers hold for longer; a circle would not end
        time.sleep(SLOW)
        late.append(frames_in_a_while(listeners))
    assert not late[-1], f"{late} frames in {LISTENED} s, {REST} and {REST + LISTENED + SLOW} s behind the last one that was said"


def frames_in_a_while(listeners):
    """How many frames they hear."""
    ear = Ear(listeners)
    time.sleep(LISTENED)
    ear.end()
    heard = sum(sum(peer.heard.values()) for peer in listeners)
    for peer in listeners:
        peer.heard.clear()
    return heard


def circle(lab, ports):
    """A talker at the first port and a listener at each, by streams of one frame, and by one stream."""
    talker, listeners = lab.member(ports[0]), [lab.listener(port) for port in ports]
    for at, count in enumerate((2, 40, 5000)):
        is_cut(talker, listeners, streams(count, first=1 + 10_000 * at), 0.0005 if count > 1000 else 0)
    ear = Ear([talker, *listeners])
    for at in range(TRIES):
        say_and_leave(lab.member(ports[0]), 50_000 + at)
        time.sleep(ONE_TRY)
    ear.end()
    is_cut(talker, listeners, [])


def say_and_leave(talker, stream):
    """Frames of one stream, of which each is ahead of the one before, and the first of the last; who says them leaves at once, so
    that the floor is free when they come back."""
    frames = [stream_packet(stream, number, "AB1CD") for number in (0, 10_922, 21_844)]
    for data in (*frames, b"DISC" + address("AB1CD")):
        talker.say(data)


def two(lab):
    """Two reflectors that were joined by forged CONNs."""
    (one,), (other,) = lab.reflector(), lab.reflector()
    join((one, other))
    circle(lab, (one, other))


def three(lab):
    """Three, each joined to both others."""
    ports = [lab.reflector()[0] for _ in range(3)]
    join(*itertools.combinations(ports, 2))
    circle(lab, ports)


def linked(lab, words=NO_PACE):
    """Two of two links each, both of which are joined; a port of each."""
    one, other = lab.reflector(2, words=words), lab.reflector(2, words=words)
    join(*zip(one, other))
    return one[0], other[1]


def goes_round(program):
    """Whether such two without a guard hand a frame round and round; the pace, at which frames are lost, ends that."""
    lab = Lab(program)
    with contextlib.closing(lab):
        one, other = linked(lab, PACE_ALONE)
        talker, listener = lab.member(one), lab.listener(other)
        for at in range(TRIES):
            for frame in streams(2, first=40_000 + 2 * at):
                talker.say(frame)
            listener.hears(ONE_TRY)
            if max(listener.heard.values(), default=0) > 5 * MOST_TIMES:
                return
    raise AssertionError("without a guard no circle was seen")


def two_links(lab):
    """Two that are joined by two links each."""
    goes_round(lab.program)
    circle(lab, linked(lab))


def own_links(lab):
    """One whose two links are joined."""
    ports = lab.reflector(2)
    join(ports)
    circle(lab, ports)


def both_kinds(lab):
    """Two at all addresses, joined over IPv4 and over IPv6."""
    (one,), (other,) = lab.reflector(places=("::",)), lab.reflector(places=("::",))
    join((one, other))
    join((one, other), host=HERE_6)
    circle(lab, (one, other))


def is_bridged(lab, one, other, times=1, modules="AA"):
    """Waits until what is said at each of two places is heard at the other one so often: in so many ways."""
    places = [*zip((one, other), modules)]
    for said, heard in (places, places[::-1]):
        talker, listener = lab.member(*said), lab.listener(*heard)
        until = time.monotonic() + PATIENCE
        while (most := max(listener.heard.values(), default=0)) < times:
            assert time.monotonic() < until, f"a bridge did not come: a frame was heard {most} times, and not {times}"
            talker.say(stream_packet(next(lab.streams), END_BIT, "AB1CD"))
            listener.hears(0.2)
            talker.hears(0.01)
        for peer in (talker, listener):
            peer.say(b"DISC" + address(peer.call))


def two_bridges(lab, words=NO_PACE):
    """Two reflectors, and two bridges between the same modules of them."""
    (one,), (other,) = lab.reflector(words=words), lab.reflector(words=words)
    for call in ("BRIDGE-1", "BRIDGE-2"):
        lab.bridge(one, other, call=call)
    is_bridged(lab, one, other, 2)
    time.sleep(REST)
    circle(lab, (one, other))


def guarded_bridges(lab):
    """The same between reflectors that have no guard: those of the bridges are enough."""
    two_bridges(lab, NO_GUARD)


def ring(lab, words=NO_PACE):
    """Three reflectors in a ring of bridges; their ports. What is said at one is heard at another one by both ways around."""
    ports = [lab.reflector(words=words)[0] for _ in range(3)]
    for at in range(3):
        lab.bridge(ports[at - 1], ports[at], call=f"BRIDGE-{at}")
    for pair in itertools.combinations(ports, 2):
        is_bridged(lab, *pair, 2)
    time.sleep(REST)
    return ports


def ring_of_bridges(lab):
    """Three reflectors in a ring of bridges."""
    circle(lab, ring(lab))


def own_bridge(lab):
    """A bridge whose two sides are one module: what is said is heard, and then once from each side."""
    (port,) = lab.reflector()
    lab.bridge(port, port)
    is_bridged(lab, port, port, 3)
    time.sleep(REST)
    circle(lab, (port,))


def is_whole(said, wants, pause=0.04):
    """Says each frame by its peer, and whether each listener heard each of its frames once."""
    ear = Ear(list({id(peer): peer for peer in (*[peer for peer, _ in said], *[peer for peer, _ in wants])}.values()))
    for peer, frame in said:
        peer.say(frame)
        time.sleep(pause)
    time.sleep(1)
    ear.end()
    for peer, frames in wants:
        heard = [peer.heard[frame] for frame in frames]
        assert heard == [1] * len(frames), f"of {len(frames)} frames {heard.count(0)} were not heard, the most often {max(heard)} times"


def over(stream, count, call="AB1CD"):
    return [stream_packet(stream, number | END_BIT * (number == count - 1), call) for number in range(count)]


def bridged_modules(lab):
    """A bridge between two modules of one reflector is heard whole on both sides."""
    (port,) = lab.reflector()
    lab.bridge(port, port, "AB")
    is_bridged(lab, port, port, modules="AB")
    talker, one, other = lab.member(port), lab.listener(port), lab.listener(port, "B")
    frames = over(1, 50)
    is_whole([(talker, frame) for frame in frames], [(one, frames), (other, frames)])


def gateway(lab):
    """A gateway that says the same in two modules, from two ports, is heard in both."""
    (port,) = lab.reflector()
    gates, ears = [lab.member(port, module) for module in "AB"], [lab.listener(port, module) for module in "AB"]
    frames = over(1, 50) + over(2, 50)
    is_whole([(gate, frame) for frame in frames for gate in gates], [(ear, frames) for ear in ears], 0.02)


def again(lab):
    """A talk that is said again behind a DISC is heard again."""
    (port,) = lab.reflector()
    talker, listener = lab.member(port), lab.listener(port)
    first, between = over(1, 25), over(2, 25)
    is_whole([(talker, frame) for frame in first + between], [(listener, first + between)])
    talker.say(b"DISC" + address("AB1CD"))
    time.sleep(0.2)
    talker.joins("A", "AB1CD", b"CONN")
    listener.heard.clear()
    is_whole([(talker, frame) for frame in first], [(listener, first)])


def stranger(lab):
    """Who says a talker's bytes before the talker does mutes nobody: one that isn't connected, one that may only listen, and one
    that is in another module."""
    (port,) = lab.reflector()
    talker, listener = lab.member(port), lab.listener(port)
    others, frames = (lab.peer(port), lab.listener(port), lab.member(port, "B")), over(1, 50)
    before = [(other, frame) for frame in frames + over(2, 1) for other in others]
    is_whole(before + [(talker, frame) for frame in frames], [(listener, frames)], 0.02)


def victim(lab, seconds=2.5):
    """Somebody who is in eight times is sent so many frames a second for each and no more, while a member says 2,000: a hundred at
    once, and a hundred when these are a second old, by a clock that may be read an eighth of a hundred frames late."""
    (port,) = lab.reflector(words=())
    talker, peers, said = lab.member(port), [lab.listener(port) for _ in range(8)], 0
    ear = Ear([talker, *peers])
    with MANY:
        start = time.monotonic()
        while (since := time.monotonic() - start) < seconds:
            while said < 2000 * since:
                talker.say(stream_packet(1, said % 0x8000, "AB1CD"))
                said += 1
            time.sleep(0.001)
    time.sleep(1)
    ear.end()
    heard = [sum(peer.heard.values()) for peer in peers]
    least, most = PACE * int(seconds), PACE * (int(since) + 1) + PACE // 8
    assert all(least <= count <= most for count in heard), f"in {since:.1f} s {heard} frames were heard"


FORGED = (two, three, two_links, own_links, both_kinds)
SCENES = (*FORGED, two_bridges, guarded_bridges, ring_of_bridges, own_bridge, bridged_modules, gateway, again, stranger, victim)


def tried(scene, program, faults):
    lab = Lab(program)
    try:
        scene(lab)
    except (AssertionError, TimeoutError, OSError) as fault:
        faults.append(f"{scene.__name__}: {fault}")
    finally:
        lab.close()


def main():
    words = sys.argv[1:]
    names = [scene.__name__ for scene in SCENES]
    if words == ["--list"]:
        print(*names, sep="\n")
        return 0
    if not words or not set(words[1:]) <= set(names):
        sys.stderr.write(__doc__)
        return 2
    faults, chosen = [], [scene for scene in SCENES if not words[1:] or scene.__name__ in words[1:]]
    if os.geteuid():
        print(f"without root {sum(scene in FORGED for scene in chosen)} scenes are left out: nobody else can forge a CONN")
        chosen = [scene for scene in chosen if scene not in FORGED]
    threads = [threading.Thread(target=tried, args=(scene, words[0], faults)) for scene in chosen]
    for thread in threads:
        thread.start()
    for thread in threads:
        thread.join()
    print(*(faults or [f"{len(chosen)} scenes, no circle"]), sep="\n")
    return len(faults) > 0


if __name__ == "__main__":
    sys.exit(main())
