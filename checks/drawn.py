#!/usr/bin/env python3
"""Drawn cases of what stands before an ear and behind a mouth, live, beside the reference (conformance/before_the_ear.py).

usage: drawn.py PROGRAM SEED     eight reflectors at the same time, in a third of a minute
                                 (the status is 77 where the machine was too slow for some, and the others agree)

Before the ear: what the trace has is to be what the reference lets through: of drawn datagrams whose frames come again, behind
others of the same stream or of another one, or lack their CRC, or only look like frames, with --fill-crc, with --no-guard, with
both and with neither; of frames that come again after ten seconds, to the millisecond by the moments of the trace; and of
frames that come again around 16,384 packets later.
Behind the mouth: talkers say drawn numbers of frames at once, some seconds apart, and more than 256 peers are sent frames
within a second. Each member is to be sent as many of each as the reference lets through, or few less.
"""

import contextlib
import os
import select
import socket
import subprocess
import sys
import tempfile
import threading
import time

sys.dont_write_bytecode = True
TOP = os.path.join(os.path.dirname(os.path.abspath(__file__)), "..")
sys.path[:0] = [os.path.join(TOP, "examples"), os.path.join(TOP, "conformance")]
from before_the_ear import GUARD_MS, PACE_PLACES, Guard, Pace, filled, is_frame  # noqa: E402
from draws import Draw, around_the_memory, comes_again, stream  # noqa: E402
from files import read_trace  # noqa: E402
from make import END_BIT, address, stream_packet  # noqa: E402
from reflector import Datagram  # noqa: E402

HERE, MODULE = "127.0.0.1", b"A"
CALLS = "AB1CD", "N0CALL", "W2FBI"
RUNS, PATIENCE = 18, 30


class TooSlow(Exception):
    """Nothing can be said, since this machine is too slow."""


def within(seconds, start):
    if time.monotonic() - start > seconds:
        raise TooSlow


class Lab:
    """A reflector with a trace, and peers of it."""

    def __init__(self, folder, program, *words):
        with socket.socket(socket.AF_INET, socket.SOCK_DGRAM) as own:
            own.bind((HERE, 0))
            self.at = own.getsockname()
        self.folder = tempfile.mkdtemp(dir=folder)
        words = ["--call", "M17-TST", "--for", str(RUNS), "--book", self.folder, *words]
        self.process = subprocess.Popen([program, "serve", *words, f"{HERE}:{self.at[1]}"], stdout=subprocess.DEVNULL)

    def peer(self, call=CALLS[0]):
        peer = socket.socket(socket.AF_INET, socket.SOCK_DGRAM)
        peer.setsockopt(socket.SOL_SOCKET, socket.SO_RCVBUF, 1 << 20)
        peer.bind((HERE, 0))
        until = time.monotonic() + PATIENCE
        while time.monotonic() < until:
            peer.sendto(b"CONN" + address(call) + MODULE, self.at)
            if select.select([peer], [], [], 0.2)[0] and peer.recv(64) == b"ACKN":
                return peer
        raise TimeoutError("not let in")

    def peers(self):
        return [self.peer(call) for call in CALLS]

    def waits_for(self, peer):
        """Until all that was sent so far was heard."""
        peer.sendto(b"PING" + address(CALLS[0]), self.at)
        while select.select([peer], [], [], PATIENCE)[0]:
            if peer.recv(64)[:4] == b"PONG":
                return
        raise TimeoutError("no PONG")

    def trace(self):
        """The datagrams that the reflector heard, with their moments, in order, once it has ended."""
        self.process.wait(RUNS + PATIENCE)
        with open(os.path.join(self.folder, "link0.trace"), "rb") as file:
            return [entry for entry in read_trace(file.read()) if isinstance(entry, Datagram)]


def differ(lab, wanted):
    """Where what the trace has, but for CONNs and PINGs, isn't what was let through, from which ports."""
    got = [(entry.peer.port, entry.bytes) for entry in lab.trace() if entry.bytes[:4] not in (b"CONN", b"PING")]
    if got == wanted:
        return None
    place = next((n for n, (one, other) in enumerate(zip(got, wanted)) if one != other), min(len(got), len(wanted)))
    return f"datagram {place} of {len(wanted)}: wanted {wanted[place:place + 1]}, and the trace has {got[place:place + 1]}"


def again(folder, program, seed, *words):
    """Frames that come again."""
    draw, guard = Draw(seed, *words), Guard()
    lab = Lab(folder, program, *words)
    peers, said, wanted = lab.peers(), [], []
    # The second half comes when all of the first is more than ten seconds old.
    for moment, count in ((0, 600), (10500, 200)):
        start = time.monotonic()
        time.sleep(moment / 1000)
        for _ in range(count):
            peer, data = comes_again(draw, said)
            said.append((peer, data))
            peers[peer].sendto(data, lab.at)
            data = filled(data) if "--fill-crc" in words else data
            if "--no-guard" in words or not guard.is_echo(moment, peer, data):
                wanted.append((peers[peer].getsockname()[1], data))
            time.sleep(0.001)
        within(moment / 1000 + 8, start)
    is_all = len(wanted) == len(said)
    return differ(lab, wanted) or (None if is_all == ("--no-guard" in words) else "the reference let all through, or not all")


def around_the_last(folder, program, seed):
    """Frames that come again around as many packets later as are remembered."""
    guard, lab = Guard(), Lab(folder, program)
    peers, wanted, start = lab.peers(), [], time.monotonic()
    for number, (peer, data) in enumerate(around_the_memory(Draw(seed, "memory"))):
        if number % 64 == 0:  # so that the socket of the reflector has room for all
            lab.waits_for(peers[2])
        peers[peer].sendto(data, lab.at)
        if not guard.is_echo(0, peer, data):
            wanted.append((peers[peer].getsockname()[1], data))
    lab.waits_for(peers[2])
    within(9, start)
    return differ(lab, wanted)


def after_ten_seconds(folder, program, seed, count=300):
    """Frames that come again some ten seconds later. What is no packet comes before and behind each, and shows when it came."""
    draw, lab = Draw(seed, "moments"), Lab(folder, program)
    peers, start = lab.peers(), time.monotonic() + 0.5
    pairs = [(peers[draw.below(3)], stream(1, 2 * n), stream(1, 2 * n + 1), b"mark %d" % n) for n in range(count)]
    for late, parts in ((0, lambda one, other, mark: (one, other)), (GUARD_MS, lambda one, other, mark: (mark, one, mark))):
        for n, (peer, *packets) in enumerate(pairs):
            due = start + 0.004 * n + (late and late + draw.below(3)) / 1000
            time.sleep(max(0, due - time.monotonic()))
            for data in parts(*packets):
                peer.sendto(data, lab.at)
    moments = {}
    for entry in lab.trace():
        moments.setdefault(entry.bytes, []).append(entry.moment)
    exact = set()
    for _, one, _, mark in pairs:
        (first, *passed), (low, high) = moments[one], moments[mark]
        if passed and passed[0] <= first + GUARD_MS or not passed and low > first + GUARD_MS:
            return f"a frame that came at {first} and again from {low} to {high} " + ("passed" if passed else "was kept out")
        exact |= {low - first - GUARD_MS} if low == high else set()
    if not {-1, 0, 1} <= exact:
        raise TooSlow
    return None


def frames_heard(peers):
    """How many frames each was sent so far."""
    heard = [0] * len(peers)
    for place, peer in enumerate(peers):
        peer.setblocking(False)
        with contextlib.suppress(BlockingIOError):
            while True:
                heard[place] += is_frame(peer.recv(64))
    return heard


def in_a_second(folder, program, seed):
    """Talks of more frames than may be said to one peer in a second."""
    draw = Draw(seed, "pace")
    most = draw.between(20, 89)
    lab = Lab(folder, program, "--pace", str(most), "--no-guard")
    talker, *listeners = lab.peers()
    pace, wanted = Pace(most), [0, 0]
    for burst in range(4):
        count, start = draw.between(1, 149), time.monotonic()
        for number in range(count):
            frame = stream_packet(1 + burst, number | END_BIT * (number == count - 1), CALLS[0])
            talker.sendto(frame, lab.at)
            for place in range(2):
                wanted[place] += not pace.is_over(4000 * burst, place, frame)
            time.sleep(0.002)
        within(0.8, start)
        time.sleep(3)
    got = frames_heard(listeners)
    # It reads its clock once for an eighth of that, and counts those behind the last reading as of the next burst.
    least = [count - 3 * (most // 8) for count in wanted]
    is_so = all(low <= came <= high for low, came, high in zip(least, got, wanted))
    return None if is_so else f"at most {most} a second: wanted {least} to {wanted} frames, and there came {got}"


def in_many_places(folder, program, seed):
    """Frames to as many peers as there are places, to some who took the places of others within that second, and to all later."""
    leave = Draw(seed, "places").between(5, 30)
    lab = Lab(folder, program, "--places", str(PACE_PLACES))
    talker, *listeners = [lab.peer() for _ in range(PACE_PLACES)]
    pace, wanted, start = Pace(100), [], time.monotonic()
    for stream_id, moment in enumerate((0, 500, 3000)):
        if stream_id == 1:
            for peer in listeners[:leave]:
                peer.sendto(b"DISC" + address(CALLS[0]), lab.at)
            listeners += [lab.peer() for _ in range(leave)]
        members = range(len(listeners))[leave * bool(stream_id) :]
        frame = stream_packet(stream_id, END_BIT, CALLS[0])
        talker.sendto(frame, lab.at)
        lab.waits_for(talker)
        wanted += [place for place in members if not pace.is_over(moment, place, frame)]
        if stream_id == 1:
            within(0.8, start)
            time.sleep(2.5)
    time.sleep(0.5)
    got = frames_heard(listeners)
    # Which of those who came get the last place is left open.
    old = [wanted.count(place) for place in range(PACE_PLACES - 1)]
    is_so = got[: PACE_PLACES - 1] == old and sum(got) == len(wanted)
    return None if is_so else f"{leave} of {PACE_PLACES} others: wanted {len(wanted)} frames, and there came {sum(got)}"


CASES = {
    "frames again": (again,),
    "frames again, filled": (again, "--fill-crc"),
    "frames again, no guard": (again, "--no-guard"),
    "frames again, filled, no guard": (again, "--fill-crc", "--no-guard"),
    "the last packets": (around_the_last,),
    "ten seconds": (after_ten_seconds,),
    "the pace": (in_a_second,),
    "its places": (in_many_places,),
}


def main():
    program, seed = sys.argv[1:]
    told = {}
    with tempfile.TemporaryDirectory() as folder:

        def tries(name, case, *words):
            try:
                told[name] = case(folder, program, seed, *words) or "agrees"
            except TooSlow:
                told[name] = "nothing can be said: this machine is too slow"
            except (OSError, ValueError, KeyError, subprocess.TimeoutExpired) as error:
                told[name] = f"{type(error).__name__}: {error}"

        threads = [threading.Thread(target=tries, args=(name, *case)) for name, case in CASES.items()]
        for thread in threads:
            thread.start()
        for thread in threads:
            thread.join()
    for name, what in told.items():
        print(f"seed {seed}, {name}: {what}")
    open_ones = [what.startswith("nothing can") for what in told.values() if what != "agrees"]
    return 0 if not open_ones else 77 if all(open_ones) else 1


if __name__ == "__main__":
    sys.exit(main())
