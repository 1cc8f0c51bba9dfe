"""Scenes of bad bytes: what is no packet has no answer, is heard by nobody, and ends nothing."""

import random

from probe_pages import CRC, PACKETS, REFUSALS
from probe_scene import scene
from probe_wire import control, with_crc, words

DRAWN = 60
AT_ONCE = 20  # datagrams, so that no buffer runs over for them
NO_CRC = b"\0\0"
LENGTHS = (0, 1, 3, 4, 5, 9, 10, 11, 12, 53, 54, 55, 56, 64, 255, 1472)


def bytes_of(draw, length):
    return bytes(draw.getrandbits(8) for _ in range(length))


def refuses(play, make):
    """Whether bytes that are no packet, from a member and from a stranger, are answered by nothing and heard by nobody, and
    the floor is free behind them. `make` gives them for a client and a stream of it."""
    one, two, ear = play.member("one"), play.member("two"), play.member("ear")
    stranger = play.stranger("stranger", beside=two)
    since = len(one.came)
    for client in (one, stranger):
        for place, data in enumerate(make(client, play.talk(client))):
            client.send(data)
            if place % AT_ONCE == AT_ONCE - 1:
                play.settle()
    play.settles_beside()
    heard = play.talk(two).say(0, last=True)
    play.settle()
    play.hears(ear, heard)
    play.hears(one, heard)
    play.answered(one, since)
    play.answered(stranger, 0)


@scene("bad.length", REFUSALS, PACKETS, members=3, seconds=0.4)
def length(play):
    """What has not 4, 10, 11 or 54 bytes is no packet, also where one stands at its beginning."""

    def make(client, talk):
        conn, ping, whole = control("CONN", client.call, play.somewhere), control("PING", client.call), talk.make(0)
        return [whole[:53], whole + b"\0", with_crc(whole[:52] + b"\0\0"), conn + b"\0", ping + b"\0\0", ping[:9], b"DISC\0", b""]

    refuses(play, make)


@scene("bad.magic", REFUSALS, PACKETS, members=3, seconds=0.4)
def magic(play):
    """What begins with no magic of its length is no packet."""

    def make(client, talk):
        call = control("PING", client.call)[4:]
        short = [b"PING", b"PONG", b"CONN", b"ackn", b"M17 ", b"CONN" + call, b"ACKN" + call, b"conn" + call + b"A"]
        return short + [b"CONX" + call + b"A", b"PING" + call + b"A", with_crc(b"M17\0" + talk.make(0)[4:52])]

    refuses(play, make)


@scene("bad.address", REFUSALS, PACKETS, members=3, seconds=0.4)
def address(play):
    """A control packet whose From has no callsign is no packet: 0, broadcast, a group's # without letters, and the like."""
    letter = play.somewhere.encode()

    def make(_client, _talk):
        froms = [bytes(6), b"\xff" * 6, bytes.fromhex("EE6B28000000"), bytes.fromhex("F46109000000")]
        kinds = ((b"CONN", letter), (b"LSTN", letter), (b"PING", b""), (b"PONG", b""), (b"DISC", b""))
        return [kind + by + end for by in froms for kind, end in kinds]

    refuses(play, make)


@scene("bad.module", REFUSALS, PACKETS, members=3, seconds=0.4)
def module(play):
    """A module's letter is one of A to Z, in upper case; a CONN with another byte there is no packet, and has no NACK."""

    def make(client, _talk):
        letters = (play.somewhere.lower().encode(), b"\0", b"@", b"[", b"0", b" ", b"\xc1")
        return [control(kind, client.call) + letter for kind in ("CONN", "LSTN") for letter in letters]

    refuses(play, make)


@scene("bad.crc", CRC, PACKETS, members=3, seconds=0.4)
def wrong_crc(play):
    """A stream packet whose CRC isn't that of its bytes 0 to 51 is refused: nobody hears it, and it takes no floor."""

    def make(_client, talk):
        whole = talk.make(0)
        flipped = [whole[:at] + bytes([whole[at] ^ 1]) + whole[at + 1 :] for at in (7, 13, 19, 25, 35, 45, 52, 53)]
        flipped += [whole[:52] + bytes(byte ^ 0xFF for byte in whole[52:])]
        return [data for data in flipped if data[52:] != NO_CRC]

    refuses(play, make)


@scene("bad.crc-zero", CRC, members=2)
def crc_zero(play):
    """A stream packet with 0000 where its CRC should be is refused as any other; with --fill-crc it is heard with its right
    CRC filled in."""
    one, ear = play.member("one"), play.member("ear")
    whole = bytes(54)
    while whole[52:] == NO_CRC:
        whole = play.talk(one).make(0, True)
    sent = one.send(whole[:52] + NO_CRC)
    play.settle()
    if play.run.options.fill_crc:
        play.hears(ear, sent._replace(data=whole))
    else:
        play.hears(ear)


@scene("bad.drawn", REFUSALS, PACKETS, members=3, seconds=1)
def drawn(play):
    """Drawn bytes of any length, from none to a whole datagram, are answered by nothing, and the reflector lives."""
    draw = random.Random(play.run.next_sid())

    def make(_client, _talk):
        return [bytes_of(draw, draw.choice(LENGTHS)) for _ in range(DRAWN)]

    refuses(play, make)


@scene("bad.drawn-tails", REFUSALS, PACKETS, members=3, seconds=1)
def drawn_tails(play):
    """Drawn bytes behind a magic are answered by nothing where they are no packet, and the reflector lives."""
    draw = random.Random(play.run.next_sid())

    def make(_client, _talk):
        made = []
        while len(made) < DRAWN:
            data = draw.choice((b"CONN", b"LSTN", b"PING", b"PONG", b"DISC", b"ACKN", b"NACK", b"M17 "))
            data += bytes_of(draw, max(0, draw.choice(LENGTHS) - 4))
            if words(data).startswith("refused") and data[52:54] != NO_CRC:
                made.append(data)
        return made

    refuses(play, make)
