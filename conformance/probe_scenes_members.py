"""Scenes of what goes on to whom: each other member hears each admitted packet, and nobody else does."""

import os

from probe_pages import CONTROL, GETS, GIVES, HOLDER, LINK_SETUP, PACKETS, STREAM_PACKET
from probe_play import FRAME
from probe_scene import FULL, scene
from probe_wire import with_crc


@scene("on.each", GETS, CONTROL, members=5)
def each(play):
    """Each other member hears each admitted packet once, in order, byte for byte, also who joined to listen only."""
    one = play.member("one")
    others = [play.member("ear-%d" % place, kind=kind) for place, kind in enumerate(("CONN", "LSTN", "CONN", "LSTN"))]
    talk = play.talk(one)
    heard = []
    for number in range(25):
        heard.append(talk.say(number, last=number == 24))
        if number % 5 == 4:
            play.settles_while_held(heard[-5])
    for other in others:
        play.hears(other, *heard)


@scene("on.talker", GIVES, members=2)
def talker(play):
    """A talker isn't sent its own packets."""
    one, ear = play.member("one"), play.member("ear")
    talk = play.talk(one)
    heard = [talk.say(0), talk.say(1), talk.say(2, last=True)]
    play.settles_while_held(heard[0])
    play.hears(one, own=True)
    play.hears(ear, *heard)


@scene("on.any-fields", LINK_SETUP, CONTROL, members=2)
def any_fields(play):
    """No value of the fields of link setup data is refused or changed: destination, source, type and meta go on as they are."""
    one, ear = play.member("one"), play.member("ear")
    heard = []
    for kind in (0x0000, 0x0005, 0x07FF, 0xFFFF, 0x0002):
        fields = {"to": int.from_bytes(os.urandom(6), "big"), "kind": kind, "meta": os.urandom(14)}
        heard.append(play.talk(one).say(0, last=True, **fields))
        play.settle()
    for source in (bytes(6), b"\xff" * 6, bytes.fromhex("F46109000000")):
        talk = play.talk(one)
        data = talk.make(0, True)
        heard.append(talk.send(with_crc(data[:12] + source + data[18:52])))
        play.settle()
    play.hears(ear, *heard)


@scene("on.payload", STREAM_PACKET, CONTROL, members=2)
def payload(play):
    """The payload goes on as it is, whatever bytes it has."""
    one, ear = play.member("one"), play.member("ear")
    heard = []
    for number, bytes_of_it in enumerate((bytes(16), b"\xff" * 16, b"M17 " * 4, b"DISC" + bytes(12))):
        heard.append(play.talk(one).say(number, last=True, payload=bytes_of_it))
        play.settle()
    play.hears(ear, *heard)


@scene("on.modules", HOLDER, PACKETS, modules=2, members=4)
def modules_apart(play):
    """Two modules are two rooms: both have a talker at once, and each is heard in its own module alone."""
    here, there = play.modules
    one, ear = play.member("one", here), play.member("ear", here)
    two, other = play.member("two", there), play.member("other", there)
    first, second = play.talk(one), play.talk(two)
    heard_here, heard_there = [], []
    for number in range(4):
        heard_here.append(first.say(number, last=number == 3))
        heard_there.append(second.say(number, last=number == 3))
    play.settles_while_held(heard_here[0])
    play.hears(ear, *heard_here)
    play.hears(other, *heard_there)


@scene("on.left", GETS)
def left(play):
    """Who has left hears nothing more, and the others go on hearing."""
    one, ear, gone = play.member("one"), play.member("ear"), play.member("gone")
    talk = play.talk(one)
    before = talk.say(0)
    play.settle()
    play.goes(gone)
    after = talk.say(1, last=True)
    play.settles_while_held(before)
    play.pause(0.2)
    play.hears(ear, before, after)
    play.hears(gone, before)


@scene("on.midway", GETS)
def midway(play):
    """Who joins while somebody talks hears what comes from then on."""
    one, ear = play.member("one"), play.member("ear")
    talk = play.talk(one)
    before = talk.say(0)
    play.settle()
    late = play.member("late")
    after = talk.say(1, last=True)
    play.settles_while_held(before)
    play.hears(ear, before, after)
    play.hears(late, after)


def said_at_pace(play, talks, frames):
    """What the talkers say by turns, 25 frames a second."""
    heard = []
    moment = play.now()
    for talk in talks:
        for number in range(frames):
            moment += FRAME
            play.until(moment)
            heard.append(talk.say(number, last=number == frames - 1))
        play.settle()
        moment = max(moment, play.now())
    return heard


def by_turns(play, listeners, talkers, frames):
    clients = [play.member("talker-%d" % place) for place in range(talkers)]
    others = [play.member("ear-%d" % place, kind="LSTN") for place in range(listeners)]
    heard = said_at_pace(play, [play.talk(client) for client in clients], frames)
    for other in others:
        play.hears(other, *heard)
    for place, client in enumerate(clients):
        play.hears(client, *heard[: place * frames], *heard[(place + 1) * frames :])


@scene("load.few", GETS, members=6, seconds=2)
def load_few(play):
    """Three talkers by turns, a third of a second each, before three listeners: nothing is lost and nothing comes twice."""
    by_turns(play, 3, 3, 8)


@scene("load.many", GETS, members=35, level=FULL, seconds=15)
def load_many(play):
    """Ten talkers by turns, a second each, before 25 listeners: nothing is lost and nothing comes twice."""
    by_turns(play, 25, 10, 25)
