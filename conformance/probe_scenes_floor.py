"""Scenes of the floor that are no matter of time: who may speak, and which of its frames are admitted."""

from probe_pages import HOLDER, LAWS, PACKETS, STREAM_PACKET, VERDICT
from probe_play import MEMORY, SLACK
from probe_scene import scene


@scene("floor.open", VERDICT, members=2)
def opens(play):
    """Where the floor is free a frame of any number opens it, also one that is the last of its stream."""
    one, ear = play.member("one"), play.member("ear")
    heard = []
    for number in (0, 5, 16384, 32767):
        heard.append(play.talk(one).say(number, last=True))
        play.settle()
    play.hears(ear, *heard)


@scene("floor.go-on", VERDICT, members=2)
def goes_on(play):
    """The stream that has the floor goes on by numbers that are ahead, one or more."""
    one, ear = play.member("one"), play.member("ear")
    talk = play.talk(one)
    heard = talk.run((7, 8, 9, 12, 300)) + [talk.say(301, last=True)]
    play.settles_while_held(heard[0])
    play.hears(ear, *heard)


@scene("floor.end-bit", HOLDER, members=2)
def end_bit(play):
    """A frame with the end bit frees the floor: another talker may speak at once."""
    one, two = play.member("one"), play.member("two")
    talk = play.talk(one)
    heard = [talk.say(0), talk.say(1, last=True)]
    play.settle()
    next_one = play.talk(two).say(0, last=True)
    play.settles_while_held(heard[0])
    play.hears(two, *heard)
    play.hears(one, next_one)


@scene("floor.busy", VERDICT)
def busy(play):
    """While a stream has the floor nobody hears a frame of another member, and the stream goes on."""
    one, two, ear = play.member("one"), play.member("two"), play.member("ear")
    first, second = play.talk(one), play.talk(two)
    opened = first.say(0)
    play.settle()
    second.say(0)
    play.settles_while_held(opened)
    ended = first.say(1, last=True)
    play.settle()
    play.hears(ear, opened, ended)
    play.hears(one)


@scene("floor.busy-end", VERDICT)
def busy_end(play):
    """A frame of another member that has the end bit doesn't end the stream that has the floor."""
    one, two, ear = play.member("one"), play.member("two"), play.member("ear")
    first, second = play.talk(one), play.talk(two)
    opened = first.say(0)
    play.settle()
    second.say(0, last=True)
    play.settle()
    play.talk(two).say(0)
    play.settles_while_held(opened)
    ended = first.say(1, last=True)
    play.settle()
    play.hears(ear, opened, ended)


@scene("floor.same-id", VERDICT)
def same_id(play):
    """A frame of another member finds the floor busy, also with the same stream id and the next number."""
    one, two, ear = play.member("one"), play.member("two"), play.member("ear")
    first = play.talk(one)
    second = play.talk(two, like=first)
    opened = first.say(0)
    play.settle()
    second.say(1)
    play.settles_while_held(opened)
    ended = first.say(2, last=True)
    play.settle()
    play.hears(ear, opened, ended)


@scene("floor.own-second", VERDICT, members=2)
def own_second(play):
    """A talker who has the floor and begins a second stream finds the floor busy, by itself, until the first one ends."""
    one, ear = play.member("one"), play.member("ear")
    first, second = play.talk(one), play.talk(one)
    opened = first.say(0)
    play.settle()
    second.say(0)
    play.settles_while_held(opened)
    ended = first.say(1, last=True)
    play.settle()
    later = second.say(1, last=True)
    play.settle()
    play.hears(ear, opened, ended, later)


@scene("floor.two-at-once", LAWS)
def two_at_once(play):
    """Of two that speak at once, frame by frame by turns, one is heard and the other isn't at all."""
    one, two, ear = play.member("one"), play.member("two"), play.member("ear")
    first, second = play.talk(one), play.talk(two)
    heard = [first.say(0)]
    play.settle()
    for number in range(1, 8):
        second.say(number)
        heard.append(first.say(number))
        play.settles_while_held(heard[-2])
    heard.append(first.say(8, last=True))
    play.settle()
    play.hears(ear, *heard)


@scene("floor.repeat", VERDICT, members=2)
def repeat(play):
    """The number of the sender's last admitted frame again is not admitted, with the same bytes or with others."""
    one, ear = play.member("one"), play.member("ear")
    talk = play.talk(one)
    heard = [talk.say(5)]
    talk.send(heard[0].data)
    talk.say(5)
    heard.append(talk.say(6, last=True))
    play.settles_while_held(heard[0])
    play.hears(ear, *heard)


@scene("floor.late", VERDICT, members=2)
def late(play):
    """A frame that was overtaken by a later one is not admitted, and the stream goes on."""
    one, ear = play.member("one"), play.member("ear")
    talk = play.talk(one)
    heard = talk.run((5, 7))
    talk.run((6, 4))
    heard.append(talk.say(8, last=True))
    play.settles_while_held(heard[0])
    play.hears(ear, *heard)


@scene("floor.wrap", VERDICT, STREAM_PACKET, members=2)
def wrap(play):
    """Frame numbers run up to 32,767, and then comes 0 again: it is ahead."""
    one, ear = play.member("one"), play.member("ear")
    talk = play.talk(one)
    heard = talk.run((32766, 32767, 0, 1)) + [talk.say(2, last=True)]
    play.settles_while_held(heard[0])
    play.hears(ear, *heard)


@scene("floor.ahead", VERDICT, STREAM_PACKET, members=2)
def ahead(play):
    """A number is ahead where going up to it, round 32,768, takes 1 to 16,383 steps; 16,384 steps are too many."""
    one, ear = play.member("one"), play.member("ear")
    talk = play.talk(one)
    heard = talk.run((0, 16383))
    talk.run((32767,))
    heard += [talk.say(32766), talk.say(0, last=True)]
    play.settles_while_held(heard[0])
    play.hears(ear, *heard)


@scene("floor.after-end", VERDICT, members=2)
def after_end(play):
    """After its end bit nothing of a stream is admitted, also where the number is ahead, and a new stream of its talker is."""
    one, ear = play.member("one"), play.member("ear")
    talk = play.talk(one)
    heard = [talk.say(7), talk.say(9, last=True)]
    talk.say(8)
    talk.say(10)
    talk.say(11, last=True)
    play.needs(play.settle() - heard[0].at < MEMORY - SLACK, "whether the stream was remembered")
    heard.append(play.talk(one).say(0, last=True))
    play.settle()
    play.hears(ear, *heard)


@scene("floor.listen-only", VERDICT)
def listen_only(play):
    """Who joined to listen only is heard by nobody, takes no floor, and hears the others."""
    one, listener, ear = play.member("one"), play.member("listener", kind="LSTN"), play.member("ear")
    play.talk(listener).say(0)
    play.settle()
    talk = play.talk(one)
    heard = [talk.say(0), talk.say(1, last=True)]
    play.settle()
    for client in (listener, ear):
        play.hears(client, *heard)
    play.hears(one)


@scene("floor.leave", VERDICT)
def leave(play):
    """A talker that leaves gives the floor up at once."""
    one, two, ear = play.member("one"), play.member("two"), play.member("ear")
    opened = play.talk(one).say(0)
    play.settle()
    play.goes(one)
    second = play.talk(two).say(0, last=True)
    play.settles_while_held(opened)
    play.hears(ear, opened, second)


@scene("floor.move", VERDICT, PACKETS, modules=2)
def move(play):
    """A talker that moves to another module gives the floor of its old one up at once."""
    one, two, ear = play.member("one"), play.member("two"), play.member("ear")
    opened = play.talk(one).say(0)
    play.settle()
    play.joins(one, play.modules[1])
    second = play.talk(two).say(0, last=True)
    play.settles_while_held(opened)
    play.hears(ear, opened, second)


@scene("floor.back", VERDICT, members=2)
def back(play):
    """When a talker that left comes again, nothing is remembered of what it sent before: the same frames are heard anew."""
    one, ear = play.member("one"), play.member("ear")
    talk = play.talk(one)
    first = talk.say(5, last=True)
    play.settle()
    play.hears(ear, first)
    play.goes(one)
    play.joins(one, play.modules[0])
    talk.send(first.data)
    play.settle()
    play.hears(ear, first)
