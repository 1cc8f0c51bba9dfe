"""Scenes of asking: CONN, LSTN and DISC, and their answers."""

from probe_pages import ALLOWED, CALLSIGNS, CONTROL, GETS, PACKETS, STRANGERS, VERDICT
from probe_scene import scene
from probe_wire import ACKN, DISC, NACK


def each_lets_in(play, kind):
    for letter in play.run.modules:
        client = play.stranger("asker-" + letter)
        client.says(kind, letter)
        play.waits_for_answer(client, 0)
        client.is_member = True
        play.settle(client)
        play.answered(client, 0, ACKN)
        play.goes(client)


@scene("asking.conn", CONTROL, modules=0, members=1)
def conn(play):
    """A CONN to a module that is served is answered by ACKN, of four bytes."""
    each_lets_in(play, "CONN")


@scene("asking.lstn", CONTROL, modules=0, members=1)
def lstn(play):
    """A LSTN to a module that is served is answered by ACKN, of four bytes."""
    each_lets_in(play, "LSTN")


@scene("asking.again", PACKETS, members=2)
def again(play):
    """A CONN with its own module, callsign and kind is answered by ACKN, and the peer stays the same member: it still has
    the floor."""
    one, two = play.member("one"), play.member("two")
    first, second = play.talk(one), play.talk(two)
    opened = first.say(0)
    play.settle()
    since = len(one.came)
    one.says("CONN", play.modules[0])
    play.waits_for_answer(one, since)
    second.say(0)
    play.settles_while_held(opened)
    play.answered(one, since, ACKN)
    play.hears(one)
    ended = first.say(1, last=True)
    play.settle()
    play.hears(two, opened, ended)


@scene("asking.other-module", PACKETS, GETS, modules=2, members=3)
def other_module(play):
    """A member that asks for another module leaves its own without a DISC, and joins the other one by ACKN: it hears that
    one, and its old one no more."""
    old, new = play.modules
    one, other = play.member("one", old), play.member("other", new)
    mover = play.member("mover", old)
    since = len(mover.came)
    play.joins(mover, new)
    left, joined = play.talk(one), play.talk(other)
    left.say(0, last=True)
    heard = joined.say(0, last=True)
    play.settle()
    play.hears(mover, heard)
    play.answered(mover, since, ACKN)


@scene("asking.not-served", PACKETS, CONTROL, modules=0, members=1, wants="unserved")
def not_served(play):
    """A CONN or LSTN to a module that isn't served is answered by NACK, of four bytes."""
    for kind in ("CONN", "LSTN"):
        stranger = play.stranger("stranger-" + kind)
        stranger.says(kind, play.run.unserved)
        play.waits_for_answer(stranger, 0)
        play.answered(stranger, 0, NACK)


@scene("asking.not-served-member", PACKETS, members=2, wants="unserved")
def not_served_member(play):
    """A member that asks for a module that isn't served is answered by NACK, and its membership stays."""
    one, two = play.member("one"), play.member("two")
    since = len(two.came)
    two.says("CONN", play.run.unserved)
    play.waits_for_answer(two, since)
    heard = play.talk(one).say(0, last=True)
    play.settle()
    play.hears(two, heard)
    play.answered(two, since, NACK)


@scene("asking.disc", PACKETS, CONTROL, members=1)
def disc(play):
    """A member's DISC of ten bytes is answered by one of four."""
    one = play.member("one")
    since = len(one.came)
    one.says("DISC")
    play.waits_for_answer(one, since)
    one.is_member = False
    play.answered(one, since, DISC)


@scene("asking.disc-of-four", PACKETS, CONTROL, members=2)
def disc_of_four(play):
    """A member's DISC of four bytes lets it leave too, and is answered by one of four."""
    one, ear = play.member("one"), play.member("ear")
    since = len(one.came)
    one.send(DISC)
    play.waits_for_answer(one, since)
    one.is_member = False
    play.answered(one, since, DISC)
    play.talk(one).say(0, last=True)
    play.pause(0.3)
    play.settle()
    play.hears(ear)


@scene("asking.second-port", STRANGERS, members=2)
def second_port(play):
    """A member is an address and a port, and not a callsign: two ports with one callsign are two members, which hear one
    another."""
    one, two = play.member("one"), play.stranger("two")
    two.call = one.call
    play.joins(two, play.modules[0])
    first = play.talk(one).say(0, last=True)
    play.settle()
    second = play.talk(two).say(0, last=True)
    play.settle()
    play.hears(one, second)
    play.hears(two, first)


@scene("asking.group", CALLSIGNS, members=2)
def group(play):
    """The callsign of a group stands where a callsign may stand: a CONN from one is answered by ACKN."""
    one, many = play.member("one"), play.stranger("group")
    many.call = "#" + many.call.replace("-", "")[:8]
    many.says("CONN", play.modules[0])
    play.waits_for_answer(many, 0)
    many.is_member = True
    heard = play.talk(one).say(0, last=True)
    play.settle()
    play.hears(many, heard)
    play.answered(many, 0, ACKN)


@scene("asking.other-kind", PACKETS, VERDICT, members=2)
def other_kind(play):
    """A member that asks for its module by the other kind joins anew by it: who listened may speak after a CONN, and who
    spoke may not after a LSTN."""
    ear, one = play.member("ear"), play.member("one", kind="LSTN")
    play.joins(one, play.modules[0], "CONN")
    spoken = play.talk(one).say(0, last=True)
    play.settle()
    play.joins(one, play.modules[0], "LSTN")
    play.talk(one).say(0, last=True)
    play.settle()
    play.hears(ear, spoken)


@scene("asking.other-call", PACKETS, VERDICT, members=2)
def other_call(play):
    """A member that asks for its module with another callsign leaves and joins anew: the floor that it had is free."""
    one, two = play.member("one"), play.member("two")
    opened = play.talk(one).say(0)
    play.settle()
    one.call = play.run.next_call()
    play.joins(one, play.modules[0])
    second = play.talk(two).say(0, last=True)
    play.settles_while_held(opened)
    play.hears(one, second)
    play.hears(two, opened)


@scene("asking.denied", ALLOWED, modules=0, members=1, wants="denied")
def denied(play):
    """What a rule of callsigns denies is not heard: there is no answer, no NACK either."""
    one = play.member("one")
    for kind in ("CONN", "LSTN"):
        stranger = play.stranger("denied-" + kind, beside=one)
        stranger.call = play.run.options.denied
        stranger.says(kind, play.somewhere)
        play.settles_beside()
        play.answered(stranger, 0)
