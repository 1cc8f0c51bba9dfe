"""Scenes of being there: PING and PONG, silence, and what strangers get."""

from probe_pages import CONTROL, GIVES, PACKETS, TIME
from probe_play import ANSWER, LATE, SLACK, Differs, Missing, Overdue, ms
from probe_scene import USUAL, scene
from probe_wire import ACKN, DISC, NACK, control, words

PINGS = 3.0
OFF = 0.5  # how far two PINGs may be from three seconds apart
SILENCE = 30.0
LATEST = SILENCE / 2  # seconds between two words of who is kept; where this machine took longer, nothing is told by it


@scene("there.ping", GIVES, CONTROL, modules=0, members=1, seconds=7)
def ping(play):
    """Each member is asked by a PING of ten bytes, with the reflector's own address, each three seconds."""
    one = play.member("one")
    since = len(one.came)
    play.pause(2 * PINGS + OFF)
    came = [heard for heard in one.came[since:] if heard.data[:4] == b"PING"]
    if len(came) < 2:
        raise Overdue("%d PINGs came in %s" % (len(came), ms(2 * PINGS + OFF)))
    for heard in came:
        is_of_the_reflector(play, "PING", heard.data, one.call)
    for before, after in zip(came, came[1:]):
        if abs(after.at - before.at - PINGS) > OFF:
            raise Overdue("a PING came %s after the one before it" % ms(after.at - before.at))


def is_of_the_reflector(play, kind, data, *others):
    """Whether it has ten bytes and the reflector's own callsign: the one that was told, or else one that is none of others."""
    name = play.run.options.name
    of_others = [control(kind, other) for other in others]
    is_right = data == control(kind, name) if name else data not in of_others and not words(data).startswith("refused")
    if len(data) != 10 or not is_right:
        raise Differs("a %s came as %s: %s" % (kind, data.hex().upper(), words(data)))


@scene("there.pong", PACKETS, CONTROL, modules=0, members=1)
def pong(play):
    """A member's PING is answered by a PONG of ten bytes with the reflector's own address, whatever its From is."""
    one = play.member("one")
    joined = len(one.came)
    for call in (one.call, play.run.next_call()):
        since = len(one.came)
        one.pings += 1
        one.send(control("PING", call))
        heard = one.wait_for_kind(b"PONG", ANSWER, since)
        if not heard:
            raise Missing("a PING had no PONG")
        is_of_the_reflector(play, "PONG", heard.data, one.call, call)
    play.answered(one, joined)


@scene("there.stays", TIME, modules=0, members=1, seconds=12)
def stays(play):
    """A peer that was not heard for less than 30 seconds stays: after twelve it is still a member."""
    began = play.now()
    one = play.member("one", answers=False)
    since = len(one.came)
    play.pause(12)
    play.needs(play.now() - began < SILENCE - SLACK, "whether it was silent for too long")
    play.answered(one, since)
    play.settle()


@scene("there.own-words", PACKETS, members=2)
def own_words(play):
    """A member's ACKN, NACK and PONG are not answered, and it stays a member."""
    one, two = play.member("one"), play.member("two")
    since = len(two.came)
    for data in (ACKN, NACK, control("PONG", two.call), control("PONG", play.run.next_call())):
        two.send(data)
    play.settle()
    heard = play.talk(one).say(0, last=True)
    play.settle()
    play.hears(two, heard)
    play.answered(two, since)


@scene("there.disc-of-another", PACKETS, CONTROL, members=1)
def disc_of_another(play):
    """The From field of a DISC isn't compared with the peer's callsign: it leaves."""
    one = play.member("one")
    since = len(one.came)
    one.send(control("DISC", play.run.next_call()))
    play.waits_for_answer(one, since)
    one.is_member = False
    play.answered(one, since, DISC)


def unanswered(play, *sent):
    one = play.member("one")
    stranger = play.stranger("stranger", beside=one)
    for data in sent:
        stranger.send(data)
    play.settles_beside()
    play.answered(stranger, 0)


@scene("there.stranger-ping", PACKETS, modules=0, members=1, seconds=0.3)
def stranger_ping(play):
    """A stranger's PING is not answered."""
    unanswered(play, control("PING", play.run.next_call()))


@scene("there.stranger-words", PACKETS, modules=0, members=1, seconds=0.3)
def stranger_words(play):
    """A stranger's PONG, ACKN and NACK are not answered."""
    unanswered(play, control("PONG", play.run.next_call()), ACKN, NACK)


@scene("there.stranger-disc-of-four", PACKETS, modules=0, members=1, seconds=0.3)
def stranger_disc_of_four(play):
    """A stranger's DISC of four bytes is not answered, else two reflectors could answer each other for ever."""
    unanswered(play, DISC)


@scene("there.stranger-disc", PACKETS, modules=0, members=0)
def stranger_disc(play):
    """A stranger's DISC of ten bytes is answered by one of four."""
    stranger = play.stranger("stranger")
    stranger.says("DISC")
    play.waits_for_answer(stranger, 0)
    play.answered(stranger, 0, DISC)


@scene("there.stranger-frame", PACKETS, members=1, seconds=0.3)
def stranger_frame(play):
    """A stranger's stream packet is heard by nobody, and is not answered."""
    ear = play.member("ear")
    stranger = play.stranger("stranger", beside=ear)
    play.talk(stranger).say(0, last=True)
    play.settles_beside()
    play.hears(ear)
    play.answered(stranger, 0)


def ends_by_silence(play, client, heard_from, heard_by):
    """Whether it is told to go 30 seconds after it was heard, and not before."""
    since = len(client.came)
    gone = client.wait_for_kind(DISC, heard_by + SILENCE + LATE - play.now(), since)
    if not gone:
        raise Overdue("%s, silent for %s, was not told to go" % (client.name, ms(play.now() - heard_by)))
    client.is_member = False
    if gone.at - heard_from < SILENCE - SLACK:
        raise Differs("%s was told to go %s after it was heard" % (client.name, ms(gone.at - heard_from)))
    is_of_the_reflector(play, "DISC", gone.data, client.call)


@scene("there.silence", TIME, CONTROL, modules=0, members=1, level=USUAL, seconds=31)
def silence(play):
    """A peer that was not heard for 30 seconds leaves, and is told so by a DISC of ten bytes."""
    one = play.member("one", answers=False)
    heard_from = play.now()
    ends_by_silence(play, one, heard_from, play.settle(one))


@scene("there.rubbish-is-silence", TIME, modules=0, members=1, level=USUAL, seconds=31)
def rubbish_is_silence(play):
    """Bytes that are no packet don't count as heard: a peer that sends rubbish leaves after 30 seconds."""
    one = play.member("one", answers=False)
    heard_from, heard_by = play.now(), play.settle(one)
    for part in range(1, 10):
        play.until(heard_by + 3 * part)
        one.send(b"PING" + bytes(6))
    ends_by_silence(play, one, heard_from, heard_by)


@scene("there.kept", TIME, modules=0, members=2, level=USUAL, seconds=34)
def kept(play):
    """Each packet of a known peer counts as heard, a PONG as well as an ACKN: it is a member still after 33 seconds."""
    for_pong = play.member("pong", answers=False)
    for_ackn = play.member("ackn", answers=False)
    since = len(for_pong.came), len(for_ackn.came)
    began = before = play.now()
    for part in (6, 12, 18, 24):
        play.until(began + part)
        for_pong.says("PONG")
        for_ackn.send(ACKN)
        play.needs(play.now() - before < LATEST, "whether they were silent for too long")
        before = play.now()
    play.until(began + 33)
    play.needs(play.now() - before < LATEST, "whether they were silent for too long")
    for client, place in zip((for_pong, for_ackn), since):
        play.answered(client, place)
    play.settle()
