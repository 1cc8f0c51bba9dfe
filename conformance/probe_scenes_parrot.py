"""Scenes of a parrot module: what it plays back, when, and with which numbers."""

from probe_pages import NUMBERS, RECORDING, STREAM_PACKET
from probe_play import FLOOR, FRAME, LATE, SLACK, Differs, Overdue, compare, ms
from probe_scene import FULL, scene
from probe_wire import END_BIT, stream_id, with_crc, words

DELAY = 1.0
BEHIND = 0.3  # seconds in which it is seen that no more echoes come
HELD = 750
MORE = 10  # frames of a talk that is longer than that; as often it is seen that the floor is still held


def echo_of(data, last):
    """What a parrot makes of a frame: the complement of its stream id, and the end bit in its last one."""
    number = int.from_bytes(data[34:36], "big") | END_BIT * last
    sid = bytes(byte ^ 0xFF for byte in data[4:6])
    return with_crc(data[:4] + sid + data[6:34] + number.to_bytes(2, "big") + data[36:52])


def echoes(client, talks):
    """The echoes that it was sent of these streams and were not asked for yet."""
    client.read(0)
    sids = [talk.sid ^ 0xFFFF for talk in talks]
    return [heard for heard in client.new_frames() if stream_id(heard.data) in sids]


def waits_for_echoes(play, client, talks, count, due):
    """The echoes that it is sent of these streams: so many, which are due by that moment, and what comes in a while behind."""
    came = []
    while len(came) < count and play.now() < due + LATE:
        play.pause(FRAME)
        came += echoes(client, talks)
    play.until(max(play.now(), due) + BEHIND)
    play.settle()
    return came + echoes(client, talks)


def are_played(play, client, came, said):
    """Whether these are the echoes of just these frames, in order. Where a frame was lost, another one may be the last."""
    wanted = [echo_of(sent.data, place == len(said) - 1) for place, sent in enumerate(said)]
    echoes_of_all = {echo_of(data, last) for data in play.said if stream_id(data) is not None for last in (False, True)}
    compare(client.name, [heard.data for heard in came], wanted, echoes_of_all, Overdue)


def are_in_time(came, closed_from, closed_by):
    """Frame n a second and 40 n ms after the close, which was between these moments, and not before."""
    for place, heard in enumerate(came):
        due = DELAY + FRAME * place
        if heard.at - closed_from < due - SLACK / 2:
            raise Differs("echo %d came %s after the close" % (place, ms(heard.at - closed_from)))
        if heard.at - closed_by > due + LATE:
            raise Overdue("echo %d came %s after the close" % (place, ms(heard.at - closed_by)))


def hears_the_talk_alone(play, ear, talk, said):
    ear.read(0)
    for heard in ear.came:
        if stream_id(heard.data) == talk.sid ^ 0xFFFF:
            raise Differs("%s, who did not talk, was sent %s" % (ear.name, words(heard.data)))
    play.hears(ear, *said)


@scene("parrot.plays", RECORDING, STREAM_PACKET, parrot=True, members=2, seconds=2.5)
def plays(play):
    """A second after its last frame a talker is sent what it said, a frame each 40 ms: with the complement of the stream id,
    its right CRC, and all else as it was. Others hear the talk alone."""
    one, ear = play.member("one"), play.member("ear")
    talk = play.talk(one)
    said = talk.run((3, 4, 5, *range(30, 46))) + [talk.say(46, last=True)]
    moment = play.settles_while_held(said[0])
    came = waits_for_echoes(play, one, [talk], len(said), moment + DELAY + FRAME * (len(said) - 1))
    are_played(play, one, came, said)
    are_in_time(came, said[-1].at, moment)
    hears_the_talk_alone(play, ear, talk, said)


@scene("parrot.silence", RECORDING, parrot=True, members=2, seconds=4, talks=2)
def silence(play):
    """A recording of a stream that falls silent is closed when the floor is free, after 1.6 seconds, and played back a second
    later; the last frame has the end bit."""
    one = play.member("one")
    talk = play.talk(one)
    said = talk.run((0, 1, 2))
    moment = play.settles_while_held(said[0])
    came = waits_for_echoes(play, one, [talk], len(said), moment + FLOOR + DELAY + FRAME * 2)
    are_played(play, one, came, said)
    are_in_time(came, said[-1].at + FLOOR, moment + FLOOR)


@scene("parrot.last-talker", RECORDING, parrot=True, members=2, seconds=2)
def last_talker(play):
    """There is one recording: where a second talker speaks before the first is played back, the second alone is."""
    one, two = play.member("one"), play.member("two")
    first, second = play.talk(one), play.talk(two)
    before = first.say(0, last=True)
    play.settle()
    said = [second.say(0), second.say(1, last=True)]
    moment = play.settles_while_held(said[0])
    play.needs(moment - before.at < DELAY - SLACK, "whether the second spoke before the first was played back")
    came = waits_for_echoes(play, two, [first, second], len(said), moment + DELAY + FRAME)
    are_played(play, two, came, said)
    are_played(play, one, echoes(one, [first, second]), [])


@scene("parrot.interrupted", RECORDING, parrot=True, members=2, seconds=3)
def interrupted(play):
    """A talker that begins anew during its own echo ends the echo; its new talk is played back after it."""
    one = play.member("one")
    first, second = play.talk(one), play.talk(one)
    for number in range(40):
        first.say(number, last=number == 39)
    moment = play.settle()
    if not one.wait_for_kind(b"M17 ", DELAY + LATE, 0):
        raise Overdue("no echo came in %s" % ms(play.now() - moment))
    said = [second.say(0, last=True)]
    moment = play.settle()
    before = len(echoes(one, [first]))
    play.needs(before < 40, "whether the echo was at its end")
    came = waits_for_echoes(play, one, [first, second], len(said), moment + DELAY)
    if any(stream_id(heard.data) == first.sid ^ 0xFFFF for heard in came):
        raise Differs("echo %d of the first talk came behind the second talk" % before)
    are_played(play, one, came, said)


@scene("parrot.leaves", RECORDING, parrot=True, members=2, seconds=2)
def leaves(play):
    """When the talker leaves, all is forgotten: it is sent nothing, and when it comes again nothing either."""
    one = play.member("one")
    talk = play.talk(one)
    said = talk.say(0, last=True)
    play.settle()
    play.goes(one)
    play.needs(play.now() - said.at < DELAY - SLACK, "whether it left before its echo")
    play.joins(one, play.modules[0])
    play.pause(DELAY + 0.5)
    play.settle()
    are_played(play, one, echoes(one, [talk]), [])


@scene("parrot.half-a-minute", NUMBERS, RECORDING, parrot=True, members=2, level=FULL, seconds=55, talks=20)
def half_a_minute(play):
    """A recording holds 750 frames, half a minute; what comes behind them is admitted and not held, and the last frame that
    is held has the end bit."""
    one, ear = play.member("one"), play.member("ear")
    talk = play.talk(one)
    said = []
    for first in range(0, HELD + MORE, MORE):
        for number in range(first, first + MORE):
            play.pause(FRAME / 2)
            said.append(talk.say(number, last=number == HELD + MORE - 1))
        moment = play.settles_while_held(said[max(0, first - 1)])
    play.needs(not play.run.options.limit or moment - said[0].at < play.run.options.limit - SLACK, "whether the limit was over")
    came = waits_for_echoes(play, one, [talk], HELD, moment + DELAY + FRAME * (HELD - 1))
    are_played(play, one, came, said[:HELD])
    hears_the_talk_alone(play, ear, talk, said)
