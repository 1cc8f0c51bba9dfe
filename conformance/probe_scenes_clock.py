"""Scenes of the floor by the clock: 1.6 seconds of silence, ten seconds of memory, and the limit on talking."""

from probe_pages import HOLDER, VERDICT
from probe_play import FLOOR, MEMORY, SLACK, ms
from probe_scene import FULL, scene

BEFORE_LIMIT = 0.4  # seconds before the limit at which the last frame is said


def tries_to_take(play, two, held, seconds):
    """A frame of another stream of `two`, which has come so many seconds after the frame by which the floor is held, or a
    little later; it has to come while that holds it."""
    play.until(held.at + seconds - play.settling)
    play.talk(two).say(0)
    moment = play.settle()
    play.needs(moment - held.at < FLOOR - SLACK, "%s after the last frame" % ms(moment - held.at))


@scene("clock.held", HOLDER, seconds=1.5, talks=2)
def held(play):
    """A stream that falls silent keeps the floor for less than 1.6 seconds: 1.4 seconds after its frame it is busy."""
    one, two, ear = play.member("one"), play.member("two"), play.member("ear")
    talk = play.talk(one)
    opened = talk.say(0)
    play.settle()
    tries_to_take(play, two, opened, 1.4)
    ended = talk.say(1, last=True)
    play.settle()
    play.hears(ear, opened, ended)


@scene("clock.freed", HOLDER, members=2, seconds=1.8)
def freed(play):
    """1.6 seconds after the last admitted frame the floor is free."""
    one, two = play.member("one"), play.member("two")
    opened = play.talk(one).say(0)
    moment = play.settle()
    play.until(moment + FLOOR + SLACK)
    second = play.talk(two).say(0, last=True)
    play.settle()
    play.hears(two, opened)
    play.hears(one, second)


@scene("clock.refused-holds-nothing", VERDICT, members=2, seconds=1.8)
def refused_holds_nothing(play):
    """A packet that isn't admitted keeps no floor: repeats and late ones of the holder don't count for the 1.6 seconds."""
    one, two = play.member("one"), play.member("two")
    talk = play.talk(one)
    opened = talk.say(5)
    moment = play.settle()
    for part in (0.5, 1.0, 1.4):
        play.until(moment + part)
        talk.say(5)
        talk.say(4)
    play.settle()
    play.until(moment + FLOOR + SLACK)
    second = play.talk(two).say(0, last=True)
    play.settle()
    play.hears(two, opened)
    play.hears(one, second)


@scene("clock.busy-holds-nothing", VERDICT, seconds=1.8, talks=2)
def busy_holds_nothing(play):
    """Packets that find the floor busy keep none: 1.6 seconds after the last admitted frame it is free all the same."""
    one, two, ear = play.member("one"), play.member("two"), play.member("ear")
    opened = play.talk(one).say(0)
    moment = play.settle()
    for part in (0.5, 1.0, 1.4):
        tries_to_take(play, two, opened, part)
    play.until(moment + FLOOR + SLACK)
    second = play.talk(two).say(0, last=True)
    play.settle()
    play.hears(ear, opened, second)


@scene("clock.again", VERDICT, members=2, seconds=1.8, talks=2)
def again(play):
    """A talker whose 1.6 seconds are over goes on with the next number where the floor is free; a number that isn't ahead is
    still refused."""
    one, ear = play.member("one"), play.member("ear")
    talk = play.talk(one)
    opened = talk.say(5)
    moment = play.settle()
    play.until(moment + FLOOR + SLACK)
    talk.say(5)
    talk.say(4)
    ended = talk.say(6, last=True)
    play.needs(play.settle() - opened.at < MEMORY - SLACK, "whether the stream was remembered")
    play.hears(ear, opened, ended)


@scene("clock.remembered", VERDICT, members=2, seconds=9.5)
def remembered(play):
    """A stream that ended is remembered for less than ten seconds: 9.4 seconds after its end nothing of it is admitted."""
    one, ear = play.member("one"), play.member("ear")
    talk = play.talk(one)
    ended = talk.say(7, last=True)
    play.settle()
    play.until(ended.at + 9.4)
    talk.say(8)
    play.needs(play.settle() - ended.at < MEMORY - SLACK, "whether the stream was remembered")
    play.hears(ear, ended)


@scene("clock.forgotten", VERDICT, members=2, seconds=10.5)
def forgotten(play):
    """Ten seconds after its last admitted frame a stream is forgotten, also where packets of it were refused since: it may
    open the floor again."""
    one, ear = play.member("one"), play.member("ear")
    talk = play.talk(one)
    ended = talk.say(7, last=True)
    moment = play.settle()
    play.until(moment + 5)
    talk.say(8)
    play.needs(play.settle() - ended.at < MEMORY - SLACK, "whether the stream was remembered")
    play.until(moment + MEMORY + SLACK)
    opened = talk.say(3, last=True)
    play.settle()
    play.hears(ear, ended, opened)


def talks_out(play, talk, limit):
    """Frames of a stream, three a second, until the limit has gone by; those that have to be heard, and the number of the
    next one. None is said about the limit, where the clock decides."""
    heard = [talk.say(0)]
    moment = opened = play.settle()
    last = heard[0].at + limit - BEFORE_LIMIT
    while moment < last:
        play.until(min(moment + 0.33, last))
        heard.append(talk.say(len(heard)))
        moment = play.settles_while_held(heard[-2])
        play.needs(moment - heard[0].at < limit - SLACK, "whether the limit was over")
    play.until(opened + limit + SLACK)
    return heard, len(heard)


def stuck_key(play):
    """At the limit on talking the stream is heard no more and the floor is free: another talker is heard, and so is a new
    stream of the first one."""
    one, two, ear = play.member("one"), play.member("two"), play.member("ear")
    talk, second = play.talk(one), play.talk(two)
    heard, number = talks_out(play, talk, play.run.options.limit)
    talk.say(number)
    play.settle()
    heard.append(second.say(0))
    play.needs(play.settle() - heard[-2].at < FLOOR - SLACK, "whether the floor was free by silence")
    talk.say(number + 1)
    play.settle()
    heard.append(second.say(1, last=True))
    play.settle()
    talk.say(number + 2)
    play.needs(play.settle() - heard[-3].at < MEMORY - SLACK, "whether the stream was remembered")
    heard.append(play.talk(one).say(0, last=True))
    play.settle()
    play.hears(ear, *heard)


scene("clock.limit", VERDICT, seconds=4, wants="short limit")(stuck_key)
scene("clock.long-limit", VERDICT, level=FULL, seconds=180, wants="long limit")(stuck_key)
