"""A play: one try of a scene, its clients and streams, and what it holds against the rules.

A scene says things by its clients, lets them settle, and says what each of them has to have heard. To settle is no matter of
time: a PING of a member waits for its PONG, and a reflector says to a member in order what it has for it, so once each has its
PONG all that was to come of earlier packets has come. Where a reflector answers no PING it is waited for 0.3 seconds.

Bounds of time are held so: what was sent was heard at some moment between its sending and the PONG behind it. Something
differs only where it would at each moment between these, and the slack.
"""

import time

from packets import encode
from probe_wire import END_BIT, Client, frame, stream_id, words

FRAME = 0.04  # seconds of voice that a frame has
FLOOR = 1.6  # seconds without an admitted frame, and the floor is free
MEMORY = 10.0  # seconds for which a stream is remembered
SLACK = 0.06  # seconds, for clocks that go by milliseconds or by links
LATE = 0.5  # seconds, for what a reflector says by the clock; where it was slow, that is no matter (`probe_watch.py`)
ANSWER = 4  # seconds in which an answer comes, or it was lost
LEAVING = 1  # seconds for which it is waited at the end of a play
UNANSWERED = 0.3  # seconds of settling where no PING is answered
BESIDE = 0.2  # seconds for an answer to a stranger behind a member's PONG


class Differs(Exception):
    """Something came that cannot come by the rules."""


class Missing(Exception):
    """Something didn't come: it may have been lost on the way."""

    bears = 1  # seconds in all by which this machine or the reflector may have been late, and it is missing all the same


class Overdue(Missing):
    """Something that goes by the clock didn't come, or came late."""

    bears = 0


class Unsettled(Exception):
    """The scene couldn't be played to its end, or not in the time that it needs."""


def ms(seconds):
    return "%d ms" % round(1000 * seconds)


class Talk:
    """A stream of a client, with an id of its own."""

    def __init__(self, play, client, sid):
        self.play = play
        self.client = client
        self.sid = sid
        self.said_at = None  # when a frame was said last, if that had no end bit

    def make(self, number, last=False, **fields):
        return frame(self.sid, number, last, encode(self.client.call), **fields)

    def say(self, number, last=False, **fields):
        return self.send(self.make(number, last, **fields))

    def send(self, data):
        self.said_at = None if int.from_bytes(data[34:36], "big") >= END_BIT else time.monotonic()
        return self.client.send(data)

    def run(self, numbers):
        return [self.say(number) for number in numbers]


class Play:
    def __init__(self, run, modules):
        self.run = run
        self.modules = modules  # letters that this play has for itself
        self.somewhere = modules[0] if modules else run.modules[0]  # where its members are, but those that name a module
        self.log = []
        self.clients = []
        self.sids = set()
        self.talks = []

    # ---- clients and streams

    def stranger(self, name, answers=True, beside=None):
        """A client that has not asked for a module; it speaks to the same link as the one that it is beside."""
        to = beside.to if beside else self.run.next_address(len(self.clients))
        client = Client(name, self.run.next_call(), to, self.log, answers)
        self.clients.append(client)
        return client

    def member(self, name, module=None, kind="CONN", answers=True):
        """A client that is let in to a module, by default the first that the play has, or else of the reflector."""
        client = self.stranger(name, answers)
        self.joins(client, module or self.somewhere, kind)
        return client

    def joins(self, client, module, kind="CONN"):
        since = len(client.came)
        client.says(kind, module)
        if not client.wait_for_kind(b"ACKN", ANSWER, since):
            raise Unsettled("%s was not let in to %s" % (client.name, module))
        client.is_member = True

    def talk(self, client, like=None):
        """A new stream of a client, with the id of another one where that is given."""
        talk = Talk(self, client, like.sid if like else self.run.next_sid())
        self.sids.add(talk.sid)
        self.talks.append(talk)
        return talk

    # ---- time

    @staticmethod
    def now():
        return time.monotonic()

    def pause(self, seconds):
        self.until(time.monotonic() + seconds)

    def until(self, moment):
        """Sleeps until a moment, and goes on reading what comes."""
        while True:
            left = moment - time.monotonic()
            if left <= 0:
                return
            time.sleep(min(left, 0.5))
            for client in self.clients:
                client.read(0)

    def settle(self, *others):
        """Until all has come that was to come of what was sent; the moment at which it had. Members that are named
        are all that it waits for."""
        members = [client for client in others or self.clients if client.is_member]
        if not self.run.answers_pings:
            self.until(time.monotonic() + UNANSWERED)
            return time.monotonic()
        moment = self.ask([client for client in members if client.has_sent])
        self.ask(members)
        for client in members:
            client.has_sent = False
        return moment

    @property
    def settling(self):
        """How many seconds it takes to settle where nothing is late."""
        return 0 if self.run.answers_pings else UNANSWERED

    def ask(self, members):
        """Asks each by a PING, and waits for the PONGs; when the last of them came."""
        for client in members:
            client.pings_once()
        for client in members:
            until = time.monotonic() + ANSWER
            while client.pongs < client.pings:
                left = until - time.monotonic()
                client.read(left)
                if left <= 0 and client.pongs < client.pings:
                    raise Missing("a PING of %s, a member, had no PONG" % client.name)
        return max((client.pong_at for client in members), default=time.monotonic())

    def settles_beside(self):
        """The same, and until all has come that was to come to strangers beside members. An answer to a stranger may be said
        by another way than a PONG, so it is waited for a little longer."""
        self.settle()
        self.pause(BESIDE)
        self.settle()

    def settles_while_held(self, sent, *others):
        """The same, where all of it was less than 1.6 seconds after that frame was sent, so that it holds the floor."""
        moment = self.settle(*others)
        self.needs(moment - sent.at < FLOOR - SLACK, "whether the floor was held")
        return moment

    def needs(self, is_in_time, what):
        if not is_in_time:
            raise Unsettled("too slow to tell: %s" % what)

    # ---- what came

    @property
    def said(self):
        """All that its clients said."""
        return {line.data for line in self.log if line.way == ">"}

    def hears(self, client, *frames, own=False):
        """Whether it heard just these frames of this play's streams, each once, in order, byte for byte. Its own ones are left
        out, but where they are asked for."""
        client.read(0)
        sids = self.sids if own else {talk.sid for talk in self.talks if talk.client is not client}
        got = [heard.data for heard in client.new_frames() if stream_id(heard.data) in sids]
        compare(client.name, got, [sent.data for sent in frames], self.said)

    def answered(self, client, since, *wanted):
        """Whether from that place on it was answered by just these datagrams. PINGs, stream packets and as many PONGs as it
        sent PINGs are left out."""
        client.read(0)
        got = [data for data in client.controls(since) if data[:4] != b"PONG"]
        if client.pongs > client.pings:
            raise Differs("%s was sent a PONG for which it had not asked" % client.name)
        for data in got:
            if data not in wanted or got.count(data) > wanted.count(data):
                raise Differs("%s was sent %s: %s" % (client.name, data.hex().upper(), words(data)))
        for data in wanted:
            if got.count(data) < wanted.count(data):
                raise Missing("%s was not sent %s: %s" % (client.name, data.hex().upper(), words(data)))

    def waits_for_answer(self, client, since):
        """Until something other than a PING, a PONG or a stream packet came to it from that place on."""
        if not client.wait_for(lambda data: data[:4] not in (b"M17 ", b"PING", b"PONG"), ANSWER, since):
            raise Missing("%s was not answered" % client.name)

    # ---- the end

    def goes(self, client):
        """It leaves, and has the answer."""
        if not self.leaves(client, ANSWER if self.run.answers_discs else UNANSWERED) and self.run.answers_discs:
            raise Unsettled("%s, that left, was not answered" % client.name)

    @staticmethod
    def leaves(client, seconds):
        """Whether its DISC is answered in so many seconds; a stranger's isn't waited for."""
        since = len(client.came)
        client.says("DISC")
        was_member, client.is_member = client.is_member, False
        return not was_member or client.wait_for_kind(b"DISC", seconds, since)

    def rests(self):
        """Until no stream of this play can have the floor any more."""
        moments = [talk.said_at for talk in self.talks if talk.said_at is not None]
        time.sleep(max([0] + [moment + FLOOR + SLACK - time.monotonic() for moment in moments]))

    def end(self):
        for client in self.clients:
            self.leaves(client, LEAVING if self.run.answers_discs else 0)
            client.close()


def compare(name, got, wanted, said, missing=Missing):
    """Whether just these frames came, each once, in order. Where one was lost, others that were said may have been heard for
    that, since it took no floor. So what is missing counts first, but for bytes that nobody can have said."""
    if got == wanted:
        return
    others = [data for data in got if data not in wanted]
    for data in others:
        if data not in said:
            raise Differs("%s heard other bytes than were said: %s" % (name, words(data)))
    for data in wanted:
        if data not in got:
            raise missing("%s did not hear %s%s" % (name, words(data), ", but " + words(others[0]) if others else ""))
    if others:
        raise Differs("%s heard what may not be heard: %s" % (name, words(others[0])))
    for data in got:
        if got.count(data) > wanted.count(data):
            raise Differs("%s heard more than once: %s" % (name, words(data)))
    raise Differs("%s heard the frames in another order" % name)
