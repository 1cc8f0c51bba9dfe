"""Faults of a module: what goes on to whom, and what a parrot plays back."""

import reflector
from packets import BROADCAST, crc
from planted import fault, instead
from reflector import Link, Module, Recording


def gives_instead(change):
    """Frames of others go to a member through `change`, which is given the module, the member, the talker and the packet's
    bytes, and gives a list of bytes."""

    @instead(Module, "packet")
    def packet(old, module, moment, member, packet):
        say, held = module.say, []
        module.say = lambda peer, data: held.append((peer, data))
        verdict = old(module, moment, member, packet)
        module.say = say
        peers = {other.peer: other for other in module.in_order()}
        for peer, data in held:
            is_frame = data == packet.bytes and peer in peers
            for given in change(module, peers[peer], member, data) if is_frame else [data]:
                say(peer, given)
        return verdict


def number_of(data):
    return int.from_bytes(data[34:36], "big") & 0x7FFF


def with_field(data, at, field):
    body = data[:at] + field + data[at + len(field) : 52]
    return body + crc(body).to_bytes(2, "big")


@fault("on.each-twentieth-comes-twice", "on.each")
def each_twentieth_comes_twice():
    gives_instead(lambda _module, _member, _talker, data: [data] * (2 if number_of(data) == 20 else 1))


@fault("on.each-twentieth-is-left-out", "on.each")
def each_twentieth_is_left_out():
    gives_instead(lambda _module, _member, _talker, data: [] if number_of(data) == 20 else [data])


@fault("on.two-are-exchanged", "on.each")
def two_are_exchanged():
    held = {}

    def change(_module, member, _talker, data):
        if number_of(data) == 20:
            held[member] = data
            return []
        return [data, held.pop(member)] if member in held else [data]

    gives_instead(change)


@fault("on.crc-is-left-out", "on.each")
def crc_is_left_out():
    gives_instead(lambda _module, _member, _talker, data: [data[:52] + b"\0\0" if number_of(data) == 20 else data])


@fault("on.listeners-hear-nothing", "on.each floor.listen-only load.few")
def listeners_hear_nothing():
    gives_instead(lambda _module, member, _talker, data: [] if member.listens else [data])


@fault("on.talker-hears-itself", "on.talker")
def talker_hears_itself():
    @instead(Module, "packet")
    def packet(old, module, moment, member, packet):
        verdict = old(module, moment, member, packet)
        if verdict.word in ("opened", "continued"):
            module.say(member.peer, packet.bytes)
        return verdict


@fault("on.source-is-the-members", "on.any-fields")
def source_is_the_members():
    def change(_module, _member, _talker, data):
        return [with_field(data, 12, b"\0\0\0\0\0\1") if data[12:18] == bytes(6) else data]

    gives_instead(change)


@fault("on.destination-is-broadcast", "on.any-fields")
def destination_is_broadcast():
    gives_instead(lambda _module, _member, _talker, data: [with_field(data, 6, BROADCAST.to_bytes(6, "big"))])


@fault("on.data-is-not-relayed", "on.any-fields")
def data_is_not_relayed():
    gives_instead(lambda _module, _member, _talker, data: [data] if data[19] & 1 else [])


@fault("on.meta-is-zero", "on.any-fields")
def meta_is_zero():
    gives_instead(lambda _module, _member, _talker, data: [with_field(data, 20, bytes(14))])


@fault("on.silence-is-left-out", "on.payload")
def silence_is_left_out():
    gives_instead(lambda _module, _member, _talker, data: [] if data[36:52] == bytes(16) else [data])


@fault("on.modules-leak", "on.modules asking.other-module")
def modules_leak():
    @instead(Link, "handle")
    def handle(old, link, peer, packet):
        word = old(link, peer, packet)
        if word[0] in ("opened", "continued"):
            for other, known in link.known.items():
                if known.letter != link.known[peer].letter:
                    link.say(other, packet.bytes)
        return word


def hears_on(test):
    """Who left a module so that the test of its farewell passes goes on hearing it."""
    gone = {}

    @instead(Module, "leave")
    def leave(old, module, moment, member, farewell):
        old(module, moment, member, farewell)
        if test(farewell):
            gone.setdefault(module, []).append(member.peer)

    @instead(Module, "packet")
    def packet(old, module, moment, member, packet):
        verdict = old(module, moment, member, packet)
        for peer in gone.get(module, []) if verdict.word in ("opened", "continued") else []:
            module.say(peer, packet.bytes)
        return verdict


@fault("on.who-left-hears-on", "on.left")
def who_left_hears_on():
    hears_on(bool)


@fault("on.who-moved-hears-on", "asking.other-module asking.other-call")
def who_moved_hears_on():
    hears_on(lambda farewell: not farewell)


@fault("on.comers-wait-for-the-next", "on.midway")
def comers_wait_for_the_next():
    since = {}

    @instead(Module, "join")
    def join(old, module, moment, member):
        old(module, moment, member)
        held = module.floor.holding()
        since[member] = held.packet.sid if held else None

    gives_instead(lambda _module, member, talker, data: [] if int.from_bytes(data[4:6], "big") == since.get(member) else [data])


@fault("on.four-hear-at-most", "load.few")
def four_hear_at_most():
    def change(module, member, talker, data):
        others = [other for other in module.in_order() if other is not talker]
        return [data] if member in others[:4] else []

    gives_instead(change)


# ---- parrots


def plays_instead(change):
    """Echoes go through `change`, which is given the recording, the frame and the echo."""

    @instead(Recording, "due")
    def due(old, recording, moment):
        echo = old(recording, moment)
        return echo and change(recording, recording.frames[recording.given - 1], echo)


@fault("parrot.same-id", "parrot.plays parrot.silence parrot.last-talker parrot.interrupted")
def same_id():
    plays_instead(lambda _recording, frame, echo: with_field(echo, 4, frame.bytes[4:6]))


@fault("parrot.no-end-bit", "parrot.silence")
def no_end_bit():
    plays_instead(lambda _recording, frame, echo: with_field(echo, 34, frame.bytes[34:36]))


@fault("parrot.crc-as-it-was", "parrot.plays parrot.silence parrot.last-talker parrot.interrupted")
def crc_as_it_was():
    plays_instead(lambda _recording, frame, echo: echo[:52] + frame.bytes[52:])


@fault("parrot.counts-from-zero", "parrot.plays")
def counts_from_zero():
    def change(recording, _frame, echo):
        number = recording.given - 1 | int.from_bytes(echo[34:36], "big") & 0x8000
        return with_field(echo, 34, number.to_bytes(2, "big"))

    plays_instead(change)


@fault("parrot.half-a-second", "parrot.plays parrot.silence")
def half_a_second():
    reflector.ECHO_DELAY_MS = 500


@fault("parrot.twice-as-fast", "parrot.plays")
def twice_as_fast():
    reflector.FRAME_MS = 20


@fault("parrot.all-hear-it", "parrot.plays parrot.last-talker")
def all_hear_it():
    @instead(Module, "tick")
    def tick(old, module, moment):
        say = module.say

        def to_all(peer, data):
            for other in module.in_order() if data[:4] == b"M17 " else ():
                if other.peer != peer:
                    say(other.peer, data)
            say(peer, data)

        module.say = to_all
        old(module, moment)
        module.say = say


@fault("parrot.silence-closes-nothing", "parrot.silence")
def silence_closes_nothing():
    @instead(Module, "tick")
    def tick(old, module, moment):
        recording = module.recording
        if recording and recording.closed_at is None:
            module.recording = None
            old(module, moment)
            module.recording = recording
        else:
            old(module, moment)


@fault("parrot.recordings-are-joined", "parrot.last-talker parrot.interrupted")
def recordings_are_joined():
    @instead(Module, "record")
    def record(old, module, verdict, member, packet):
        before = module.recording
        old(module, verdict, member, packet)
        if verdict.word == "opened" and before:
            module.recording.frames[:0] = before.frames
            module.recording.given = before.given


@fault("parrot.first-talker-is-kept", "parrot.last-talker")
def first_talker_is_kept():
    @instead(Module, "record")
    def record(old, module, verdict, member, packet):
        before = module.recording
        if before and before.member is not member and before.given < len(before.frames):
            return
        old(module, verdict, member, packet)


@fault("parrot.who-left-is-played-back", "parrot.leaves")
def who_left_is_played_back():
    @instead(Module, "leave")
    def leave(old, module, moment, member, farewell):
        recording, module.recording = module.recording, None
        old(module, moment, member, farewell)
        module.recording = recording


@fault("parrot.no-echo", "parrot.plays parrot.silence parrot.last-talker parrot.interrupted")
def no_echo():
    plays_instead(lambda _recording, _frame, _echo: None)


