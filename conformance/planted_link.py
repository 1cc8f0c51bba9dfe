"""Faults of a link: who is let in and known, what is answered, and which bytes are a packet."""

import reflector
from packets import GROUPS, Control, Refused, crc, with_source
from planted import fault, instead
from reflector import Link


def says_instead(change):
    """All that the reflector says goes through `change`, which is given the link, the peer and the bytes, and gives bytes or
    None."""

    @instead(Link, "__init__")
    def begins(old, link, plan, say):
        def other(peer, data):
            data = change(link, peer, data)
            if data is not None:
                say(peer, data)

        old(link, plan, other)


def is_kind(data, kind, length):
    return data[:4] == kind and len(data) == length


# ---- asking


@fault("asking.ackn-has-ten-bytes", "asking.conn asking.lstn asking.again asking.group asking.other-module")
def ackn_has_ten_bytes():
    says_instead(lambda link, _peer, data: with_source(data, link.name) if data == b"ACKN" else data)


@fault("asking.unserved-is-not-answered", "asking.not-served asking.not-served-member")
def unserved_is_not_answered():
    says_instead(lambda _link, _peer, data: None if data == b"NACK" else data)


@fault("asking.unserved-is-acknowledged", "asking.not-served asking.not-served-member")
def unserved_is_acknowledged():
    says_instead(lambda _link, _peer, data: b"ACKN" if data == b"NACK" else data)


@fault("asking.unserved-ends-a-membership", "asking.not-served-member")
def unserved_ends_a_membership():
    @instead(Link, "connect")
    def connect(old, link, peer, known, packet):
        if known and packet.module not in link.modules:
            link.leaves(peer, b"")
        return old(link, peer, known, packet)


@fault("asking.again-joins-anew", "asking.again")
def again_joins_anew():
    @instead(Link, "connect")
    def connect(old, link, peer, known, packet):
        if known and known.letter == packet.module and known.source == packet.source and known.kind == packet.kind:
            link.leaves(peer, b"")
            known = None
        return old(link, peer, known, packet)


@fault("asking.again-is-not-answered", "asking.again")
def again_is_not_answered():
    @instead(Link, "connect")
    def connect(old, link, peer, known, packet):
        if known and (known.kind, known.source, known.letter) == (packet.kind, packet.source, packet.module):
            return "again", "again"
        return old(link, peer, known, packet)


def is_again_without(part):
    """A request that differs in one part alone is taken for the same one."""

    @instead(Link, "connect")
    def connect(old, link, peer, known, packet):
        if known and known.letter == packet.module:
            packet = packet._replace(**{part: getattr(known, part)})
        return old(link, peer, known, packet)


@fault("asking.other-kind-is-again", "asking.other-kind")
def other_kind_is_again():
    is_again_without("kind")


@fault("asking.other-call-is-again", "asking.other-call")
def other_call_is_again():
    is_again_without("source")


@fault("asking.move-says-disc", "asking.other-module")
def move_says_disc():
    @instead(Link, "leaves")
    def leaves(old, link, peer, farewell):
        old(link, peer, farewell or with_source(b"DISC", link.name))


@fault("asking.disc-is-not-answered", "asking.disc asking.disc-of-four there.disc-of-another")
def disc_is_not_answered():
    @instead(Link, "leaves")
    def leaves(old, link, peer, _farewell):
        old(link, peer, b"")


@fault("asking.disc-is-answered-by-ten-bytes", "asking.disc asking.disc-of-four there.disc-of-another")
def disc_is_answered_by_ten_bytes():
    @instead(Link, "leaves")
    def leaves(old, link, peer, farewell):
        old(link, peer, farewell and with_source(b"DISC", link.name))


@fault("asking.disc-of-four-is-passed-over", "asking.disc-of-four")
def disc_of_four_is_passed_over():
    @instead(Link, "handle")
    def handle(old, link, peer, packet):
        if getattr(packet, "kind", None) == "DISC" and packet.source is None:
            return "stray", "stray"
        return old(link, peer, packet)


@fault("asking.a-callsign-is-a-member", "asking.second-port")
def a_callsign_is_a_member():
    @instead(Link, "connect")
    def connect(old, link, peer, known, packet):
        for other, its in list(link.known.items()):
            if other != peer and its.source == packet.source:
                link.leaves(other, b"")
        return old(link, peer, known, packet)


@fault("asking.denied-is-nacked", "asking.denied")
def denied_is_nacked():
    Link.denies = lambda link, peer: link.say(peer, b"NACK")


# ---- being there


@fault("there.ping-each-two-seconds", "there.ping")
def ping_each_two_seconds():
    reflector.PING_MS = 2000


@fault("there.no-ping", "there.ping")
def no_ping():
    says_instead(lambda _link, _peer, data: None if is_kind(data, b"PING", 10) else data)


def from_of_the_peer(kind):
    def change(link, peer, data):
        known = link.known.get(peer)
        return with_source(kind, known.source) if known and is_kind(data, kind, 10) else data

    says_instead(change)


@fault("there.ping-from-the-member", "there.ping")
def ping_from_the_member():
    from_of_the_peer(b"PING")


@fault("there.pong-from-the-member", "there.pong")
def pong_from_the_member():
    from_of_the_peer(b"PONG")


@fault("there.no-pong", "there.pong")
def no_pong():
    says_instead(lambda _link, _peer, data: None if is_kind(data, b"PONG", 10) else data)


@fault("there.silent-after-eleven-seconds", "there.stays")
def silent_after_eleven_seconds():
    reflector.SILENCE_MS = 11000


@fault("there.silent-after-twenty-seconds", "there.silence there.rubbish-is-silence")
def silent_after_twenty_seconds():
    reflector.SILENCE_MS = 20000


@fault("there.silent-after-forty-seconds", "there.silence there.rubbish-is-silence")
def silent_after_forty_seconds():
    reflector.SILENCE_MS = 40000


@fault("there.rubbish-is-heard", "there.rubbish-is-silence")
def rubbish_is_heard():
    @instead(Link, "hear")
    def hear(old, link, entry):
        if getattr(entry, "peer", None) in link.known:
            link.heard_at[entry.peer] = entry.moment
            link.heard_at.move_to_end(entry.peer)
        return old(link, entry)


def answers_strangers(kind, answer):
    @instead(Link, "handle")
    def handle(old, link, peer, packet):
        word = old(link, peer, packet)
        if peer not in link.known and kind(packet) and word[0] in ("not-connected", "stray"):
            link.say(peer, answer(link))
        return word


def is_control(packet, kind, length):
    return isinstance(packet, Control) and packet.kind == kind and len(packet.bytes) == length


@fault("there.stranger-ping-is-answered", "there.stranger-ping")
def stranger_ping_is_answered():
    answers_strangers(lambda packet: is_control(packet, "PING", 10), lambda link: with_source(b"PONG", link.name))


@fault("there.stranger-ackn-is-answered", "there.stranger-words")
def stranger_ackn_is_answered():
    answers_strangers(lambda packet: is_control(packet, "ACKN", 4), lambda _link: b"NACK")


@fault("there.stranger-disc-of-four-is-answered", "there.stranger-disc-of-four")
def stranger_disc_of_four_is_answered():
    answers_strangers(lambda packet: is_control(packet, "DISC", 4), lambda _link: b"DISC")


@fault("there.stranger-frame-is-answered", "there.stranger-frame")
def stranger_frame_is_answered():
    answers_strangers(lambda packet: isinstance(packet, reflector.Stream), lambda link: with_source(b"DISC", link.name))


@fault("there.stranger-disc-is-not-answered", "there.stranger-disc")
def stranger_disc_is_not_answered():
    @instead(Link, "handle")
    def handle(old, link, peer, packet):
        if peer not in link.known and is_control(packet, "DISC", 10):
            return "not-connected", "not-connected"
        return old(link, peer, packet)


@fault("there.stranger-frame-is-heard", "there.stranger-frame asking.disc-of-four")
def stranger_frame_is_heard():
    @instead(Link, "handle")
    def handle(old, link, peer, packet):
        if peer not in link.known and isinstance(packet, reflector.Stream):
            for other in link.known:
                link.say(other, packet.bytes)
        return old(link, peer, packet)


@fault("there.ackn-lets-a-member-go", "there.own-words")
def ackn_lets_a_member_go():
    @instead(Link, "handle")
    def handle(old, link, peer, packet):
        if peer in link.known and is_control(packet, "ACKN", 4):
            link.leaves(peer, b"")
        return old(link, peer, packet)


@fault("there.disc-of-another-is-passed-over", "there.disc-of-another")
def disc_of_another_is_passed_over():
    @instead(Link, "handle")
    def handle(old, link, peer, packet):
        if peer in link.known and is_control(packet, "DISC", 10) and packet.source != link.known[peer].source:
            return "stray", "stray"
        return old(link, peer, packet)


# ---- bytes


def reads(change):
    """Bytes are read through `change`, which is given how they were read until now and the bytes."""
    instead(reflector, "decode")(change)


@fault("asking.groups-are-refused", "asking.group")
def groups_are_refused():
    def read(old, data):
        packet = old(data)
        return Refused("address") if getattr(packet, "source", None) and packet.source > GROUPS else packet

    reads(read)


@fault("bad.longer-ones-are-cut", "bad.length", may="bad.drawn-tails")
def longer_ones_are_cut():
    reads(lambda old, data: old(data[:54]) if len(data) == 55 else old(data))


@fault("bad.conn-of-twelve-bytes", "bad.length", may="bad.drawn-tails")
def conn_of_twelve_bytes():
    reads(lambda old, data: old(data[:11]) if len(data) == 12 else old(data))


@fault("bad.magic-is-three-letters", "bad.magic", may="bad.drawn-tails")
def magic_is_three_letters():
    def read(old, data):
        is_one = len(data) == 54 and data[:3] == b"M17" and data[52:] == crc(data[:52]).to_bytes(2, "big")
        return old(data[:3] + b" " + data[4:52] + crc(b"M17 " + data[4:52]).to_bytes(2, "big")) if is_one else old(data)

    reads(read)


@fault("bad.any-from-is-taken", "bad.address", may="bad.drawn-tails")
def any_from_is_taken():
    def read(old, data):
        packet = old(data)
        if len(data) == 11 and data[:4] in (b"CONN", b"LSTN") and b"A" <= data[10:] <= b"Z":
            return Control(data[:4].decode(), int.from_bytes(data[4:10], "big"), chr(data[10]), data)
        return packet

    reads(read)


@fault("bad.lower-case-is-taken", "bad.module", may="bad.drawn-tails")
def lower_case_is_taken():
    reads(lambda old, data: old(data[:10] + data[10:].upper()) if len(data) == 11 else old(data))


def nacks(test):
    @instead(Link, "hear")
    def hear(old, link, entry):
        word = old(link, entry)
        if word[0] == "refused" and test(entry.bytes):
            link.say(entry.peer, b"NACK")
        return word


@fault("bad.any-byte-is-a-module", "bad.module", may="bad.drawn-tails")
def any_byte_is_a_module():
    nacks(lambda data: len(data) == 11 and data[:4] in (b"CONN", b"LSTN") and data[10] == 0)


@fault("bad.rubbish-is-answered", "bad.drawn bad.drawn-tails")
def rubbish_is_answered():
    nacks(lambda data: len(data) == 255)


@fault("bad.crc-is-not-looked-at", "bad.crc bad.crc-zero")
def crc_is_not_looked_at():
    def read(old, data):
        is_frame = len(data) == 54 and data[:4] == b"M17 "
        packet = old(data[:52] + crc(data[:52]).to_bytes(2, "big")) if is_frame else old(data)
        return packet._replace(bytes=data) if is_frame else packet

    reads(read)


@fault("bad.crc-of-zero-is-filled", "bad.crc-zero")
def crc_of_zero_is_filled():
    def read(old, data):
        is_one = len(data) == 54 and data[:4] == b"M17 " and data[52:] == b"\0\0"
        return old(data[:52] + crc(data[:52]).to_bytes(2, "big")) if is_one else old(data)

    reads(read)
