#!/usr/bin/env python3
"""Writes the folder vectors/: small inputs with their outputs, each of which shows one rule.

    python3 conformance/make_vectors.py

The inputs are written out below; the outputs are those of the reference.
"""

import glob
import os

import made
import reference
from book_vectors import BOOKS, OLD_BOOKS, spoiled_crc
from compare import parts_of
from draws import LAST_MOMENT, named, stream
from files import ONE, TRACE_MAGIC, TWO, InputRefused, book_head, read_book, read_trace
from generate import judge_record
from packets import Refused, Stream, decode, encode, number, packet_text
from reflector import Datagram, Quiet, peer_text
from traces import FAULT, datagram, quiet

FOLDER = os.path.join(os.path.dirname(os.path.abspath(__file__)), "vectors")

P1, P2, P3, P4 = ((False, bytes([10, 0, 0, n]), 17000) for n in (1, 2, 3, 4))
SIX = (True, bytes.fromhex("20010db8000000000000000000000001"), 17000)

VECTORS = []


def vector(name, words, data, shows):
    VECTORS.append((name, words.split(), data, shows))


# ---- how the inputs are spelled


def conn(callsign, module):
    return named("CONN", encode(callsign), module)


def lstn(callsign, module):
    return named("LSTN", encode(callsign), module)


def ping(callsign):
    return named("PING", encode(callsign))


def pong(callsign):
    return named("PONG", encode(callsign))


def disc(callsign=None):
    return named("DISC", encode(callsign)) if callsign else b"DISC"


def conn_from(address, module="A"):
    return named("CONN", address, module)


def with_lsd(addresses, kind, meta):
    lsd = b"".join(address.to_bytes(6, "big") for address in addresses) + kind.to_bytes(2, "big") + meta
    return stream(0xABCD, 0x7FFF, True, None, bytes(range(16)), lsd)


def lines(*packets):
    return b"".join(packet.hex().upper().encode() + b"\n" for packet in packets)


def trace(*entries):
    return TRACE_MAGIC + b"".join(entries)


def records(*parts):
    return b"".join(judge_record(*part) for part in parts)


# ---- show

vector(
    "show-packets",
    "show",
    lines(
        conn("AB1CD", "A"),
        lstn("N0CALL", "Z"),
        b"ACKN",
        b"NACK",
        ping("M17-TST"),
        pong("AB1CD"),
        disc("AB1CD"),
        disc(),
        stream(0x1234, 5),
        with_lsd((encode("M17-TST"), encode("/.-")), 0x0785, bytes(range(14))),
    ),
    "Each packet form once; a stream packet with the end bit, the last number and other fields of TYPE.",
)
vector(
    "show-refusals",
    "show",
    lines(
        b"",
        b"CON",
        b"CONN",
        conn("AB1CD", "A")[:10],
        ping("AB1CD") + b"A",
        bytes(53),
        stream(1, 0) + b"\0",
        b"M18 " + stream(1, 0)[4:],
        conn_from(0),
        conn_from(0xEE6B28000000),
        conn_from(0xF46109000000),
        conn_from(0xFFFFFFFFFFFF),
        conn_from(0, "["),
        conn("AB1CD", "["),
        conn("AB1CD", "a"),
        spoiled_crc(stream(0x1234, 5)),
        disc() + bytes(6),
    ),
    "The reasons for which bytes are no packet, in their order: length, magic, address, module, CRC. The first holds.",
)
vector(
    "show-addresses",
    "show",
    lines(
        conn_from(1),
        conn_from(40),
        conn_from(0x9FDD51),
        conn_from(0xEE6B27FFFFFF),
        conn_from(0xEE6B28000001),
        conn_from(0xEE6B28000051),
        conn_from(0xF46108FFFFFF),
        with_lsd((0xFFFFFFFFFFFF, 0), 0, bytes(14)),
        with_lsd((0xEE6B28000000, 0xFFFFFFFFFFFE), 0xFFFF, b"\xff" * 14),
    ),
    "Callsigns from the least address to the greatest, one with a leading space; then groups, from the least to the"
    " greatest; broadcast; what has no callsign.",
)
vector(
    "show-ends-of-lines",
    "show",
    b"41434B4E\r\n\n41434b4e\n\r\n" + b"0" * 256 + b"\r\n4E41434B",
    "One carriage return before the end of a line is dropped, an empty line has no bytes, both cases of digits are"
    " read, the last line needs no line feed, and a line may have 256 digits.",
)
vector(
    "show-types",
    "show",
    lines(*(with_lsd((0xFFFFFFFFFFFF, encode("AB1CD")), kind, bytes(14)) for kind in (5, 3, 0, 0x0785, 0xFACE))),
    "The fields of TYPE: stream or packet, voice, data, both or reserved, and the numbers behind them.",
)
vector(
    "show-lengths",
    "show",
    lines(bytes(53), bytes(64), bytes(128), conn("AB1CD", "A") + b"A", b"DISC" + bytes(7)) + b"0" * 106,
    "Bytes that no packet has so many of, up to those of the longest line; and a magic for another length.",
)
vector("show-odd", "show", b"41434B4E\nzzz\n", "An odd number of bytes comes before what they are.")
vector("show-odd-first", "show", b"4", "So it does in the first line, without its end.")
vector("show-digit", "show", b"41434B4E\n4g\n41434B4E\n", "A byte that is no hex digit ends the run.")
vector("show-long", "show", b"0" * 257 + b"\n", "A line of more than 256 bytes, before it is odd.")
vector("show-two-carriage-returns", "show", b"4142\r\r\n", "Only one carriage return is dropped.")
vector("show-nothing", "show", b"", "An empty input has no line.")

# ---- judge

vector(
    "judge-limit",
    "judge",
    records(
        *[(1500 * number, 0, stream(1, number)) for number in range(120)],
        (179999, 0, stream(1, 120)),
        (180000, 0, stream(1, 121)),
        (180000, 1, stream(2, 0)),
        (180040, 0, stream(1, 122)),
        (189998, 0, stream(1, 123)),
        (189999, 0, stream(1, 124)),
    ),
    "A stream loses the floor 180,000 ms after it was opened, and is timed out until its last admitted frame is forgotten.",
)
vector(
    "judge-two-talkers",
    "judge",
    records((0, 3, stream(1, 0)), (0, 4, stream(2, 0)), (40, 3, stream(1, 1, True)), (40, 4, stream(2, 1))),
    "The floor has one holder until its end bit.",
)
vector(
    "judge-own-second-stream",
    "judge",
    records((0, 3, stream(1, 0)), (40, 3, stream(2, 0)), (80, 3, stream(1, 1, True)), (120, 3, stream(2, 1))),
    "A holder that sends another stream is busy with itself.",
)
vector(
    "judge-repeats-and-late-frames",
    "judge",
    records(*((40 * index, 0, stream(1, number)) for index, number in enumerate((5, 5, 4, 7, 6, 8)))),
    "Repeats and late frames are not admitted, and the last admitted number is named.",
)
vector(
    "judge-numbers-go-round",
    "judge",
    records(
        *((40 * index, 0, stream(1, number)) for index, number in enumerate((32767, 0, 16383, 32767, 32766, 16382))),
        (2000, 1, stream(2, 0)),
        (2040, 1, stream(2, 16384)),
        (2080, 1, stream(2, 16385)),
        (2120, 1, stream(2, 16383)),
    ),
    "1 to 16,383 numbers on is ahead, 16,384 to 32,767 is late.",
)
vector(
    "judge-after-the-end",
    "judge",
    records(
        (0, 0, stream(1, 7)),
        (40, 0, stream(1, 9, True)),
        (80, 0, stream(1, 8)),
        (80, 0, stream(1, 10)),
        (10039, 0, stream(1, 0)),
        (10040, 0, stream(1, 0)),
    ),
    "After the end bit the stream is remembered for 10,000 ms, and all its frames come after the end.",
)
vector(
    "judge-late-after-a-pause",
    "judge",
    records(
        (0, 0, stream(1, 7)),
        (1600, 0, stream(1, 7)),
        (1600, 0, stream(1, 6)),
        (1600, 0, stream(1, 8)),
        (11599, 0, stream(1, 8)),
        (11600, 0, stream(1, 8)),
    ),
    "A talker that paused opens again with a number ahead; repeats and late frames are told for 10,000 ms.",
)
vector(
    "judge-silent-floor",
    "judge",
    records((0, 0, stream(1, 0)), (1599, 1, stream(2, 0)), (1600, 1, stream(2, 0)), (1600, 0, stream(1, 1))),
    "A floor is given up after 1,600 ms without an admitted frame, not before.",
)
vector(
    "judge-repeats-hold-nothing",
    "judge",
    records((0, 0, stream(1, 1)), (1000, 0, stream(1, 1)), (1500, 0, stream(1, 0)), (1600, 1, stream(2, 0))),
    "Repeats and late frames don't keep the floor.",
)
vector(
    "judge-moments-go-back",
    "judge",
    records((5000, 0, stream(1, 0)), (0, 1, stream(2, 0)), (6600, 0, bytes(54)), (0, 1, stream(2, 0))),
    "The moment is the greatest so far; a refused packet moves it too.",
)
vector(
    "judge-refused",
    "judge",
    records((0, 0, spoiled_crc(stream(0x1234, 5))), (0, 0, b"XYZ " + stream(1, 0)[4:]), (0, 0, stream(1, 0))),
    "A packet that is none is refused in its line, and the run goes on.",
)
vector("judge-cut", "judge", records((0, 3, stream(1, 0))) + b"\0", "The lines before a cut record stand.")
vector(
    "judge-last-moment",
    "judge",
    records((LAST_MOMENT, 65535, stream(1, 0)), (0, 0, stream(2, 0))),
    "The greatest moment and the greatest talker.",
)

# ---- replay

EVENING = trace(
    datagram(0, P1, conn("AB1CD", "A")),
    datagram(40, P1, stream(0x1234, 0)),
    datagram(50, P2, lstn("N0CALL", "A")),
    datagram(80, P1, stream(0x1234, 1)),
    datagram(120, P1, stream(0x1234, 2)),
    datagram(130, P2, disc("N0CALL")),
    datagram(160, P1, stream(0x1234, 3, True)),
)
vector("replay-nothing", "replay", trace(), "A trace without entries.")
vector("replay-made", "replay", b"".join(made.make(0, 2)), "The trace of `make 0 2`: two hotspots join.")
vector("replay-made-summary", "replay --summary", b"".join(made.make(0, 2)), "The same, counted.")
TURNED_AWAY = trace(
    datagram(0, P2, lstn("N0CALL", "A")),
    datagram(0, P2, stream(1, 0)),
    datagram(0, P3, stream(2, 0)),
    datagram(0, P3, conn("AB1CD", "D")),
)
vector(
    "replay-turned-away",
    "replay",
    TURNED_AWAY,
    "Who joined to listen, who isn't connected, and who asks for a module that isn't served.",
)
vector("replay-turned-away-summary", "replay --summary", TURNED_AWAY, "The same: one NACK is said to the last.")
vector(
    "replay-elsewhere-and-again",
    "replay --summary",
    trace(*(datagram(10 * n, P1, conn("AB1CD", module)) for n, module in enumerate("ABB"))),
    "A peer that moves and asks again gets an ACKN each time, and one DISC at the end.",
)
vector("replay-nothing-summary", "replay --summary", trace(), "The same, counted.")
vector("replay-evening", "replay", EVENING, "A talker, and a listener that comes and goes.")
vector(
    "replay-evening-summary",
    "replay --summary",
    EVENING,
    "The same: the listener gets what is admitted between its join and its leave; the talker doesn't hear itself. Who"
    " is there at the end of the trace gets a DISC.",
)
STRANGERS = trace(
    datagram(0, P1, disc()),
    datagram(0, P2, disc("AB1CD")),
    datagram(0, P3, ping("AB1CD")),
    datagram(0, P3, pong("AB1CD")),
    datagram(0, P3, stream(1, 0)),
    datagram(0, P3, b"ACKN"),
    datagram(0, P3, b"NACK"),
    datagram(0, P4, conn("AB1CD", "D")),
    datagram(0, SIX, b"hello"),
)
vector("replay-strangers", "replay", STRANGERS, "Each packet from a peer that isn't connected.")
vector(
    "replay-strangers-summary",
    "replay --summary",
    STRANGERS,
    "The same: of two DISCs only the 10-byte one is answered; a module that isn't served is answered by NACK; a peer"
    " that only sent bytes that are no packet is named too; IPv6 peers come last.",
)
vector(
    "replay-members",
    "replay --summary",
    trace(
        datagram(0, P1, conn("AB1CD", "A")),
        datagram(0, P1, conn("AB1CD", "A")),
        datagram(0, P1, ping("N0CALL")),
        datagram(0, P1, pong("N0CALL")),
        datagram(0, P1, b"ACKN"),
        datagram(0, P1, b"NACK"),
        datagram(0, P1, conn("AB1CD", "D")),
        datagram(0, P1, stream(1, 0)),
        datagram(0, P1, disc()),
    ),
    "Each packet from a member: a CONN again is acknowledged again, a PING is answered, a CONN for a module that isn't"
    " served leaves the membership as it is.",
)
vector(
    "replay-groups",
    "replay --call #AB --summary",
    trace(
        datagram(0, P1, conn("#A", "A")),
        datagram(0, P2, lstn("#........", "A")),
        datagram(0, P3, conn_from(0xEE6B28000000)),
        datagram(0, P4, conn_from(0xF46109000000)),
        datagram(0, P1, stream(1, 0, False, encode("#A"))),
        datagram(40, P1, stream(1, 1, True, encode("#AB"))),
        datagram(40, P1, conn("#B", "A")),
        datagram(3000, P2, pong("#........")),
        datagram(3000, P1, disc("#B")),
    ),
    "A group connects, speaks and listens as a station does, and a reflector may have the callsign of one; the addresses"
    " beside those of groups are refused.",
)
MOVES = trace(
    datagram(0, P1, conn("AB1CD", "A")),
    datagram(10, P1, conn("AB1CD", "B")),
    datagram(20, P1, conn("AB1CD", "B")),
    datagram(30, P1, lstn("AB1CD", "B")),
    datagram(40, P1, lstn("N0CALL", "B")),
    datagram(50, P1, stream(1, 0)),
)
vector("replay-moves", "replay", MOVES, "Another module, another kind or another callsign is a new membership.")
vector("replay-moves-summary", "replay --summary", MOVES, "The same: who moves gets no DISC, but an ACKN each time.")
vector(
    "replay-full",
    "replay --places 2",
    trace(
        datagram(0, P1, conn("AB1CD", "A")),
        datagram(0, P2, conn("N0CALL", "B")),
        datagram(0, P3, conn("HOT", "A")),
        datagram(0, P2, conn("N0CALL", "A")),
        datagram(0, P1, disc("AB1CD")),
        datagram(0, P3, conn("HOT", "A")),
    ),
    "Places are counted over all modules, a peer that moves has its own place, and what is given back is free at once.",
)
THIRD = trace(
    *(datagram(0, peer, conn("AB1CD", "A")) for peer in (P1, P2, P3)),
    datagram(0, P1, disc("AB1CD")),
    datagram(0, P3, conn("AB1CD", "A")),
)
vector("replay-third", "replay --places 2", THIRD, "A third finds no place, and has one once the first has left.")
vector("replay-third-summary", "replay --places 2 --summary", THIRD, "The same: it gets NACK, ACKN, and the DISC of the end.")
vector(
    "replay-listener",
    "replay",
    trace(datagram(0, P1, lstn("AB1CD", "A")), datagram(0, P1, stream(1, 0)), datagram(0, P1, ping("AB1CD"))),
    "Who joined to listen doesn't speak.",
)
vector(
    "replay-floors",
    "replay",
    trace(
        datagram(0, P1, conn("AB1CD", "A")),
        datagram(0, P2, conn("N0CALL", "A")),
        datagram(0, P3, conn("HOT", "B")),
        datagram(0, P1, stream(1, 0)),
        datagram(0, P2, stream(2, 0)),
        datagram(0, P3, stream(3, 0)),
        datagram(40, P1, disc()),
        datagram(40, P2, stream(2, 1)),
    ),
    "Each module has its own floor, and a holder that leaves gives it up.",
)
vector(
    "replay-new-membership",
    "replay",
    trace(
        datagram(0, P1, conn("AB1CD", "A")),
        datagram(0, P1, stream(1, 5, True)),
        datagram(0, P1, stream(1, 5)),
        datagram(0, P1, disc()),
        datagram(0, P1, conn("AB1CD", "A")),
        datagram(0, P1, stream(1, 5)),
    ),
    "What a member sent is forgotten with its membership.",
)
vector(
    "replay-limit",
    "replay --limit 1",
    trace(
        datagram(0, P1, conn("AB1CD", "A")),
        datagram(0, P2, conn("N0CALL", "A")),
        datagram(0, P1, stream(1, 0)),
        datagram(500, P1, stream(1, 1)),
        datagram(999, P1, stream(1, 2)),
        datagram(999, P2, stream(2, 0)),
        datagram(1000, P1, stream(1, 3)),
        datagram(1000, P1, stream(1, 2)),
        datagram(1000, P2, stream(2, 1)),
        datagram(1040, P1, stream(1, 4)),
        datagram(1080, P2, stream(2, 2, True)),
        datagram(10998, P1, stream(1, 5)),
        datagram(10999, P1, stream(1, 6)),
        datagram(11999, P1, stream(1, 7)),
        datagram(11999, P1, stream(3, 0)),
    ),
    "One may talk for a second: at 1,000 ms the stream loses the floor, and is timed out until 10,000 ms have passed since its"
    " last admitted frame. A new stream of the same talker is opened at once.",
)
NO_LIMIT = trace(
    datagram(0, P1, conn("AB1CD", "A")),
    *(datagram(1500 * number, P1, stream(1, number)) for number in range(122)),
)
vector("replay-no-limit", "replay --limit 0", NO_LIMIT, "With 0 one may talk for as long as one likes.")
vector(
    "replay-limit-unsaid",
    "replay --summary",
    NO_LIMIT,
    "The same where no limit is said: it is 180 seconds, and what comes from 180,000 ms on is timed out.",
)
SILENCE = trace(
    datagram(0, P1, conn("AB1CD", "A")),
    datagram(1, P2, conn("AB1CD", "A")),
    quiet(29999),
    datagram(29999, P2, b"hello"),
    datagram(30000, P1, pong("AB1CD")),
    datagram(30000, P2, pong("AB1CD")),
    datagram(60000, P2, conn("AB1CD", "A")),
)
vector(
    "replay-silence",
    "replay",
    SILENCE,
    "A peer that was silent for 30,000 ms is out before its datagram is looked at; with a CONN it comes in anew.",
)
vector(
    "replay-silence-summary",
    "replay --summary",
    SILENCE,
    "The same: one PING where the moment passes multiples of 3,000 ms, however many, and before the DISC.",
)
vector(
    "replay-kept-by-what-decodes",
    "replay",
    trace(
        datagram(0, P1, conn("AB1CD", "A")),
        datagram(0, P2, conn("AB1CD", "A")),
        datagram(0, P3, conn("AB1CD", "A")),
        datagram(0, P4, conn("AB1CD", "A")),
        datagram(20000, P1, b"NACK"),
        datagram(20000, P2, conn("AB1CD", "Z")),
        datagram(20000, P3, spoiled_crc(stream(1, 0))),
        quiet(30000),
        *(datagram(30000, peer, ping("AB1CD")) for peer in (P1, P2, P3, P4)),
    ),
    "Any packet keeps a peer, also NACK or a CONN for a module that isn't served; bytes that are no packet don't.",
)
vector(
    "replay-moments-go-back",
    "replay",
    trace(
        datagram(40000, P1, conn("AB1CD", "A")),
        datagram(0, P1, stream(1, 0)),
        datagram(41600, P2, conn("AB1CD", "A")),
        datagram(0, P2, stream(2, 0)),
        quiet(0),
        datagram(71599, P1, pong("AB1CD")),
        datagram(71599, P2, pong("AB1CD")),
    ),
    "The link's moment is the greatest so far.",
)
vector(
    "replay-faults",
    "replay",
    trace(datagram(0, P1, conn("AB1CD", "A")), FAULT * 15, quiet(0), FAULT * 15),
    "Fifteen faults in a row are no more than faults.",
)
LOST = trace(datagram(0, P1, conn("AB1CD", "A")), FAULT * 16, quiet(0), datagram(0, P2, conn("AB1CD", "A")))
vector("replay-link-lost", "replay", LOST, "The sixteenth fault in a row ends the link, and nothing after it is heard.")
vector("replay-link-lost-summary", "replay --summary", LOST, "The same: later peers are not named.")
PARROT = trace(
    datagram(0, P1, conn("AB1CD", "A")),
    datagram(0, P2, conn("AB1CD", "A")),
    *(datagram(40 * number, P1, stream(0x1234, number, number == 3)) for number in range(4)),
    *(quiet(moment) for moment in (1119, 1120, 1159, 1160, 2000, 2000, 2000)),
)
vector(
    "replay-parrot",
    "replay --parrots A --summary",
    PARROT,
    "Four frames come back to their talker alone, from 1,000 ms after the close on, 40 ms apart, one for each event."
    " Other members hear them as they were said.",
)
vector(
    "replay-parrot-first-echo",
    "replay --parrots A --summary",
    PARROT[:-45],
    "The same up to the first millisecond at which an echo is due.",
)
OPEN = trace(
    datagram(0, P1, conn("AB1CD", "A")),
    datagram(0, P1, stream(0x1234, 0)),
    *(quiet(moment) for moment in (1599, 1700, 2699, 2700)),
)
vector(
    "replay-parrot-without-end",
    "replay --parrots A --summary",
    OPEN,
    "A recording without an end bit is closed by the first event at which the floor is free, at that event's moment.",
)
vector(
    "replay-parrot-without-end-early",
    "replay --parrots A --summary",
    OPEN[:-9],
    "The same without its last event, a millisecond before: no echo yet.",
)
vector(
    "replay-parrot-left",
    "replay --parrots A --summary",
    trace(
        datagram(0, P1, conn("AB1CD", "A")),
        datagram(0, P1, stream(0x1234, 0, True)),
        datagram(500, P1, conn("N0CALL", "A")),
        quiet(2000),
    ),
    "Who joined anew gets no echo of what it said before.",
)
vector(
    "replay-parrot-interrupted",
    "replay --parrots A --summary",
    trace(
        datagram(0, P1, conn("AB1CD", "A")),
        datagram(0, P1, stream(0x1234, 0)),
        datagram(40, P1, stream(0x1234, 1, True)),
        quiet(1040),
        datagram(1050, P1, stream(0x1235, 0, True)),
        quiet(1080),
        quiet(2050),
    ),
    "A new recording takes the place of one whose echoes have begun.",
)
vector(
    "replay-parrot-most",
    "replay --modules A --parrots A --summary",
    trace(
        datagram(0, P1, conn("AB1CD", "A")),
        *(datagram(40 * number, P1, stream(0x1234, number, number == 750)) for number in range(751)),
        *(quiet(31000 + 40 * number) for number in range(351)),
        datagram(45000, P1, pong("AB1CD")),
        *(quiet(31000 + 40 * number) for number in range(351, 750)),
    ),
    "Of 751 frames 750 come back, and one at each event; a PONG keeps the peer meanwhile.",
)
vector("trace-nothing", "replay", b"", "No bytes are no trace.")
# ---- talk, whose script is read before its port `x` is asked for

TALK = "talk --call AB1CD --module A --bind x --to 10.0.0.9:17000"


def script(*moments):
    return b"".join(moment.to_bytes(8, "big") + stream(0x1234, index) for index, moment in enumerate(moments))


vector("talk-nothing", TALK, b"", "A script without records.")
vector("talk-script", TALK, script(5, 5, 6), "Each moment is no less than the one before.")
vector("talk-falls", TALK, script(5, 4), "A moment that falls.")
vector("talk-falls-cut", TALK, script(5, 4)[:70], "The same where the packet behind it is cut: the moment is judged at once.")
vector("talk-cut-moment", TALK, script(5, 4)[:69], "An end inside of a moment.")
vector("talk-cut-first", TALK, script(5)[:1], "An end inside of the first moment.")
vector("talk-cut-packet", TALK, script(5, 5)[:123], "An end inside of a packet.")
vector("talk-crc", TALK, script(5) + script(5)[:8] + spoiled_crc(stream(0x1234, 1)), "A packet is a field.")
vector("talk-no-packet", TALK + " --listen --stay 5 --book b", bytes(62), "So is one of other bytes, whatever the other words.")

vector("trace-cut-header", "replay", b"M17X", "A header that is cut and already wrong is cut.")
vector("trace-wrong-header", "replay", b"M17TRACX" + FAULT, "The first byte of a header that differs.")
vector("trace-cut-entry", "replay", trace(quiet(0), datagram(0, P1, disc()))[:-1], "A refused trace has no other line.")
vector("trace-kind", "replay", trace(FAULT * 16, b"\t"), "A trace is read whole first, also behind a lost link.")
vector("trace-family", "replay", trace(b"\1" + bytes(8) + b"\5"), "A field is judged when all its bytes are there.")
vector("trace-length", "replay", trace(b"\1" + bytes(8) + b"\4" + bytes(6) + b"\x41"), "A datagram of 65 bytes.")
vector(
    "replay-made-evening",
    "replay --summary --parrots=C --modules CAB",
    b"".join(made.make(17, 600)),
    "A made evening with repeats, late frames and interruptions.",
)

# ---- make

vector("make-two", "make 0 2", b"", "The header and two entries.")
vector("make-evening", "make 18446744073709551615 0150", b"", "The greatest seed; numbers may have leading zeros.")

# ---- check

for its_name, its_data, it_shows in BOOKS:
    vector("check-" + its_name, "check", its_data, it_shows)
for its_name, its_data, it_shows in OLD_BOOKS:
    vector("migrate-" + its_name, "migrate", its_data, it_shows)

# ---- serve by rules: a text that is taken comes to `port failed`, since no port is named x

RULES = "serve --rules --call M17-TST x"

for its_name, its_text, it_shows in (
    ("nothing", "", "An empty text allows all."),
    (
        "each-part",
        "allow conn A AB1CD\ndeny lstn BA #CLUB\r\n\r\n; passed over\nallow talk * N0*\ndeny any * *",
        "Each act, kind and form of modules and pattern; ends of lines, an empty line, and one that begins with `;`.",
    ),
    (
        "patterns",
        "deny any * ABCDEFGHI\ndeny any * ABCDEFGHI*\ndeny any * #ABCDEFGH*\ndeny any * #*\ndeny any *  *\n"
        "deny any *  A\ndeny any * AB1CD P\ndeny any * A *\ndeny any * /.-*",
        "Nine letters, before a `*` too, `#` counted in; a space may be the first, stand between, and be the last before"
        " the `*`.",
    ),
    ("act", "allow any * *\n\n; none\nAllow any * *", "Lines count from 0, those that are passed over too."),
    ("kind", "allow", "A missing part is empty, and the first refused part is named."),
    ("kind-of-two-spaces", "allow  any * *", "Two spaces in a row leave a part empty."),
    ("modules", "deny talk A N0CALL", "Who speaks is not asked by module."),
    ("modules-twice", "deny conn ABA N0CALL", "A module stands once."),
    ("modules-before-pattern", "deny talk A", "The first refused part, where two are."),
    ("pattern", "deny conn A ", "An empty pattern."),
    ("pattern-of-a-space", "deny any * AB1CD ", "A callsign doesn't end in a space."),
    ("pattern-of-a-group", "deny any * #", "A `#` alone is no callsign."),
    ("pattern-inside", "deny any * A#*", "A `#` stands first alone."),
    ("pattern-twice", "deny any * **", "Before the `*` stand letters."),
    ("pattern-lower", "deny any * ab1cd", "Letters are upper case."),
    ("pattern-long", "deny any * ABCDEFGHIJ*", "Ten letters."),
    ("pattern-comment", "deny any * N0CALL ; out", "Behind a rule nothing else stands."),
    ("two-carriage-returns", "deny any * *\r\r\n", "Only one carriage return is dropped."),
    ("most", "\n" * 65536, "A text of 65,536 bytes."),
    ("large", "wrong\n" + "\n" * 65531, "One byte more is refused before a wrong line is."),
):
    vector("rules-" + its_name, RULES, its_text.encode(), it_shows)

# ---- words

vector("words-none", "", b"", "No words at all.")
vector("words-unknown", "judges", b"", "The first word is a command byte for byte.")
vector("words-too-many", "judge x", b"", "A word too many.")
vector("words-two-hyphens", "judge --", records((0, 3, stream(1, 0))), "Two hyphens end the options.")
vector("words-help", "replay --help", trace(), "There is no help.")
vector("words-places", "replay --places 257", trace(), "A number beyond its bound.")
vector("words-leading-zeros", "replay --places=000256 --", EVENING, "Leading zeros.")
vector("words-sign", "replay --places +1", trace(), "A number has digits alone.")
vector("words-twice", "replay --modules A --modules=A", trace(), "An option stands once.")
vector("words-hyphen", "replay --call -A", trace(), "A value that begins with a hyphen..")
vector("words-hyphen-and-equals", "replay --call=-A", trace(), ".. stands behind an equals sign.")
vector("words-modules", "replay --modules ABA", trace(), "A module stands once.")
vector("words-parrots", "replay --modules AB --parrots C", trace(), "Parrots are among the modules.")
vector("words-count", "make 0 100001", b"", "The most entries are 100,000.")

README = """# Vectors

Small inputs with the words that read them, the output and the status, for programs other than this one: whoever writes
a reflector for M17 can feed them to it, or to parts of it.

Each has four files. `NAME.args` has the words, one on a line. `NAME.in` has the bytes of the standard input, `NAME.out`
the bytes of the standard output, and `NAME.status` the status with which the program ends. To run them all:

    python3 conformance/compare.py --program ./m17 --vectors conformance/vectors

`show` reads datagrams in hex, `judge` moments, talkers and stream packets, `replay` what a link heard, and `check` what
a module did; `inputs.txt` tells in words what the inputs of the last three hold. `serve --rules` reads rules of callsigns
before it asks for its port `x`, which is none: `port failed` says that the text was taken. So does `talk` its script. All of them are spelled out in
`../make_vectors.py`, which writes this folder.

| name | words | status | what it shows |
|---|---|---|---|
"""


# ---- the inputs in words

MOST_PARTS = 40


def input_text(words, data):
    head, parts = parts_of([word.encode() for word in words[:1]], data)
    told = [part_text(words, part) for part in parts]
    if head and head not in (TRACE_MAGIC, book_head(65, 0), ONE.magic + b"A"):
        told.insert(0, "bytes " + head.hex().upper())
    if len(told) > MOST_PARTS:
        told[MOST_PARTS:] = ["and %d more" % (len(told) - MOST_PARTS)]
    return "".join("  %s\n" % line for line in told)


def part_text(words, part):
    """An entry or a record."""
    try:
        if words[:1] == ["replay"]:
            return entry_text(read_trace(TRACE_MAGIC + part)[0])
        if words[:1] == ["check"]:
            return record_text(read_book(book_head(65, 0) + part)[1][0])
        if words[:1] == ["migrate"]:
            return record_text(read_book(ONE.magic + b"A" + part, ONE)[1][0])
    except InputRefused:
        pass
    if words[:1] == ["judge"] and len(part) == 64:
        return "at %d talker %d %s" % (number(part[:8]), number(part[8:10]), short_text(part[10:]))
    return "bytes " + part.hex().upper()


def entry_text(entry):
    if isinstance(entry, Datagram):
        return "at %d from %s: %s" % (entry.moment, peer_text(entry.peer), short_text(entry.bytes))
    return "at %d quiet" % entry.moment if isinstance(entry, Quiet) else "fault"


def record_text(record):
    who = "at %d place %d generation %d" % (record.moment, record.place, record.generation)
    if record.kind == 1:
        return who + (" joins to listen" if record.listens else " joins")
    if record.kind == 2:
        return who + " leaves"
    value = ""
    if record.verdict == "busy":
        value = " by place %d generation %d" % (number(record.value[:4]), number(record.value[4:]))
    elif record.verdict == "late":
        value = " %d" % number(record.value)
    return "%s %s: %s%s" % (who, short_text(record.packet.bytes), record.verdict, value)


def short_text(data):
    packet = decode(data)
    if isinstance(packet, Stream):
        return "stream %04X number %d%s" % (packet.sid, packet.number, " end" if packet.last else "")
    return packet_text(packet) + (", bytes " + data.hex().upper() if isinstance(packet, Refused) else "")


def files():
    """The contents of the folder, by name."""
    contents = {}
    rows = []
    inputs = []
    for name, words, data, shows in VECTORS:
        status, output = reference.run([word.encode() for word in words], lambda: data)
        contents[name + ".args"] = "".join(word + "\n" for word in words).encode()
        contents[name + ".in"] = data
        contents[name + ".out"] = output
        contents[name + ".status"] = b"%d\n" % status
        rows.append("| `%s` | %s | %d | %s |\n" % (name, "`%s`" % " ".join(words) if words else "none", status, shows))
        if data and words[:1] not in (["show"], ["serve"]):
            inputs.append("%s\n%s" % (name, input_text(words, data)))
    contents["README.md"] = (README + "".join(rows)).encode()
    contents["inputs.txt"] = "\n".join(inputs).encode()
    return contents


def main():
    os.makedirs(FOLDER, exist_ok=True)
    contents = files()
    for path in glob.glob(os.path.join(FOLDER, "*")):
        if os.path.basename(path) not in contents:
            os.remove(path)
    for name, content in contents.items():
        with open(os.path.join(FOLDER, name), "wb") as file:
            file.write(content)
    print("%d vectors" % len(VECTORS))


if __name__ == "__main__":
    main()
