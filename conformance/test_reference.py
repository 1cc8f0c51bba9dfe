#!/usr/bin/env python3
"""Tests of the reference: worked examples.

    python3 conformance/test_reference.py
"""

import collections
import os
import unittest

import made
import reference
from books import book_record
from draws import named, sealed, stream
from files import TRACE_MAGIC, InputRefused, read_trace
from generate import judge_record
from packets import LETTERS, Control, Refused, Stream, address_text, crc, decode, encode
from reflector import Peer, peer_text
from traces import FAULT, datagram, quiet

REPOSITORY = os.path.dirname(os.path.dirname(os.path.abspath(__file__)))
HERE = Peer(False, bytes([10, 0, 0, 1]) + bytes(12), 17000)
P1, P2, P3 = ((False, bytes([10, 0, 0, n]), 17000) for n in (1, 2, 3))
ACKN, NACK, DISC = b"ACKN", b"NACK", b"DISC"
PING_OF_REFLECTOR = bytes.fromhex("50494E47001389F9BAED")
DISC_OF_REFLECTOR = bytes.fromhex("44495343001389F9BAED")


def output(words, data=b""):
    """The status and the lines of the reference."""
    status, out = reference.run([word if isinstance(word, bytes) else word.encode() for word in words], lambda: data)
    return status, out.decode().split("\n")[:-1]


def conn(callsign, module):
    return named("CONN", encode(callsign), module)


def lstn(callsign, module):
    return named("LSTN", encode(callsign), module)


def pong(callsign):
    return named("PONG", encode(callsign))


def trace(*entries):
    return TRACE_MAGIC + b"".join(entries)


def said(data, parrots="", modules="ABC", places=64):
    """What is said to each peer of a trace, in order, by the last byte of its IPv4 address."""
    said = collections.defaultdict(list)
    plan = reference.Plan(encode("M17-TST"), set(modules), set(parrots), places, reference.LIMIT_MS)
    reference.reflect(plan, read_trace(data), lambda peer, datagram: said[peer.ip[3]].append(datagram))
    return dict(said)


def hex_lines(*texts):
    return output(["show"], "".join(text + "\n" for text in texts).encode())


class Bytes(unittest.TestCase):
    def test_the_crc_of_known_bytes(self):
        for data, value in (
            (b"", 0xFFFF),
            (b"A", 0x206E),
            (b"123456789", 0x772B),
            (bytes(range(256)), 0x1C31),
        ):
            self.assertEqual(crc(data), value)

    def test_the_crc_is_the_remainder_of_a_long_division(self):
        for data in (b"", b"A", b"AB", bytes(range(52)), b"M17 " + bytes(48)):
            bits = [byte >> place & 1 for byte in data for place in range(7, -1, -1)] + [0] * 16
            bits[:16] = [1 - bit for bit in bits[:16]]
            divisor = [int(bit) for bit in format(0x15935, "b")]
            for at in range(len(bits) - 16):
                if bits[at]:
                    bits[at : at + 17] = [a ^ b for a, b in zip(bits[at : at + 17], divisor)]
            self.assertEqual(crc(data), int("".join(map(str, bits[-16:])), 2))

    def test_callsigns_and_addresses(self):
        for text, address in (
            ("AB1CD", 0x9FDD51),
            ("AB1CD", 10476881),
            ("N0CALL", 0x4B13D106),
            ("M17-TST", 0x1389F9BAED),
            (".........", 0xEE6B27FFFFFF),
            (" A", 40),
            ("A", 1),
            ("#A", 0xEE6B28000001),
            ("#AB", 0xEE6B28000051),
            ("#........", 0xF46108FFFFFF),
        ):
            self.assertEqual(encode(text), address)
            self.assertEqual(address_text(address), text)
        for address, text in (
            (0, "000000000000"),
            (0xEE6B28000000, "EE6B28000000"),
            (0xF46109000000, "F46109000000"),
            (2**48 - 1, "broadcast"),
        ):
            self.assertEqual(address_text(address), text)

    def test_each_callsign_of_one_and_two_letters(self):
        for start, sign in ((0, ""), (0xEE6B28000000, "#")):
            for number in range(1, 1600):
                text = sign + LETTERS[number % 40] + (LETTERS[number // 40] if number >= 40 else "")
                self.assertEqual(address_text(start + number), text)
                self.assertEqual(encode(text), start + number)

    def test_texts_that_are_no_callsigns(self):
        for text in ("", "ABCDEFGHIJ", "a", "A ", "A_", "\u00c4", "#", "# ", "##", "A#", "#ABCDEFGHI", "#a"):
            self.assertIsNone(encode(text))

    def test_a_packet_is_read(self):
        packet = stream(0x1234, 5)
        self.assertEqual(decode(packet), Stream(0x1234, 5, False, packet))
        expected = crc(packet[:52])
        spoiled = packet[:53] + bytes([packet[53] ^ 1])
        self.assertEqual(decode(spoiled), Refused("crc %04X %04X" % (expected ^ 1, expected)))
        self.assertEqual(decode(b"DISC"), Control("DISC", None, None, b"DISC"))

    def test_peers_have_texts(self):
        self.assertEqual(peer_text(HERE), "10.0.0.1:17000")
        six = Peer(True, bytes.fromhex("20010db8000000000000000000000001"), 65535)
        self.assertEqual(peer_text(six), "[2001:0db8:0000:0000:0000:0000:0000:0001]:65535")


class Show(unittest.TestCase):
    def test_packets(self):
        for line, text in (
            ("434F4E4E0000009FDD5141", "conn AB1CD A"),
            ("4C53544E00004B13D1065A", "lstn N0CALL Z"),
            ("434F4E4E0000009FDD515B", "refused module 5B"),
            ("434F4E4E00000000000041", "refused address 000000000000"),
            ("434F4E4EFFFFFFFFFFFF41", "refused address broadcast"),
            ("434F4E4E0000000000005B", "refused address 000000000000"),
            ("434F4E4EEE6B2800005141", "conn #AB A"),
            ("434F4E4EEE6B2800000041", "refused address EE6B28000000"),
            ("434F4E4EF4610900000041", "refused address F46109000000"),
            ("434F4E4E0000009FDD51", "refused magic 434F4E4E"),
            ("44495343", "disc"),
            ("444953430000009FDD51", "disc AB1CD"),
            ("50494E470000009FDD51", "ping AB1CD"),
            ("504F4E470000009fdd51", "pong AB1CD"),
            ("41434B4E", "ackn"),
            ("4E41434B", "nack"),
            ("", "refused length 0"),
            ("00" * 53, "refused length 53"),
            ("4D313720" + "00" * 60, "refused length 64"),
        ):
            self.assertEqual(hex_lines(line), (0, [text]))

    def test_a_stream_packet(self):
        text = "stream 1234 dst broadcast src AB1CD type 0005 stream voice enc 0 sub 0 can 0"
        text += " meta 0000000000000000000000000000 number 5 last 0 payload 00000000000000000000000000000000"
        self.assertEqual(hex_lines(stream(0x1234, 5).hex()), (0, [text]))
        packet = bytearray(stream(0x1234, 5, True))
        packet[18:20] = b"\x07\x85"
        text = text.replace("0005 stream voice enc 0 sub 0 can 0", "0785 stream voice enc 0 sub 0 can 15")
        self.assertEqual(hex_lines(sealed(bytes(packet)).hex()), (0, [text.replace("last 0", "last 1")]))

    def test_refusals(self):
        for data, lines in (
            (b"4", ["input refused at 0: odd"]),
            (b"41434B4E\n4g", ["ackn", "input refused at 1: digit"]),
            (b"zzz\n", ["input refused at 0: odd"]),
            (b"zz\n", ["input refused at 0: digit"]),
            (b"A" * 257 + b"\n", ["input refused at 0: long"]),
            (b"z" * 257, ["input refused at 0: long"]),
            (b"00\r\r\n", ["input refused at 0: odd"]),
            (b"\xc3\xa9\n", ["input refused at 0: digit"]),
        ):
            self.assertEqual(output(["show"], data), (1, lines))

    def test_ends_of_lines(self):
        nothing, ackn = "refused length 0", "ackn"
        for data, lines in (
            (b"", []),
            (b"\n", [nothing]),
            (b"\r", [nothing]),
            (b"\n\n", [nothing, nothing]),
            (b"41434b4e", [ackn]),
            (b"41434b4e\r", [ackn]),
            (b"41434b4e\r\n", [ackn]),
            (b"A" * 256 + b"\r\n", ["refused length 128"]),
            (b"A" * 256 + b"\r", ["refused length 128"]),
        ):
            self.assertEqual(output(["show"], data), (0, lines))

    def test_the_most_lines(self):
        status, lines = output(["show"], b"\n" * 1000000)
        self.assertEqual((status, len(lines)), (0, 1000000))
        status, lines = output(["show"], b"\n" * 1000000 + b"zzz")
        self.assertEqual((status, lines[-1]), (1, "input refused at 1000000: large"))


class Judge(unittest.TestCase):
    def verdicts(self, *records):
        status, lines = output(["judge"], b"".join(judge_record(*record) for record in records))
        self.assertEqual(status, 0)
        return [line.split(" ", 1)[1] for line in lines]

    def of_one_talker(self, *moments_and_numbers):
        return self.verdicts(*((moment, 0, stream(1, number)) for moment, number in moments_and_numbers))

    def test_two_talkers(self):
        data = judge_record(0, 3, stream(1, 0)) + judge_record(0, 4, stream(2, 0))
        self.assertEqual(output(["judge"], data), (0, ["0 opened", "1 busy 3"]))
        self.assertEqual(output(["judge"], data[:65]), (1, ["0 opened", "input refused at 65: cut"]))

    def test_repeats_and_late_frames(self):
        self.assertEqual(
            self.of_one_talker((0, 5), (40, 5), (80, 4), (120, 7), (160, 6)),
            ["opened", "repeat", "late 5", "continued", "late 7"],
        )

    def test_numbers_go_round(self):
        self.assertEqual(self.of_one_talker((0, 32767), (40, 0)), ["opened", "continued"])
        self.assertEqual(self.of_one_talker((0, 0), (40, 16383)), ["opened", "continued"])
        self.assertEqual(self.of_one_talker((0, 0), (40, 16384)), ["opened", "late 0"])

    def test_a_stream_is_remembered_after_its_end(self):
        records = [(0, 7, 0), (40, 9, 1), (80, 8, 0), (10039, 0, 0), (10040, 0, 0)]
        self.assertEqual(
            self.verdicts(*((moment, 0, stream(1, number, last)) for moment, number, last in records)),
            ["opened", "continued", "after-end", "after-end", "opened"],
        )

    def test_a_silent_floor_is_given_up(self):
        self.assertEqual(
            self.verdicts(
                (0, 0, stream(1, 0)),
                (1599, 1, stream(2, 0)),
                (1600, 1, stream(2, 0)),
                (1600, 0, stream(1, 1)),
            ),
            ["opened", "busy 0", "opened", "busy 1"],
        )

    def test_a_refused_packet_moves_the_moment(self):
        self.assertEqual(
            self.verdicts((0, 0, stream(1, 0)), (1600, 0, bytes(54)), (10, 1, stream(2, 0))),
            ["opened", "refused magic 00000000", "opened"],
        )

    def test_the_most_records(self):
        with self.assertRaises(InputRefused) as refusal:
            collections.deque(reference.judge(bytes(64000001)), 0)
        self.assertEqual(str(refusal.exception), "input refused at 64000000: large")


ONE_EVENING = (
    datagram(0, P1, conn("AB1CD", "A")),
    datagram(40, P1, stream(0x1234, 0)),
    datagram(50, P2, lstn("N0CALL", "A")),
    datagram(80, P1, stream(0x1234, 1)),
    datagram(120, P1, stream(0x1234, 2)),
    datagram(130, P2, named("DISC", encode("N0CALL"))),
    datagram(160, P1, stream(0x1234, 3, True)),
)


class Replay(unittest.TestCase):
    def test_traces_of_nothing(self):
        self.assertEqual(output(["replay"], bytes.fromhex("4D31375452414345")), (0, []))
        self.assertEqual(output(["replay"]), (1, ["input refused at 0: cut"]))

    def test_a_talker_and_a_listener(self):
        lines = "0 A join,1 A opened,2 A join,3 A continued,4 A continued,5 A leave,6 A continued"
        self.assertEqual(output(["replay"], trace(*ONE_EVENING)), (0, lines.split(",")))
        datagrams = said(trace(*ONE_EVENING))
        self.assertEqual(datagrams[2], [ACKN, stream(0x1234, 1), stream(0x1234, 2), DISC])
        self.assertEqual(datagrams[1], [ACKN, DISC_OF_REFLECTOR])

    def test_a_cut_trace_is_a_shorter_one_or_cut(self):
        whole = trace(*ONE_EVENING)
        lengths = [len(trace(*ONE_EVENING[:count])) for count in range(len(ONE_EVENING) + 1)]
        for length in range(len(whole)):
            status, lines = output(["replay"], whole[:length])
            if length in lengths:
                self.assertEqual((status, len(lines)), (0, lengths.index(length)))
            else:
                self.assertEqual((status, lines), (1, ["input refused at %d: cut" % length]))

    def test_listeners_strangers_and_modules_that_are_not_served(self):
        data = trace(
            datagram(0, P2, lstn("N0CALL", "A")),
            datagram(0, P2, stream(1, 0)),
            datagram(0, P3, stream(2, 0)),
            datagram(0, P3, conn("AB1CD", "D")),
        )
        lines = ["0 A join", "1 A listen-only", "2 not-connected", "3 not-served D"]
        self.assertEqual(output(["replay"], data), (0, lines))
        self.assertEqual(said(data)[3], [NACK])

    def test_two_places(self):
        data = trace(
            *(datagram(0, peer, conn("AB1CD", "A")) for peer in (P1, P2, P3)),
            datagram(0, P1, named("DISC", encode("AB1CD"))),
            datagram(0, P3, conn("AB1CD", "A")),
        )
        lines = ["0 A join", "1 A join", "2 full", "3 A leave", "4 A join"]
        self.assertEqual(output(["replay", "--places", "2"], data), (0, lines))
        self.assertEqual(said(data, places=2)[3], [NACK, ACKN, DISC_OF_REFLECTOR])

    def test_a_peer_moves(self):
        data = trace(
            datagram(0, P1, conn("AB1CD", "A")),
            datagram(10, P1, conn("AB1CD", "B")),
            datagram(20, P1, conn("AB1CD", "B")),
        )
        self.assertEqual(output(["replay"], data), (0, ["0 A join", "1 B join", "2 B again"]))
        self.assertEqual(said(data)[1], [ACKN, ACKN, ACKN, DISC_OF_REFLECTOR])

    def test_a_silent_peer_is_pinged_before_it_leaves(self):
        data = trace(datagram(0, P1, conn("AB1CD", "A")), quiet(29999), quiet(30000))
        ping = PING_OF_REFLECTOR
        self.assertEqual(said(data)[1], [ACKN, ping, ping, DISC_OF_REFLECTOR])

    def test_what_decodes_keeps_a_peer_and_what_is_refused_does_not(self):
        for datagrams, is_kept in (
            ([ACKN], True),
            ([NACK], True),
            ([conn("AB1CD", "Z")], True),
            ([pong("N0CALL")], True),
            ([conn("AB1CD", "[")], False),
            ([b""], False),
        ):
            entries = [datagram(29000, P1, data) for data in datagrams]
            data = trace(datagram(0, P1, conn("AB1CD", "A")), *entries, datagram(30000, P1, pong("AB1CD")))
            line = "2 A alive" if is_kept else "2 not-connected"
            self.assertEqual(output(["replay"], data)[1][-1], line)

    def test_a_stranger_is_told_of_a_long_disc_alone(self):
        data = trace(datagram(0, P1, DISC), datagram(0, P2, named("DISC", encode("AB1CD"))))
        self.assertEqual(output(["replay"], data), (0, ["0 not-connected", "1 not-connected"]))
        self.assertEqual(said(data), {2: [DISC]})

    def test_faults(self):
        lines = ["%d fault" % index for index in range(16)]
        self.assertEqual(output(["replay"], trace(FAULT * 16)), (7, lines + ["link lost"]))
        self.assertEqual(output(["replay"], trace(FAULT * 15)), (0, lines[:15]))
        self.assertEqual(output(["replay"], trace(FAULT * 15, quiet(0), FAULT * 15))[0], 0)

    def test_nothing_is_heard_after_a_lost_link(self):
        data = trace(FAULT * 16, datagram(0, P1, conn("AB1CD", "A")))
        status, lines = output(["replay", "--summary"], data)
        self.assertEqual((status, lines[0], lines[-2], lines[-1]), (7, "entries 16", "fault 16", "link lost"))
        data += b"\t"
        self.assertEqual(output(["replay"], data), (1, ["input refused at %d: kind 09" % (len(data) - 1)]))

    def test_refusals(self):
        head = b"\1" + bytes(8)
        for data, text in (
            (b"M17TRACX", "7: field"),
            (b"m17trace\1", "0: field"),
            (b"XXX", "3: cut"),
            (trace(b"\4"), "8: kind 04"),
            (trace(b"\2" + bytes(7)), "16: cut"),
            (trace(head + b"\5"), "17: field"),
            (trace(head + b"\4" + bytes(6) + b"\x41"), "24: field"),
            (trace(head + b"\4" + bytes(6) + b"\x40"), "25: cut"),
            (trace(FAULT * 1000000, b"\t"), "1000008: large"),
            (bytes(67108865), "67108864: large"),
            (bytes(67108864), "0: field"),
        ):
            self.assertEqual(output(["replay"], data), (1, ["input refused at " + text]))

    def test_a_recording_comes_back(self):
        entries = [datagram(0, P1, conn("AB1CD", "A"))]
        entries += [datagram(40 * k, P1, stream(0x1234, k, k == 750)) for k in range(751)]
        for n in range(750):
            entries.append(quiet(31000 + 40 * n))
            if 31000 + 40 * n == 45000:
                entries.append(datagram(45000, P1, pong("AB1CD")))
        data = trace(*entries)
        words = ["replay", "--modules", "A", "--parrots", "A", "--summary"]
        line = "peer 10.0.0.1:17000 ackn 1 nack 0 ping 20 pong 0 disc 1 frame 750"
        self.assertEqual(output(words, data)[1][-1], line)
        echoes = [decode(datagram) for datagram in said(data, "A", "A")[1] if datagram[:4] == b"M17 "]
        self.assertEqual({echo.sid for echo in echoes}, {0xEDCB})
        self.assertEqual((echoes[-1].number, echoes[-1].last), (749, True))
        self.assertEqual([echo.last for echo in echoes[:-1]], [False] * 749)

    def test_a_recording_of_one_who_leaves_does_not_come_back(self):
        recorded = [datagram(0, P1, conn("AB1CD", "A")), datagram(0, P1, stream(1, 0, True))]
        leaves_and_comes = [datagram(999, P1, DISC), datagram(999, P1, conn("AB1CD", "A"))]
        frames = [stream(0xFFFE, 0, True)]
        for entries, expected in ((recorded, frames), (recorded + leaves_and_comes, [])):
            data = trace(*entries, quiet(1000), quiet(3000))
            self.assertEqual([it for it in said(data, "A")[1] if it[:4] == b"M17 "], expected)

    def test_a_recording_without_an_end_is_closed_when_the_floor_is_free(self):
        data = trace(
            datagram(0, P1, conn("AB1CD", "A")),
            datagram(0, P1, stream(1, 0)),
            *(quiet(moment) for moment in (1599, 1700, 2699, 2700)),
        )
        self.assertEqual([it for it in said(data, "A")[1] if it[:4] == b"M17 "], [stream(0xFFFE, 0, True)])
        self.assertEqual([it for it in said(data[:-9], "A")[1] if it[:4] == b"M17 "], [])


class Make(unittest.TestCase):
    TWO = """
        4D31375452414345
        01 0000000000000000 04 0A000001 4268 0B 434F4E4E 000000017960 41
        01 0000000000000000 04 0A000002 4268 0B 434F4E4E 000000027360 42
    """
    SUMMARY = (
        ["entries 2", "join 2"]
        + [word + " 0" for word in reference.COUNTED if word != "join"]
        + ["peer 10.0.0.%d:17000 ackn 1 nack 0 ping 0 pong 0 disc 1 frame 0" % n for n in (1, 2)]
    )

    def test_two_entries(self):
        data = reference.run([b"make", b"0", b"2"], None)[1]
        self.assertEqual(data, bytes.fromhex("".join(self.TWO.split())))
        self.assertEqual(output(["replay"], data), (0, ["0 A join", "1 B join"]))
        self.assertEqual(output(["replay", "--summary"], data), (0, self.SUMMARY))

    def test_an_evening(self):
        data = b"".join(made.make(17, 20000))
        self.assertEqual(data, b"".join(made.make(17, 20000)))
        status, lines = output(["replay", "--summary"], data)
        counts = [(line.split()[0], int(line.split()[1])) for line in lines if not line.startswith("peer")]
        self.assertEqual((status, counts[0], counts[1]), (0, ("entries", 20000), ("join", 12)))
        self.assertEqual(sum(count for _, count in counts[1:]), 20000)
        for word in ("refused", "full", "not-connected"):
            self.assertIn((word, 0), counts)
        self.assertEqual(len(lines) - len(counts), 12)


class Check(unittest.TestCase):
    EMPTY = bytes.fromhex("4D3137424F4F4B32 41 0000000000000000")

    def refused(self, data, text):
        self.assertEqual(output(["check"], data), (1, ["input refused at " + text]))

    def join(self, moment, place, generation):
        return book_record(1, 0, 0, moment, (place, generation), b"\0" + (1).to_bytes(6, "big"))

    def packet(self, place, sid, verdict, value=bytes(12)):
        return book_record(3, 0, 0, 0, (place, 0), bytes([verdict]) + value + stream(sid, 0))

    def test_empty_and_refused_books(self):
        self.assertEqual(output(["check"], self.EMPTY), (0, ["legal 0 records 0 streams 0 admitted"]))
        self.refused(self.EMPTY[:8], "8: cut")
        self.refused(self.EMPTY[:16], "16: cut")
        self.refused(self.EMPTY + b"\t", "17: kind 09")
        self.refused(b"M17B", "4: cut")
        self.refused(b"M17BOOK2a\0", "8: field")
        self.refused(b"M17BOOK1A", "7: field")
        self.refused(bytes(67108873), "67108872: large")

    def test_fields(self):
        for data, text in (
            (b"\1\4", "18: field"),
            (self.join(0, 256, 0), "35: field"),
            (self.join(0, 0, 0)[:-7] + b"\2", "47: field"),
            (self.join(0, 0, 0)[:-6] + bytes(6), "48: field"),
            (self.packet(0, 1, 10), "47: field"),
            (self.packet(0, 1, 1, bytes(11) + b"\1"), "48: field"),
            (self.packet(0, 1, 5, bytes(10) + b"\x80\0"), "48: field"),
            (self.packet(0, 1, 3, b"\0\0\1\0" + bytes(8)), "48: field"),
            (self.packet(0, 1, 1)[:-1] + b"\0", "60: field"),
        ):
            self.refused(self.EMPTY + data, text)

    def test_two_streams_that_overlap(self):
        joins = self.EMPTY + self.join(0, 0, 0) + self.join(0, 1, 0)
        first = joins + self.packet(0, 1, 1)
        self.refused(first + self.packet(1, 2, 1), "3: verdict")
        legal = first + self.packet(1, 2, 3)
        self.assertEqual(output(["check"], legal), (0, ["legal 4 records 1 streams 1 admitted"]))
        self.refused(first + self.packet(1, 2, 3, bytes(11) + b"\1"), "3: verdict")

    def test_moments_come_before_members(self):
        self.refused(self.EMPTY + self.join(10, 0, 0) + self.join(9, 0, 1), "1: moment")
        self.refused(self.EMPTY + self.join(10, 0, 0) + self.join(10, 0, 1), "1: member")
        self.refused(self.EMPTY + book_record(2, 0, 0, 0, (0, 0), b"\1"), "0: member")


class Words(unittest.TestCase):
    TRACE = trace(datagram(0, P1, conn("AB1CD", "A")))

    def test_words_that_are_refused(self):
        for words in (
            "",
            "help",
            "Judge",
            "--help",
            "judge --help",
            "judge x",
            "judge -- x",
            "judge --call A",
            "make",
            "make 0",
            "make 0 1 2",
            "make 0 100001",
            "make 18446744073709551616 0",
            "make -1 0",
            "make +1 0",
            "make 0x1 0",
            "make --seed 1 0",
            "replay --places 257",
            "replay --places 0",
            "replay --places +1",
            "replay --modules AA",
            "replay --modules a",
            "replay --modules=",
            "replay --parrots D",
            "replay --parrots=",
            "replay --call",
            "replay --call --",
            "replay --call -- A",
            "replay --call -A",
            "replay --call --summary",
            "replay --call A --call A",
            "replay --call=A --call A",
            "replay --call ABCDEFGHIJ",
            "replay --call a",
            "replay --summary --summary",
            "replay --summary=true",
            "replay --summary=",
            "replay --summar",
            "replay --Summary",
            "replay -s",
            "replay x",
            "replay -- --summary",
        ):
            self.assertEqual(output(words.split(), self.TRACE), (2, ["words refused"]), words)
        for words in ([""], ["judge", ""], ["replay", "--call", "A "], ["make", "", "0"], [b"\xff"], ["show", b"\xff"]):
            self.assertEqual(output(words), (2, ["words refused"]))

    def test_words_that_are_read(self):
        for words in (
            "replay",
            "replay --",
            "replay --call N0CALL --modules ABC --parrots CA --places 256",
            "replay --call=N0CALL --modules=ZA --parrots=Z --places=00000000000000000000000000001",
            "replay --call=-A",
            "replay --call -",
            "replay --places 1 --",
        ):
            self.assertEqual(output(words.split(), self.TRACE), (0, ["0 A join"]), words)
        self.assertEqual(output(["replay", "--call", " A"], self.TRACE), (0, ["0 A join"]))
        self.assertEqual(output("replay --summary --places 1".split(), self.TRACE)[1][0], "entries 1")
        for words in ("make 0 0", "make -- 007 0", "make 0 0 --", "make 0 -- 0"):
            self.assertEqual(reference.run(words.encode().split(), None), (0, TRACE_MAGIC), words)
        for words in ("judge --", "show", "judge"):
            self.assertEqual(output(words.split()), (0, []), words)


class Examples(unittest.TestCase):
    """What docs/operating.md shows of the inputs in examples/."""

    def shown(self, command):
        with open(os.path.join(REPOSITORY, "docs", "operating.md")) as file:
            text = file.read()
        block = text.split("$ ./m17 " + command + "\n", 1)[1]
        lines = []
        for line in block.split("\n"):
            if line.startswith(("$", "```")):
                return lines
            lines.append(line)
        raise AssertionError("no end")

    def test_examples(self):
        for command, name in (("judge", "judge.bin"), ("show", "show.hex"), ("replay", "evening.trace")):
            with open(os.path.join(REPOSITORY, "examples", name), "rb") as file:
                data = file.read()
            self.assertEqual(output([command], data), (0, self.shown("%s < examples/%s" % (command, name))))

    def test_books(self):
        legal = (0, ["legal 10 records 1 streams 4 admitted"])
        for name, said in (("evening", legal), ("disputed", (1, ["input refused at 4: verdict"]))):
            with open(os.path.join(REPOSITORY, "examples", name + ".book"), "rb") as file:
                self.assertEqual(output(["check"], file.read()), said)


if __name__ == "__main__":
    unittest.main()
