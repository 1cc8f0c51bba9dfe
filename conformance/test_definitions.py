#!/usr/bin/env python3
"""Tests of the reference on drawn cases: the rules looked up in whole lists say the same.

    python3 conformance/test_definitions.py
"""

import collections
import unittest

import breaches
import definitions
import generate
import reference
from before_the_ear import Guard
from draws import Draw, around_the_memory, comes_again
from files import InputRefused, read_book, read_trace
from packets import decode, number
from reflector import Datagram


def output(words, data):
    """The lines of the reference."""
    return reference.run(words, lambda: data)[1].decode().split("\n")[:-1]


class WholeLists(unittest.TestCase):
    """`reflector.py` and the guard keep a small state; `definitions.py` looks everything up in the whole list."""

    def agree(self, kind, index):
        words, data = generate.case(kind, 5, index)
        try:
            entries = read_trace(data)[: 90 if kind in ("replay-parrot", "replay-limit") else 40]
        except InputRefused:
            return
        names = ("call", "modules", "parrots", "places", "limit")
        options, _ = reference.read_words([word.decode() for word in words[1:]], names, ("summary",), 0)
        plan = reference.read_plan(options)
        house = definitions.House(plan, entries)
        tallies = collections.Counter()
        heard, is_lost = reference.reflect(plan, entries, lambda peer, datagram: tallies.update([(peer, datagram)]))
        self.assertEqual([text for _, text in heard], house.replay_lines())
        self.assertEqual(tallies, house.said())
        self.assertEqual(is_lost, house.is_lost)

    def test_evenings(self):
        for kind in generate.selected(["replay"]):
            for index in range(1 if kind == "replay-many" else 12):
                if kind != "replay-parrot-full":
                    with self.subTest(kind=kind, index=index):
                        self.agree(kind, index)


    def test_echoes(self):
        """In streams whose frames come again, at ten seconds to the millisecond too."""
        came = collections.Counter()
        for seed in range(60):
            draw, guard, past, moment = Draw("echoes", seed), Guard(), [], 0
            for _ in range(120):
                peer, data = comes_again(draw, [(entry.peer, entry.bytes) for entry in past])
                after, next_moment = None, moment + draw.below(300)
                if past and draw.chance(25):
                    old, after = draw.pick(past), draw.pick((9999, 10000, 10001))
                    peer, data, next_moment = old.peer, old.bytes, old.moment + after
                moment = max(moment, next_moment) if seed % 2 else next_moment  # those of a trace rise
                wanted = definitions.is_echo(past, peer, moment, data)
                self.assertEqual(guard.is_echo(moment, peer, data), wanted, (seed, len(past)))
                past.append(Datagram(moment, peer, data))
                came[after, wanted] += 1
        for kind in ((None, True), (None, False), (9999, True), (10000, True), (10001, False)):
            self.assertGreater(came[kind], 50, kind)

    def test_echoes_among_the_last_packets(self):
        for seed in range(5):
            draw, guard, past, last = Draw("memory", seed), Guard(), [], []
            said = around_the_memory(draw)
            for peer, data in said:
                is_one = guard.is_echo(0, peer, data)
                if peer == 0 and (peer, data) in said[: len(past)]:
                    last.append(is_one)
                    self.assertEqual(is_one, definitions.is_echo(past, peer, 0, data), (seed, len(past)))
                past.append(Datagram(0, peer, data))
            self.assertEqual(last, sorted(last))
            self.assertEqual(set(last), {False, True})

    def check(self, words, data, of):
        """The reference says what the definitions say of the records, or that there are none."""
        try:
            wanted = definitions.check_line(*read_book(data))
        except InputRefused as refusal:
            wanted = str(refusal)
        self.assertEqual(output(words, data), [wanted], of)

    def test_books(self):
        for kind in generate.selected(["check"]):
            for index in range(40 if kind != "check-long" else 0):  # the search takes the third power of their length
                self.check(*generate.case(kind, 5, index), (kind, index))

    def test_each_byte_of_a_book(self):
        """A legal book in which each verdict comes, with each of its bytes changed in turn."""
        for name, data in breaches.with_each_byte_changed((1, 0x80)):
            self.check([b"check"], data, name)

    def test_judge(self):
        for kind in ("judge-calm", "judge-sharp", "judge-wild", "judge-limit"):
            for index in range(10):
                words, data = generate.case(kind, 5, index)
                data = data[: 64 * (300 if kind == "judge-limit" else 70)]
                records = [data[at : at + 64] for at in range(0, len(data), 64)]
                read = [(number(r[:8]), number(r[8:10]), decode(r[10:])) for r in records]
                lines = [self.judge_line(*judged) for judged in zip(definitions.judged(read), read)]
                self.assertEqual(output(words, data), ["%d %s" % numbered for numbered in enumerate(lines)])

    def judge_line(self, verdict, record):
        if verdict is None:
            return "refused " + record[2].reason
        word, value = verdict
        if word == "busy":
            value = value.place
        return word if value is None else "%s %d" % (word, value)


class Generator(unittest.TestCase):
    def test_a_case_is_the_same_each_time(self):
        for kind in generate.KINDS:
            self.assertEqual(generate.case(kind, 1, 2), generate.case(kind, 1, 2))

    def test_all_words_and_reasons_come(self):
        """Each line that a command can print, but for those at the limits of size, comes in some case."""
        words = collections.Counter()
        for kind in generate.KINDS:
            for index in range(40):
                _, out = reference.run(*self.with_input(generate.case(kind, 1, index)))
                for line in out.split(b"\n") if not kind.startswith("make") else ():
                    words.update(line.split(b" "))
        wanted = set(reference.COUNTED) - {"not-member"}
        wanted |= {"cut", "kind", "field", "moment", "member", "verdict", "odd", "digit", "long"}
        wanted |= {"conn", "lstn", "ackn", "nack", "ping", "disc", "stream", "broadcast", "legal", "lost", "words"}
        wanted |= {"length", "magic", "address", "module", "crc", "packet", "voice", "data", "both", "reserved"}
        self.assertEqual([word for word in sorted(wanted) if not words[word.encode()]], [])

    def with_input(self, case):
        words, data = case
        return words, lambda: data


if __name__ == "__main__":
    unittest.main()
