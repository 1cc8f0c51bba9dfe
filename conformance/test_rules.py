#!/usr/bin/env python3
"""Tests of the rules of callsigns: worked examples, and the same rules looked up in another way on drawn cases.

    python3 conformance/test_rules.py
"""

import collections
import itertools
import os
import unittest

import rule_cases
from draws import stream
from packets import LETTERS, Refused, Stream, address_text, decode, encode, has_callsign
from rules import RulesRefused, allowed, matches, read_rules

EXAMPLES = os.path.join(os.path.dirname(os.path.dirname(os.path.abspath(__file__))), "examples")


def refusal(data):
    try:
        read_rules(data)
    except RulesRefused as refused:
        return refused.place, refused.reason
    return None


def joins(magic, call, module):
    return decode(magic + encode(call).to_bytes(6, "big") + module)


def talks(call):
    return decode(stream(1, 0, source=encode(call)))


class Texts(unittest.TestCase):
    def test_refusals(self):
        for text, said in (
            (b"", None),
            (b"\n\r\n; nothing here\n;", None),
            (b"deny talk A N0CALL", (0, "modules")),
            (b"allow", (0, "kind")),
            (b"deny conn A ", (0, "pattern")),
            (b"allow any * *\n\nreject any * *\n", (2, "act")),
            (b"allow  any * *", (0, "kind")),
            (b"allow conn ABA *", (0, "modules")),
            (b"allow any * AB1CD ", (0, "pattern")),
            (b"allow any *  *", None),
            (b"allow any * #", (0, "pattern")),
            (b"allow any * #*", None),
            (b"allow any * A#*", (0, "pattern")),
            (b"allow any * ABCDEFGHIJ*", (0, "pattern")),
            (b"allow any * *\r\r\n", (0, "pattern")),
            (b"\n" * 65536, None),
            (b"\n" * 65537, (65536, "large")),
            (b"wrong\n" + b"\n" * 65537, (65536, "large")),
        ):
            self.assertEqual(refusal(text), said, text[:40])


class Packets(unittest.TestCase):
    def test_first_rule(self):
        closed = read_rules(b"allow any * #CLUB\nallow any * AB1CD\nallow any * N0*\ndeny any * *")
        self.assertTrue(allowed(closed, talks("N0CALL")))
        self.assertFalse(allowed(closed, talks("N1CALL")))
        self.assertTrue(allowed(closed, joins(b"CONN", "#CLUB", b"B")))
        self.assertFalse(allowed(closed, joins(b"CONN", "CLUB", b"B")))
        club = read_rules(b"deny any B *")
        self.assertFalse(allowed(club, joins(b"LSTN", "AB1CD", b"B")))
        self.assertTrue(allowed(club, joins(b"LSTN", "AB1CD", b"A")))
        self.assertTrue(allowed(club, talks("AB1CD")))

    def test_addresses_without_callsign(self):
        for address in rule_cases.NO_CALLS:
            self.assertTrue(matches("*", address))
            self.assertFalse(matches("#*", address))

    def test_example(self):
        with open(os.path.join(EXAMPLES, "rules.txt"), "rb") as file:
            rules = read_rules(file.read())
        self.assertFalse(allowed(rules, talks("N0CALL")))
        self.assertTrue(allowed(rules, talks("AB1CD")))


def is_refused_line(line):
    """Whether no act, kind, modules and pattern spell the line: by trying what it can begin with."""
    for act, kind in itertools.product((b"allow", b"deny"), (b"conn", b"lstn", b"talk", b"any")):
        front = act + b" " + kind + b" "
        if line.startswith(front):
            modules, space, pattern = line[len(front) :].partition(b" ")
            good = modules == b"*" or (kind != b"talk" and modules and sorted(set(modules)) == sorted(modules)
                                       and all(65 <= byte <= 90 for byte in modules))
            bound = 10 if pattern[-1:] == b"*" else 9
            body = pattern[:-1] if pattern[-1:] == b"*" else pattern
            letters = body[1:] if body[:1] == b"#" else body
            spelled = all(byte in LETTERS.encode() for byte in letters) and len(pattern) <= bound
            if pattern[-1:] != b"*":
                spelled = spelled and letters != b"" and letters[-1:] != b" "
            return not (good and space and spelled)
    return True


class Drawn(unittest.TestCase):
    def test_cases(self):
        seen = collections.Counter()
        for index in range(1500):
            data, datagrams = rule_cases.case(7, index)
            said = refusal(data)
            seen[said and said[1]] += 1
            if said and said[1] == "large":
                self.assertGreater(len(data), 65536)
                continue
            ruled = [
                (place, line)
                for place, line in enumerate(line.removesuffix(b"\r") if hasattr(line, "removesuffix")
                                             else line[:-1] if line[-1:] == b"\r" else line
                                             for line in data.split(b"\n"))
                if line and line[:1] != b";"
            ]
            wrong = [place for place, line in ruled if is_refused_line(line)]
            self.assertEqual(said and said[0], wrong[0] if wrong else None)
            if not wrong:
                self.look_up(read_rules(data), datagrams, seen)
        for reason in (None, "act", "kind", "modules", "pattern", "large", "allowed", "denied"):
            self.assertGreater(seen[reason], 5, reason)

    def look_up(self, rules, datagrams, seen):
        """The act of the last rule, from the back, at which some rule fits: the first that does."""
        for data in datagrams:
            packet = decode(data)
            answer = allowed(rules, packet)
            seen["allowed" if answer else "denied"] += 1
            if isinstance(packet, Refused):
                self.assertTrue(answer)
                continue
            decided = True
            for rule in reversed(rules):
                if self.is_about(rule, packet):
                    decided = rule.act == "allow"
            self.assertEqual(answer, decided)

    def is_about(self, rule, packet):
        if isinstance(packet, Stream):
            there, address = rule.kind in ("talk", "any") and rule.modules == "*", int.from_bytes(packet.bytes[12:18], "big")
        elif packet.kind in ("CONN", "LSTN"):
            there = rule.kind in (packet.kind.lower(), "any") and (rule.modules == "*" or packet.module in rule.modules)
            address = packet.source
        else:
            return False
        call = address_text(address) if has_callsign(address) else None
        if rule.pattern == "*":
            return there
        if rule.pattern[-1] == "*":
            return there and call is not None and call[: len(rule.pattern) - 1] == rule.pattern[:-1]
        return there and encode(rule.pattern) == address


if __name__ == "__main__":
    unittest.main()
