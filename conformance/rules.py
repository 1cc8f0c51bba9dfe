#!/usr/bin/env python3
"""Rules of callsigns: who may connect, listen and speak, written from the rules alone.

    rules.py TEXT-FILE < lines of hex digits

reads a rule text and says of each datagram whether it is heard (`allowed`) or not (`denied`). A refused text gives
`input refused at <line or place>: <reason>` and status 1.
"""

import sys
from collections import namedtuple

from packets import LETTERS, Refused, Stream, address_text, decode, encode, has_callsign, number

MOST_BYTES = 65536
KINDS_OF = {"CONN": "conn", "LSTN": "lstn"}

Rule = namedtuple("Rule", "act kind modules pattern")


class RulesRefused(Exception):
    """Where a rule text is refused, a place for `large` and else a line from 0, and why."""

    def __init__(self, place, reason):
        super().__init__("input refused at %d: %s" % (place, reason))
        self.place = place
        self.reason = reason


# ---- the text


def lines_of(data):
    lines = data.split(b"\n")
    if lines[-1] == b"":
        lines.pop()
    return [line[:-1] if line.endswith(b"\r") else line for line in lines]


def are_modules(text):
    return text != "" and all("A" <= letter <= "Z" for letter in text) and len(set(text)) == len(text)


def is_pattern(text):
    if not text.endswith("*"):
        return encode(text) is not None
    front = text[:-1]
    letters = front[1:] if front.startswith("#") else front
    return len(front) <= 9 and all(letter in LETTERS for letter in letters)


def read_line(line):
    """The rule of a line, or the name of its first refused part."""
    act, kind, modules, pattern = (line.decode("latin-1").split(" ", 3) + ["", "", ""])[:4]
    if act not in ("allow", "deny"):
        return "act"
    if kind not in ("conn", "lstn", "talk", "any"):
        return "kind"
    if modules != "*" and (kind == "talk" or not are_modules(modules)):
        return "modules"
    if not is_pattern(pattern):
        return "pattern"
    return Rule(act, kind, modules, pattern)


def read_rules(data):
    if len(data) > MOST_BYTES:
        raise RulesRefused(MOST_BYTES, "large")
    rules = []
    for place, line in enumerate(lines_of(data)):
        if line == b"" or line.startswith(b";"):
            continue
        rule = read_line(line)
        if isinstance(rule, str):
            raise RulesRefused(place, rule)
        rules.append(rule)
    return rules


# ---- what is allowed


def matches(pattern, address):
    if pattern == "*":
        return True
    if not has_callsign(address):
        return False
    text = address_text(address)
    return text.startswith(pattern[:-1]) if pattern.endswith("*") else text == pattern


def fits(rule, kind, module, address):
    """Whether the rule fits: `module` is None of a stream packet, which a rule with modules doesn't touch."""
    if rule.kind not in (kind, "any"):
        return False
    if rule.modules != "*" and (module is None or module not in rule.modules):
        return False
    return matches(rule.pattern, address)


def allowed(rules, packet):
    """Whether a decoded packet is allowed; bytes that are none are heard as they are."""
    if isinstance(packet, Refused):
        return True
    if isinstance(packet, Stream):
        kind, module, address = "talk", None, number(packet.bytes[12:18])
    elif packet.kind in KINDS_OF:
        kind, module, address = KINDS_OF[packet.kind], packet.module, packet.source
    else:
        return True
    for rule in rules:
        if fits(rule, kind, module, address):
            return rule.act == "allow"
    return True


def main(words):
    if len(words) != 1:
        sys.stderr.write(__doc__)
        return 2
    try:
        with open(words[0], "rb") as file:
            rules = read_rules(file.read())
    except RulesRefused as refused:
        print(refused)
        return 1
    for line in sys.stdin:
        packet = decode(bytes.fromhex(line.strip()))
        print("allowed" if allowed(rules, packet) else "denied")
    return 0


if __name__ == "__main__":
    sys.exit(main(sys.argv[1:]))
