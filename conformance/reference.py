#!/usr/bin/env python3
"""A second implementation of the commands judge, show, check, migrate, replay and make, written from the rules alone.

    reference.py judge|show|check|migrate|replay|make WORDS < input > output
    reference.py serve --call CALL --rules BIND < rules > output
    reference.py talk WORDS < script > output
    reference.py bridge WORDS > output

Of `serve` it has only what comes of the rules: none is refused, or `port failed`, since no BIND can be opened here; so it has
of `talk` the words and the script, and of `bridge` the words; what a bridge does is in `bridges.py`.

It shares no line with the reflector's own program and is there to be compared with it, so it is short and plain. The
rules stand in `packets.py`, `reflector.py`, `files.py` and `made.py`; here are the commands and their words.
"""

import os
import re
import sys
from collections import namedtuple

from files import ONE, InputRefused, book_head, read_book, read_trace, value_bytes
from made import make
from packets import Refused, Stream, decode, encode, number, packet_text
from reflector import Datagram, Floor, Link, Member, peer_text
from rules import RulesRefused, read_rules

# ---- the commands: each gives its lines one by one, and raises what ends it


class LinkLost(Exception):
    """The link's last 16 entries are faults."""


class PortFailed(Exception):
    """The port of a link cannot be opened, as no port can here."""


# How long one may talk where nothing else is said, in milliseconds.
LIMIT_MS = 180000


def judge(data):
    floor = Floor(LIMIT_MS)
    talkers = {}
    for index, at in enumerate(range(0, len(data), 64)):
        if index == 1000000:
            raise InputRefused(at, "large")
        record = data[at : at + 64]
        if len(record) < 64:
            raise InputRefused(len(data), "cut")
        floor.moves_to(number(record[:8]))
        talker = number(record[8:10])
        packet = decode(record[10:])
        if isinstance(packet, Refused):
            yield "%d refused %s" % (index, packet.reason)
            continue
        verdict = floor.judge(talkers.setdefault(talker, Member(talker)), packet)
        value = verdict.value.place if verdict.word == "busy" else verdict.value
        yield "%d %s" % (index, verdict.word) + ("" if value is None else " %d" % value)


HEX_DIGITS = b"0123456789ABCDEFabcdef"


def show(data):
    lines = data.split(b"\n")
    if lines[-1] == b"":
        lines.pop()
    for index, line in enumerate(lines):
        if index == 1000000:
            raise InputRefused(index, "large")
        if line.endswith(b"\r"):
            line = line[:-1]
        if len(line) > 256:
            raise InputRefused(index, "long")
        if len(line) % 2:
            raise InputRefused(index, "odd")
        if any(byte not in HEX_DIGITS for byte in line):
            raise InputRefused(index, "digit")
        yield packet_text(decode(bytes.fromhex(line.decode())))


def check(data):
    head, kept = read_book(data)
    floor = Floor(head.limit)
    members = {}
    records = streams = admitted = 0
    for index, record in enumerate(kept):
        if record.moment < floor.moment:
            raise InputRefused(index, "moment")
        floor.moves_to(record.moment)
        member = members.get(record.place)
        is_in = member is not None and member.generation == record.generation
        if record.kind == 1:
            if member is not None:
                raise InputRefused(index, "member")
            members[record.place] = Member(record.place, record.generation, listens=record.listens)
        elif record.kind == 2:
            if not is_in:
                raise InputRefused(index, "member")
            members.pop(record.place).is_in = False
        else:
            verdict = floor.judge(member if is_in else None, record.packet)
            if (verdict.word, value_bytes(verdict)) != (record.verdict, record.value):
                raise InputRefused(index, "verdict")
            streams += verdict.word == "opened"
            admitted += verdict.word in ("opened", "continued")
        records += 1
    yield "legal %d records %d streams %d admitted" % (records, streams, admitted)


def migrate(data):
    """A book of version 1 as one of version 2, which says the same of a module without a limit."""
    head, _ = read_book(data, ONE)
    yield book_head(head.letter, 0)
    yield data[len(ONE.magic) + 1 :]


Plan = namedtuple("Plan", "name modules parrots places limit")

COUNTED = (
    "join again leave pong alive opened continued busy repeat late after-end timed-out not-member"
    " listen-only refused not-connected not-served full stray quiet fault"
).split()
TALLIED = {b"ACKN": "ackn", b"NACK": "nack", b"PING": "ping", b"PONG": "pong", b"DISC": "disc", b"M17 ": "frame"}
NOTHING_SAID = dict.fromkeys(TALLIED.values(), 0)


def reflect(plan, entries, say):
    """What becomes of each entry until the link ends, as a word and the text of its line; and whether it was lost."""
    link = Link(plan, say)
    heard = []
    for entry in entries:
        heard.append(link.hear(entry))
        if link.is_lost:
            return heard, True
    link.end()
    return heard, False


def replay(plan, is_summary, data):
    entries = read_trace(data)
    tallies = {}

    def say(peer, datagram):
        tally = tallies.setdefault(peer, dict(NOTHING_SAID))
        tally[TALLIED[datagram[:4]]] += 1

    heard, is_lost = reflect(plan, entries, say)
    if is_summary:
        yield "entries %d" % len(heard)
        for counted in COUNTED:
            yield "%s %d" % (counted, sum(word == counted for word, _ in heard))
        for peer in sorted({entry.peer for entry in entries[: len(heard)] if isinstance(entry, Datagram)}):
            tally = tallies.get(peer, NOTHING_SAID)
            yield "peer %s " % peer_text(peer) + " ".join("%s %d" % said for said in tally.items())
    else:
        for index, (_, text) in enumerate(heard):
            yield "%d %s" % (index, text)
    if is_lost:
        raise LinkLost()


# ---- words


class WordsRefused(Exception):
    pass


def read_words(words, valued, flags, arguments):
    """Options by name, and the other words: `--name value`, `--name=value`, and `--` before words that are no options.

    An option may stand once. A word that begins with `-` and has more letters is never a value of its own.
    """
    options = {}
    others = []
    waiting = None
    only_others = False
    for word in words:
        is_option = word.startswith("-") and word != "-" and not only_others
        if waiting is not None:
            if is_option:
                raise WordsRefused()
            options[waiting] = word
            waiting = None
        elif word == "--" and not only_others:
            only_others = True
        elif is_option:
            name, equals, value = word[2:].partition("=")
            if not word.startswith("--") or name in options or name not in valued + flags or (equals and name in flags):
                raise WordsRefused()
            if name in valued and not equals:
                waiting = name
            else:
                options[name] = value
        else:
            others.append(word)
    if waiting is not None or len(others) != arguments:
        raise WordsRefused()
    return options, others


def read_number(text, least, most):
    digits = text.lstrip("0")[:21] or text[-1:]  # 21 digits are above every bound
    if text == "" or any(letter not in "0123456789" for letter in text) or not least <= int(digits) <= most:
        raise WordsRefused()
    return int(digits)


def read_modules(text):
    letters = "ABCDEFGHIJKLMNOPQRSTUVWXYZ"
    if text == "" or any(letter not in letters for letter in text) or len(set(text)) < len(text):
        raise WordsRefused()
    return set(text)


def read_plan(options):
    name = encode(options.get("call", "M17-TST"))
    modules = read_modules(options.get("modules", "ABC"))
    parrots = read_modules(options["parrots"]) if "parrots" in options else set()
    places = read_number(options.get("places", "64"), 1, 256)
    limit = read_number(options["limit"], 0, 86400) * 1000 if "limit" in options else LIMIT_MS
    if name is None or not parrots <= modules:
        raise WordsRefused()
    return Plan(name, modules, parrots, places, limit)


def read_peer(text):
    """An IPv4 address or one of IPv6 with all its digits, and a port, each number without zeros before it."""
    four = re.fullmatch(r"([0-9]+)\.([0-9]+)\.([0-9]+)\.([0-9]+):([0-9]+)", text)
    six = re.fullmatch(r"\[(?:[0-9a-f]{4}:){7}[0-9a-f]{4}\]:([0-9]+)", text)
    if not four and not six:
        raise WordsRefused()
    *bytes_of_four, port = (four or six).groups()
    for part, most in [(part, 255) for part in bytes_of_four] + [(port, 65535)]:
        if part.startswith("0") and part != "0" or len(part) > 5 or int(part) > most:
            raise WordsRefused()


SIDES = ("near", "near-peer", "near-module", "far", "far-peer", "far-module")


def read_bridge(rest):
    options, _ = read_words(rest, ("call", "for") + SIDES, (), 0)
    if any(name not in options for name in ("call",) + SIDES) or encode(options["call"]) is None:
        raise WordsRefused()
    for side in ("near", "far"):
        read_peer(options[side + "-peer"])
        if not re.fullmatch("[A-Z]", options[side + "-module"]):
            raise WordsRefused()
    if "for" in options:
        read_number(options["for"], 1, 1000000)


def read_talk(rest):
    needed = ("call", "module", "bind", "to")
    options, _ = read_words(rest, needed + ("stay", "book"), ("listen",), 0)
    if any(name not in options for name in needed) or encode(options["call"]) is None:
        raise WordsRefused()
    read_peer(options["to"])
    read_number(options.get("stay", "0"), 0, 86400000)
    if not re.fullmatch("[A-Z]", options["module"]):
        raise WordsRefused()


def read_script(data):
    """Records of a moment, none below the one before, and a stream packet."""
    before = 0
    for index, at in enumerate(range(0, len(data), 62)):
        if index == 16384:
            raise InputRefused(at, "large")
        record = data[at : at + 62]
        if len(record) >= 8 and number(record[:8]) < before:
            raise InputRefused(at, "field")
        if len(record) < 62:
            raise InputRefused(len(data), "cut")
        before = number(record[:8])
        if not isinstance(decode(record[8:]), Stream):
            raise InputRefused(at + 8, "field")


def pieces_of(words, read):
    """The pieces of output that the words ask for, one by one; `read()` gives the input."""
    if not words:
        raise WordsRefused()
    command, rest = words[0], words[1:]
    if command in ("judge", "show", "check"):
        read_words(rest, (), (), 0)
        return as_lines({"judge": judge, "show": show, "check": check}[command](read()))
    if command == "migrate":
        read_words(rest, (), (), 0)
        return migrate(read())
    if command == "make":
        seed, count = read_words(rest, (), (), 2)[1]
        return make(read_number(seed, 0, 2**64 - 1), read_number(count, 0, 100000))
    if command == "replay":
        options, _ = read_words(rest, ("call", "modules", "parrots", "places", "limit"), ("summary", "threads"), 0)
        return as_lines(replay(read_plan(options), "summary" in options, read()))
    if command == "serve":
        options, _ = read_words(rest, ("call",), ("rules",), 1)
        if "call" not in options or encode(options["call"]) is None:
            raise WordsRefused()
        if "rules" in options:
            read_rules(read())
        raise PortFailed()
    if command == "talk":
        read_talk(rest)
        read_script(read())
        raise PortFailed()
    if command == "bridge":
        read_bridge(rest)
        raise PortFailed()
    raise WordsRefused()


def as_lines(texts):
    return (text.encode() + b"\n" for text in texts)


def run(words, read):
    """The status and the output of the program with these words, which are bytes; `read()` gives the input."""
    out = []

    def ends(status, text):
        return status, b"".join(out) + text.encode() + b"\n"

    try:
        words = [word.decode() for word in words]
    except UnicodeDecodeError:
        return ends(2, "words refused")
    try:
        for piece in pieces_of(words, read):
            out.append(piece)
    except WordsRefused:
        return ends(2, "words refused")
    except (InputRefused, RulesRefused) as refusal:
        return ends(1, str(refusal))
    except PortFailed:
        return ends(5, "port failed")
    except LinkLost:
        return ends(7, "link lost")
    return 0, b"".join(out)


def main():
    status, output = run([os.fsencode(word) for word in sys.argv[1:]], sys.stdin.buffer.read)
    sys.stdout.buffer.write(output)
    sys.stdout.buffer.flush()
    return status


if __name__ == "__main__":
    sys.exit(main())
