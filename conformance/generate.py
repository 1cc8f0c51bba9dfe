#!/usr/bin/env python3
"""Makes words and inputs for the program, drawn from a seed: one case for each kind, seed and number.

    generate.py                      lists the kinds
    generate.py KIND SEED NUMBER     writes the input of a case, and its words to standard error
"""

import shlex
import sys

import books
import breaches
import rule_cases
import traces
from draws import CALM, LAST_MOMENT, SHARP, WILD, Clock, Draw, Talk, any_packet, sealed, spoiled, talked_out
from files import book_head
from reference import LIMIT_MS

# ---- judge


def judge_record(moment, talker, packet):
    return moment.to_bytes(8, "big") + talker.to_bytes(2, "big") + packet.ljust(54, b"\0")[:54]


def judge_records(draw, steps):
    talkers = draw.pick(([3, 4], [0], [0, 1, 2], [65535, 255, 256], list(range(12))))
    talk = Talk(draw, talkers, draw.between(1, 3))
    clock = Clock(draw, steps)
    records = []
    for _ in range(draw.between(1, 120)):
        talker, packet = talk.frame()
        records.append(judge_record(clock.next(), talker, packet))
    return records


def judge_calm(draw):
    return ["judge"], b"".join(judge_records(draw, CALM))


def judge_sharp(draw):
    return ["judge"], b"".join(judge_records(draw, SHARP))


def judge_wild(draw):
    return ["judge"], b"".join(judge_records(draw, WILD))


def judge_limit(draw):
    """A stream is talked out; now and then a packet comes again with a moment that goes back."""
    talkers = draw.pick(([3, 4], [0, 1, 2], [65535, 255, 256]))
    start = draw.pick((0, 0, 7, 10**12, LAST_MOMENT - LIMIT_MS - 5000, LAST_MOMENT - LIMIT_MS // 2))
    records = []
    for moment, talker, packet in talked_out(draw, talkers, LIMIT_MS, start):
        records.append(judge_record(moment, talker, packet))
        if draw.chance(2):
            records.append(judge_record(max(0, moment - draw.below(5000)), talker, packet))
    return ["judge"], b"".join(records)


def judge_bytes(draw):
    data = b"".join(judge_records(draw, SHARP)[: draw.between(0, 6)])
    cut = data[: draw.below(len(data) + 1)]
    return ["judge"], draw.pick((cut, spoiled(draw, data), data + draw.bytes(draw.below(70))))


# ---- show

LINES = (b"", b"", b"4", b"4g", b"zzz", b"zz", b" 41", b"0x41", b"\xc3\xa9", b"4\r1", b"41\t", b"\0\0")


def show_packets(draw):
    out = b""
    for _ in range(draw.between(0, 20)):
        packet = any_packet(draw)
        if draw.chance(50):
            packet = spoiled(draw, packet)
            if len(packet) == 54 and draw.chance(50):
                packet = sealed(packet)
        line = packet.hex()
        out += (line if draw.chance(30) else line.upper()).encode() + draw.pick((b"\n", b"\n", b"\r\n"))
    return ["show"], out[:-1] if draw.chance(20) else out


def show_lines(draw):
    out = b""
    for _ in range(draw.between(1, 6)):
        way = draw.below(12)
        if way < 4:
            line = any_packet(draw).hex().encode()
        elif way < 6:
            line = b"A" * draw.pick((254, 255, 256, 256, 257, 257, 258, 300, 1000))
        elif way == 6:
            line = draw.pick(LINES)
        elif way == 7:
            line = draw.bytes(draw.below(12)).replace(b"\n", b"")
        else:
            line = any_packet(draw).hex().encode()[: draw.below(24)]
        out += line + draw.pick((b"\n", b"\n", b"\n", b"\r\n", b"\r\r\n", b"\r", b"\n\n"))
    return ["show"], out[: draw.below(len(out) + 1)] if draw.chance(30) else out


# ---- make


def make_small(draw):
    seed = draw.pick((0, 1, 17, 2**64 - 1, 2**63, draw.below(2**64), draw.below(1000)))
    count = draw.pick((0, 1, 2, 11, 12, 13, 24, 312, 313, draw.below(100), draw.below(2000)))
    words = ["make", draw.pick(("%d", "%d", "%025d")) % seed, draw.pick(("%d", "%d", "%09d")) % count]
    if draw.chance(5):
        words.insert(draw.between(1, 3), "--")
    return words, b""


# ---- serve


def serve_rules(draw):
    """Rules that are read before a port is asked for, which is one that cannot be opened."""
    words = draw.pick((["--rules", "--call", "M17-TST", "x"], ["x", "--call=M17-TST", "--rules"]))
    return ["serve"] + words, rule_cases.text(draw)


# ---- words

SPOILING = ["--", "-", "", " ", "x", "-x", "--x", "---", "--summary", "\u00e9"]
SPOILING += ["--help", "-h", "--version", "-V", "help"]


def words_plain(command):
    """Words behind a command that takes none."""
    choices = [[], [], [], [], ["--"], ["--"], ["--", "--"], ["--", "x"], ["=", "--"], [b"\xff"], ["--", b"\xff"]]
    choices += [["-"], [""], ["x"], [command], ["--="], ["---"], ["--call", "A"], ["--summary"]]
    choices += [["--help"], ["-h"], ["help"], ["--version"]]

    def words(draw):
        return [command] + draw.pick(choices), draw.pick((b"", b"41434B4E\n", book_head(65, 0), bytes(64)))

    return words


GOOD = {
    "call": ["N0CALL", "M17-TST", " A", ".........", "A B", "-", "-", "-", "/", "#AB", "#........"],
    "modules": ["A", "ABC", "CBA", "ZA", "ABCDEFGHIJKLMNOPQRSTUVWXYZ"],
    "parrots": ["A"],
    "places": ["1", "256", "0001", "00000000000000000000000000000256", "64"],
    "limit": ["0", "1", "86400", "0000", "00000000000000000000000000000180", "2"],
}
BAD = {
    "call": ["", "ABCDEFGHIJ", "a", "A ", "A_B", " ", "#", "##", "A#", "#ABCDEFGHI", "\u00c4", "-A", "--", b"\xff", b"A\xff"],
    "modules": ["", "AA", "a", "A B", "ABCA", "1", "[", "@", "\u00c4", "-A", b"A\xff"],
    "parrots": ["", "AA", "AD", "D", "ABCD", "a", b"\xff"],
    "places": ["0", "0", "257", "257", "", "+1", "-1", " 1", "1 ", "0x10", "1e1", "1.0", "_1", "1_0", "\u0661"],
}
BAD["limit"] = ["86401", "", "+1", "-1", " 1", "1 ", "0x1", "1e1", "1.0", "\u0661", b"1\xff", str(2**64), "9" * 5000]
BAD["places"] += ["257", "0", "000", "+1", "+64", "+256", b"1\xff", str(2**64 + 1), "9" * 5000, "0" * 5000]


def words_replay(draw):
    """Some options in some order; in most cases with one thing that may be wrong."""
    trouble = draw.below(9)
    bad = draw.pick(list(BAD)) if trouble < 4 else None
    names = [name for name in draw.some(["summary"] + list(GOOD)) if name != bad]
    options = [option(draw, name, draw.pick(GOOD[name]) if name in GOOD else None) for name in names]
    if bad:
        options.append(option(draw, bad, draw.pick(BAD[bad])))
    elif trouble == 4:
        options.append(draw.pick(options + [["--summary", "--summary"], ["--call=A", "--call", "A"]]))
    elif trouble == 5:
        options.insert(draw.between(0, len(options)), [draw.pick(SPOILING)])
    elif trouble == 6:
        options.append(draw.pick((["--summary="], ["--summary=true"], ["--summar"], ["--call"], ["--call", "--"])))
    words = [word for words in options for word in words]
    if trouble == 7 and words:
        words.pop(draw.below(len(words)))
    return ["replay"] + words, traces.short_trace(draw)


def option(draw, name, value):
    if value is None:
        return ["--" + name]
    if draw.chance(50):
        return ["--" + name, value]
    return [b"--%s=%s" % (name.encode(), value if isinstance(value, bytes) else value.encode())]


def words_make(draw):
    good = ["0", "1", "007", "2", "1000", "0" * 30, str(2**64 - 1)]
    bad = [str(2**64), "100001", "-1", "+1", "+1", "+2", "", " 1", "1 ", "0x1", "a", "1_0", "\u0661", "9" * 30, b"\xff"]
    words = [draw.pick(good), draw.pick(good[:6])]
    trouble = draw.below(6)
    if trouble < 2:
        words[draw.below(2)] = draw.pick(bad)
    elif trouble == 2:
        words.insert(draw.between(0, 2), draw.pick(SPOILING))
    elif trouble == 3:
        words = draw.pick((words[:1], [], words + ["1"], ["--"] + words, words + ["--"], ["--", "--"] + words))
    return ["make"] + words, b""


BRIDGE_GOOD = {
    "call": GOOD["call"],
    "near": ["x", "", "127.0.0.1", "host:1"],
    "near-peer": ["10.0.0.9:17000", "0.0.0.0:0", "255.255.255.255:65535", "[0000:0000:0000:0000:0000:0000:0000:000a]:17000"],
    "near-module": ["A", "M", "Z"],
    "for": ["1", "1000000", "0001", "00000000000000000000000000000060"],
}
BRIDGE_BAD = {
    "call": BAD["call"],
    "near": [b"\xff"],
    "near-peer": ["", "10.0.0.9", "10.0.0.9:", "10.0.0:1", "010.0.0.9:1", "10.0.0.256:1", "10.0.0.9:65536", "10.0.0.9:01", "::1",
                  "[::1]:1", "[0000:0000:0000:0000:0000:0000:0000:000A]:1", "host:17000", " 10.0.0.9:1", "10.0.0.9:1 ", "10.0.0.9:+1",
                  "10.0.0.\u0661:1", b"10.0.0.9:1\xff", "1.2.3.4:" + "9" * 5000],
    "near-module": ["", "a", "AB", "1", "[", "@", "\u00c4", b"A\xff"],
    "for": ["0", "1000001", "", "+1", "-1", " 1", "1.0", "\u0661", str(2**64 + 1), "9" * 5000],
}
for values in (BRIDGE_GOOD, BRIDGE_BAD):
    for name in ("near", "near-peer", "near-module"):
        values["far" + name[4:]] = values[name]


def words_bridge(draw):
    """The words of a bridge whose ports cannot be opened, in most cases with one thing that may be wrong."""
    trouble = draw.below(14)
    bad = draw.pick(list(BRIDGE_BAD)) if trouble < 4 else None
    names = [name for name in BRIDGE_GOOD if name != bad and (name != "for" or draw.chance(50))]
    options = [option(draw, name, draw.pick(BRIDGE_GOOD[name])) for name in names]
    if bad:
        options.append(option(draw, bad, draw.pick(BRIDGE_BAD[bad])))
    options.insert(draw.below(len(options)), options.pop())
    if trouble == 4:
        options.append(draw.pick(options + [["--call=A", "--call", "A"]]))
    elif trouble == 5:
        options.insert(draw.between(0, len(options)), [draw.pick(SPOILING)])
    elif trouble == 6:
        options.append(draw.pick((["--listen"], ["--near="], ["--fa=x"], ["--for"], ["--book", "b"], ["x"])))
    elif trouble == 7:
        options.pop(draw.below(len(options)))
    return ["bridge"] + [word for words in options for word in words], b""


def words_first(draw):
    """First words that name no command, none at all, and texts that are no UTF-8."""
    first = ["", "Judge", "judge ", " judge", "jud", "judges", "JUDGE", "--judge", "--", "-", "-x", "x", "0"]
    first += [b"\xff", b"judge\xff"]
    words = [draw.pick(first)] + draw.some(["judge", "--", "x"])
    return draw.pick(([], words, words, words)), b""


KINDS = {
    "judge-calm": (3, judge_calm),
    "judge-sharp": (8, judge_sharp),
    "judge-wild": (4, judge_wild),
    "judge-limit": (3, judge_limit),
    "judge-bytes": (3, judge_bytes),
    "show-packets": (5, show_packets),
    "show-lines": (5, show_lines),
    "replay-evening": (6, traces.replay_evening),
    "replay-sharp": (8, traces.replay_sharp),
    "replay-crowd": (6, traces.replay_crowd),
    "replay-silence": (8, traces.replay_silence),
    "replay-moves": (5, traces.replay_moves),
    "replay-strangers": (3, traces.replay_strangers),
    "replay-faults": (4, traces.replay_faults),
    "replay-hostile": (4, traces.replay_hostile),
    "replay-wild": (6, traces.replay_wild),
    "replay-limit": (3, traces.replay_limit),
    "replay-many": (1, traces.replay_many),
    "replay-all-letters": (1, traces.replay_all_letters),
    "replay-parrot": (8, traces.replay_parrot),
    "replay-parrot-full": (1, traces.replay_parrot_full),
    "replay-made": (2, traces.replay_made),
    "replay-bytes": (6, traces.replay_bytes),
    "make-small": (2, make_small),
    "check-legal": (4, books.check_legal),
    "check-broken": (6, books.check_broken),
    "check-breach": (10, breaches.check_breach),
    "check-breach-and-bytes": (3, breaches.check_breach_and_bytes),
    "check-long": (1, breaches.check_long),
    "check-bounds": (6, books.check_bounds),
    "check-bytes": (6, books.check_bytes),
    "migrate-legal": (2, books.migrate_legal),
    "migrate-broken": (2, books.migrate_broken),
    "migrate-bounds": (4, books.migrate_bounds),
    "migrate-bytes": (4, books.migrate_bytes),
    "serve-rules": (8, serve_rules),
    "words-judge": (1, words_plain("judge")),
    "words-show": (1, words_plain("show")),
    "words-check": (1, words_plain("check")),
    "words-migrate": (1, words_plain("migrate")),
    "words-replay": (8, words_replay),
    "words-make": (4, words_make),
    "words-bridge": (4, words_bridge),
    "words-first": (1, words_first),
}


def selected(names):
    """The kinds that are named, or whose names begin with one of the names; all of them without a name."""
    return [kind for kind in KINDS if not names or any(kind.startswith(name) for name in names)]


def case(kind, seed, index):
    """The words, as bytes, and the input of a case."""
    words, data = KINDS[kind][1](Draw(seed, kind, index))
    return [word if isinstance(word, bytes) else word.encode() for word in words], data


def kind_of(kinds, seed, index):
    return Draw(seed, index).weighted({kind: KINDS[kind][0] for kind in kinds})


def main():
    if len(sys.argv) != 4 or sys.argv[1] not in KINDS:
        for kind in KINDS:
            print(kind)
        return 0
    words, data = case(sys.argv[1], int(sys.argv[2]), int(sys.argv[3]))
    print(" ".join(shlex.quote(word.decode(errors="backslashreplace")) for word in words), file=sys.stderr)
    sys.stdout.buffer.write(data)
    return 0


if __name__ == "__main__":
    sys.exit(main())
