#!/usr/bin/env python3
"""Runs a program on many inputs and compares its output and status with those of the reference.

    python3 conformance/compare.py --program ./m17 --seed 1 --cases 2000
    python3 conformance/compare.py --program ./m17 --only judge,show
    python3 conformance/compare.py --program ./m17 --vectors conformance/vectors
    python3 conformance/compare.py --program ./m17 --large
    python3 conformance/compare.py --program ./m17 --each-byte
    python3 conformance/compare.py --program ./m17 --torn
    python3 conformance/compare.py --program ./m17 --words conformance/words.txt

Ends with the line `N passed, M failed` and with status 0 where none failed, else 1.
"""

import argparse
import collections
import glob
import multiprocessing
import os
import shlex
import subprocess
import sys

import breaches
import generate
import made
import reference
import torn
from draws import stream
from files import ONE, TRACE_MAGIC, TWO, book_head
from traces import FAULT, quiet

Result = collections.namedtuple("Result", "status output has_errors")
Case = collections.namedtuple("Case", "kind name words data expected again")
Failure = collections.namedtuple("Failure", "case got")

# Commands that the program of this repository doesn't have yet: they are compared where --only names them, and left out
# otherwise, unless --without says what is left out.
NOT_YET = ()

FAILURES = os.path.join(os.path.dirname(os.path.abspath(__file__)), "failures")

options = None  # the words of the command line, in each process


def set_options(its_options):
    global options
    options = its_options


def parse_options():
    parser = argparse.ArgumentParser(description="compares a program with the reference")
    parser.add_argument("--program", required=True, help="the program and its first words, e.g. ./m17")
    parser.add_argument("--seed", type=int, default=1)
    parser.add_argument("--cases", type=int, default=1000, help="how many cases")
    parser.add_argument("--case", type=int, help="this case alone")
    parser.add_argument("--only", default="", help="kinds of cases, or beginnings of their names, between commas")
    parser.add_argument("--jobs", type=int, default=os.cpu_count() or 1, help="how many runs at once")
    parser.add_argument("--timeout", type=float, default=60, help="seconds for each run")
    parser.add_argument("--show", type=int, default=5, help="how many failures to print")
    parser.add_argument("--failures", default=FAILURES, help="the folder for failing inputs")
    parser.add_argument("--shrink", action="store_true", help="leave out of failing inputs what they don't need")
    parser.add_argument("--vectors", help="compare with the files of this folder, without the reference")
    parser.add_argument("--large", action="store_true", help="compare on the inputs at the limits of size")
    parser.add_argument("--each-byte", action="store_true", help="compare `check` on changed books")
    parser.add_argument("--torn", action="store_true", help="compare on each part of small files, and each byte changed")
    parser.add_argument("--words", help="compare with this table of words that are taken or refused")
    parser.add_argument("--threads", action="store_true", help="run each `replay` with --threads too")
    parser.add_argument("--without", help="commands that the program doesn't have, between commas, or `none`")
    parser.add_argument("--list", action="store_true", help="print the kinds of cases and end")
    return parser.parse_args()


# ---- one run


def run_program(words, data):
    command = [os.fsencode(word) for word in shlex.split(options.program)] + words
    try:
        done = subprocess.run(command, input=data, capture_output=True, timeout=options.timeout)
    except subprocess.TimeoutExpired:
        return Result("none after %g seconds" % options.timeout, b"", False)
    return Result(done.returncode, done.stdout, bool(done.stderr))


def run_reference(words, data):
    status, output = reference.run(words, lambda: data)
    return Result(status, output, False)


def differ(expected, got):
    return (expected.status, expected.output) != (got.status, got.output)


# ---- cases: words, an input, what is expected, and how to run it again


def drawn_case(index):
    kind = generate.kind_of(options.kinds, options.seed, index)
    words, data = generate.case(kind, options.seed, index)
    again = "--seed %d --only %s --case %d" % (options.seed, kind, index)
    name = "%s-%d-%d" % (kind, options.seed, index)
    return Case(kind, name, words, data, run_reference(words, data), again)


def vector_case(path):
    """`NAME.args` has a word on each line; `NAME.in`, `NAME.out` and `NAME.status` stand beside it."""

    def read(ending):
        with open(path[: -len("args")] + ending, "rb") as file:
            return file.read()

    expected = Result(int(read("status")), read("out"), False)
    name = os.path.basename(path)[: -len(".args")]
    words = read("args").split(b"\n")[:-1]
    return Case("vectors", name, words, read("in"), expected, "--vectors " + os.path.dirname(path))


def large_case(name):
    words, make = LARGE[name]
    data = make()
    words = [word.encode() for word in words]
    again = "--large --only " + words[0].decode()
    return Case("large", "large-" + name, words, data, run_reference(words, data), again)


def torn_case(number):
    name, words, data = TORN[number]
    words = [word.encode() for word in words]
    return Case("torn", "torn-%d" % number, words, data, run_reference(words, data), "--torn # " + name)


def words_case(line):
    """A status, and words that have it without any input. What `serve`, `talk` and `bridge` are told is their port."""
    status, *given = line.split(" ")
    words = [b"" if word == '""' else word.encode() for word in given]
    expected = run_reference(words, b"")
    if expected.status != int(status):
        said = {2: b"words refused\n", 5: b"port failed\n"}.get(int(status), b"what the table says")
        expected = Result(int(status), said, False)
    return Case("words", "words", words, b"", expected, "--words %s # %s" % (options.words, line))


def changed_case(number):
    name, data = EACH_BYTE[number]
    words = [b"check"]
    return Case("each-byte", "each-byte-%d" % number, words, data, run_reference(words, data), "--each-byte # " + name)


# The masks flip a low bit, a middle one and the highest, so that each kind, verdict and bound is met from both sides.
EACH_BYTE = list(breaches.with_each_byte_changed((1, 2, 0x10, 0x80)))

TORN = list(torn.inputs())

LETTERS = "ABCDEFGHIJKLMNOPQRSTUVWXYZ"

TALK = "talk --call AB1CD --module A --bind x --to 10.0.0.9:17000".split()

LARGE = {
    "judge-most": (["judge"], lambda: bytes(64000000)),
    "judge-one-byte-more": (["judge"], lambda: bytes(64000001)),
    "show-most": (["show"], lambda: b"\n" * 1000000),
    "show-one-more": (["show"], lambda: b"\n" * 1000000 + b"zzz"),
    "trace-most-entries": (["replay", "--summary"], lambda: TRACE_MAGIC + b"\2" * 9 * 1000000),
    "trace-one-entry-more": (["replay"], lambda: TRACE_MAGIC + FAULT * 1000000 + b"\t"),
    "trace-cut-before-the-limit": (["replay"], lambda: TRACE_MAGIC + FAULT * 999999 + b"\1"),
    "trace-one-byte-more": (["replay"], lambda: bytes(67108865)),
    "trace-most-bytes": (["replay"], lambda: bytes(67108864)),
    "book-one-byte-more": (["check"], lambda: bytes(67108873)),
    "book-most-bytes": (["check"], lambda: book_head(65, 0) + b"\t" * 67108855),
    "old-book-one-byte-more": (["migrate"], lambda: bytes(67108865)),
    "old-book-most-bytes": (["migrate"], lambda: ONE.magic + b"A" + b"\t" * 67108855),
    "trace-long": (["replay", "--summary", "--places", "1"], lambda: torn.asking(2) + quiet(0) * 66000),
    "trace-crowded": (
        ["replay", "--summary", "--places", "256", "--modules", LETTERS],
        lambda: torn.asking(300, LETTERS) + quiet(0) * 10,
    ),
    "script-most": (TALK, lambda: (bytes(8) + stream(1, 0)) * 16384),
    "script-one-byte-more": (TALK, lambda: (bytes(8) + stream(1, 0)) * 16384 + b"\0"),
    "make-most": (["make", "1", "100000"], lambda: b""),
    "make-evening": (["make", "17", "20000"], lambda: b""),
    "evening": (["replay", "--summary"], lambda: b"".join(made.make(17, 20000))),
    "evening-lines": (["replay"], lambda: b"".join(made.make(18, 20000))),
    "evening-of-parrots": (
        ["replay", "--summary", "--parrots", "ABC"],
        lambda: b"".join(made.make(19, 20000)),
    ),
}


def tried(task):
    """A case's kind, whether the program wrote to standard error, and the failure if there is one."""
    make_case, key = task
    case = make_case(key)
    got = run_program(case.words, case.data)
    if options.threads and case.words[:1] == [b"replay"] and not differ(case.expected, got):
        case = case._replace(words=[b"replay", b"--threads"] + case.words[1:])
        got = run_program(case.words, case.data)
    if not differ(case.expected, got):
        return case.kind, got.has_errors, None
    if options.shrink and make_case is not vector_case:
        case, got = shrunk(case, got)
    return case.kind, got.has_errors, Failure(case, got)


# ---- leaving out what a failure doesn't need


def parts_of(words, data):
    """The input as a head and parts that can be left out one by one."""
    command = words[0] if words else b""
    if command == b"judge":
        return b"", [data[at : at + 64] for at in range(0, len(data), 64)]
    if command == b"show":
        return b"", [line + b"\n" for line in data.split(b"\n")]
    if command == b"replay":
        return data[:8], chunks(data, 8, entry_length)
    if command in (b"check", b"migrate"):
        head = 9 + (TWO if command == b"check" else ONE).limit_bytes
        return data[:head], chunks(data, head, record_length)
    return b"", [data]


def chunks(data, at, length_at):
    parts = []
    while at < len(data):
        length = length_at(data, at)
        parts.append(data[at : at + length])
        at += length
    return parts


def entry_length(data, at):
    if data[at] == 1:
        family_at = at + 9
        length_at = family_at + (19 if data[family_at : family_at + 1] == b"\6" else 7)
        return length_at + 1 - at + (data[length_at] if length_at < len(data) else 0)
    return 9 if data[at] == 2 else 1


def record_length(data, at):
    return {1: 37, 2: 31, 3: 97}.get(data[at], 1)


def shrunk(case, got):
    """A case with a shorter input on which the two still differ, and what the program said to it."""
    head, parts = parts_of(case.words, case.data)
    size = len(parts) // 2
    tries = 400
    while size >= 1 and tries > 0:
        at = 0
        while at < len(parts) and tries > 0:
            fewer = parts[:at] + parts[at + size :]
            data = head + b"".join(fewer)
            its_expected, its_got = run_reference(case.words, data), run_program(case.words, data)
            tries -= 1
            if differ(its_expected, its_got):
                parts, case, got = fewer, case._replace(data=data, expected=its_expected), its_got
            else:
                at += size
        size //= 2
    return case._replace(name=case.name + "-shrunk"), got


# ---- reports


def print_failure(failure):
    case, got = failure
    words = " ".join(shlex.quote(word.decode(errors="backslashreplace")) for word in case.words)
    print("%s: words: %s; input: %d bytes" % (case.name, words, len(case.data)))
    if case.expected.status != got.status:
        print("  status: expected %s, got %s" % (case.expected.status, got.status))
    lines = [result.output.split(b"\n") for result in (case.expected, got)]
    for index in range(max(map(len, lines))):
        expected_line, got_line = (its[index] if index < len(its) else None for its in lines)
        if expected_line != got_line:
            print("  line %d: expected %s, got %s" % (index, line_text(expected_line), line_text(got_line)))
            break
    print("  again: python3 %s --program %s %s" % (sys.argv[0], shlex.quote(options.program), case.again))
    sys.stdout.flush()


def line_text(line):
    return "nothing more" if line is None else repr(line[:200])[1:]


def keep_failure(failure):
    case, got = failure
    os.makedirs(options.failures, exist_ok=True)
    files = {
        "args": b"".join(word + b"\n" for word in case.words),
        "in": case.data,
        "expected": case.expected.output,
        "expected-status": b"%d\n" % case.expected.status,
        "got": got.output,
        "got-status": str(got.status).encode() + b"\n",
    }
    for ending, data in files.items():
        with open(os.path.join(options.failures, case.name + "." + ending), "wb") as file:
            file.write(data)


def tasks():
    if options.vectors:
        paths = sorted(glob.glob(os.path.join(options.vectors, "*.args")))
        return [(vector_case, path) for path in paths if is_vector_selected(path)]
    if options.each_byte:
        return [(changed_case, number) for number in range(len(EACH_BYTE))]
    if options.torn:
        return [(torn_case, number) for number in range(len(TORN)) if is_selected(TORN[number][1][0])]
    if options.words:
        with open(options.words) as file:
            return [(words_case, line) for line in file.read().split("\n") if line and line[0] != "#"]
    if options.large:
        return [(large_case, name) for name in LARGE if is_large_selected(name)]
    if options.case is not None:
        return [(drawn_case, options.case)]
    return [(drawn_case, index) for index in range(options.cases)]


def is_selected(command):
    return any(kind.split("-")[0] == command for kind in options.kinds)


def is_large_selected(name):
    """By its command, or by the beginning of its own name."""
    return any(name.startswith(one) for one in named()) or is_selected(LARGE[name][0][0])


def is_vector_selected(path):
    """A name of --only, where there are any, is its command or begins its name; and its command is not left out."""
    with open(path) as file:
        command = file.readline().rstrip("\n")
    is_named = any(name == command or os.path.basename(path).startswith(name) for name in named())
    return (is_named or not named()) and command not in left_out()


def named():
    return [name for name in options.only.split(",") if name]


def left_out():
    """The commands of --without, or else those that are not there yet and that no name of --only has a word of.

    What --each-byte asks for is not left out.
    """
    if options.each_byte:
        return []
    if options.without is not None:
        return [command for command in options.without.split(",") if command not in ("", "none")]
    return [command for command in NOT_YET if all(command not in name.split("-") for name in named())]


def selected_kinds():
    """The kinds that --only names, or all of them, but for those of the commands that are left out."""
    return [kind for kind in generate.selected(named()) if not any(word in left_out() for word in kind.split("-"))]


def main():
    set_options(parse_options())
    options.kinds = selected_kinds()
    if options.list or not (options.kinds or options.large or options.torn or options.words):
        print("\n".join(generate.KINDS))
        return 0 if options.list else 1
    counts = {}
    failed = 0
    wrote_errors = 0
    all_tasks = tasks()
    with multiprocessing.Pool(max(1, options.jobs), set_options, (options,)) as pool:
        for kind, has_errors, failure in pool.imap(tried, all_tasks, 8 if len(all_tasks) > 100 else 1):
            passed_and_failed = counts.setdefault(kind, [0, 0])
            passed_and_failed[failure is not None] += 1
            wrote_errors += has_errors
            if failure:
                failed += 1
                keep_failure(failure)
                if failed <= options.show:
                    print_failure(failure)
    for kind in sorted(counts):
        print("%-20s %6d passed, %d failed" % (kind, *counts[kind]))
    if left_out():
        print("left out, since the program doesn't have it: %s" % ", ".join(left_out()))
    if wrote_errors:
        print("standard error was written in %d runs" % wrote_errors)
    if failed:
        print("failing inputs are kept in %s" % options.failures)
    print("%d passed, %d failed" % (len(all_tasks) - failed, failed))
    return 1 if failed else 0


if __name__ == "__main__":
    sys.exit(main())
