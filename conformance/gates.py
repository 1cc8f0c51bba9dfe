#!/usr/bin/env python3
"""Runs `serve --rules` on drawn rule texts and sends it drawn datagrams: what it hears is what the rules allow.

    gates.py --program ./m17 [--seed S] [--cases N] [--case N] [--jobs J]
    gates.py --program ./m17 --text FILE < lines of hex digits

A text that is refused ends the program at once, with the line of the reference and before it makes a file. By any other the
reflector hears, in its trace, just the datagrams that are allowed, in their order. Who asks and is allowed is answered first
with ACKN, or NACK where there is no such module; and who is denied is sent no byte. Each datagram comes from a port of its
own. With --text it says of each line whether it was heard. Each run takes a second and more.
"""

import argparse
import collections
import concurrent.futures
import os
import re
import shlex
import socket
import subprocess
import sys
import tempfile
import threading
import time

import rule_cases
from files import read_trace
from packets import decode
from reflector import Datagram
from rules import KINDS_OF, RulesRefused, allowed, read_rules

WORDS = ["serve", "--rules", "--call", "M17-TST", "--modules", "AB", "--places", "40"]
MODULES = "AB"

# Which bytes are sent until the port is there, and once more behind all others. They are no packet.
KNOCK = b"is anybody there"
LAST = b"that was all"

Run = collections.namedtuple("Run", "status output heard answers")


class NotStarted(Exception):
    """The program has no port, or came to its end before all was sent."""


ports = iter(range(20000, 60000))
next_port = threading.Lock()


def free_port():
    """A port that is free, and no other run's."""
    with next_port:
        for port in ports:
            with socket.socket(socket.AF_INET, socket.SOCK_DGRAM) as tried:
                try:
                    tried.bind(("127.0.0.1", port))
                except OSError:
                    continue
                return port
    raise NotStarted("no port is free")


def sender(port):
    own = socket.socket(socket.AF_INET, socket.SOCK_DGRAM)
    own.bind(("127.0.0.1", 0))
    own.connect(("127.0.0.1", port))
    return own


def answer_to(own):
    """The first datagram that came, if one did."""
    own.setblocking(False)
    try:
        return own.recv(64)
    except OSError:
        return None


def knock(process, port):
    """Waits until the port is there."""
    own = sender(port)
    own.settimeout(0.01)
    while process.poll() is None:
        try:
            own.send(KNOCK)
            own.recv(64)
        except socket.timeout:
            own.close()
            return
        except OSError:
            time.sleep(0.005)
    raise NotStarted("the program ended with %d" % process.returncode)


def serve(program, text, datagrams, seconds):
    """Runs the program by these rules: its status and output, what it heard, and what each sender was answered."""
    with tempfile.TemporaryDirectory() as folder:
        path = os.path.join(folder, "rules")
        with open(path, "wb") as file:
            file.write(text)
        port = free_port()
        words = shlex.split(program) + WORDS + ["--for", str(seconds), "--book", folder, "127.0.0.1:%d" % port]
        with open(path, "rb") as file:
            process = subprocess.Popen(words, stdin=file, stdout=subprocess.PIPE)
        senders = []
        try:
            knock(process, port)
            for data in datagrams:
                senders.append(sender(port))
                senders[-1].send(data)
            senders.append(sender(port))
            senders[-1].send(LAST)
        except NotStarted:
            if process.wait() != 1:
                raise
        output = process.communicate()[0]
        answers = [answer_to(own) for own in senders[:-1]]
        for own in senders:
            own.close()
        trace = os.path.join(folder, "link0.trace")
        if not os.path.exists(trace):
            return Run(process.returncode, output, None, answers)
        with open(trace, "rb") as file:
            heard = [entry.bytes for entry in read_trace(file.read()) if isinstance(entry, Datagram)]
        return Run(process.returncode, output, [data for data in heard if data != KNOCK], answers)


def served(program, text, datagrams):
    """The same, with more time where the machine gave it too little."""
    for seconds in (1, 3, 10):
        try:
            run = serve(program, text, datagrams, seconds)
        except NotStarted:
            continue
        if run.heard is None or run.heard[-1:] == [LAST]:
            return run
    raise NotStarted("not all was heard in time")


def wrong_answer(packet, is_allowed, answer):
    """Why this is no answer to the packet, if it is none."""
    if not is_allowed:
        return "is denied and was sent %s" % answer.hex() if answer else None
    if getattr(packet, "kind", None) in KINDS_OF:
        wanted = b"ACKN" if packet.module in MODULES else b"NACK"
        if answer != wanted:
            return "is allowed and was sent %s" % (answer.hex() if answer else "nothing")
    return None


def difference(program, text, datagrams):
    """What differs from the reference, if something does, and how much was allowed and denied."""
    try:
        rules = read_rules(text)
    except RulesRefused as refused:
        run = served(program, text, datagrams)
        if (run.status, run.output, run.heard) != (1, b"%s\n" % str(refused).encode(), None):
            return "%r for %s" % (run, refused), "refused", 0
        return None, "refused", 0
    run = served(program, text, datagrams)
    answers = [allowed(rules, decode(data)) for data in datagrams]
    expected = [data for data, is_allowed in zip(datagrams, answers) if is_allowed] + [LAST]
    if run.heard != expected:
        return "heard %s, not %s" % ([data.hex() for data in run.heard or []], [data.hex() for data in expected]), "taken", 0
    if run.status != 0 or not re.fullmatch(rb"(?:[AB] admitted \d+ missed 0\n){2}", run.output):
        return "status %d, output %r" % (run.status, run.output), "taken", 0
    for data, is_allowed, answer in zip(datagrams, answers, run.answers):
        why = wrong_answer(decode(data), is_allowed, answer)
        if why:
            return "%s %s" % (data.hex(), why), "taken", 0
    return None, "taken", answers.count(False)


def compare_case(seed, number):
    text, datagrams = rule_cases.case(seed, number)
    try:
        return (number, len(datagrams)) + difference(options.program, text, datagrams)
    except NotStarted as why:
        return number, len(datagrams), str(why), "not run", 0


def tell_lines():
    datagrams = [bytes.fromhex(line.strip()) for line in sys.stdin]
    with open(options.text, "rb") as file:
        run = served(options.program, file.read(), datagrams)
    if run.heard is None:
        sys.stdout.write(run.output.decode())
        return 1
    left = run.heard[:-1]
    for data in datagrams:
        is_heard = left[:1] == [data]
        left = left[1:] if is_heard else left
        print("allowed" if is_heard else "denied")
    return 0


def main():
    if options.text:
        return tell_lines()
    numbers = [options.case] if options.case is not None else range(options.cases)
    told = collections.Counter()
    failed = 0
    with concurrent.futures.ThreadPoolExecutor(options.jobs) as jobs:
        for number, sent, why, kind, denied in jobs.map(lambda number: compare_case(options.seed, number), numbers):
            told[kind] += 1
            told["datagrams"] += sent if kind == "taken" else 0
            told["denied"] += denied
            if why:
                failed += 1
                print("case %d of seed %d: %s" % (number, options.seed, why))
    print("%d texts taken, %d refused; %d datagrams, %d of them denied"
          % (told["taken"], told["refused"], told["datagrams"], told["denied"]))
    print("%d passed, %d failed" % (len(numbers) - failed, failed))
    return 1 if failed else 0


if __name__ == "__main__":
    parser = argparse.ArgumentParser(description="compares what `serve --rules` hears with the reference")
    parser.add_argument("--program", required=True, help="the program and its first words, e.g. ./m17")
    parser.add_argument("--seed", type=int, default=1)
    parser.add_argument("--cases", type=int, default=200, help="how many cases")
    parser.add_argument("--case", type=int, help="this case alone")
    parser.add_argument("--jobs", type=int, default=8, help="how many runs at once")
    parser.add_argument("--text", help="a rule text: say of each line of hex digits whether it is heard")
    options = parser.parse_args()
    sys.exit(main())
