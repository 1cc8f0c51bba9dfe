#!/usr/bin/env python3
"""Tries the probe: at the program with several options, where everything has to keep the rules, and at the reflector of
`faulty_reflector.py` with each fault, where just the scenes that are meant for it have to differ.

    python3 conformance/test_probe.py program release/m17
    python3 conformance/test_probe.py faults
    python3 conformance/test_probe.py faults --only floor. --jobs 8
    python3 conformance/test_probe.py pages

Each line is a reflector. The last one is `N passed, M failed`, and the status is 0 where none failed. A scene that stays not
known is told. It fails nothing where these are few, or where another scene finds the fault. `pages` looks whether the pages and
sections that scenes name are there, and whether PROBE.md has each scene.
"""

import argparse
import concurrent.futures
import contextlib
import json
import os
import random
import re
import signal
import socket
import subprocess
import sys
import tempfile
import threading
import time

sys.dont_write_bytecode = True
HERE = os.path.dirname(os.path.abspath(__file__))
sys.path.insert(0, HERE)

from before_the_ear import Guard, Pace  # noqa: E402
from planted import FAULTS  # noqa: E402

MODULES = "ABCDEFGHIJKLMNOPQRSTUVWX"
PARROTS = "TUVWX"
LIMIT = "3"
DENIED = "N0DENY"
KNOWN = ["--modules", MODULES, "--parrot", PARROTS, "--limit", LIMIT, "--name", "M17-TST"]
SERVED = ["--call", "M17-TST", "--modules", MODULES, "--parrots", PARROTS, "--limit", LIMIT]
FEW = """
asking.ackn-has-ten-bytes asking.unserved-ends-a-membership asking.again-joins-anew asking.move-says-disc
asking.disc-of-four-is-passed-over asking.denied-is-nacked there.pong-from-the-member there.stranger-frame-is-heard
there.stranger-disc-of-four-is-answered floor.busy-is-relayed floor.holder-may-begin-anew floor.repeat-is-admitted
floor.late-is-admitted floor.after-end-is-admitted floor.listeners-may-speak clock.lost-after-1300-ms
clock.forgotten-after-nine-seconds clock.no-limit on.each-twentieth-comes-twice on.talker-hears-itself on.modules-leak
on.destination-is-broadcast parrot.no-end-bit bad.crc-is-not-looked-at
""".split()  # of each kind of scene one or more, for the checks
UNKNOWN_AT_MOST = 6  # scenes of a run that may stay not known, on a machine that is too busy
LONG = {"there.silence", "there.rubbish-is-silence", "there.kept"}  # scenes that --quick leaves out
USUAL_PACE = 100  # frames a second
MUCH = 2  # tasks that want a processor
WAIT = 120
STARTS = 5
LONGEST = 900


def free_ports(count, host="127.0.0.1"):
    family = socket.AF_INET6 if ":" in host else socket.AF_INET
    taken = [socket.socket(family, socket.SOCK_DGRAM) for _ in range(count)]
    for one in taken:
        one.bind((host, 0))
    ports = [one.getsockname()[1] for one in taken]
    for one in taken:
        one.close()
    return ports


def place(host, port):
    return "[%s]:%d" % (host, port) if ":" in host else "%s:%d" % (host, port)


def is_there(host, port):
    """Whether something answers a CONN there, to a module that isn't served."""
    with socket.socket(socket.AF_INET6 if ":" in host else socket.AF_INET, socket.SOCK_DGRAM) as own:
        own.settimeout(0.2)
        own.connect((host, port))
        try:
            own.send(b"CONN" + bytes.fromhex("00004B13D106") + b"Z")
            return bool(own.recv(64))
        except OSError:
            return False


def waits_until(test, process):
    until = time.monotonic() + WAIT
    while not test():
        if time.monotonic() > until:
            ended(process)
            raise AssertionError("the reflector did not start")
        time.sleep(0.05)


def probes(address, words, is_stalled=False):
    """What the probe says of the reflector there."""
    command = [sys.executable, "-B", os.path.join(HERE, "probe"), address, "--json", *words]
    # Into a file, which takes all that is written, also of a process that is stopped meanwhile.
    with tempfile.TemporaryFile() as told_to:
        probe = subprocess.Popen(command, stdout=told_to, stderr=subprocess.PIPE)
        try:
            with stalling(probe, is_stalled):
                _, errors = probe.communicate(timeout=LONGEST)
        finally:
            ended(probe)
        told_to.seek(0)
        told_of_it = told_to.read()
    if probe.returncode not in (0, 1):
        raise AssertionError("the probe ended with %d: %s" % (probe.returncode, errors.decode()))
    said = json.loads(told_of_it)
    if probe.returncode != (said["differ"] > 0):
        raise AssertionError("the probe ended with %d where %d differ" % (probe.returncode, said["differ"]))
    return said


@contextlib.contextmanager
def stalling(process, is_stalled):
    """Meanwhile the process is stopped for some tenths of a second again and again, as on a machine with too much to do."""
    over = threading.Event()

    def stalls():
        while is_stalled and not over.wait(random.uniform(0.3, 1.7)):
            process.send_signal(signal.SIGSTOP)
            over.wait(random.uniform(0.3, 1.2))
            process.send_signal(signal.SIGCONT)

    thread = threading.Thread(target=stalls)
    thread.start()
    try:
        yield
    finally:
        over.set()
        thread.join()


def again(said, address, words):
    """The same, where the scenes that were not known were played once more, by themselves."""
    unknown = told(said, "not known")
    if not unknown:
        return said
    second = probes(address, words + ["--only", ",".join(unknown), "--jobs", "2"])
    scenes = {scene["name"]: scene for scene in said["scenes"]}
    scenes.update((scene["name"], scene) for scene in second["scenes"] if scene["name"] in unknown)
    said["scenes"] = list(scenes.values())
    return said


def told(said, verdict):
    return {scene["name"]: scene["how"] for scene in said["scenes"] if scene["verdict"] == verdict}


def kept_out(said):
    """Scenes in which a guard would keep out what a client says, or a pace what it is sent: PROBE.md says that there are none."""
    wrong = {}
    for scene in said["scenes"]:
        guard, pace = Guard(), Pace(USUAL_PACE)
        for line in scene["wire"]:
            data = bytes.fromhex(line["hex"])
            is_out = guard.is_echo if line["way"] == "sent" else pace.is_over
            if is_out(line["ms"], line["who"], data):
                wrong[scene["name"]] = "a guard or a pace keeps out: %s" % line["words"]
    return wrong


def ended(process):
    process.kill()
    process.wait()


# ---- the program


def places_of(kind):
    """Where a reflector is bound, and where it is asked."""
    one, two = free_ports(2)
    return {
        "one link": ([place("127.0.0.1", one)], [("127.0.0.1", one)]),
        "two links": ([place("127.0.0.1", one), place("127.0.0.1", two)], [("127.0.0.1", one), ("127.0.0.1", two)]),
        "IPv6 and IPv4": ([place("::", one)], [("::1", one), ("127.0.0.1", one)]),
    }[kind]


FILES = ["--book", ".", "--board", "board"]
RULES = "deny any * " + DENIED

# What it is, where it is bound, its options, its input, and what the probe is told of it.
CASES = [
    ("one link", "one link", [], "", []),
    ("two links", "two links", [], "", []),
    ("[::]", "IPv6 and IPv4", [], "", []),
    ("a book and a board", "one link", FILES, "", []),
    ("rules that allow all", "one link", ["--rules"], "allow any * *", []),
    ("few places", "one link", ["--places", "16"], "", ["--places", "16"]),
    ("no limit", "one link", ["--limit", "0"], "", ["--limit", "0"]),
    ("CRCs that are filled in", "one link", ["--fill-crc"], "", ["--fill-crc"]),
    ("no guard", "one link", ["--no-guard"], "", []),
    ("no pace", "one link", ["--pace", "0"], "", []),
    ("all at once", "two links", [*FILES, "--fill-crc", "--rules"], RULES, ["--fill-crc", "--denied", DENIED]),
]

# The same of the reflector in Python, without a fault.
FAULTLESS = [
    ("no fault", [], []),
    ("no fault, a guard and a pace", ["--guard", "--pace", "100"], []),
    ("no fault, CRCs that are filled in", ["--fill-crc"], ["--fill-crc"]),
]


def merged(words, others):
    """The words, with those of the same options in others in their place."""
    pairs = dict(zip(words[::2], words[1::2]))
    rest = []
    others = list(others)
    while others:
        word = others.pop(0)
        if word in pairs:
            pairs[word] = others.pop(0)
        else:
            rest.append(word)
    return [part for pair in pairs.items() for part in pair] + rest


def starts(program, case, folder):
    """A reflector that runs, and where it is asked. A port that was free may be somebody else's by now: then it ends, and
    others are tried."""
    _, kind, options, rules, _ = case
    for _ in range(STARTS):
        bound, asked = places_of(kind)
        command = [program, "serve", *merged(SERVED, options), *bound]
        with tempfile.TemporaryFile() as text:
            text.write(rules.encode())
            text.seek(0)
            process = subprocess.Popen(command, stdin=text, stdout=subprocess.DEVNULL, cwd=folder)
        waits_until(lambda: process.poll() is not None or is_there(*asked[-1]), process)
        if process.poll() is None:
            return process, asked
    raise AssertionError("the reflector ended with %d" % process.returncode)


def serves(program, level, stalled, case):
    with tempfile.TemporaryDirectory() as folder:
        process, asked = starts(program, case, folder)
        try:
            also = [word for other in asked[1:] for word in ("--also", place(*other))]
            words = merged(KNOWN, case[4]) + also + level
            with stalling(process, stalled == "the reflector"):
                said = probes(place(*asked[0]), words, stalled == "the probe")
            return again(said, place(*asked[0]), words)
        finally:
            ended(process)


def keeps(program, level, stalled, case):
    """Whether the program keeps all, as a line and whether it does."""
    said = serves(program, level, stalled, case)
    differs, unknown = {**told(said, "differs"), **kept_out(said)}, told(said, "not known")
    if len(unknown) > UNKNOWN_AT_MOST:
        differs = {**differs, "": "%d scenes are not known" % len(unknown)}
    of = case[0] + (", where %s is stopped again and again" % stalled if stalled else "")
    return "%s: %d keep" % (of, len(told(said, "keeps"))), differs, unknown


# ---- faults


def finds(name):
    """Whether just the scenes that are meant for a fault differ. One of them has to; others may be not known."""
    fault = FAULTS[name]
    is_long = bool(LONG & set(fault.scenes))
    differs, unknown = probed(["--fault", name], ["--only", "there"] if is_long else ["--quick"])
    unseen = [scene for scene in fault.scenes if scene not in differs]
    if unseen:  # a slow machine may have been too late to see it
        more, _ = probed(["--fault", name], ["--only", ",".join(unseen), "--jobs", "4"])
        differs = {**more, **differs}
    unknown = {scene: how for scene, how in unknown.items() if scene not in differs}
    is_found = any(scene in differs for scene in fault.scenes)
    unseen = [scene for scene in fault.scenes if scene not in differs]
    missed = {scene: "did not find it" for scene in unseen if not is_found or scene not in unknown}
    others = {scene: how for scene, how in differs.items() if scene not in fault.scenes + fault.may}
    return "%s: found by %s" % (name, " ".join(sorted(differs)) or "none"), {**missed, **others}, unknown


def finds_nothing(case):
    what, options, known = case
    differs, unknown = probed(options, known + ["--quick"])
    return what, differs, unknown


def probed(options, words):
    """What differs and what is not known of the reflector in Python with these options."""
    with tempfile.TemporaryDirectory() as folder:
        port_file = os.path.join(folder, "port")
        command = [sys.executable, "-B", os.path.join(HERE, "faulty_reflector.py"), "--port-file", port_file]
        process = subprocess.Popen(command + SERVED + ["--deny", DENIED] + options)
        try:
            waits_until(lambda: os.path.exists(port_file), process)
            with open(port_file, encoding="ascii") as file:
                said = probes("127.0.0.1:" + file.read(), KNOWN + ["--denied", DENIED] + words)
        finally:
            ended(process)
    return told(said, "differs"), told(said, "not known")


# ---- pages


def anchors_of(page):
    """The sections of a page, as links name them."""
    with open(os.path.join(HERE, "..", "docs", page), encoding="utf-8") as lines:
        heads = [line.lstrip("#").strip().lower() for line in lines if re.match("#+ ", line)]
    return {re.sub("[^a-z0-9 -]", "", head).replace(" ", "-") for head in heads}


def pages():
    command = [sys.executable, "-B", os.path.join(HERE, "probe"), "127.0.0.1:1", "--full", "--list"]
    listed = subprocess.run(command, stdout=subprocess.PIPE, check=True)
    with open(os.path.join(HERE, "PROBE.md"), encoding="utf-8") as file:
        rows = re.findall(r"^\| `[a-z]+[.][a-z-]+` \|.*$", file.read(), re.MULTILINE)
    wrong, wanted = [], []
    for line in listed.stdout.decode().splitlines():
        name, sections, rule = re.match(r"(\S+) +(docs/.+?): (.*)", line).groups()
        links = [section.split("#") for section in sections.replace("docs/", "").split(", ")]
        wrong += ["docs/%s has no section %s" % (page, section) for page, section in links if section not in anchors_of(page)]
        where = ", ".join("[%s](../docs/%s#%s)" % (section.replace("-", " "), page, section) for page, section in links)
        wanted.append("| `%s` | %s (%s) |" % (name, rule, where))
    wrong += ["PROBE.md has no row %s" % row for row in wanted if row not in rows]
    wrong += ["PROBE.md has a row that is of no scene: %s" % row for row in rows if row not in wanted]
    print("\n".join(wrong + ["%d passed, %d failed" % (not wrong, bool(wrong))]))
    return 1 if wrong else 0


# ---- all of it


def tried(job, *words):
    try:
        return job(*words)
    except (AssertionError, OSError, ValueError, subprocess.SubprocessError) as error:
        return str(words[-1]), {"": str(error)}, {}


def jobs_of(options):
    few = faults_of(options) if options.few else []
    return programs_of(options) + few if options.what == "program" else faults_of(options)


def programs_of(options):
    level = [] if options.usual else ["--quick"]
    program = os.path.abspath(options.program)
    cases = [(None, case) for case in CASES] + [("the reflector", CASES[0]), ("the probe", CASES[0])]
    return [(keeps, program, level, who, case) for who, case in cases if case[0].startswith(options.only)]


def faults_of(options):
    names = FEW if options.few else [name for name in FAULTS if name.startswith(tuple(options.only.split(",")))]
    names = [name for name in names if options.usual or not LONG & set(FAULTS[name].scenes)]
    slow = ("there.", "clock.")  # begun first, since they take longest
    faultless = [] if options.only or options.few else [(finds_nothing, case) for case in FAULTLESS]
    return faultless + [(finds, name) for name in sorted(names, key=lambda name: not name.startswith(slow))]


def jobs_at_once():
    """How many reflectors at once: ten for each processor, fewer where each has had much to do for a minute."""
    processors = os.cpu_count() or 1
    waiting = os.getloadavg()[0] / processors
    return max(1, int(10 * processors / max(1, waiting / MUCH)))


def main():
    parser = argparse.ArgumentParser(description=__doc__, formatter_class=argparse.RawDescriptionHelpFormatter)
    parser.add_argument("what", choices=("program", "faults", "pages"))
    parser.add_argument("program", nargs="?")
    parser.add_argument("--only", default="", help="those whose names begin so")
    parser.add_argument("--few", action="store_true", help="%d of the faults; beside a program too" % len(FEW))
    parser.add_argument("--usual", action="store_true", help="what takes 30 seconds too")
    parser.add_argument("--jobs", type=int, default=jobs_at_once(), help="how many reflectors at once")
    options = parser.parse_args()
    if (options.what == "program") != bool(options.program):
        parser.error("program wants a program")
    if options.what == "pages":
        return pages()
    failed = passed = 0
    with concurrent.futures.ThreadPoolExecutor(options.jobs) as pool:
        for what, wrong, unknown in pool.map(lambda job: tried(*job), jobs_of(options)):
            failed += bool(wrong)
            passed += not wrong
            print("%-7s %s" % ("FAILED" if wrong else "ok", what))
            for scene, how in [*wrong.items(), *unknown.items()]:
                print("        %s%s: %s" % ("not known: " if scene in unknown else "", scene, how))
    print("%d passed, %d failed" % (passed, failed))
    return 1 if failed else 0


if __name__ == "__main__":
    sys.exit(main())
