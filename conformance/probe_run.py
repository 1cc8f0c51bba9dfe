"""A run of the probe: what the reflector is found to be, and its scenes, those side by side that don't disturb each other."""

import random
import threading
import time
from collections import namedtuple

from probe_play import Differs, Missing, Play, Unsettled
from probe_watch import Beat, Watch
from probe_wire import Client

LETTERS = "ABCDEFGHIJKLMNOPQRSTUVWXYZ"
KEEPS, DIFFERS, UNKNOWN = "keeps", "differs", "not known"
LONGEST_SHORT_LIMIT = 15  # seconds: a longer limit on talking is waited for with --full alone
FIRST_ANSWER = 5

LACKS = {
    "unserved": "each letter is a module that is served",
    "denied": "no callsign is denied",
    "short limit": "the limit on talking is none, below two seconds, or above %d" % LONGEST_SHORT_LIMIT,
    "long limit": "the limit on talking is none, or up to %d seconds" % LONGEST_SHORT_LIMIT,
}

Result = namedtuple("Result", "scene verdict how tries log")


class Unanswered(Exception):
    """Nobody answers there, or nobody is let in."""


class Run:
    def __init__(self, options, addresses):
        self.options = options
        self.addresses = addresses
        self.lock = threading.Lock()
        self.calls = 0
        self.sid = random.randrange(0x8000)
        self.answers_pings = self.answers_discs = True
        self.modules = options.modules
        self.parrots = options.parrot
        self.unserved = None
        self.watch = Watch()
        self.beats = []
        self.left_out = []  # names of scenes that cannot be played here, and why

    # ---- what is given out once

    def next_call(self):
        """A callsign of its own for each client: that of the probe, a dash, and two letters."""
        digits = LETTERS + "0123456789"
        with self.lock:
            self.calls += 1
            high, low = divmod(self.calls % 1296, 36)
        return self.options.call[:6].rstrip(" ") + "-" + digits[high] + digits[low]

    def next_sid(self):
        """A stream id that no other stream of this run has, nor the complement of one."""
        with self.lock:
            self.sid = (self.sid + 1) % 0x8000
            return self.sid

    def next_address(self, place):
        return self.addresses[place % len(self.addresses)]

    @property
    def plain(self):
        return [letter for letter in self.modules if letter not in self.parrots]

    # ---- what the reflector is

    def asks(self, letter, address):
        """What it says of a CONN to a module, as the magic of its answer, or None; and the client."""
        client = Client("first", self.next_call(), address, [])
        for _ in range(2):
            since = len(client.came)
            client.says("CONN", letter)
            heard = client.wait_for(lambda data: data[:4] in (b"ACKN", b"NACK"), FIRST_ANSWER, since)
            if heard:
                return heard.data[:4], client
        return None, client

    def finds_out(self):
        """Which modules there are, where none were named, and whether a PING and a DISC are answered."""
        found = ""
        for letter in self.modules or LETTERS:
            answer, client = self.asks(letter, self.addresses[0])
            if answer is None and not found:
                raise Unanswered("nobody answers there")
            if answer == b"ACKN":
                if not found:
                    self.answers_pings = self.is_answered(client, letter, "PING", b"PONG")
                    self.answers_discs = self.is_answered(client, letter, "DISC", b"DISC")
                found += letter
            client.says("DISC")
            client.wait_for_kind(b"DISC", 0.3, 0)
            client.close()
            if self.modules:
                break
        if not found:
            raise Unanswered("nobody is let in there")
        self.modules = self.modules or found
        self.parrots = "".join(letter for letter in self.parrots if letter in self.modules)
        self.unserved = next((letter for letter in LETTERS if letter not in self.modules), None)

    @staticmethod
    def is_answered(client, letter, kind, answer):
        """Whether a member that says this is answered so. It asks for its module anew each time, since a DISC ends that."""
        for _ in range(2):
            since = len(client.came)
            client.says("CONN", letter)
            client.wait_for_kind(b"ACKN", FIRST_ANSWER, since)
            client.says(kind)
            if client.wait_for_kind(answer, FIRST_ANSWER, since):
                return True
        return False

    # ---- what can be played there

    def lacks(self, scene):
        """Why a scene can't be played at this reflector, or None."""
        options, wants = self.options, scene.wants
        letters = self.parrots if scene.parrot else self.plain
        lacking = {
            "unserved": self.unserved is None,
            "denied": options.denied is None,
            "short limit": not 2 <= options.limit <= LONGEST_SHORT_LIMIT,
            "long limit": options.limit <= LONGEST_SHORT_LIMIT,
        }
        if wants and lacking[wants]:
            return LACKS[wants]
        if 0 < options.limit <= scene.talks:
            return "the limit on talking is too short for it"
        if len(letters) < max(scene.modules, not scene.parrot):
            return "too few modules"
        return "too few places" if scene.members > self.places else None

    def plays(self, scenes):
        """The results of all that can be played, in the order of the list."""
        self.starts_watching()
        lacking = [(scene, self.lacks(scene)) for scene in scenes]
        self.left_out = [(scene.name, why) for scene, why in lacking if why]
        results = Stage(self, self.options.jobs).plays([scene for scene, why in lacking if not why])
        for beat in self.beats:
            beat.leaves()
        return sorted(results, key=lambda result: scenes.index(result.scene))

    @property
    def places(self):
        """How many its scenes may take; what is left is for beats."""
        return self.options.places - self.options.places // 8

    # ---- whether anything was late

    def starts_watching(self):
        if self.answers_pings and self.options.places - self.places >= len(self.addresses):
            self.beats = [Beat(self.next_call(), address, self.modules[0]) for address in self.addresses]
        for watch in [self.watch, *self.beats]:
            watch.start()

    def was_late(self, moment, most):
        """What was late for more than so many seconds since then, this machine or the reflector, or None."""
        if self.watch.seconds_since(moment) > most:
            return "this machine was too busy"
        if any(beat.seconds_since(moment) > most for beat in self.beats):
            return "the reflector was too slow, or the way to it"
        return None


def try_once(run, scene, modules):
    """One try: a verdict or None where it has to be tried again, how it differs or why it is not known, and the play."""
    play = Play(run, modules)
    began = time.monotonic()
    try:
        scene.play(play)
        return KEEPS, "", play
    except Differs as differs:
        return DIFFERS, str(differs), play
    except Missing as missing:
        late = run.was_late(began, missing.bears)
        return ("unsettled", "%s: %s" % (late, missing), play) if late else ("missing", str(missing), play)
    except (Unsettled, OSError) as unsettled:
        return "unsettled", str(unsettled), play
    finally:
        play.end()
        play.rests()


def play_scene(run, scene, modules):
    """A scene with as many tries as it takes: what is missing each time differs, and what is once isn't known."""
    most = 3 if scene.seconds < 30 else 2
    missing = tries = 0
    while tries < 2 * most:
        tries += 1
        verdict, how, play = try_once(run, scene, modules)
        missing += verdict == "missing"
        if verdict in (KEEPS, DIFFERS):
            return Result(scene, verdict, how, tries, play.log)
        if missing == most:
            return Result(scene, DIFFERS, how, tries, play.log)
    return Result(scene, UNKNOWN, how, tries, play.log)


class Stage:
    """Plays scenes side by side: each has its modules for itself, and no more are in than there are places."""

    def __init__(self, run, jobs):
        self.run = run
        self.jobs = jobs
        self.changed = threading.Condition()
        self.letters = list(run.modules)
        self.members = 0
        self.running = 0
        self.results = []

    def modules_for(self, scene):
        """The modules that it would have now, or None where they are taken."""
        of_kind = [letter for letter in self.letters if (letter in self.run.parrots) == scene.parrot]
        return of_kind[: scene.modules] if len(of_kind) >= scene.modules else None

    def has_room(self, scene):
        return self.running < self.jobs and self.members + scene.members <= self.run.places

    def plays(self, scenes):
        """All of them, the longest first."""
        waiting = sorted(scenes, key=lambda scene: -scene.seconds)
        with self.changed:
            while waiting or self.running:
                ready = next((scene for scene in waiting if self.has_room(scene) and self.modules_for(scene) is not None), None)
                if ready is None:
                    self.changed.wait()
                    continue
                waiting.remove(ready)
                self.starts(ready)
        return self.results

    def starts(self, scene):
        modules = self.modules_for(scene)
        self.letters = [letter for letter in self.letters if letter not in modules]
        self.members += scene.members
        self.running += 1
        threading.Thread(target=self.job, args=(scene, modules), daemon=True).start()

    def job(self, scene, modules):
        try:
            result = play_scene(self.run, scene, modules)
        except Exception as error:  # a fault of the probe itself, which is no verdict
            result = Result(scene, UNKNOWN, "the probe failed: %r" % error, 1, [])
        with self.changed:
            self.letters = sorted(self.letters + modules)
            self.members -= scene.members
            self.running -= 1
            self.results.append(result)
            self.changed.notify_all()
