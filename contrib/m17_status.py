"""What a reflector is at, out of the folder in which it writes, for those who show it: whether it runs and since when, who is
in each module, who talks, and who was heard last. `m17-page` has it from here. It lies where that lies, or in ../lib/m17 from
there.
"""

import os
import re
import time
from collections import deque

from m17_board import Board
from m17_books import VERDICTS, is_regular, open_waitless, utc
from m17_folder import Folder, lock_of, why_closed
from m17_runs import FRAME, FREE, SILENT, Run

# The form of what `Watcher.status` says: another one wherever a name goes or means something else.
FORM = 1
HEARD_MOST = 30
# In seconds: between two reads of the books where no board tells of news, between two looks at the lock, and between two
# times that a status is made where nothing happens, or somebody talks, or much is read; so long a lock stays that is one.
BOOKS_EVERY, LOCK_EVERY, IDLE, TALKING, READING, MOMENT = 0.5, 1, 1, 0.2, 0.5, 0.2
# In milliseconds: so long a module is told as silent; an over of which nothing came is ended some time after the floor is
# free, since a record may be read late.
TOLD_SILENT, ENDED_SILENT = 30_000, 2000
# How many events between two looks at the time, and how much of what the reflector said is read.
PULSE, SAID_MOST = 4096, 1 << 16
PLACES_MOST = 256
TALKS, IS_SILENT, QUIET = "talks", "silent", "quiet"
RUNS, ENDED, UNKNOWN = "runs", "ended", "unknown"
STATE_OF_LOCK = {"held": RUNS, "free": ENDED}


class Heard:
    """An over, as far as it was heard: of which run, by which member, and how it ended, None while it goes on."""

    def __init__(self, run, letter, over, by):
        self.run, self.letter, self.over, self.by, self.cause = run, letter, over, by, None


class WatchedRun(Run):
    """One run of the reflector, with counts of its packets by module and verdict."""

    def __init__(self, letters, heard):
        super().__init__()
        self.heard, self.start = heard, 0
        self.counts = {letter: dict.fromkeys(VERDICTS, 0) for letter in letters}
        self.records = dict.fromkeys(letters, 0)
        self.latest, self.places = {}, {}

    def note(self, moment, letter, record):
        self.end_silent(moment)
        self.records[letter] += 1
        # A reflector has no further places.
        if int.from_bytes(record[18:22], "big") < PLACES_MOST:
            self.record(moment, letter, record)

    def packet(self, moment, key, verdict, packet):
        self.counts[key[0]][verdict] += 1
        super().packet(moment, key, verdict, packet)

    def joins(self, moment, key, member):
        # At a place is one member at most, also where a file says otherwise: so there are as many as places in each module.
        place = key[0], key[1][:4]
        if self.places.get(place, key) != key:
            self.members.pop(self.places[place], None)
        self.places[place] = key

    def leaves(self, moment, key, member, cause):
        pass

    def begins(self, moment, letter, over):
        self.latest[letter] = Heard(self, letter, over, self.call(over.member))
        self.heard.appendleft(self.latest[letter])

    def ends(self, moment, letter, over, cause):
        self.latest[letter].cause = cause

    def refuses(self, moment, key, verdict):
        pass

    def admitted(self, letter):
        return self.counts[letter]["opened"] + self.counts[letter]["continued"]


class Watcher:
    """Reads what a reflector writes, and says what it is at. `tell` is called while much is read."""

    def __init__(self, options, tell=lambda status: None):
        self.options, self.tell = options, tell
        self.folder = Folder(options.folder, self, has_traces=False, pulse=self.pulse)
        self.board = Board(options.board or os.path.join(options.folder, "board"))
        self.run, self.heard = None, deque(maxlen=HEARD_MOST)
        self.lock, self.missed, self.trouble = "unknown", {}, None
        self.read_at = self.locked_at = self.told_at = self.looked_at = None
        # When what is told was read: by the count of time that nobody sets, and by the clock.
        self.fresh = time.monotonic(), time.time()
        self.pulses, self.is_reading, self.is_there, self.closed = 0, True, False, None
        # Whether who runs here is known to lock; how much had come when nobody had locked, None while somebody has.
        self.locks, self.come_when_free = options.locked, None

    def begins(self, letters):
        if self.run:
            self.run.restarts(self.run.moment)
        self.run = WatchedRun(letters, self.heard)
        self.run.start, self.run.moment = self.folder.start, 0

    def takes(self, moment, event):
        self.run.note(moment, *event[1:])
        self.run.moment = moment
        self.pulses += 1
        if self.pulses % PULSE == 0:
            self.run.start = self.folder.start
            self.pulse()

    def pulse(self):
        """Tells how far it is, where a look takes long."""
        now = time.monotonic()
        if now - max(self.told_at, self.looked_at) >= READING:
            self.is_reading, self.fresh = True, (now, time.time())
            self.tell(self.status())

    def look(self, settling):
        """Reads what has come, and says whether there is something to tell."""
        now = self.looked_at = time.monotonic()
        if self.told_at is None:
            self.told_at = now
        has_come = self.look_at_lock(now)
        has_come = self.board.look() or has_come
        if has_come or self.read_at is None or now - self.read_at >= BOOKS_EVERY:
            self.is_there, self.closed = os.path.isdir(self.options.folder), why_closed(self.options.folder)
            has_come = self.folder.look(settling) or has_come
            self.read_at = time.monotonic()
            # What was written while the folder was locked has been read by now.
            if self.lock == "free" and self.come_when_free is None:
                self.come_when_free = self.pulses
        if self.run:
            self.run.start = self.folder.start
            self.run.end_silent(self.folder.moments.now(), ENDED_SILENT)
        is_due = now - self.told_at >= (TALKING if self.run and self.run.overs else IDLE)
        return has_come or self.is_reading or is_due

    def look_at_lock(self, now):
        """Looks whether the reflector runs, where that is due, and says whether that has changed."""
        if self.locked_at is not None and now - self.locked_at < LOCK_EVERY:
            return False
        self.locked_at, before = now, self.lock
        self.lock = self.find_lock()
        self.missed = self.read_missed() if self.state() == ENDED else {}
        return before != self.lock

    def find_lock(self):
        """Where who runs was seen to lock, a folder in which nothing is locked has nobody: also a new one, in which a start
        failed. Where records come all the same, somebody writes them who locks nothing."""
        lock = lock_of(self.options.folder)
        if lock == "held" and self.lock != "held":
            # A start that fails, and who only looks whether the folder is free, have it locked for a moment.
            time.sleep(MOMENT)
            lock = lock_of(self.options.folder)
        if lock == "held":
            self.locks, self.come_when_free = True, None
        if self.come_when_free is not None and self.pulses > self.come_when_free:
            self.locks = self.options.locked
        return "free" if lock == "none" and self.locks else lock

    def state(self):
        return STATE_OF_LOCK.get(self.lock, UNKNOWN)

    def read_missed(self):
        """What the reflector says at its end of the frames that it left out, where its output goes to a file."""
        if not self.options.said or not is_regular(self.options.said):
            return {}
        try:
            file = open_waitless(self.options.said)
        except OSError:
            return {}
        try:
            status = os.fstat(file)
            # A run that was killed said nothing: what stands there then is of one before.
            if self.run and status.st_mtime_ns // 1_000_000 < self.run.start:
                return {}
            said = os.pread(file, SAID_MOST, max(0, status.st_size - SAID_MOST))
        except OSError:
            return {}
        finally:
            os.close(file)
        found = re.findall(rb"^([A-Z]) admitted [0-9]{1,20} missed ([0-9]{1,20})$", said, re.M)
        return {letter.decode("ascii"): int(count) for letter, count in found}

    def done(self):
        """What was read is whole."""
        self.is_reading, self.trouble, self.fresh = False, None, (time.monotonic(), time.time())
        return self.status()

    def status(self):
        self.told_at = time.monotonic()
        start = self.run.start if self.run else self.board.start
        letters = sorted({*(self.run.records if self.run else ()), *self.board.modules})
        members = self.members() if self.run and self.state() != ENDED else {}
        return {
            "form": FORM,
            "name": self.options.call,
            "run": {"state": self.state(), "start": start},
            "data": self.data(),
            "modules": [self.module(letter, members.get(letter, [])) for letter in letters],
            "heard": [self.heard_line(each) for each in self.heard],
        }

    def data(self):
        changes = [book.changed // 1_000_000 for book in self.folder.books.values()]
        changes += [] if self.board.changed is None else [self.board.changed]
        state = "reading" if self.is_reading else "whole" if self.is_there else "no folder"
        if state == "whole" and not self.run and not self.board.modules:
            state = "empty"
        told = {"state": state, "share": self.share(), "read": int(1000 * self.fresh[1]), "changed": max(changes, default=None)}
        return {**told, "problems": self.problems()}

    def share(self):
        """How much of the books has been read, where that goes on."""
        books = self.folder.books.values()
        whole = sum(book.limit for book in books)
        return round(sum(book.place for book in books) / whole, 3) if self.is_reading and whole else None

    def problems(self):
        told = [f"the folder: {self.closed}"] if self.closed else []
        told += [f"{name}: {why}" for name, why in self.folder.closed.items()]
        told += [f"{book.letter}.book: {book.why}" for book in self.folder.books.values() if book.why]
        if self.options.board and self.board.why:
            # As text, whatever bytes the name has.
            told.append(f"{os.fsencode(self.options.board).decode('utf-8', 'backslashreplace')}: {self.board.why}")
        if self.board.odd:
            told.append(f"board: lines that are none of a board: {self.board.odd}")
        return told + ([self.trouble] if self.trouble else [])

    def module(self, letter, members):
        run, glance = self.run, self.board.modules.get(letter)
        told = {"module": letter, "parrot": letter in self.options.parrots, **self.talk(letter, glance)}
        told["missed"] = self.missed.get(letter)
        if not run or letter not in run.records:
            unknown = dict.fromkeys(("members", "verdicts", "bytes"))
            return {**told, **unknown, "records": glance.records, "admitted": glance.admitted}
        book = self.folder.books.get(letter)
        told["members"], told["records"], told["admitted"] = members, run.records[letter], run.admitted(letter)
        told["verdicts"] = dict(run.counts[letter])
        return {**told, "bytes": book.place if book else 0}

    def members(self):
        """Who is in, by module."""
        found, start = {}, self.run.start
        for (letter, _), member in sorted(self.run.members.items(), key=lambda item: item[1].call):
            told = {"callsign": member.call, "listens": member.listens, "since": start + member.since}
            found.setdefault(letter, []).append(told)
        return found

    def talk(self, letter, glance):
        """Who talks in the module, by the board where that has more records than the book, or fell silent, and since when."""
        if self.state() == ENDED:
            return self.talk_of(QUIET)
        latest = self.run.latest.get(letter) if self.run else None
        if glance and glance.records > (self.run.records.get(letter, 0) if self.run else 0):
            if glance.talker is None:
                return self.talk_of(QUIET)
            return self.talk_by(self.board.start, self.board.moments.now(), glance.talker, None, glance.since, glance.last)
        if latest and latest.cause in (None, SILENT):
            over, now = latest.over, self.folder.moments.now()
            return self.talk_by(self.run.start, now, over.talker, latest.by, over.first, over.last)
        return self.talk_of(QUIET)

    def talk_by(self, start, now, talker, by, first, last):
        if now - last < FREE:
            return self.talk_of(TALKS, talker, by, start + first, now - first)
        if now - last < TOLD_SILENT:
            return self.talk_of(IS_SILENT, talker, by, start + last + FRAME, now - last - FRAME)
        return self.talk_of(QUIET)

    @staticmethod
    def talk_of(state, talker=None, by=None, since=None, length=None):
        return {"state": state, "talker": talker, "by": by, "since": since, "milliseconds": length}

    def heard_line(self, heard):
        over, cause = heard.over, heard.cause
        if cause is None and heard.run is self.run and self.folder.moments.now() - over.last >= FREE:
            cause = SILENT
        told = {"callsign": over.talker, "by": heard.by, "module": heard.letter, "begin": heard.run.start + over.first}
        return {**told, "milliseconds": over.milliseconds(), "packets": over.packets, "sent": over.sent(), "ended": cause}


def in_words_of_json(status, age):
    """The same for programs: times as texts in UTC, lengths in seconds. `age` is how many seconds ago it was made."""
    now = int(1000 * time.time())

    def of_time(moment):
        return None if moment is None else utc(moment)

    def of_item(item, times):
        told = {name: of_time(value) if name in times else value for name, value in item.items() if name != "milliseconds"}
        if "milliseconds" in item:
            told["seconds"] = None if item["milliseconds"] is None else item["milliseconds"] / 1000
        return told

    run, modules = of_item(status["run"], ("start",)), []
    run["seconds"] = run_seconds(status, now)
    for module in status["modules"]:
        members = module["members"] and [of_item(member, ("since",)) for member in module["members"]]
        modules.append({**of_item(module, ("since",)), "members": members})
    data = {**of_item(status["data"], ("read", "changed")), "age": round(age, 3)}
    heard = [of_item(each, ("begin",)) for each in status["heard"]]
    return {**status, "time": utc(now), "run": run, "data": data, "modules": modules, "heard": heard}


def run_seconds(status, now):
    """How long the run has gone on, or went on until its last change where it ended."""
    start, changed = status["run"]["start"], status["data"]["changed"]
    if start is None:
        return None
    return max(0, (changed if status["run"]["state"] == ENDED and changed is not None else now) - start) / 1000
