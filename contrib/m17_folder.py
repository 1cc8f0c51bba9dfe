"""The reader of the folder in which a reflector writes, behind its restarts, and whether somebody has locked it. It lies where
the scripts lie that use it, or in ../lib/m17 from there.
"""

import heapq
import os
import re
import sys
import time

from m17_books import Book, Clock, Moments, Trace, is_regular, open_waitless

# How long a reflector that starts has for opening its files, in seconds; and for an entry of a trace behind a record that came
# of it, since each file has a thread that writes it.
SETTLING, BEHIND, GLANCE = 0.5, 2, 0.02


class Folder:
    """Follows the books of a folder, and its traces where they are wanted, also behind a restart: in the same folder or,
    where the path is a link, in another one. A file that is another one now tells of a new run of the reflector. The reader
    is told `begins(letters)` of a run and its modules, and `takes(moment, event)` of each event, in order of moments. `pulse` is
    called while a long book is looked through for its start."""

    def __init__(self, path, reader, start=None, has_traces=True, pulse=None):
        self.path, self.reader, self.start, self.is_told = path, reader, start, start is not None
        self.pulse = pulse
        self.names = re.compile(r"[A-Z]\.book|link[0-3]\.trace" if has_traces else r"[A-Z]\.book")
        self.clock, self.moments = Clock(), Moments()
        # `left` are the files of runs before that lie there still: of a module that is not served any more.
        self.books, self.traces, self.left = {}, {}, []
        # Why files could not be opened, by their names; how long the traces were that were waited for in vain.
        self.closed, self.waited = {}, {}
        self.has_begun = self.is_stale = False

    def sources(self):
        return (*self.books.values(), *self.traces.values())

    def files(self):
        try:
            names = sorted(filter(self.names.fullmatch, os.listdir(self.path)))
        except OSError:
            return []
        return [path for path in (os.path.join(self.path, name) for name in names) if is_regular(path)]

    def look(self, settling=SETTLING):
        """Reads what has come. It says whether anything was read. Where nothing is to settle the folder is taken as it is."""
        if self.is_stale or not all(book.is_current() for book in self.books.values()):
            self.books = {letter: book for letter, book in self.books.items() if book.is_whole()}
            self.traces = {link: trace for link, trace in self.traces.items() if trace.is_whole()}
            self.follow(settling)
            time.sleep(settling)
            self.begin()
        elif not self.books and any(path.endswith(".book") for path in self.files()):
            time.sleep(settling)
            self.begin()
        return bool(self.books) and self.follow(settling)

    def begin(self):
        """Opens all files but those of the runs before, and begins a new one."""
        self.left = [source for source in (*self.left, *self.sources()) if source.is_current()]
        old = [source.path for source in self.left]
        self.books, self.traces, self.waited, self.is_stale = {}, {}, {}, False
        paths = [path for path in self.files() if path not in old]
        self.closed = {name: why for name, why in self.closed.items() if os.path.join(self.path, name) in paths}
        for path in paths:
            self.open(path)
        if not self.books:
            return
        for book in self.books.values():
            book.look()
        self.is_told, self.has_begun = self.is_told and not self.has_begun, True
        self.moments = Moments()
        self.take_start(is_first=True)
        self.reader.begins("".join(sorted(self.books)))

    def open(self, path, real=None):
        name = os.path.basename(path)
        try:
            if name.endswith(".book"):
                source = self.books[name[0]] = Book(path, name[0], real)
            else:
                source = self.traces[int(name[4])] = Trace(path, int(name[4]), real)
        except OSError as error:
            if self.closed.get(name) != error.strerror:
                sys.stderr.write(f"{path}: {error.strerror}\n")
            self.closed[name] = error.strerror
            return None
        self.closed.pop(name, None)
        return source

    def follow(self, settling):
        """Takes what books and traces have now, in order of moments. The traces are looked at behind the books, until they have
        the entries that the records came of."""
        for source in self.sources():
            source.look()
        if settling and self.traces:
            self.await_traces([book for book in self.books.values() if book.limit > book.place])
        has_come = any(source.limit > source.place for source in self.sources())
        self.take_start()
        events = [source.events() for source in (*self.traces.values(), *self.books.values())]
        for moment, _order, event in heapq.merge(*events, key=lambda each: each[:2]):
            self.reader.takes(moment, event)
        if self.books:
            self.moments.take(max(source.moment for source in self.sources()), self.start, has_come)
        return has_come

    def await_traces(self, books):
        for book in books:
            book.start()
        until = time.monotonic() + BEHIND
        while behind := [trace for trace in self.traces.values() if self.is_behind(trace, books)]:
            if time.monotonic() >= until:
                self.waited.update((trace.link, trace.limit) for trace in behind)
                return
            time.sleep(GLANCE)
            for trace in behind:
                trace.look()

    def is_behind(self, trace, books):
        """Whether the trace has not yet what records of these books came of, unless that was waited for in vain."""
        index = max((book.came_of.get(trace.link, -1) for book in books), default=-1)
        return not trace.has(index) and self.waited.get(trace.link) != trace.limit

    def take_start(self, is_first=False):
        if self.is_told:
            return
        for book in sorted(self.books.values(), key=lambda book: book.changed):
            if is_first or book.limit > book.place:
                self.start = self.clock.better_start(None if is_first else self.start, book.start(self.pulse))
                is_first = False

    def state(self):
        told = {"start": self.start, "is_told": self.is_told, "has_begun": self.has_begun}
        return {**told, "sources": [source.state() for source in self.sources()]}

    def go_on(self, told):
        """Goes on where another process left off. Files that are other ones now are those of a new run."""
        self.start, self.is_told, self.has_begun = int(told["start"]), told["is_told"], told["has_begun"]
        for each in told["sources"]:
            source = self.open(each["path"], each["real"]) if is_regular(each["real"]) else None
            if not source or not source.go_on(each):
                self.is_stale = True
                self.books = {letter: book for letter, book in self.books.items() if book is not source}
                self.traces = {link: trace for link, trace in self.traces.items() if trace is not source}


def why_closed(folder):
    """Why nobody can look into the folder, or None. One that isn't there is none to look into."""
    try:
        os.listdir(folder)
    except (FileNotFoundError, NotADirectoryError):
        return None
    except OSError as error:
        return error.strerror
    return None


def lock_of(folder):
    """Whether a reflector has the lock of its folder: `held`, `free`, `none` where the folder has no file `lock` and nobody
    locks the folder itself, as the unit has it locked, or `unknown`. It is read off the system's list and never tried, since a
    lock that somebody tries can make a start fail."""
    path = os.path.join(folder, "lock")
    try:
        if not os.path.lexists(path):
            return "held" if is_locked(folder) else "none"
        return "held" if is_locked(path) else "free"
    except OSError:
        return "unknown"


def is_locked(path):
    """Whether the system's list of locks has this file or folder. The list names it by the device of its file system, which may
    be another one than stat tells."""
    status = os.stat(path)
    keys = {(os.major(status.st_dev), os.minor(status.st_dev), status.st_ino), *mounted_key(path)}
    with open("/proc/locks", encoding="ascii") as lines:
        for line in lines:
            found = re.match(r"\d+: FLOCK +\S+ +WRITE +-?\d+ ([0-9a-f]+):([0-9a-f]+):(\d+) ", line)
            if found and (int(found[1], 16), int(found[2], 16), int(found[3])) in keys:
                return True
    return False


def mounted_key(path):
    """Device and number of the file as its mount has them."""
    try:
        file = open_waitless(path)
    except OSError:
        return []
    try:
        with open(f"/proc/self/fdinfo/{file}", encoding="ascii") as lines:
            told = dict(line.split(":", 1) for line in lines if line.count(":") == 1)
        inode = int(told.get("ino", os.fstat(file).st_ino))
        with open("/proc/self/mountinfo", encoding="utf-8", errors="replace") as mounts:
            found = [mount.split()[2] for mount in mounts if mount.split()[0] == told["mnt_id"].strip()]
        return [(*map(int, device.split(":")), inode) for device in found]
    except (OSError, ValueError, KeyError):
        return []
    finally:
        os.close(file)
