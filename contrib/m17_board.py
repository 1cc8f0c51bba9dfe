"""The reader of a board, the file in which a watch writes what happened in each module (docs/board.md), in fixed memory. It
lies where the scripts lie that use it, or in ../lib/m17 from there.
"""

import os
import re
import stat

from m17_books import Moments, open_waitless

LINE = re.compile(rb"([A-Z]) records ([0-9]{1,20}) admitted ([0-9]{1,20}) at ([0-9]{1,15}) talker ([ -~]{1,12})")
NOBODY = b"none"
# A line is shorter: what goes on for longer without an end is none.
LINE_MOST = 256
READ_AT_ONCE = 1 << 16
# How many bytes before the place are compared, to see that a file is still the one that was read.
KEPT_TAIL = 256


class Glance:
    """What the last line of a module says, and since when it says so of its talker, and when a packet was admitted last."""

    def __init__(self, records, admitted, moment, talker, before):
        self.records, self.admitted, self.moment, self.talker = records, admitted, moment, talker
        is_same = before is not None and before.talker == talker
        self.since = before.since if is_same else moment
        self.last = before.last if is_same and before.admitted == admitted else moment


class Board:
    """What stands in the file, as far as it was read. A file that is not there is an empty board, with `why`."""

    def __init__(self, path):
        self.path = path
        self.begin(None)

    def begin(self, which):
        # `which` is the file by its device and number, `tail` what was read last; `start` is the earliest moment 0 that any
        # read gave, in milliseconds.
        self.which, self.place, self.tail, self.rest, self.odd = which, 0, b"", b"", 0
        self.modules, self.start, self.changed, self.why = {}, None, None, None
        self.moments = Moments()

    def is_whole(self, file):
        """Whether what was read last stands there still, so that the file was not made anew in its place."""
        return os.pread(file, len(self.tail), self.place - len(self.tail)) == self.tail

    def look(self):
        """Reads what was written since. It says whether anything was."""
        try:
            file = open_waitless(self.path)
        except OSError as error:
            if self.which is not None or self.why is None:
                self.begin(None)
            self.why = error.strerror
            return False
        try:
            return self.read(file)
        except OSError as error:
            self.why = error.strerror
            return False
        finally:
            os.close(file)

    def read(self, file):
        before = os.fstat(file)
        if not stat.S_ISREG(before.st_mode):
            self.begin(None)
            self.why = "it is no file"
            return False
        if (before.st_dev, before.st_ino) != self.which or not self.is_whole(file):
            self.begin((before.st_dev, before.st_ino))
            before = os.fstat(file)
        latest, is_first, self.why = None, self.start is None, None
        while data := os.pread(file, READ_AT_ONCE, self.place):
            self.place += len(data)
            self.tail = (self.tail + data)[-KEPT_TAIL:]
            moment = self.take(data)
            latest = moment if latest is None else max(latest, moment or 0)
        after = os.fstat(file)
        # The last line that was read needs the time at which it was written. Where the file had just these bytes before the
        # read, that is the time of its change then: a line that came behind the read has another time, and is not read yet.
        # Else the line came during the read, and so the time after it is too late by no more than the read took. The time
        # before it would be too early by the whole silence before that line, and for ever, since the earliest start is kept.
        self.changed = (before if before.st_size == self.place else after).st_mtime_ns // 1_000_000
        if latest is None:
            return False
        start = self.changed - latest
        self.start = start if self.start is None else min(self.start, start)
        self.moments.take(latest, self.start, not is_first)
        return True

    def take(self, data):
        """Takes these bytes as read. It says the latest moment of their lines, if they have any."""
        *lines, self.rest = (self.rest + data).split(b"\n")
        if len(self.rest) > LINE_MOST:
            # The end of it counts as the line that is odd.
            self.rest = self.rest[:LINE_MOST]
        latest = None
        for line in lines:
            found = LINE.fullmatch(line)
            if not found:
                self.odd += 1
                continue
            letter, talker = found[1].decode("ascii"), None if found[5] == NOBODY else found[5].decode("ascii")
            glance = Glance(int(found[2]), int(found[3]), int(found[4]), talker, self.modules.get(letter))
            self.modules[letter] = glance
            latest = glance.moment if latest is None else max(latest, glance.moment)
        return latest
