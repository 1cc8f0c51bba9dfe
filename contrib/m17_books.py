"""What the scripts beside this file know of packets, books and traces (docs/protocol.md), and their reader of one. It lies where
they lie, or in ../lib/m17 from there.
"""

import calendar
import os
import re
import stat
import sys
import time
from collections import namedtuple

TRACE_MAGIC = b"M17TRACE"
# A version of books: how it begins, how many bytes its head and a book have, how many of the verdicts it knows, and
# whether groups may join. The head has the letter of the module behind the magic, and in version 2 then the limit on
# talking, in milliseconds.
Version = namedtuple("Version", "magic head most verdicts groups")
VERSIONS = (Version(b"M17BOOK1", 9, 1 << 26, 8, False), Version(b"M17BOOK2", 17, (1 << 26) + 8, 9, True))
MAGIC_BYTES = 8
HEAD_MOST = max(version.head for version in VERSIONS)
# Of each kind the whole length of a record.
RECORDS = {1: 37, 2: 31, 3: 97}
LEAVE = 2
WHYS = ("asked", "moved", "silent", "stopped", "replaced")
VERDICTS = ("opened", "continued", "busy", "repeat", "late", "after-end", "not-member", "listen-only", "timed-out")
LETTERS = " ABCDEFGHIJKLMNOPQRSTUVWXYZ0123456789-/."
# Above it lie the groups, # and up to eight letters: this and the sum of the letters.
GROUPS = 40**9
END_BIT = 0x8000
# The magics of packets, by length.
MAGICS = {4: (b"ACKN", b"NACK", b"DISC"), 10: (b"PING", b"PONG", b"DISC"), 11: (b"CONN", b"LSTN"), 54: (b"M17 ",)}

READ_AT_ONCE = 1 << 16
# How many bytes before the place are compared, to see that a file is still the one that was read.
KEPT_TAIL = 64
# How much later than before, in milliseconds, a start has to be so that the clock was set.
CLOCK_SET = 2000
LAST_TIME = 253402300799999
# In milliseconds: so much older than the clock says no record is that was just written.
LATE = 2000


class Broken(Exception):
    """The file is none of its kind from there on."""


def number(data):
    return int.from_bytes(data, "big")


def has_callsign(data):
    """Whether the address of six bytes is that of a callsign, 1 to 40^9 - 1, or of a group."""
    return 0 < number(data) < GROUPS + 40**8 and number(data) != GROUPS


def version_of(data):
    """The version of the book that begins with these bytes, or None."""
    return next((version for version in VERSIONS if data[:MAGIC_BYTES] == version.magic), None)


def limit_of(head):
    """The limit on talking that the head of a book tells, in milliseconds; 0 is none."""
    return number(head[MAGIC_BYTES + 1 :])


def callsign(data):
    """The text of an address of six bytes."""
    value = number(data)
    if value == 2**48 - 1:
        return "broadcast"
    if not has_callsign(data):
        return data.hex().upper()
    text = ""
    if value > GROUPS:
        text, value = "#", value - GROUPS
    while value:
        value, letter = divmod(value, 40)
        text += LETTERS[letter]
    return text


def peer_text(address, port):
    if len(address) == 4:
        return ".".join(map(str, address)) + f":{number(port)}"
    return "[" + ":".join(address[at : at + 2].hex() for at in range(0, 16, 2)) + f"]:{number(port)}"


def utc(milliseconds):
    """The time that so many milliseconds since 1970 are."""
    seconds, rest = divmod(min(max(milliseconds, 0), LAST_TIME), 1000)
    return time.strftime("%Y-%m-%dT%H:%M:%S", time.gmtime(seconds)) + f".{rest:03d}Z"


def read_time(text):
    """Milliseconds since 1970 of 2026-11-28T08:01:59Z, with or without a fraction and the Z, or of 2026-11-28T080159, as
    the folders of the service unit are named. Any other text is a ValueError."""
    found = re.fullmatch(r"(\d{4}-\d\d-\d\dT\d\d):?(\d\d):?(\d\d)(?:\.(\d{1,3}))?Z?", text)
    if not found:
        raise ValueError(text)
    whole = time.strptime(":".join(found.group(1, 2, 3)), "%Y-%m-%dT%H:%M:%S")
    return 1000 * calendar.timegm(whole) + int((found.group(4) or "0").ljust(3, "0"))


class Clock:
    """Knows whether the clock of the machine was set since a start was taken: its time then went on otherwise than the
    count of time that nobody sets."""

    def __init__(self):
        self.offset = self.now()

    def now(self):
        return int(1000 * (time.time() - time.monotonic()))

    def better_start(self, old, new):
        """Of two that were taken for the start of the reflector, the one to go on with. Each is too late by as long as a write
        took, which on a disk that hangs is long, so the earlier one; but where the new one is later by seconds and the
        clock was set, that one."""
        was_set = self.now() > self.offset + CLOCK_SET
        if old is None or new < old or (was_set and new > old + CLOCK_SET):
            self.offset = self.now()
            return new
        return old


class Moments:
    """The moment that it is now, in milliseconds since the reflector began: first by the clock, and then by the count of time
    that nobody sets, as items come, none of which was written before its moment nor seconds after it."""

    def __init__(self):
        self.base = None

    def take(self, newest, start, has_come):
        """The newest moment that was read, and whether that came since the last look."""
        count, is_first = int(1000 * time.monotonic()), self.base is None
        if is_first:
            self.base = count - int(1000 * time.time()) + start
        if count - newest < self.base or (has_come and not is_first and count - newest > self.base + LATE):
            self.base = count - newest

    def now(self):
        return int(1000 * time.monotonic()) - self.base if self.base is not None else 0


def crc_step(value):
    for _ in range(8):
        value = value << 1 ^ (0x15935 if value & 0x8000 else 0)
    return value & 0xFFFF


CRC_TABLE = [crc_step(high << 8) for high in range(256)]


def crc(data):
    value = 0xFFFF
    for byte in data:
        value = (value << 8 & 0xFF00) ^ CRC_TABLE[value >> 8 ^ byte]
    return value


def refusal(data):
    """Why the datagram is no packet, or None. A CRC that was left out is told apart."""
    if len(data) not in MAGICS:
        return "length"
    if data[:4] not in MAGICS[len(data)]:
        return "magic"
    if len(data) in (10, 11) and not has_callsign(data[4:10]):
        return "address"
    if len(data) == 11 and not 0x41 <= data[10] <= 0x5A:
        return "module"
    if len(data) == 54 and number(data[52:]) != crc(data[:52]):
        return "crc" if any(data[52:]) else "crc-0000"
    return None


def open_waitless(path, flags=os.O_RDONLY):
    """Opens a file, and waits for nobody where it is a pipe."""
    return os.open(path, flags | os.O_NONBLOCK | os.O_CLOEXEC)


def is_regular(path):
    """A trace that leads to /dev/null is none."""
    try:
        return stat.S_ISREG(os.stat(path).st_mode)
    except OSError:
        return False


class Source:
    """A file that grows, and how far it was read: `place` is behind the last whole item. Where links led to another file
    meanwhile, `real` is that one."""

    def __init__(self, path, real=None):
        self.path, self.real = path, os.path.realpath(real or path)
        self.file = open(self.real, "rb", buffering=0, opener=open_waitless)
        status = os.fstat(self.file.fileno())
        self.key = status.st_dev, status.st_ino
        self.place = self.limit = self.moment = self.changed = self.index = 0
        self.tail = b""
        self.seen = self.why = None

    def state(self):
        """How far it was read, for another process that goes on there."""
        told = {"path": self.path, "real": self.real, "inode": self.key[1], "tail": self.tail.hex(), "why": self.why}
        return {**told, "place": self.place, "moment": self.moment, "index": self.index, "seen": self.seen}

    def go_on(self, told):
        """Whether what was read by `told` stands there still. Then it goes on behind that."""
        self.place, self.moment, self.index = int(told["place"]), int(told["moment"]), int(told["index"])
        self.tail, self.seen, self.why = bytes.fromhex(told["tail"]), told["seen"], told["why"]
        return self.key[1] == told["inode"] and self.is_whole()

    def look(self):
        """Takes how far the file goes now, and when it was changed last."""
        status = os.fstat(self.file.fileno())
        self.limit = 0 if self.why else status.st_size
        self.changed = status.st_mtime_ns

    def is_whole(self):
        """Whether what was read stands there still, so that the file was not made anew in its place."""
        status = os.fstat(self.file.fileno())
        # So short a file may be the same in every run: only the time of the change tells.
        if status.st_size == self.place == len(self.tail) and self.seen not in (None, status.st_mtime_ns):
            return False
        return os.pread(self.file.fileno(), len(self.tail), self.place - len(self.tail)) == self.tail

    def is_current(self):
        """Whether the path leads to this file still, and it is whole. Where nothing is there, a new one is to come."""
        try:
            status = os.stat(self.path)
        except OSError:
            return self.is_whole()
        return (status.st_dev, status.st_ino) == self.key and self.is_whole()

    def items(self, place, pulse=None):
        """Each whole item from this place up to `limit`, and the place behind it. `pulse` is called for each piece of the file."""
        held = b""
        while place + len(held) < self.limit:
            if pulse:
                pulse()
            begin = place + len(held)
            more = os.pread(self.file.fileno(), min(READ_AT_ONCE, self.limit - begin), begin)
            if not more:
                break
            data, at = held + more, 0
            while at < len(data):
                size = self.size_of(data, at, place + at)
                if not size or at + size > len(data):
                    break
                yield data[at : at + size], place + at + size
                at += size
            place, held = place + at, data[at:]

    def read(self):
        """The same, and takes them as read. A file that is none of its kind is told of, and read no more."""
        try:
            for item, place in self.items(self.place):
                self.place = place
                self.tail = (self.tail + item)[-KEPT_TAIL:]
                yield item
        except Broken as broken:
            self.why = f"refused at {self.place}: {broken}"
            sys.stderr.write(f"{self.path}: {self.why}\n")
        self.seen = self.changed if self.place == self.limit else None


class Book(Source):
    """A book, of this module or, where the letter is None, of any. Each event is a moment, an order beside those of traces,
    and what it is."""

    def __init__(self, path, letter, real=None):
        super().__init__(path, real)
        # `ahead` is the place behind the last whole record that was looked at, read or not, and its moment; `came_of` has for each
        # link the last entry of its trace that a Join or a packet came of.
        self.letter, self.ahead, self.came_of = letter, (0, 0), {}

    def size_of(self, data, at, place):
        if place == 0:
            version = version_of(data)
            if len(data) >= MAGIC_BYTES and not version:
                raise Broken("no book")
            letter = data[MAGIC_BYTES : MAGIC_BYTES + 1]
            if self.letter and letter and letter != self.letter.encode():
                raise Broken("no book of this module")
            return version.head if version else HEAD_MOST
        if data[at] not in RECORDS:
            raise Broken(f"kind {data[at]:02X}")
        return RECORDS[data[at]]

    def start(self, pulse=None):
        """When the reflector started, by what `look` found: when the book was changed last, less the moment of the last
        whole record. The head counts as a record of moment 0."""
        (place, moment), item, latest = max(self.ahead, (self.place, self.moment)), b"", {}
        try:
            for item, place in self.items(place, pulse):
                if item[0] != LEAVE:
                    latest[item[1]] = item
        except Broken:
            pass
        if item:
            moment = number(item[10:18]) if len(item) > HEAD_MOST else 0
        self.ahead = place, moment
        self.came_of.update((link, number(each[2:10])) for link, each in latest.items() if len(each) > HEAD_MOST)
        return self.changed // 1_000_000 - moment

    def events(self):
        for record in self.read():
            if len(record) > HEAD_MOST:
                self.moment = number(record[10:18])
                # Who moves leaves one module before it joins another.
                yield self.moment, 1 if record[0] == 2 else 2, ("record", self.letter, record)


class Trace(Source):
    """A trace: of its entries only the datagrams are events."""

    def __init__(self, path, link, real=None):
        super().__init__(path, real)
        # `ahead` is the place behind the last whole entry that was looked at, read or not, and how many there are up to it.
        self.link, self.ahead = link, (0, 0)

    def size_of(self, data, at, place):
        if place == 0:
            if len(data) >= len(TRACE_MAGIC) and data[: len(TRACE_MAGIC)] != TRACE_MAGIC:
                raise Broken("no trace")
            return len(TRACE_MAGIC)
        kind = data[at]
        if kind != 1:
            if kind not in (2, 3):
                raise Broken(f"kind {kind:02X}")
            return 9 if kind == 2 else 1
        if at + 9 >= len(data):
            return 0
        if data[at + 9] not in (4, 6):
            raise Broken(f"family {data[at + 9]:02X}")
        length = at + (16 if data[at + 9] == 4 else 28)
        return length + 1 - at + data[length] if length < len(data) else 0

    def has(self, index):
        """Whether the entry is there, by what `look` found, or none is to come."""
        self.ahead = max(self.ahead, (self.place, self.index))
        try:
            for item, place in self.items(self.ahead[0]):
                self.ahead = place, self.ahead[1] + (item != TRACE_MAGIC)
        except Broken:
            return True
        return bool(self.why) or self.ahead[1] > index

    def events(self):
        for item in self.read():
            if item == TRACE_MAGIC:
                continue
            self.index += 1
            if item[0] != 3:
                self.moment = max(self.moment, number(item[1:9]))
            if item[0] == 1:
                end = 10 + (4 if item[9] == 4 else 16)
                peer = item[10:end], item[end : end + 2]
                yield self.moment, 0, ("datagram", self.link, self.index - 1, peer, item[end + 3 :])
