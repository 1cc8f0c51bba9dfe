#!/usr/bin/env python3
"""Tries what contrib/m17-page knows of a reflector that doesn't run, of books of runs before, of long ones while it reads them, and
of what it can't read, by its own modules.

usage: page_lock.py failed|both|writes|locked|left|share|closed|stale|names SCRIPT
"""

import fcntl
import importlib
import os
import shutil
import sys
import time

sys.dont_write_bytecode = True
from made_books import join  # noqa: E402
from page_scene import Scene, words_of  # noqa: E402
from starved import tried  # noqa: E402


class Looks:
    """Looks at a folder, one after the other, of which each asks for the lock and reads the books."""

    def __init__(self, script, folder, **further):
        sys.path.insert(0, os.path.dirname(script))
        self.status = importlib.import_module("m17_status")
        self.watcher = self.status.Watcher(words_of(folder, **further))

    def state(self):
        self.watcher.locked_at = self.watcher.read_at = None
        self.watcher.look(0)
        return self.watcher.done()["run"]["state"]


def starts(folder):
    """What the unit does at each start: a folder of its own, to which the link leads then."""
    Scene(folder, "AB", is_locked=False)
    os.symlink(folder, "next")
    os.rename("next", "now")
    return folder


def locks(folder):
    """Locks the folder itself, as the unit has it, for as long as what this gives is open."""
    own = os.open(folder, os.O_RDONLY)
    fcntl.flock(own, fcntl.LOCK_EX | fcntl.LOCK_NB)
    return own


def failed(script):
    """Behind a run that ended, a start that makes a folder and fails, or makes the books of a folder anew, changes nothing."""
    looks = Looks(script, "now")
    assert looks.state() == "unknown"
    own = locks(starts("first"))
    assert looks.state() == "runs"
    Scene("first", "AB", is_locked=False).join("A", 0, "AB1CD")
    os.close(own)
    assert [looks.state(), looks.state(), looks.state()] == ["ended"] * 3
    for folder in ("second", "third"):
        starts(folder)
        assert [looks.state(), looks.state()] == ["ended"] * 2, folder
    Scene("third", "AB", is_locked=False)
    os.utime("third")
    assert [looks.state(), looks.state()] == ["ended"] * 2
    # A start has the folder locked for a moment before it fails.
    lock_of, found = looks.status.lock_of, ["held"]
    looks.status.lock_of = lambda folder: found.pop() if found else lock_of(folder)
    assert looks.state() == "ended" and not found
    own = locks(starts("fourth"))
    assert looks.state() == "runs"
    os.close(own)
    assert looks.state() == "ended"


def both(script):
    """The program's own lock, on a file in the folder, and that of the unit, on the folder itself: where there is such a file it
    alone counts, and behind either a folder in which nothing is locked has nobody."""
    looks = Looks(script, "now")
    starts("first")
    assert looks.state() == "unknown"
    run = Scene("first", "AB")
    assert looks.state() == "runs"
    run.end()
    assert looks.state() == "ended"
    starts("second")
    assert [looks.state(), looks.state()] == ["ended"] * 2
    own = locks("second")
    assert looks.state() == "runs"
    run = Scene("second", "AB")
    assert looks.state() == "runs"
    run.end()
    assert looks.state() == "ended"
    os.close(own)
    assert looks.state() == "ended"


def writes(script):
    """Where records come though nobody has locked the folder, it isn't known whether somebody runs."""
    looks = Looks(script, "now")
    own = locks(starts("first"))
    assert looks.state() == "runs"
    os.close(own)
    assert looks.state() == "ended"
    starts("second")
    run = Scene("second", "AB", is_locked=False)
    assert looks.state() == "ended"
    run.join("A", 0, "AB1CD")
    looks.state()
    assert looks.state() == "unknown"
    own = locks("second")
    assert looks.state() == "runs"
    os.close(own)
    assert looks.state() == "ended"


def locked(script):
    """A page that begins while nobody runs: it knows it where it was told that who runs locks the folder."""
    starts("first")
    assert Looks(script, "now").state() == "unknown"
    looks = Looks(script, "now", locked=True)
    assert looks.state() == "ended"
    Scene("first", "AB", is_locked=False).join("A", 0, "AB1CD")
    assert [looks.state(), looks.state()] == ["ended"] * 2
    own = locks("first")
    assert looks.state() == "runs"
    os.close(own)
    assert looks.state() == "ended"
    os.remove("now")
    shutil.rmtree("first")
    assert looks.state() == "unknown"


def left(script):
    """The book of a module that is served no more stays out behind each restart, and gives no run its start; until it is served
    again."""
    looks = Looks(script, "kept")
    for number, letters in enumerate(("ABC", "AB", "AB", "A", "AB", "ABC")):
        began = 1000 + 100 * number
        Scene("kept", letters, is_locked=False)
        for letter in letters:
            os.utime(f"kept/{letter}.book", (began, began))
        looks.state()
        told = looks.watcher.done()
        assert "".join(module["module"] for module in told["modules"]) == letters, (letters, told)
        assert told["run"]["start"] == 1000 * began, (letters, told)


def share(script):
    """While long books are read the status says how much of them is, and the page says it; then no more. What is half read is no
    figure for monitors."""
    run = Scene("long", "AB", ago=9000)
    data = b"".join(join(0, 1000 + at, at % 200, "AB1CD") for at in range(20_000))
    for letter in "AB":
        run.write(letter, data, 21_000)
    looks = Looks(script, "long")
    views = importlib.import_module("m17_views")
    told, looks.status.READING = [], 0
    looks.watcher.tell = told.append
    assert views.notes_part(looks.watcher.status(), 0).count("(0 %)") == 1
    looks.watcher.look(0)
    shares = [each["data"]["share"] for each in told]
    assert len(shares) > 5 and shares == sorted(shares) and 0 == shares[0] < shares[-1] <= 1, shares
    assert {each["data"]["state"] for each in told} == {"reading"}
    assert f"({int(100 * shares[0])} %)" in views.notes_part(told[0], 0)
    last = looks.watcher.done()
    assert last["data"]["share"] is None and last["data"]["state"] == "whole" and views.notes_part(last, 0) == ""
    figures = [views.metrics_of(each, 0).decode("ascii") for each in (told[-1], last)]
    assert [text.count("m17_records_total{") for text in figures] == [0, 2] and "m17_run_seconds " in figures[0], figures


def closed(script):
    """A folder into which it can't look and a book that it can't open are told of, once each, until that can be done."""
    looks = Looks(script, "x" * 300)
    assert looks.state() == "unknown" and looks.watcher.done()["data"]["problems"] == ["the folder: File name too long"]
    assert Looks(script, "no such").watcher.done()["data"]["problems"] == []
    Scene("kept", "AB", is_locked=False)
    looks, folder = Looks(script, "kept"), importlib.import_module("m17_folder")
    opened = folder.Book

    def refuses(path, letter, real=None):
        if letter == "A":
            raise PermissionError(13, "Permission denied")
        return opened(path, letter, real)

    folder.Book = refuses
    for _ in range(2):
        looks.state()
        assert looks.watcher.done()["data"]["problems"] == ["A.book: Permission denied"]
    folder.Book = opened
    os.utime("kept/B.book", (1000, 1000))
    looks.state()
    told = looks.watcher.done()
    assert told["data"]["problems"] == [] and len(told["modules"]) == 2, told


def stale(script):
    """What can't be read makes what is told no newer."""
    Scene("kept", "A", is_locked=False)
    looks, server, told = Looks(script, "kept"), importlib.import_module("m17_server"), []
    looks.state()
    before = looks.watcher.status()["data"]["read"]

    def fails(_settling):
        time.sleep(0.02)
        raise OSError(5, "Input/output error")

    def publish(status):
        told.append(status)
        raise KeyboardInterrupt

    looks.watcher.look = fails
    try:
        server.watch(looks.watcher, publish)
    except KeyboardInterrupt:
        pass
    assert told[0]["data"]["read"] == before and "Input/output error" in told[0]["data"]["problems"][0], told[0]["data"]


def names(script):
    """A board and a folder whose names are no UTF-8 are told of as well as may be, on the page and as data."""
    folder = os.fsdecode(b"no\xffsuch")
    looks = Looks(script, folder, board=os.fsdecode(b"bo\xfe<b>ard"))
    server = importlib.import_module("m17_server")
    looks.state()
    view = server.View(looks.watcher.done(), 0)
    assert b"bo\\xfe&lt;b&gt;ard" in view.page(5, False), view.page(5, False)
    assert b"bo\\\\xfe<b>ard" in view.data() and view.figures()


TRIES = {"failed": failed, "both": both, "writes": writes, "locked": locked, "left": left, "share": share, "closed": closed,
         "stale": stale, "names": names}

if __name__ == "__main__":
    tried(TRIES[sys.argv[1]], sys.argv[2])
