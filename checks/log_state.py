#!/usr/bin/env python3
"""Tries what m17-log writes down of a run: at each place of books and a trace another log goes on from it, and both together
tell what one log tells. Says the first place where they do not. Then each piece of it is another thing in turn, and a log tells
of that or goes on. And a trace that comes behind the books is waited for.

usage: log_state.py M17-LOG FOLDER
"""

import heapq
import importlib.machinery
import importlib.util
import json
import os
import shutil
import sys
import time

sys.dont_write_bytecode = True
sys.path.insert(0, os.path.dirname(sys.argv[1]))
loader = importlib.machinery.SourceFileLoader("m17_log", sys.argv[1])
script = importlib.util.module_from_spec(importlib.util.spec_from_loader("m17_log", loader))
loader.exec_module(script)
import m17_folder  # noqa: E402
from m17_books import Book, Trace  # noqa: E402
from made_books import join  # noqa: E402


def events_of(folder):
    """All that the folder tells, in the order in which a log takes it."""
    names = sorted(os.listdir(folder))
    sources = [Trace(os.path.join(folder, name), 0) for name in names if name.endswith(".trace")]
    sources += [Book(os.path.join(folder, name), name[0]) for name in names if name.endswith(".book")]
    for source in sources:
        source.look()
    return list(heapq.merge(*(source.events() for source in sources), key=lambda each: each[:2]))


def lines_of(events, stops):
    """What a log tells of the events, where it ends before each of these and another one goes on."""
    lines = []

    def put(moment, event, module, **fields):
        lines.append(json.dumps([moment, event, module, fields]))

    run = script.LoggedRun("AB", put, 3)
    for at, (moment, _order, event) in enumerate(events):
        if at in stops:
            told = json.loads(json.dumps(run.state()))
            run = script.LoggedRun(told["letters"], put, 3)
            run.go_on(told)
            assert run.state() == told, at
        run.take(moment, event)
    run.advance(10**9)
    return lines


def pieces_of(told, path=()):
    yield path
    for key in told if isinstance(told, dict) else range(len(told)) if isinstance(told, list) else ():
        yield from pieces_of(told[key], (*path, key))


def put_at(told, path, value):
    """The same with this value at that place."""
    if not path:
        return value
    told = json.loads(json.dumps(told))
    at = told
    for key in path[:-1]:
        at = at[key]
    at[path[-1]] = value
    return told


def goes_on(folder):
    log = script.Log(lambda line: None, script.Options(["--state", "odd_state", "--once", folder]))
    log.look()
    log.finish()
    log.keep()


def odd_states(folder):
    """What was written down, with something else in each place, and what is nothing of the kind."""
    goes_on(folder)
    with open("odd_state", encoding="ascii") as file:
        told = json.load(file)
    script.say = lambda line: None
    for path in pieces_of(told):
        for value in (None, -1, 10**30, "x", [], {}):
            with open("odd_state", "w", encoding="ascii") as out:
                json.dump(put_at(told, path, value), out)
            goes_on(folder)


class Taken(list):
    """A reader of a folder that keeps what it is told."""

    def begins(self, _letters):
        pass

    def takes(self, moment, event):
        self.append((moment, event))


class Glances:
    """The time, which passes where a reader rests; then something comes."""

    def __init__(self, comes):
        self.comes, self.count = comes, 0

    def __getattr__(self, name):
        return getattr(time, name)

    def sleep(self, _seconds):
        self.count += 1
        self.comes()

    def monotonic(self):
        return self.count * m17_folder.GLANCE


def late_trace(folder, events):
    """Each file has a thread that writes it: a trace comes behind the books, a piece at each glance; then it comes no more, and
    is waited for once."""
    shutil.copytree(folder, "late")
    path = os.path.join("late", "link0.trace")
    with open(path, "rb") as file:
        trace = file.read()
    with open(path, "wb") as file:
        file.write(trace[:100])

    def comes():
        with open(path, "ab") as file:
            file.write(trace[os.path.getsize(path) :][:100])

    m17_folder.time, taken = Glances(comes), Taken()
    m17_folder.Folder("late", taken).look()
    assert taken == [(moment, event) for moment, _order, event in events], taken
    assert m17_folder.time.count > 8
    with open(path, "wb") as file:
        file.write(trace[:100])
    m17_folder.time, taken = Glances(lambda: None), Taken()
    late = m17_folder.Folder("late", taken)
    late.look()
    assert [each for each in taken if each[1][0] == "record"] == [(m, event) for m, _, event in events if event[0] == "record"]
    waited = m17_folder.time.count
    with open("late/A.book", "ab") as book:
        book.write(join(0, 10**6, 5, "LATE"))
    late.look()
    assert taken[-1][0] == 10**6 and m17_folder.time.count == waited > m17_folder.BEHIND / m17_folder.GLANCE


def main():
    events = events_of(sys.argv[2])
    odd_states(sys.argv[2])
    late_trace(sys.argv[2], events)
    wanted = lines_of(events, [])
    for at in range(len(events)):
        if lines_of(events, [at]) != wanted:
            return f"another log that goes on before event {at} tells other lines"
    return 0 if len(wanted) > 20 and lines_of(events, range(len(events))) == wanted else "a log for each event tells other lines"


if __name__ == "__main__":
    sys.exit(main())
