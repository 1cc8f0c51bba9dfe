#!/usr/bin/env python3
"""Tries what those who ask contrib/m17-page may hold: places, and what waits for who is slow. Whatever they do others are
answered, and the page takes little memory.

usage: page_places.py listeners|halves|slow|piece|news|error SCRIPT
"""

import asyncio
import importlib
import os
import socket
import sys
import threading

sys.dont_write_bytecode = True
from page_scene import PATIENCE, Page, Scene, Talker, crowded_books, free_port, words_of  # noqa: E402
from starved import tried  # noqa: E402

MEMORY_MOST = 64 << 20
EVENTS = b"GET /events HTTP/1.1\r\nHost: localhost\r\n\r\n"
WHOLE = b"GET / HTTP/1.1\r\nHost: localhost\r\n\r\n"
# How many files the page has beside those of who is connected.
OWN_FILES = 24


def module_of(script, name):
    sys.path.insert(0, os.path.dirname(script))
    return importlib.import_module(name)


def answers(page, what):
    for path in ("/metrics", "/status.json", "/"):
        assert page.asks(path)[0] == 200, (what, path)


def has_ended(own):
    try:
        while own.recv(1 << 16):
            pass
    except ConnectionError:
        pass
    return True


def listeners(script):
    """More listen than there are places for: those who came first are ended, the others told, and whoever asks is answered."""
    most = module_of(script, "m17_askers").LISTENERS_MOST
    Scene("kept", "AB")
    page = Page(script, "kept")
    all_of_them = []
    for _ in range(most + 50):
        all_of_them.append(page.opens(EVENTS))
        assert all_of_them[-1].recv(1 << 16).startswith(b"HTTP/1.1 200 ")
    for _ in range(20):
        answers(page, "many who listen")
    assert all(has_ended(own) for own in all_of_them[:50])
    for own in (all_of_them[50], all_of_them[-1]):
        while b'"age"' not in own.recv(1 << 16):
            pass
    page.close()


def halves(script):
    """More than there are places for say half a line, and more are refused and stay: others are answered, and those who wait have
    no more than the places."""
    most = module_of(script, "m17_askers").CONNECTIONS_MOST
    Scene("kept", "A")
    page = Page(script, "kept")
    for data in (b"GET / HT", b"GET / HTTP/9\r\n\r\n", EVENTS):
        all_of_them = [page.opens(data) for _ in range(most + 100)]
        answers(page, data)
        page.awaits(lambda: len(os.listdir(f"/proc/{page.process.pid}/fd")) <= most + OWN_FILES, "no more files than places")
        for own in all_of_them:
            own.close()
    page.close()


# A page that is made anew at each look, however dear that is.
ANEW = """#!/usr/bin/env python3
import runpy, sys
sys.dont_write_bytecode = True
sys.path.insert(0, {0!r})
import m17_server
m17_server.KEPT = 0
runpy.run_path({1!r}, run_name="__main__")
"""


def slow(script):
    """As large a page as there can be, which changes all the time, and many who listen or ask for it and read nothing."""
    crowded_books("kept", 256)
    with open("anew", "w", encoding="utf-8") as out:
        out.write(ANEW.format(os.path.dirname(script), script))
    os.chmod("anew", 0o755)
    page = Page("./anew", "kept")
    page.awaits(lambda: page.status()["data"]["state"] == "whole", "the books")
    run = Scene("other", "")
    run.folder = "kept"
    open_ones = []
    with Talker(lambda number: run.join("ABCDEFGH"[number % 8], number % 256, f"Y{number}")):
        for _ in range(16):
            open_ones += [page.opens(EVENTS, 2048), page.opens(EVENTS, 2048), page.opens(WHOLE, 2048)]
            read = page.status()["data"]["read"]
            page.awaits(lambda read=read: page.status()["data"]["read"] > read, "another look")
    answers(page, "who reads nothing")
    print(f"behind who reads nothing: {page.most_memory() >> 20} MB")
    assert page.most_memory() < MEMORY_MOST, page.most_memory()
    page.close()
    for own in open_ones:
        own.close()


def piece(script):
    """One who takes nothing of a long answer is left after a time, and what waits for it is no more than a piece of it."""
    askers = module_of(script, "m17_askers")
    askers.PATIENCE = 1
    ours, theirs = socket.socketpair()
    ours.setsockopt(socket.SOL_SOCKET, socket.SO_SNDBUF, 4096)

    async def answer():
        asker = askers.Asker(*await asyncio.open_connection(sock=ours))
        try:
            await asker.send(bytes(1 << 24))
            raise AssertionError("all of it was taken")
        except asyncio.TimeoutError:
            assert asker.writer.transport.get_write_buffer_size() <= 2 * askers.PIECE
        await asker.close()

    asyncio.run(asyncio.wait_for(answer(), PATIENCE))
    theirs.close()


def news(script):
    """Who was slow is told the newest, the oldest change first, a few parts at a time; who has seen all is told nothing."""
    told, seen = module_of(script, "m17_views").News(), {}
    parts = {"state": "s0", "age": "a0", "module-A": "A" * 900, "module-B": "B" * 900}
    told.take(parts)
    first, second = told.since(seen, 1000), told.since(seen, 1000)
    assert first.index(b'"module-A"') > first.index(b'"modules": {"ids": ["module-A", "module-B"], "few": true}'), first
    assert b'"module-B"' in first + second and told.since(seen, 1000) == b"", second
    for number in range(9):
        told.take({**parts, "age": f"a{number}"})
    assert told.since(seen, 1000) == b'data: {"age": "a8"}\n\n'
    del parts["module-A"]
    told.take(parts)
    assert told.since(seen, 1000) == b'data: {"modules": {"ids": ["module-B"], "few": true}, "age": "a0"}\n\n'
    told.take({**parts, "module-A": "A" * 900})
    both = b'data: {"modules": {"ids": ["module-B", "module-A"], "few": true}, "module-A": "AAA'
    assert told.since(seen, 1000).startswith(both)


def error(script):
    """What can't be made behind the head of an answer ends that answer, and has no second head; others are answered."""
    server = module_of(script, "m17_server")
    Scene("kept", "A")
    options = words_of("kept", port=free_port())
    threading.Thread(target=server.serve, args=(options, print), daemon=True).start()
    page = Page.at(options.port)
    page.awaits(lambda: page.asks("/status.json")[0] == 200, "an answer")
    own = page.opens(EVENTS)
    got, parts_of = own.recv(1 << 16), server.parts_of

    def fails(status, age):
        raise ValueError("on purpose")

    server.parts_of = fails
    while more := own.recv(1 << 16):
        got += more
    assert got.count(b"HTTP/1.1") == 1, got
    # Where no head was sent, one says so.
    page.awaits(lambda: page.asks("/")[0] == 500 and page.asks("/events")[0] == 500, "word of the fault")
    assert page.asks("/metrics")[0] == 200
    server.parts_of = parts_of
    page.awaits(lambda: page.asks("/")[0] == 200, "the page again")


TRIES = {"listeners": listeners, "halves": halves, "slow": slow, "piece": piece, "news": news, "error": error}

if __name__ == "__main__":
    tried(TRIES[sys.argv[1]], sys.argv[2])
