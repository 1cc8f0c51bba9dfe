#!/usr/bin/env python3
"""Tries contrib/m17-page against whoever means harm: who asks, and what stands in the files. After each try the page answers
others, and in the end it has taken little memory.

usage: page_safe.py askers|files|clock|disk SCRIPT
"""

import importlib
import os
import random
import shutil
import sys
import threading
import time

sys.dont_write_bytecode = True
from made_books import OPENED, join, packet  # noqa: E402
from make import book_header, stream_packet  # noqa: E402
from page_scene import PATIENCE, Page, Scene, crowded_books, free_port, words_of  # noqa: E402
from starved import tried  # noqa: E402

MEMORY_MOST = 64 << 20
GIGABYTE = 1 << 30


def answers(page, what):
    """Whether others are answered, with words that no clock has to bear out."""
    for path in ("/status.json", "/metrics", "/"):
        assert page.asks(path)[0] == 200, (what, path)
    assert page.process.poll() is None, what


def code_of(page, data):
    """The status of the answer; 0 where none was seen, as where who asks is so slow that it isn't heard out."""
    try:
        got = page.sends(data)
    except OSError:
        return 0
    return int(got.split(b" ", 2)[1]) if got else 0


def bad_requests(page):
    host = b"Host: 127.0.0.1\r\n"
    tries = (
        (200, b"GET / HTTP/1.0\r\n" + host + b"\r\n"),
        (200, b"GET / HTTP/1.1\r\n" + host + b"X: " + b"x" * 7000 + b"\r\n\r\n"),
        (431, b"GET / HTTP/1.1\r\n" + host + b"X: " + b"x" * 9000 + b"\r\n\r\n"),
        (431, b"GET /" + b"a" * 100_000),
        (431, b"x" * 1_000_000),
        (400, b"GET / HTTP/1.1\r\n\r\n"),
        (400, b"GET / HTTP/1.1\r\n" + host + b"Host: evil.example\r\n\r\n"),
        (400, b"GET http://127.0.0.1/ HTTP/1.1\r\n" + host + b"\r\n"),
        (400, b"\0\xff\xfe\r\n\r\n"),
        (400, b"\r\n\r\n"),
        (400, b"GET / HTTP/9\r\n" + host + b"\r\n"),
        (405, b"POST / HTTP/1.1\r\n" + host + b"Content-Length: 3\r\n\r\nabc"),
        (404, b"GET /../../etc/passwd HTTP/1.1\r\n" + host + b"\r\n"),
        (404, b"GET /m17_page.css HTTP/1.1\r\n" + host + b"\r\n"),
        (404, b"GET /page.css/ HTTP/1.1\r\n" + host + b"\r\n"),
    )
    for code, data in tries:
        assert page.awaits(lambda data=data: code_of(page, data), "an answer") == code, (code, data[:60])
    for name in ("evil.example", "127.0.0.1.evil.example", "localhost@evil.example", "[::2]", "m17.example.", "127.0.0.1:x", "",
                 "a b"):
        assert page.asks("/", name)[0] in (400, 421), name
    for name in ("127.0.0.1:8017", "localhost", "LOCALHOST:1", "[::1]:8017", "m17.example", "M17.Example:443"):
        assert page.asks("/", name)[0] == 200, name
    answers(page, "bad requests")


def crowd(page):
    """A hundred who are told news, and a hundred who say half a line and wait."""
    news = [page.opens(b"GET /events HTTP/1.1\r\nHost: localhost\r\n\r\n") for _ in range(100)]
    for own in news:
        got = b""
        while b"data: " not in got:
            got += own.recv(1 << 16)
        assert got.startswith(b"HTTP/1.1 200 "), got
    halves = [page.opens(b"GET / HT") for _ in range(90)]
    answers(page, "a crowd")
    for own in news:
        own.close()
    # Those who say half a line are told to go.
    for own in halves:
        got = own.recv(1 << 16)
        assert not got or b" 408 " in got, got
        own.close()


def slow_clients(page):
    """They read nothing of a large answer; others are answered meanwhile."""
    slow = [page.opens(b"GET / HTTP/1.1\r\nHost: localhost\r\n\r\n", 2048) for _ in range(100)]
    for _ in range(20):
        answers(page, "slow clients")
    for own in slow:
        own.close()


def noise_of(noise, size):
    return noise.getrandbits(8 * size).to_bytes(size, "big")


def forged_files(page, folder):
    """Files that no reflector writes."""
    noise = random.Random(17)
    frame = packet(0, 50, 3, OPENED, stream_packet(7, 0, "AB1CD"))
    far = bytearray(frame)
    far[10:18] = b"\xff" * 8
    endless = b"".join(join(0, at, at % 2**32, "AB1CD") for at in range(200_000))
    books = (
        b"", b"M17", b"M17BOOK9A" + bytes(8), noise_of(noise, 3_000_000), book_header("B"), book_header("A") + b"\0" * 99,
        book_header("A") + bytes(far), book_header("A") + frame[:-1], book_header("A") + endless, bytes(range(256)) * 50,
        book_header("A") + b"\3" + noise_of(noise, 96) + b"\1" + noise_of(noise, 36) + b"\2" + noise_of(noise, 30),
    )
    for number, data in enumerate(books):
        put(folder, "A.book", data)
        page.awaits(lambda: page.status()["data"]["state"] in ("whole", "empty"), "a look at it")
        answers(page, f"book {number}")
    boards = (
        b"\n" * 3_000_000, noise_of(noise, 3_000_000), b"A records 1", b"ab\n" * 700_000,
        b"A records " + b"9" * 40 + b" admitted 1 at 1 talker none\n",
        b"A records 99999999999999999999 admitted 99999999999999999999 at 999999999999999 talker <script>\n",
    )
    for number, data in enumerate(boards):
        put(folder, "board", data)
        page.awaits(lambda size=len(data): page.status()["data"]["state"] in ("whole", "empty"), "a look at it")
        answers(page, f"board {number}")
    assert b"<script>" not in page.asks("/")[2].replace(b'<script src="page.js" defer></script>', b"")
    assert page.asks("/metrics")[0] == 200


def put(folder, name, data):
    with open(os.path.join(folder, "new"), "wb") as out:
        out.write(data)
    os.replace(os.path.join(folder, "new"), os.path.join(folder, name))


def line_of_a_gigabyte(page, folder):
    """A board that is one line of so many bytes, all of them zero and none of them on the disk, and behind it a right one."""
    with open(os.path.join(folder, "new"), "wb") as out:
        out.truncate(GIGABYTE)
        out.seek(GIGABYTE)
        out.write(b"\nQ records 5 admitted 4 at 99 talker none\n")
    os.replace(os.path.join(folder, "new"), os.path.join(folder, "board"))
    answers(page, "a line of a gigabyte")
    page.awaits(lambda: page.module("Q").get("admitted") == 4, "the line behind the long one")


def odd_files(page, folder):
    """What is no file: a folder, a pipe that nobody writes, a device; a link in a circle."""
    paths = [os.path.join(folder, name) for name in ("A.book", "board", "lock")]
    for path in filter(os.path.lexists, paths):
        os.remove(path)
    for make in (os.mkdir, os.mkfifo, lambda path: os.symlink("/dev/zero", path), lambda path: os.symlink(path, path)):
        for path in paths:
            make(path)
        before = page.status()["data"]["read"]
        for _ in range(2):
            page.awaits(lambda: page.status()["data"]["read"] > before, "another look")
            before = page.status()["data"]["read"]
        for path in paths:
            (os.rmdir if make is os.mkdir else os.remove)(path)


def lost_folder(page, folder):
    shutil.rmtree(folder)
    page.awaits(lambda: page.status()["data"]["state"] == "no folder", "word of the folder that went away")
    scene = Scene(folder, "A")
    scene.join("A", 0, "AB1CD")
    page.awaits(lambda: page.status()["run"]["state"] == "runs" and page.module("A").get("members"), "the folder that came back")
    scene.end()


def jumping_clock(script):
    """The clock of the machine goes forward by hours, and back, while somebody talks and while nobody does: who talks is told
    as before, and no time is lost. The page's own modules are asked, with another clock."""
    sys.path.insert(0, os.path.dirname(script))
    status, books = importlib.import_module("m17_status"), importlib.import_module("m17_books")
    offset = [0.0]

    class Time:
        def __getattr__(self, name):
            return getattr(time, name)

        def time(self):
            return time.time() + offset[0]

    books.time = status.time = Time()
    scene = Scene("clock", "A")
    scene.join("A", 0, "AB1CD")
    options = words_of("clock")
    watcher = status.Watcher(options)
    watcher.look(0)
    number = 0
    for jump in (0, 7200, -7200, 86400 * 400, -86400 * 800, 0):
        offset[0] = jump
        for _ in range(3):
            scene.say("A", 0, "AB1CD", number)
            # The file has the time of the clock, as it is then.
            os.utime("clock/A.book", (time.time() + jump, time.time() + jump))
            number += 1
            watcher.read_at = None
            watcher.look(0)
            told = watcher.done()
            module = told["modules"][0]
            assert module["state"] in ("talks", "silent") and module["milliseconds"] < 1000 * PATIENCE, (jump, module)
            assert status.in_words_of_json(told, 0)["run"]["seconds"] >= 0
    assert module["members"][0]["callsign"] == "AB1CD", module


def hanging_disk(script):
    """What reads never comes back from its first look at the lock; who asks is answered, and sees for how long."""
    sys.path.insert(0, os.path.dirname(script))
    status, server = importlib.import_module("m17_status"), importlib.import_module("m17_server")
    Scene("disk", "A")
    options = words_of("disk", port=free_port())
    status.lock_of = lambda folder: threading.Event().wait()
    threading.Thread(target=server.serve, args=(options, print), daemon=True).start()
    page = Page.at(options.port)
    page.awaits(lambda: b"could not be read for" in page.asks("/")[2], "word of the disk")
    assert page.status()["data"]["age"] > 5, page.status()


def ended(page, what):
    print(f"{what}: {page.most_memory() >> 20} MB")
    assert page.most_memory() < MEMORY_MOST, page.most_memory()
    page.close()


def askers(script):
    crowded_books("crowded", 10)
    page = Page(script, "crowded", "--name", "m17.example")
    page.awaits(lambda: len(page.status()["modules"]) == 26 and page.status()["data"]["state"] == "whole", "26 modules")
    bad_requests(page)
    slow_clients(page)
    crowd(page)
    ended(page, "behind who asks")


def files(script):
    Scene("kept", "A").end()
    page = Page(script, "kept")
    forged_files(page, "kept")
    line_of_a_gigabyte(page, "kept")
    odd_files(page, "kept")
    lost_folder(page, "kept")
    ended(page, "behind what stands in files")


if __name__ == "__main__":
    tried({"askers": askers, "files": files, "clock": jumping_clock, "disk": hanging_disk}[sys.argv[1]], sys.argv[2])
