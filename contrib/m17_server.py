"""The server of `m17-page`: a thread reads what the reflector writes, and one loop answers all who ask, so that a disk that hangs
holds no answer, and a browser that hangs no other one. It lies where that lies, or in ../lib/m17 from there.
"""

import asyncio
import json
import os
import threading
import time

from m17_askers import EVENTS, GONE, HEAD_MOST, NO_NEWS, PIECE, Asker, Places, Refused
from m17_folder import SETTLING
from m17_status import Watcher, in_words_of_json
from m17_views import ASSETS, FOLDER, News, metrics_of, page_of, parts_of

# Seconds between two looks at the board.
REST = 0.1
# What took so long to make is kept for so many times as long.
KEPT = 10
JSON, HTML, FIGURES = "application/json", "text/html; charset=utf-8", "text/plain; version=0.0.4; charset=utf-8"


class View:
    """A status as it is shown for the length of a second; what nobody asks for is not made."""

    def __init__(self, status, made_at):
        self.status, self.made_at, self.second = status, made_at, int(time.monotonic())
        self.age = max(0.0, time.monotonic() - made_at)
        self.made, self.kept_until = {}, 0

    def is_current(self, status):
        return time.monotonic() < self.kept_until or (self.status is status and self.second == int(time.monotonic()))

    def once(self, name, make):
        """What is made of the status once, and kept for ten times as long as that took."""
        if name not in self.made:
            began = time.monotonic()
            self.made[name] = make()
            ended = time.monotonic()
            self.kept_until = max(self.kept_until, ended + KEPT * (ended - began))
        return self.made[name]

    def parts(self):
        return self.once("parts", lambda: parts_of(self.status, self.age))

    def page(self, every, is_still):
        return self.once(f"page {is_still}", lambda: page_of(self.status, self.parts(), every, is_still))

    def data(self):
        return self.once("data", lambda: (json.dumps(in_words_of_json(self.status, self.age), indent=1) + "\n").encode("ascii"))

    def figures(self):
        return self.once("figures", lambda: metrics_of(self.status, self.age))


class Server:
    def __init__(self, options, status):
        self.options = options
        self.hosts = {"127.0.0.1", "localhost", "[::1]", *options.names}
        if options.bind not in ("0.0.0.0", "::"):
            self.hosts.add(f"[{options.bind}]".lower() if ":" in options.bind else options.bind)
        self.places, self.news = Places(), News()
        self.view = View(status, time.monotonic())
        self.newest = status, time.monotonic()
        self.changed = asyncio.Event()
        self.assets = {}
        for name, (file, kind) in ASSETS.items():
            with open(os.path.join(FOLDER, file), "rb") as asset:
                self.assets[f"/{name}"] = kind, asset.read()

    def publish(self, status, made_at):
        """There is another status. All who wait for one are woken."""
        self.newest = status, made_at
        self.changed.set()
        self.changed = asyncio.Event()

    def current(self):
        if not self.view.is_current(self.newest[0]):
            self.view = View(*self.newest)
        return self.view

    async def meet(self, reader, writer):
        """Answers one who has connected, once."""
        asker = Asker(reader, writer)
        self.places.take(asker)
        try:
            await self.answer(asker, *await asker.asked(self.hosts))
        except Refused as refused:
            await asker.refuse(refused)
        except GONE:
            pass
        except Exception as error:  # noqa: BLE001
            # Others are answered all the same.
            await asker.refuse(Refused(500, f"this could not be made: {type(error).__name__}"))
        finally:
            await asker.close()
            self.places.leave(asker)

    async def answer(self, asker, method, path):
        path, _, query = path.partition("?")
        if path == "/events":
            self.take_news()
            self.places.listen(asker)
            await asker.send_head(200, EVENTS, None)
            return None if method == "HEAD" else await self.tell_news(asker)
        kind, body = self.made(path, query)
        self.places.hold(asker, body)
        await asker.send_head(200, kind, len(body))
        return await asker.send(body if method == "GET" else b"")

    def made(self, path, query):
        """What stands there: its kind and its bytes. The view that it is of is not held while these are sent."""
        view = self.current()
        if path in self.assets:
            return self.assets[path]
        if path == "/":
            return HTML, view.page(self.options.every, "still" in query.split("&"))
        if path == "/status.json":
            return JSON, view.data()
        if path == "/metrics":
            return FIGURES, view.figures()
        raise Refused(404, "there are /, /status.json and /metrics")

    async def tell_news(self, asker):
        """Each part of the page that is another one than before, as it comes, and a word each second."""
        seen = {}
        while not asker.writer.is_closing():
            changed, rest = self.changed, self.take_news()
            event = self.news.since(seen, PIECE)
            if event:
                await asker.send(event)
            elif not await self.has_changed(changed, rest):
                await asker.send(NO_NEWS)

    def take_news(self):
        """Takes the newest view as news. It says for how long that is kept, where another one is to come."""
        view = self.current()
        view.once("news", lambda: self.news.take(view.parts()))
        return None if view.status is self.newest[0] else max(0.01, view.kept_until - time.monotonic())

    @staticmethod
    async def has_changed(changed, rest):
        """Waits for another status, for a second at most, or for as long as a dear view is kept."""
        if rest is not None:
            await asyncio.sleep(rest)
            return True
        try:
            return await asyncio.wait_for(changed.wait(), 1)
        except asyncio.TimeoutError:
            return False


def watch(watcher, publish):
    """Reads for ever. Whatever a file does, the next look may go well, so it is told of and the work goes on."""
    while True:
        try:
            if watcher.look(SETTLING):
                publish(watcher.done())
        except Exception as error:  # noqa: BLE001
            watcher.trouble = f"what the reflector writes could not be read: {type(error).__name__}: {error}"
            # What is told now is as old as it was.
            publish(watcher.status())
            time.sleep(1)
        time.sleep(REST)


async def run(options, say):
    loop, watcher = asyncio.get_running_loop(), Watcher(options)
    server = Server(options, watcher.status())

    def publish(status):
        loop.call_soon_threadsafe(server.publish, status, watcher.fresh[0])

    watcher.tell = publish
    loop.set_exception_handler(lambda _loop, context: say(context["message"]))
    listener = await asyncio.start_server(server.meet, options.bind, options.port, limit=HEAD_MOST, backlog=256)
    threading.Thread(target=watch, args=(watcher, publish), daemon=True).start()
    async with listener:
        await listener.serve_forever()


def serve(options, say):
    asyncio.run(run(options, say))


def once(options):
    watcher = Watcher(options)
    watcher.look(0)
    view = View(watcher.done(), time.monotonic())
    return (view.data() if options.json else view.page(options.every, True)).decode("utf-8")
