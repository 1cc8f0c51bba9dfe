"""Those who ask `m17-page` for something: what each may take, of time, of memory and of places. It lies where that lies, or in
../lib/m17 from there.
"""

import asyncio
import email.utils
import re

# Bounds of what strangers may take: bytes of a request, seconds for it and for each piece of an answer, connections, those of
# them that listen to news, and bytes of answers that wait for who is slow.
HEAD_MOST, PATIENCE, PIECE, CONNECTIONS_MOST, LISTENERS_MOST, WAITING_MOST = 8192, 10, 1 << 14, 200, 150, 1 << 23
# So long, in seconds, one that was refused is heard out, so that it sees why.
HEARD_OUT = 1
POLICY = (
    "default-src 'none'; style-src 'self'; script-src 'self'; img-src 'self'; connect-src 'self'; "
    "base-uri 'none'; form-action 'none'; frame-ancestors 'none'"
)
REASONS = {200: "OK", 400: "Bad Request", 404: "Not Found", 405: "Method Not Allowed", 408: "Request Timeout",
           421: "Misdirected Request", 431: "Request Header Fields Too Large", 500: "Internal Server Error"}
TEXT, EVENTS = "text/plain; charset=utf-8", "text/event-stream"
# A word that says that the server is there.
NO_NEWS = b"data: {}\n\n"
GONE = (OSError, EOFError, asyncio.TimeoutError, asyncio.IncompleteReadError)


class Refused(Exception):
    """The request is none that is answered."""

    def __init__(self, status, text):
        super().__init__(text)
        self.status, self.text = status, text


class Asker:
    """One who has connected, and is answered once."""

    def __init__(self, reader, writer):
        self.reader, self.writer, self.waiting, self.has_head = reader, writer, b"", False
        writer.transport.set_write_buffer_limits(high=PIECE)

    async def asked(self, hosts):
        """What is asked for, of a request that is one, by one of these names."""
        try:
            head = await asyncio.wait_for(self.reader.readuntil(b"\r\n\r\n"), PATIENCE)
        except asyncio.LimitOverrunError:
            raise Refused(431, f"a request has {HEAD_MOST} bytes at most") from None
        except asyncio.TimeoutError:
            raise Refused(408, "the request took too long") from None
        first, *fields = head.decode("latin-1").split("\r\n")[:-2]
        found = re.fullmatch(r"([A-Z]{1,16}) (/[!-~]*) HTTP/1\.[01]", first)
        names = [field.split(":", 1)[1].strip() for field in fields if field.lower().startswith("host:")]
        if not found or len(names) != 1:
            raise Refused(400, "no request of this page")
        # A name that leads here is not enough: a page from elsewhere could read this one through it.
        host = re.fullmatch(r"(\[[0-9A-Fa-f:.]+\]|[0-9A-Za-z.-]+)(:[0-9]{1,5})?", names[0])
        if not host or host[1].lower() not in hosts:
            raise Refused(421, "not here: --name says by which names this may be asked for")
        if found[1] not in ("GET", "HEAD"):
            raise Refused(405, "only GET and HEAD are answered")
        return found[1], found[2]

    async def send(self, data):
        """Sends it, piece by piece, to one who takes each in time."""
        for at in range(0, len(data), PIECE):
            self.writer.write(data[at : at + PIECE])
            await asyncio.wait_for(self.writer.drain(), PATIENCE)

    async def send_head(self, status, kind, length):
        self.has_head = True
        lines = [f"HTTP/1.1 {status} {REASONS[status]}", f"Date: {email.utils.formatdate(usegmt=True)}", f"Content-Type: {kind}"]
        lines += [] if length is None else [f"Content-Length: {length}"]
        lines += ["Allow: GET, HEAD"] if status == 405 else []
        lines += ["X-Accel-Buffering: no"] if kind == EVENTS else []
        lines += ["Cache-Control: no-store", f"Content-Security-Policy: {POLICY}", "Referrer-Policy: no-referrer"]
        lines += ["X-Content-Type-Options: nosniff", "Cross-Origin-Resource-Policy: same-origin", "Connection: close", "", ""]
        await self.send("\r\n".join(lines).encode("ascii"))

    async def refuse(self, refused):
        """Says why it isn't answered; where an answer has begun nothing can be said, and it ends there."""
        if self.has_head:
            return self.drop()
        body = f"{refused.text}\n".encode("ascii")
        try:
            await self.send_head(refused.status, TEXT, len(body))
            await self.send(body)
            self.writer.write_eof()
            await asyncio.wait_for(self.hear_out(), HEARD_OUT)
        except GONE:
            pass
        return None

    async def hear_out(self):
        while await self.reader.read(PIECE):
            pass

    def drop(self):
        self.writer.transport.abort()

    async def close(self):
        try:
            self.writer.close()
            await asyncio.wait_for(self.writer.wait_closed(), PATIENCE)
        except GONE:
            self.drop()


class Places:
    """Who is connected, those who came first before the others. Where there is no place more, who has had one for longest loses
    it: whoever asks for something short is answered, however many hold what they have."""

    def __init__(self):
        self.connected, self.listeners = {}, {}

    def take(self, asker):
        self.make_room(self.connected, CONNECTIONS_MOST)
        self.connected[asker] = None

    def listen(self, asker):
        self.make_room(self.listeners, LISTENERS_MOST)
        self.listeners[asker] = None

    def make_room(self, held, most):
        while len(held) >= most:
            self.lose(next(iter(held)))

    def hold(self, asker, body):
        """The body waits for the asker, and those before it lose theirs where too many bytes wait; one that waits for several
        counts once."""
        asker.waiting = body
        holders = [each for each in self.connected if each.waiting and each is not asker]
        while holders and sum({id(each.waiting): len(each.waiting) for each in (*holders, asker)}.values()) > WAITING_MOST:
            self.lose(holders.pop(0))

    def lose(self, asker):
        self.leave(asker)
        asker.drop()

    def leave(self, asker):
        asker.waiting = b""
        self.connected.pop(asker, None)
        self.listeners.pop(asker, None)
