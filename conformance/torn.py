"""Small traces and books, each of their parts, and each of them with one byte changed."""

from book_vectors import book, by, behind, joined, judged, left
from draws import named, stream
from files import ONE, TRACE_MAGIC, TWO
from packets import encode
from traces import FAULT, datagram, quiet

P1, P2 = ((False, bytes([10, 0, 0, n]), 17000) for n in (1, 2))
SIX = (True, bytes.fromhex("20010db8000000000000000000000001"), 1)
JOIN = named("CONN", encode("AB1CD"), "A")

# One joins, a datagram without bytes by IPv6, a quiet moment, and a fault.
SHORT_TRACE = TRACE_MAGIC + datagram(0, P1, JOIN) + datagram(256, SIX, b"") + quiet(258) + FAULT

# One talks in module A; another comes to listen, and leaves before the last frame.
TALK = TRACE_MAGIC + b"".join(
    (
        datagram(0, P1, JOIN),
        datagram(40, P1, stream(0x1234, 0)),
        datagram(50, P2, named("LSTN", encode("N0CALL"), "A")),
        datagram(80, P1, stream(0x1234, 1)),
        datagram(120, P1, stream(0x1234, 2)),
        datagram(130, P2, named("DISC", encode("N0CALL"))),
        datagram(160, P1, stream(0x1234, 3, True)),
    )
)

# Two join. The first opens a stream, the second finds the floor busy, a frame of the first is late, and it leaves; the
# second opens its stream, and leaves, for it was silent.
RECORDS = (
    joined(10, 0),
    joined(10, 1),
    judged(20, 0, stream(1, 1), 1),
    judged(60, 1, stream(2, 0), 3, by(0)),
    judged(100, 0, stream(1, 0), 5, behind(1)),
    left(140, 0),
    judged(180, 1, stream(2, 0), 1),
    left(220, 1, 0, 3),
)


def old(data):
    """The book in version 1."""
    return ONE.magic + data[8:9] + data[9 + TWO.limit_bytes :]


def asking(peers, modules="A"):
    """A trace in which so many peers ask at once, each with another port, for one module after another."""
    calls = [named("CONN", encode("AB1CD"), modules[port % len(modules)]) for port in range(peers)]
    return TRACE_MAGIC + b"".join(datagram(0, (False, bytes(4), port), call) for port, call in enumerate(calls))


def changed(data, at, byte):
    return data[:at] + bytes([byte]) + data[at + 1 :]


def torn(name, words, data):
    """The input and each first part of it, and the input with each byte changed, to six others."""
    for length in range(len(data) + 1):
        yield "%s: its first %d bytes" % (name, length), words, data[:length]
    for at, was in enumerate(data):
        for byte in sorted({0, 4, 255, was ^ 1, (was + 1) % 256, (was - 1) % 256} - {was}):
            yield "%s: %d at %d" % (name, byte, at), words, changed(data, at, byte)


def inputs():
    whole = book(*RECORDS, limit=0)
    short = book(RECORDS[0], limit=180000)
    yield from torn("short trace", ["replay"], SHORT_TRACE)
    yield from torn("talk", ["replay"], TALK)
    yield from torn("short book", ["check"], short)
    yield from torn("book", ["check"], whole)
    yield from torn("old book", ["migrate"], old(book(*RECORDS[:4])))
