#!/usr/bin/env python3
"""Tests of the bridge of the reference: worked evenings, and the rule looked up in another way on drawn ones.

    python3 conformance/test_bridges.py
"""

import unittest

from bridges import DATAGRAM, END, FAULT, FAR, NEAR, QUIET, bridge, drawn
from draws import Draw, named, stream
from packets import encode

CALL = encode("AB1CD")
CONN, DISC = named("CONN", CALL, "A"), named("DISC", CALL)
FIRST, SECOND, LAST, OTHER = stream(0x1234, 0), stream(0x1234, 1), stream(0x1234, 1, True), stream(5, 0)


def hears(*said):
    return [(QUIET, 0), (DATAGRAM, 10, b"ACKN"), *said]


class Evenings(unittest.TestCase):
    def test_worked(self):
        far = hears((QUIET, 40), (DATAGRAM, 45, OTHER))
        for second, count, near_said in ((LAST, 1, [CONN, OTHER, DISC]), (SECOND, 0, [CONN, DISC])):
            near = hears((DATAGRAM, 40, FIRST), (DATAGRAM, 80, second))
            said, passed, lost = bridge(CALL, "AA", [near, far])
            self.assertEqual(said, [near_said, [CONN, FIRST, second, DISC]])
            self.assertEqual((passed, lost), ([2, count], False))

    def test_the_way_is_free_after_1600_ms(self):
        for at, count in ((1639, 0), (1640, 1)):
            near = hears((DATAGRAM, 40, FIRST))
            far = hears((QUIET, 40), (DATAGRAM, at, OTHER))
            near.append((QUIET, 0))
            self.assertEqual(bridge(CALL, "AA", [near, far])[1], [1, count])

    def test_ends(self):
        still = [(QUIET, 0)] * 20
        for near, far, lost in (
            ([(FAULT,)] * 16, still, True),
            (still, [(FAULT,)] * 16, True),
            ([(FAULT,)] * 15, still, False),
            ([(FAULT,)] * 15 + [(QUIET, 0), (FAULT,)], still, False),
            ([(QUIET, 0), (DATAGRAM, 1, b"NACK")], still, False),
            ([(END,)], still, False),
        ):
            self.assertEqual(bridge(CALL, "AA", [near, far])[1:], ([0, 0], lost))

    def test_takes_turns(self):
        """Of two packets of opposite sides that pass one after the other the first is a last one, or 1,600 ms lie between."""
        for number in range(500):
            draw = Draw(7, "turns", number)
            lists, at = [hears(), hears()], 10
            packets = {}
            for order, (side, _, packet, _) in enumerate(drawn(7, number)[0]):
                at += draw.pick((0, 1, 40, 1599, 1600, 1601))
                sid, frame = (int.from_bytes(packet[n : n + 2], "big") for n in (4, 34))
                packet = stream(sid, frame, frame >= 0x8000, payload=order.to_bytes(16, "big"))
                packets[packet] = (side, at, frame >= 0x8000, order)
                lists[side].append((DATAGRAM, at, packet))
                lists[1 - side].append((QUIET, at))
            said, passed, _ = bridge(CALL, "AA", lists)
            crossed = sorted((packets[data] for side in (NEAR, FAR) for data in said[side] if data in packets), key=lambda p: p[3])
            self.assertEqual([sum(p[0] == side for p in crossed) for side in (NEAR, FAR)], passed)
            for before, after in zip(crossed, crossed[1:]):
                self.assertTrue(before[0] == after[0] or before[2] or after[1] - before[1] >= 1600)
            for side in (NEAR, FAR):
                self.assertTrue(all(packets[data][0] == 1 - side for data in said[side] if data in packets))


if __name__ == "__main__":
    unittest.main()
