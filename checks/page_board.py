#!/usr/bin/env python3
"""Tries the reader of a board where a line comes while it reads. A board whose moment 0 is at 1,000 seconds has a line of moment
1 s, and a minute later one more, at each place of a read where it may come between: the start is the right one every time.

usage: page_board.py between M17-PAGE
"""

import os
import sys
import types

sys.dont_write_bytecode = True
sys.path.insert(0, os.path.dirname(sys.argv[2]))
import m17_board  # noqa: E402


def write(records, seconds):
    with open("grown", "ab") as file:
        file.write(b"A records %d admitted 0 at %d talker none\n" % (records, 1000 * seconds))
    os.utime("grown", (1000 + seconds, 1000 + seconds))


def start_of(place, is_behind):
    """Reads while the second line is written before or behind this look at the file's times. It says whether that look came."""
    looks = []

    def fstat(number):
        looks.append(number)
        if len(looks) == place and not is_behind:
            write(2, 61)
        told = os.fstat(number)
        if len(looks) == place and is_behind:
            write(2, 61)
        return told

    if os.path.exists("grown"):
        os.remove("grown")
    write(1, 1)
    board = m17_board.Board("grown")
    m17_board.os = types.SimpleNamespace(fstat=fstat, pread=os.pread, close=os.close)
    board.look()
    came = len(looks) >= place
    shown = board.modules["A"].records
    assert board.why is None and board.start == 1_000_000, (place, is_behind, vars(board))
    assert board.changed == (1_001_000 if shown == 1 else 1_061_000), (place, is_behind, vars(board))
    m17_board.os = os
    board.look()
    assert board.why is None and board.start == 1_000_000, (place, is_behind, vars(board))
    assert not came or board.modules["A"].records == 2
    return came


def main():
    for is_behind in (False, True):
        place = 1
        while start_of(place, is_behind):
            place += 1
        assert place > 1


if __name__ == "__main__":
    main()
