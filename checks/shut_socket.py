#!/usr/bin/env python3
"""Shuts the reading half of a UDP socket of another process, so that each read of it fails from then on. The arguments are
the process and the port that the socket is bound to. Where the system does not let this be done, the last line says so,
and the status is 1.
"""

import ctypes
import os
import socket
import sys

PIDFD_GETFD = 438  # the number of the call on Linux


def taken(process, descriptor):
    """A descriptor of the other process, as a socket of this one."""
    library = ctypes.CDLL(None, use_errno=True)
    found = library.syscall(PIDFD_GETFD, os.pidfd_open(process), descriptor, 0)
    if found < 0:
        raise OSError(ctypes.get_errno(), "the socket of another process cannot be had")
    return socket.socket(fileno=found)


def shut(process, port):
    folder = "/proc/%d/fd" % process
    for name in os.listdir(folder):
        if os.readlink(folder + "/" + name).startswith("socket:"):
            found = taken(process, int(name))
            if found.getsockname()[1] == port:
                try:
                    found.shutdown(socket.SHUT_RD)
                except OSError:
                    pass  # it is not connected, and shut all the same
                return
    raise OSError("no socket with that port")


def main():
    try:
        shut(int(sys.argv[1]), int(sys.argv[2]))
    except (OSError, AttributeError, ValueError) as error:
        print("a socket of another process cannot be shut here:", error)
        sys.exit(1)


if __name__ == "__main__":
    main()
