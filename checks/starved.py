"""Tells a machine that has no time for a process from a process that does nothing: for checks of m17-page, which must not fail
where a machine is slow. The system counts for each thread how long it was ready to go on and had no processor."""

import os
import signal
import sys
import time

# Of a wait that was in vain, so large a part without a processor says that nothing can be said; and so large a one of a try that
# has not ended after so many seconds, which is less than page.sh has for it.
MUCH, LESS, LONGEST = 0.75, 0.5, 840
SKIPPED = 77


class Starved(Exception):
    """A process had no processor, or died for want of something: what it did not do says nothing of it."""


def threads_of(pids):
    """For each thread of these processes how many seconds it waited for a processor."""
    found = {}
    for pid in pids:
        try:
            for thread in os.listdir(f"/proc/{pid}/task"):
                with open(f"/proc/{pid}/task/{thread}/schedstat", encoding="ascii") as line:
                    found[thread] = int(line.read().split()[1]) / 1e9
        except (OSError, ValueError, IndexError):
            pass
    return found


def group_of(leader):
    """The processes of the session that this one leads."""
    found = []
    for pid in filter(str.isdigit, os.listdir("/proc")):
        try:
            if os.getsid(int(pid)) == leader:
                found.append(pid)
        except OSError:
            pass
    return found


def own_group():
    """The processes of a try: what it starts is in its group."""
    found = []
    for pid in filter(str.isdigit, os.listdir("/proc")):
        try:
            if os.getpgid(int(pid)) == os.getpgrp():
                found.append(pid)
        except OSError:
            pass
    return found


class Wait:
    """A wait for what these processes do, which began now; `pids` says which they are."""

    def __init__(self, pids):
        self.pids = lambda: [os.getpid(), *pids()]
        self.began, self.before = time.monotonic(), threads_of(self.pids())

    def waited(self):
        """For how many of its seconds a thread had no processor."""
        return max((now - self.before.get(thread, 0) for thread, now in threads_of(self.pids()).items()), default=0)

    def goes_on(self, patience):
        """Whether to wait still: so long, and three times as long where there is no processor."""
        passed = time.monotonic() - self.began
        return passed < patience or (passed < 3 * patience and self.waited() >= MUCH * passed)

    def fault(self, what, much=MUCH):
        """What to raise where it was in vain."""
        passed, waited = time.monotonic() - self.began, self.waited()
        if waited >= much * passed:
            return Starved(f"{what}: of {passed:.0f} seconds a thread waited {waited:.0f} for a processor")
        return AssertionError(f"there never was {what}")


def tried(function, *words):
    """Ends with the status of a check: 77, with the reason, where it was starved."""
    wait = Wait(own_group)

    def ends(*_):
        raise wait.fault(f"an end of it within {LONGEST} seconds", LESS)

    signal.signal(signal.SIGALRM, ends)
    signal.alarm(LONGEST)
    try:
        function(*words)
    except Starved as starved:
        print(f"nothing can be said: {starved}")
        sys.stdout.flush()
        # Threads that wait for ever hold nothing up.
        os._exit(SKIPPED)
