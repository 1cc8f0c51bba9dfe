# Checks of how the launcher ends a reflector and a bridge: in order, by any signal that is to end it. What stands for an
# installed m17 has the program of this check. Part of checks/run, behind reflector.sh, whose helpers it uses.
# shellcheck shell=sh

# prefix [PROGRAM]: makes what an install makes, as far as the launcher wants it, with FIFOs in the folder `made`.
prefix() {
    mkdir -p pre/bin pre/lib/m17 made && cp "$top/m17" pre/bin/m17 && cp "${1:-$program}" pre/lib/m17/m17_app &&
        echo kit >pre/lib/m17/kit && chmod +x pre/lib/m17/m17_app || return 1
    TMPDIR=$PWD/made
    export TMPDIR
}

# knows_stop: ends the check as skipped where the program has no --stop.
knows_stop() {
    prog serve --call M17-TST --stop no/file 127.0.0.1:0 </dev/null >/dev/null
    [ $? -eq 5 ] || {
        echo "this program has no --stop"
        exit 77
    }
}

# ended: starts `m17 WORD..`, waits until its book has so many bytes, sends it signals, and waits for its end: half a minute for
# each. As a process of its own session, so that no shell has made it ignore SIGINT; where it does not begin or end in time, all of
# that is killed.
# shellcheck disable=SC2034
ending='
import contextlib, os, shutil, signal, subprocess, sys, time
names, book, size, words = sys.argv[1].split("+"), sys.argv[2], int(sys.argv[3]), sys.argv[4:]
# whoever runs the checks may ignore them, and a shell takes no signal that it was started to ignore
for each in (signal.SIGHUP, signal.SIGINT, signal.SIGQUIT, signal.SIGTERM):
    signal.signal(each, signal.SIG_DFL)

def kill_all(why):
    with contextlib.suppress(ProcessLookupError):
        os.killpg(run.pid, signal.SIGKILL)
    run.wait()
    sys.exit(why)

with open("told", "wb") as told:
    run = subprocess.Popen(["pre/bin/m17", *words], stdin=subprocess.DEVNULL, stdout=told, start_new_session=True)
    with open("session", "w") as session:
        print(run.pid, file=session)
    until = time.monotonic() + 30
    while not (os.path.exists(book) and os.path.getsize(book) >= size):
        time.sleep(0.05)
        if run.poll() is not None:
            kill_all(f"it ended before it began, with {run.returncode}")
        if time.monotonic() >= until:
            kill_all("it did not begin")
    for name in names:
        if name.startswith("all:"):
            with contextlib.suppress(ProcessLookupError):
                os.killpg(run.pid, getattr(signal, "SIG" + name[4:]))
        elif name.startswith("rest"):
            time.sleep(float(name[4:]))
        elif name == "gone":
            for folder in os.listdir("made"):
                shutil.rmtree(os.path.join("made", folder))
        else:
            run.send_signal(getattr(signal, "SIG" + name))
    try:
        print(run.wait(30))
    except subprocess.TimeoutExpired:
        kill_all("it did not end")
'
ended() { # SIGNALS BOOK BYTES WORD..
    python3 -c "$ending" "$@"
}

# leaves FILE: whether some process has the name of a file in this folder among its words.
leaves() {
    grep -aqs "$PWD/$1" /proc/[0-9]*/cmdline
}

# kill_left: kills what is left of what was ended last.
kill_left() {
    kill -s KILL -- "-$(cat session)" 2>/dev/null
}

# no_trace: whether neither a folder nor a process is left of what was ended, after ten seconds at the most.
no_trace() {
    for _ in 1 2 3 4 5 6 7 8 9 10 11 12 13 14 15 16 17 18 19 20; do
        [ -z "$(ls made)" ] && ! leaves made/ && return 0
        sleep 0.5
    done
    echo "left behind:" && ls made
    ! leaves made/ || kill_left
    return 1
}

# stopped_by SIGNALS: a reflector that is ended in a talk: its member is told, and all is whole and legal.
stopped_by() {
    rm -rf kept && mkdir kept && port=$(free_port) || return 1
    (
        has_bytes kept/A.book 17 || exit 1
        prog talk --call AB1CD --module A --bind 127.0.0.1:0 --to "127.0.0.1:$port" --stay 40000 <"$top/examples/talk.script" >talker
    ) &
    talk=$!
    # the head, a join and five frames
    said=$(ended "$1" kept/A.book 530 serve --call M17-TST --modules A --book kept "127.0.0.1:$port")
    wait $talk
    [ "$said" = 0 ] || {
        echo "by $1 it ended with ${said:-no status}"
        return 1
    }
    grep -q '^closed dropped kept' talker && grep -q '^A admitted .* missed 0$' told || {
        echo "by $1:" && cat talker told
        return 1
    }
    prog check <kept/A.book | grep '^legal' && prog replay --modules A <kept/link0.trace >replayed && no_trace
}
each_signal() {
    needs python3
    knows_stop
    prefix || return 1
    for signals in TERM INT HUP all:TERM all:INT all:HUP TERM+TERM; do
        stopped_by $signals || return 1
    done
}
check "each signal ends a reflector in order: its member is told, files are whole, and the status is 0" each_signal

twenty_stops() {
    needs python3
    knows_stop
    prefix && mkdir kept || return 1
    for _ in 1 2 3 4 5 6 7 8 9 10 11 12 13 14 15 16 17 18 19 20; do
        rm -f kept/A.book
        [ "$(ended TERM kept/A.book 17 serve --call M17-TST --modules A --book kept 127.0.0.1:0)" = 0 ] || return 1
    done
    no_trace
}
check "twenty stops in a row leave no FIFO, folder or process behind" twenty_stops

killed_launcher() {
    needs python3
    knows_stop
    prefix && mkdir kept || return 1
    # it has begun, and then some time to wait for the launcher
    [ "$(ended rest1+KILL kept/A.book 17 serve --call M17-TST --modules A --book kept 127.0.0.1:0)" = -9 ] || return 1
    for _ in 1 2 3 4 5 6 7 8 9 10 11 12 13 14 15 16 17 18 19 20; do
        ! grep -q '^A admitted 0 missed 0$' told || return 0
        sleep 0.5
    done
    kill_left
    return 1
}
check "where the launcher is killed, the program ends in order all the same" killed_launcher

# A bridge that is ended leaves both sides: each of their books has its leave.
bridge_stopped() {
    needs python3
    knows_stop
    prefix && free_ports || return 1
    reflects near "$port" && first=$server && reflects far "$other" || return 1
    said=$(ended TERM far/A.book 54 bridge --call BRIDGE --near 127.0.0.1:0 --near-peer "127.0.0.1:$port" --near-module A \
        --far 127.0.0.1:0 --far-peer "127.0.0.1:$other" --far-module A) || return 1
    wait "$first" "$server"
    [ "$said" = 0 ] && grep -q '^bridged near 0 far 0$' told && no_trace || return 1
    for side in near far; do
        "$top/contrib/m17-book" $side/A.book | grep -q ' leave BRIDGE asked$' || return 1
    done
}
check "a bridge that is ended by a signal lets both sides go" bridge_stopped

# What stands for a program that hangs: it begins its book, and hears nothing.
hanging() {
    needs python3
    printf '#!/bin/sh\necho begun >book\nexec sleep 1000\n' >hangs && prefix hangs || return 1
    [ "$(ended TERM book 1 serve x)" = -15 ] && no_trace && rm book || return 1
    # a second signal, once it is one, does not wait
    [ "$(ended TERM+rest5+INT book 1 serve x)" != 0 ] && no_trace && rm book || return 1
    # also where somebody removes its FIFO
    [ "$(ended gone+TERM book 1 serve x)" = -15 ] && no_trace && rm book || return 1
    [ "$(ended gone+TERM+rest5+INT book 1 serve x)" != 0 ] && no_trace && rm book || return 1
    # all other commands end at once
    [ "$(ended TERM book 1 talk x)" = -15 ] && no_trace
}
check "a program that hangs is ended after ten seconds, and talk at once" hanging

# A descriptor that was given, as that of a lock, is the program's too, and those of the launcher are not.
descriptors() {
    needs python3
    # shellcheck disable=SC2016  # the stub is to read this
    printf '#!/bin/sh\nls -l /proc/$$/fd >descriptors\necho begun >book\n' >lists && prefix lists || return 1
    : >lock
    timeout -k 15 30 pre/bin/m17 serve x 3<lock 5<lock </dev/null || return 1
    [ "$(grep -c '/lock$' descriptors)" -eq 2 ] && ! grep '/stop$' descriptors && no_trace
}
check "the launcher hands on the descriptors that it was given, and none of its own" descriptors
