# Checks of a reflector whose devices fail while it runs: a disk that fills, books that are taken away, an interface that is
# down, a peer that is gone without a word. Part of checks/run, behind reflector.sh, whose helpers it uses.
# shellcheck shell=sh

# cut_at SIZE FILE: whether the trace is whole, or cut at its end, where it has so many bytes.
cut_at() {
    prog replay --modules AB <"$2" >lines
    case $? in
    0) ;;
    1) said lines "input refused at $1: cut" ;;
    *) return 1 ;;
    esac
}

# heard_by_all: whether the one who talked and the one who listened ended as they do where nothing fails.
heard_by_all() {
    said talker 'closed asked kept 0' && said listener 'closed dropped kept 25'
}

# A file may have 1,024 bytes, or 2,048 where the shell counts so. The trace and the book of A would have more; that of B
# has 17.
limited_files() {
    free_ports
    # shellcheck disable=SC3045  # shells that lack it skip the check
    (ulimit -f 2) 2>/dev/null || {
        echo "the size of files cannot be limited here"
        exit 77
    }
    mkdir kept || return 1
    # shellcheck disable=SC3045
    (
        trap '' XFSZ
        ulimit -f 2
        exec timeout 60 "$program" serve --call M17-TST --book kept --modules AB --for 4 "127.0.0.1:$port"
    ) >served &
    server=$!
    joined 0 || return 1
    stays listener "127.0.0.1:$port" --listen
    listener=$!
    joined 1 || return 1
    joins "$top/examples/talk.script" talker "127.0.0.1:$port"
    wait $! && wait $listener && heard_by_all || return 1
    ends 8 'A admitted 25 missed 0\nB admitted 0 missed 0\nbook failed\n' || return 1
    size=$(wc -c <kept/A.book)
    [ $((size % 512)) -eq 0 ] && [ "$size" -eq "$(wc -c <kept/link0.trace)" ] || {
        ls -l kept
        return 1
    }
    gives 1 "input refused at $size: cut\n" prog check <kept/A.book && cut_at "$size" kept/link0.trace &&
        gives 0 'legal 0 records 0 streams 0 admitted\n' prog check <kept/B.book
}
check "files that may not grow end a trace and a book where the limit is, and nothing else" limited_files

# strangers COUNT: so many datagrams of 64 bytes that are no packets.
strangers() {
    python3 -c '
import socket, sys, time
port, count = int(sys.argv[1]), int(sys.argv[2])
here = socket.socket(socket.AF_INET, socket.SOCK_DGRAM)
for n in range(count):
    here.sendto(bytes(64), ("127.0.0.1", port))
    if n % 50 == 49:
        time.sleep(0.02)' "$port" "$1"
}

# A disk of four pages: each file has one, and the trace takes the last one too. What strangers send fills it.
full_disk() {
    free_ports
    page=$(getconf PAGESIZE) || page=4096
    mkdir kept && mount -t tmpfs -o "size=$((4 * page))" tmpfs kept 2>/dev/null || {
        echo "a small disk cannot be mounted here"
        exit 77
    }
    trap 'umount -l kept' EXIT
    timeout 60 "$program" serve --call M17-TST --book kept --modules AB --for 4 "127.0.0.1:$port" >served &
    server=$!
    joined 0 && has_bytes kept/B.book 17 || return 1
    stays listener "127.0.0.1:$port" --listen
    listener=$!
    joined 1 || return 1
    strangers $((3 * page / 64))
    joins "$top/examples/talk.script" talker "127.0.0.1:$port"
    wait $! && wait $listener && heard_by_all || return 1
    ends 8 'A admitted 25 missed 0\nB admitted 0 missed 0\nbook failed\n' || return 1
    [ "$(wc -c <kept/link0.trace)" -eq $((2 * page)) ] && cut_at $((2 * page)) kept/link0.trace || {
        ls -l kept
        return 1
    }
    gives 0 'legal 29 records 1 streams 25 admitted\n' prog check <kept/A.book &&
        gives 0 'legal 0 records 0 streams 0 admitted\n' prog check <kept/B.book
}
check "a disk that strangers fill ends the trace, and the books and a talk go on" full_disk

# What is open stays open: the reflector writes on into files that nobody sees any more, and makes none anew.
taken_away() {
    free_ports
    serves --modules A --for 4 "127.0.0.1:$port" || return 1
    stays listener "127.0.0.1:$port" --listen
    listener=$!
    joined 1 && rm -r kept || return 1
    joins "$top/examples/talk.script" talker "127.0.0.1:$port"
    wait $! && wait $listener && heard_by_all && ends 0 'A admitted 25 missed 0\n' && [ ! -e kept ]
}
check "a folder of books that is removed while a reflector runs changes nothing else" taken_away

# Two namespaces with a cable between them: the reflector, a talker and a listener in one, another listener in the other.
cabled() {
    needs ip python3
    here=m17-here-$$
    there=m17-there-$$
    ip netns add "$here" 2>/dev/null || {
        echo "network namespaces cannot be made here"
        exit 77
    }
    trap 'ip netns delete "$here"; ip netns delete "$there" 2>/dev/null' EXIT
    ip netns add "$there" && ip -n "$here" link add name m17-cable type veth peer name m17-end netns "$there" 2>/dev/null || {
        echo "a cable between network namespaces cannot be made here"
        exit 77
    }
    ip -n "$here" address add 10.217.0.1/24 dev m17-cable && ip -n "$there" address add 10.217.0.2/24 dev m17-end &&
        ip -n "$here" link set lo up && ip -n "$here" link set m17-cable up && ip -n "$there" link set m17-end up
}

# listens NAMESPACE NAME TO: a listener in that namespace, until the reflector ends.
listens() {
    ip netns exec "$1" timeout 60 "$program" talk --call N0CALL --module A --bind 0.0.0.0:0 --to "$3" --listen \
        --stay 86400000 --book "$2.book" </dev/null >"$2" &
}

# talks_here MOMENT: three packets, the first at that moment, by a talker beside the reflector.
talks_here() {
    frames "$1" >script
    ip netns exec "$here" timeout 60 "$program" talk --call AB1CD --module A --bind 127.0.0.1:0 --to 127.0.0.1:17000 \
        <script >talker && said talker 'closed asked kept 0' && sleep 0.4
}

# While the cable is down each send to the other side fails. The three packets of that time are lost there, and no others.
down_interface() {
    cabled || return 1
    mkdir kept || return 1
    ip netns exec "$here" timeout 60 "$program" serve --call M17-TST --book kept --modules A --for 6 0.0.0.0:17000 >served &
    server=$!
    joined 0 || return 1
    listens "$here" near 127.0.0.1:17000
    near=$!
    listens "$there" far 10.217.0.1:17000
    far=$!
    joined 2 && talks_here 0 && ip -n "$here" link set m17-cable down && talks_here 1 &&
        ip -n "$here" link set m17-cable up && sleep 0.4 && talks_here 2 || return 1
    wait $near && wait $far && ends 0 'A admitted 9 missed 0\n' || return 1
    said near 'closed dropped kept 9' && said far 'closed dropped kept 6' || return 1
    ids far.book >got && printf '1234\n1234\n1234\n1236\n1236\n1236\n' | cmp - got &&
        gives 0 'legal 19 records 3 streams 9 admitted\n' prog check <kept/A.book
}
check "while an interface is down just those datagrams are lost that go by it" down_interface

# A peer that joined, and whose port is closed from then on: the system is told so at each datagram to it.
gone_peer() {
    free_ports
    serves --modules A --for 4 "127.0.0.1:$port" || return 1
    stays listener "127.0.0.1:$port" --listen
    listener=$!
    joined 1 || return 1
    python3 -c '
import socket, sys
gone = socket.socket(socket.AF_INET, socket.SOCK_DGRAM)
gone.settimeout(5)
gone.sendto(b"LSTN\x00\x00\x4b\x13\xd1\x06A", ("127.0.0.1", int(sys.argv[1])))
sys.exit(gone.recv(64) != b"ACKN")' "$port" || return 1
    joins "$top/examples/talk.script" talker "127.0.0.1:$port"
    wait $! && wait $listener && heard_by_all && ends 0 'A admitted 25 missed 0\n' || return 1
    # It was in until the end: 25 packets, and three who join and leave.
    gives 0 'legal 31 records 1 streams 25 admitted\n' prog check <kept/A.book
}
check "a peer whose port is closed harms nobody else" gone_peer

# Room for the plan, and not for the stacks of 28 threads. The threads of files are started before the files are asked for.
refused_threads() {
    # shellcheck disable=SC3045  # shells that lack it skip the check
    (ulimit -v 120000) 2>/dev/null || {
        echo "memory cannot be limited here"
        exit 77
    }
    mkdir kept || return 1
    set -- serve --call M17-TST --modules ABCDEFGHIJKLMNOPQRSTUVWXYZ --for 1 127.0.0.1:0
    gives 6 'crew refused\n' sh -c 'ulimit -v 120000; exec "$@"' sh timeout 60 "$program" "$@" || return 1
    gives 5 'port failed\n' sh -c 'ulimit -v 120000; exec "$@"' sh timeout 60 "$program" "$@" --book kept || return 1
    [ -z "$(find kept -type f -size +0)" ]
}
check "serve without room for its threads ends with 6 at once, or for those of its files with 5" refused_threads
