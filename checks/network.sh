# Checks of the built program on the network: a talk with a small reflector over the loopback. Part of checks/run.
# shellcheck shell=sh

# three_frames: the script of three packets of one stream, at 0, 40 and 80 ms, out of the example of judge.
three_frames() {
    for n in 0 2 3; do
        tail -c "+$((64 * n + 1))" "$top/examples/judge.bin" | head -c 8
        tail -c "+$((64 * n + 11))" "$top/examples/judge.bin" | head -c 54
    done
}

# reflector ADDRESS: starts the small reflector there; its port comes into $port, and its process into $reflector.
reflector() {
    needs python3
    rm -f port
    python3 "$top/checks/small_reflector.py" "$1" port &
    reflector=$!
    for _ in 1 2 3 4 5 6 7 8 9 10; do
        [ ! -f port ] || break
        sleep 0.5
    done
    port=$(cat port)
}

# gone: ends the small reflector.
gone() {
    kill "$reflector" 2>/dev/null
    wait "$reflector" 2>/dev/null
    return "$1"
}

# talks STATUS TEXT BIND TO BOOK: a talk of AB1CD in module A.
talks() {
    gives "$1" "$2" prog talk --call AB1CD --module A --bind "$3" --to "$4" --stay 800 --book "$5" <script
}

has_ipv6() {
    python3 -c 'import socket; socket.socket(socket.AF_INET6, socket.SOCK_DGRAM).bind(("::1", 0))' 2>/dev/null
}

talk_over_ipv4() {
    reflector 127.0.0.1
    three_frames >script
    talks 0 'closed asked kept 3\n' 127.0.0.1:0 "127.0.0.1:$port" book &&
        gives 0 '0 opened\n1 continued\n2 continued\n' prog judge <book
    gone $?
}
check "a talk over IPv4 hears back what it says, and its book has it" talk_over_ipv4

talk_over_ipv6() {
    needs python3
    has_ipv6 || {
        echo "there is no IPv6 here"
        exit 77
    }
    three_frames >script
    reflector ::1
    talks 0 'closed asked kept 3\n' '[::1]:0' "[0000:0000:0000:0000:0000:0000:0000:0001]:$port" book
    gone $? || return 1
    reflector 127.0.0.1
    talks 0 'closed asked kept 3\n' '[::]:0' "127.0.0.1:$port" book
    gone $?
}
check "a talk over IPv6, and with a reflector of IPv4 from a port of both" talk_over_ipv6

ports_that_fail() {
    reflector 127.0.0.1
    three_frames >script
    talks 5 'port failed\n' "127.0.0.1:$port" "127.0.0.1:$port" book &&
        talks 5 'port failed\n' localhost:0 "127.0.0.1:$port" book &&
        talks 5 'port failed\n' 127.0.0.1:0 "127.0.0.1:$port" no/such/folder
    gone $?
}
check "a port in use, a name of a host and a book without a folder give port failed" ports_that_fail

book_that_is_full() {
    [ -c /dev/full ] || {
        echo "there is no /dev/full here"
        exit 77
    }
    reflector 127.0.0.1
    three_frames >script
    talks 8 'closed asked kept 3\nbook failed\n' 127.0.0.1:0 "127.0.0.1:$port" /dev/full
    gone $?
}
check "a book that cannot be written does not end a talk" book_that_is_full

nobody_there() {
    reflector 127.0.0.1
    gone 0
    : >script
    talks 0 'closed no-answer kept 0\n' 127.0.0.1:0 "127.0.0.1:$port" book
}
check "where nobody listens a client asks five times, and ends" nobody_there

# free_port: a UDP port of the loopback that nothing has.
free_port() {
    python3 -c 'import socket
s = socket.socket(socket.AF_INET, socket.SOCK_DGRAM)
s.bind(("127.0.0.1", 0))
print(s.getsockname()[1])'
}

served_talk() {
    needs python3
    three_frames >script
    port=$(free_port)
    prog serve --call M17-TST --for 2 --book . "127.0.0.1:$port" >served &
    server=$!
    sleep 0.5
    gives 0 'closed asked kept 0\n' \
        prog talk --call AB1CD --module A --bind 127.0.0.1:0 --to "127.0.0.1:$port" <script || return 1
    wait "$server" || {
        echo "serve ended with status $?"
        return 1
    }
    printf 'A admitted 3 missed 0\nB admitted 0 missed 0\nC admitted 0 missed 0\n' >wanted
    cmp served wanted && [ "$(head -c 8 link0.trace)" = M17TRACE ] && [ -s A.book ]
}
check "a reflector serves a talk for two seconds, and prints what its modules admitted" served_talk
