# Checks of the built program as a bridge between two reflectors on the loopback: its words, who hears whom, and how it ends.
# Part of checks/run, behind reflector.sh, whose helpers it uses.
# shellcheck shell=sh

sides='--near x --near-peer 10.0.0.9:17000 --near-module A --far y --far-peer 10.0.0.9:17001 --far-module B'

refused_of_bridge() {
    sed "s/^\$sides/$sides/" <<'END'

x
$sides
--call AB1CD
--call ab1cd $sides
$sides --call AB1CD --call AB1CD
$sides --call AB1CD --for 0
$sides --call AB1CD --for 1000001
$sides --call AB1CD --for +1
$sides --call AB1CD --for ''
$sides --call AB1CD --for 1 --for 1
$sides --call AB1CD --near z
$sides --call AB1CD --listen
$sides --call AB1CD --book b
$sides --call AB1CD x
--call AB1CD --near x --near-peer host:17000 --near-module A --far y --far-peer 10.0.0.9:17001 --far-module B
--call AB1CD --near x --near-peer 10.0.0.9:17000 --near-module a --far y --far-peer 10.0.0.9:17001 --far-module B
--call AB1CD --near x --near-peer 10.0.0.9:17000 --near-module A --far y --far-peer 10.0.0.9 --far-module B
--call AB1CD --near x --near-peer 10.0.0.9:17000 --near-module A --far y --far-peer 10.0.0.9:17001 --far-module AB
END
}
taken_by_bridge() {
    sed "s/^\$sides/$sides/" <<'END'
$sides --call AB1CD
$sides --call=-A
$sides --call AB1CD --for 1
$sides --call AB1CD --for 0001000000
$sides --call AB1CD --
END
}
words_of_bridge() {
    refused_of_bridge >lines && all_refused bridge <lines || return 1
    taken_by_bridge >lines && all_taken bridge <lines
}
check "the words of bridge are taken up to their bounds, and refused past them" words_of_bridge

# reflects NAME PORT: starts a reflector there for 8 seconds, and waits until it listens. Its files are in the folder NAME, what
# it prints goes to NAME.said, and its process is $server.
reflects() {
    mkdir "$1" || return 1
    timeout -k 5 60 "$program" serve --call M17-TST --modules A --for 8 --book "$1" "127.0.0.1:$2" >"$1.said" </dev/null &
    server=$!
    has_bytes "$1/A.book" 17
}

# bridges WORD..: starts a bridge between $port and $other, whose process is $bridge, and waits until it is in at both.
bridges() {
    prog bridge --call BRIDGE --near 127.0.0.1:0 --near-peer "127.0.0.1:$port" --near-module A \
        --far 127.0.0.1:0 --far-peer "127.0.0.1:$other" --far-module A "$@" >bridged </dev/null &
    bridge=$!
    has_bytes near/A.book 54 && has_bytes far/A.book 54
}

# closed FILE STATUS TEXT PROCESS: whether the process ended so, with just that text in the file.
closed() {
    wait "$4"
    ended=$?
    # shellcheck disable=SC2059  # the text is a format
    printf "$3" | cmp - "$1" && [ $ended -eq "$2" ] || {
        echo "$1: status $ended, and not $2; it wrote"
        cat "$1"
        return 1
    }
}

# Somebody listens at the far reflector while somebody talks at the near one, and then the other way round.
both_ways() {
    free_ports
    frames 0 >script
    frames 500 >later
    reflects near "$port" && near=$server && reflects far "$other" && far=$server && bridges --for 5 || return 1
    joins /dev/null far_listener "127.0.0.1:$other" --listen --book heard_far --stay 3000
    far_listener=$!
    has_bytes far/A.book 91 || return 1
    joins script near_talker "127.0.0.1:$port" --stay 2500 --book heard_near
    near_talker=$!
    has_bytes far/A.book 300 || return 1
    joins later far_talker "127.0.0.1:$other"
    wait $! && wait $near_talker && wait $far_listener || return 1
    said near_talker 'closed asked kept 3' && said far_talker 'closed asked kept 0' && said far_listener 'closed asked kept 6' || return 1
    for heard in heard_near:3 heard_far:6; do
        prog judge <"${heard%:*}" | grep -c '^[0-9]* \(opened\|continued\)$' >count && said count "${heard#*:}" || return 1
    done
    # Byte for byte: what the talker at the near reflector heard is the script of the one at the far reflector.
    python3 -c '
import sys
kept, script = (open(name, "rb").read() for name in sys.argv[1:])
assert [kept[64 * n + 10:64 * n + 64] for n in range(3)] == [script[62 * n + 8:62 * n + 62] for n in range(3)]' heard_near later || return 1
    closed bridged 0 'bridged near 3 far 3\n' $bridge &&
        closed near.said 0 'A admitted 6 missed 0\n' "$near" && closed far.said 0 'A admitted 6 missed 0\n' "$far" || return 1
    gives 0 'legal 10 records 2 streams 6 admitted\n' prog check <near/A.book
}
check "a bridge says on each side what is said on the other, byte for byte" both_ways

# A reflector that ends tells the bridge to go, and so does one that doesn't serve the module; the other side gets a DISC.
ended_side() {
    free_ports
    reflects near "$port" && near=$server && reflects far "$other" && far=$server && bridges || return 1
    closed bridged 0 'bridged near 0 far 0\n' $bridge && wait "$near" && wait "$far" || return 1
    gives 0 'legal 2 records 0 streams 0 admitted\n' prog check <near/A.book || return 1
    rm -r near far && reflects near "$port" && near=$server || return 1
    gives 0 'bridged near 0 far 0\n' prog bridge --call BRIDGE --near 127.0.0.1:0 --near-peer "127.0.0.1:$port" --near-module A \
        --far 127.0.0.1:0 --far-peer "127.0.0.1:$port" --far-module B </dev/null || return 1
    kill "$near"
}
check "a bridge ends where a side lets it go, and leaves the other one" ended_side

bridge_without_port() {
    free_ports
    for word in "--near 127.0.0.1:$port --far 192.0.2.1:1" "--near 192.0.2.1:1 --far 127.0.0.1:$port"; do
        # shellcheck disable=SC2086  # a word for each
        gives 5 'port failed\n' prog bridge --call BRIDGE $word --near-peer 127.0.0.1:1 --near-module A \
            --far-peer 127.0.0.1:2 --far-module A </dev/null || return 1
    done
}
check "a bridge of which a port cannot be opened says port failed at once" bridge_without_port
