# Checks of `serve --fill-crc`, and of a client that leaves the CRCs of its packets out. Part of checks/run, behind
# reflector.sh, whose helpers it uses.
# shellcheck shell=sh

# knows_fill: ends the check as skipped where the program has no --fill-crc.
knows_fill() {
    prog serve --call M17-TST --fill-crc no-place </dev/null >/dev/null
    [ $? -eq 5 ] || {
        echo "this program has no --fill-crc"
        exit 77
    }
}

# zeros COUNT SECONDS [CALL STREAM]: a client at the reflector in module A that sends a stream of so many packets without CRCs, by
# this sender and with this id, or else its own, AB1CD's, and then stays. It prints how many voice packets it was sent.
zeros() {
    python3 -B "$top/checks/zero_client.py" "$port" "$@"
}

filled_zeros() {
    free_ports
    knows_fill
    serves --modules A --parrots A --for 6 --fill-crc "127.0.0.1:$port" || return 1
    stays listener "127.0.0.1:$port" --listen --book heard
    listener=$!
    joined 1 || return 1
    zeros 25 3 >back && wait $listener || return 1
    said listener 'closed dropped kept 25' && said back 'heard 25' && ends 0 'A admitted 25 missed 0\n' || return 1
    prog judge <heard | grep -c '^[0-9]* \(opened\|continued\)$' >count && said count 25
}
check "a client without CRCs is heard by serve --fill-crc, and hears its parrot" filled_zeros

# Without the option nothing of it is admitted.
refused_zeros() {
    free_ports
    serves --modules A --for 3 "127.0.0.1:$port" || return 1
    zeros 25 1 >back || return 1
    ends 0 'A admitted 0 missed 0\n' || return 1
    prog replay --modules A <kept/link0.trace | grep -c ' refused crc 0000 ' >count && said count 25 || return 1
    timeout 60 "$top/contrib/m17-log" --once kept | grep -o 'A refused crc-0000 25 AB1CD$' >got &&
        said got 'A refused crc-0000 25 AB1CD'
}
check "without --fill-crc such a client is refused for its CRCs, and m17-log says so" refused_zeros

# heard_just WORD..: whether a listener heard what it is to hear of one_choice by these options: in `heard`, byte for byte, and in
# order.
heard_just() {
    python3 -B -c '
import sys
sys.path.insert(0, sys.argv[1])
from make import END_BIT, stream_packet
fills, rules = "--fill-crc" in sys.argv, "--rules" in sys.argv
wanted = []
for stream, count, call, is_heard in (
    (0x1234, 3, "AB1CD", True),
    (0x1234 + 120, 3, "W1XYZ", not rules),
    (0x4321, 10, "AB1CD", fills),
    (0x4322, 5, "W1XYZ", fills and not rules),
):
    numbers = [number | END_BIT * (number == count - 1) for number in range(count * is_heard)]
    wanted += [stream_packet(stream, number, call) for number in numbers]
with open("heard", "rb") as file:
    records = file.read()
got = [records[at + 10 : at + 64] for at in range(0, len(records), 64)]
if got != wanted:
    place = next((at for at, (a, b) in enumerate(zip(got, wanted)) if a != b), min(len(got), len(wanted)))
    sys.exit(f"packet {place} that the listener heard is not that of {len(wanted)} which it should hear")' "$top/examples" "$@"
}

# one_choice WORD..: what is heard by these options of AB1CD and of W1XYZ, whom the rules deny: frames with CRCs of both, and
# then frames without of both. That is what a listener was sent, what the book has, which is legal, and what the trace has.
one_choice() {
    free_ports
    { frames 0 && frames 120 W1XYZ; } >script || return 1
    case " $* " in
    *" --rules "*) all=3 zeros=10 streams=1 refused=15 ;;
    *) all=6 zeros=15 streams=2 refused=15 ;;
    esac
    case " $* " in
    *" --fill-crc "*) all=$((all + zeros)) streams=$((2 * streams)) refused=0 ;;
    esac
    holds && serves --modules A --stop stop "$@" "127.0.0.1:$port" || return 1
    stays listener "127.0.0.1:$port" --listen --book heard
    listener=$!
    joined 1 && joins script talker "127.0.0.1:$port" && wait $! && zeros 10 0 >back && zeros 5 0 W1XYZ 0x4322 >later &&
        # the head, four joins, three leaves and the packets: until then somebody may still be heard
        has_bytes kept/A.book $((17 + 4 * 37 + 3 * 31 + all * 97))
    said_all=$?
    lets_go
    wait $listener && [ $said_all -eq 0 ] || return 1
    said talker 'closed asked kept 0' && said back 'heard 0' && said later 'heard 0' || return 1
    said listener "closed dropped kept $all" && heard_just "$@" && ends 0 "A admitted $all missed 0\\n" || return 1
    gives 0 "legal $((8 + all)) records $streams streams $all admitted\\n" prog check <kept/A.book || return 1
    prog replay --modules A <kept/link0.trace >lines || return 1
    grep -c 'A opened\|A continued' lines >count
    grep -c ' refused crc 0000 ' lines >>count
    said count "$all
$refused" || return 1
    case " $* " in
    *" --board "*) tail -n 1 board.lines | grep -q "^A records $((8 + all)) admitted $all at [0-9]* talker none\$" ;;
    esac
}

# Beside one another, each in a folder of its own.
each_choice() {
    needs python3 mkfifo
    knows_fill
    printf 'deny talk * W1XYZ\n' >text
    failed_choices=0 pids=
    for choice in '' --rules '--board board.lines' '--rules --board board.lines' --fill-crc '--rules --fill-crc' \
        '--board board.lines --fill-crc' '--rules --board board.lines --fill-crc'; do
        (
            name=$(echo "choice $choice" | tr -d ' ./') && mkdir "$name" && cp text "$name" && cd "$name" || exit 1
            rules=
            case $choice in *--rules*) rules=text ;; esac
            # shellcheck disable=SC2086  # a word for each
            one_choice $choice || {
                echo "by '$choice'"
                exit 1
            }
        ) &
        pids="$pids $!"
    done
    for pid in $pids; do
        wait "$pid" || failed_choices=$((failed_choices + 1))
    done
    [ $failed_choices -eq 0 ]
}
check "by each choice of rules, a board and --fill-crc the same clients hear the same talk, byte for byte, and nobody who is denied" each_choice
