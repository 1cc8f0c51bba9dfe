# Checks of the built program with a board: its lines while it runs, the page of them, and files that cannot be written. Part
# of checks/run, behind reflector.sh, whose helpers it uses.
# shellcheck shell=sh

# boards WORD..: starts a reflector of A, M and Z with a board, and waits until its file is there.
boards() {
    timeout 300 "$program" serve --call M17-TST --modules AMZ --board board "$@" "127.0.0.1:$port" </dev/null >served &
    server=$!
    has_bytes board 0
}

# has_line PATTERN [COUNT]: waits until a line that is so was followed, or so many.
has_line() {
    tries=0
    until [ "$(grep -c "$1" followed)" -ge "${2:-1}" ]; do
        tries=$((tries + 1))
        [ $tries -lt 1200 ] || {
            echo "no line is $1, or too few:"
            tail -n 3 followed
            return 1
        }
        sleep 0.05
    done
}

# long_talk CALLSIGN NUMBER: the script of a talk of six seconds, 150 packets. One of another number has other packets.
long_talk() {
    python3 -B -c '
import sys
sys.path.insert(0, sys.argv[1])
from make import END_BIT, stream_packet
which = int(sys.argv[3])
for number in range(150):
    packet = stream_packet(0x1234 + which, number | END_BIT * (number == 149), sys.argv[2], bytes([which % 256]) * 16)
    sys.stdout.buffer.write((40 * number).to_bytes(8, "big") + packet)' "$top/examples" "$1" "$2"
}

# talks_on CALLSIGN MODULE FILE: such talks one after another until the file `enough` is there, since a busy machine may miss
# one or two. FILE has a line of each.
talks_on() {
    talk=0
    until [ -e enough ]; do
        talk=$((talk + 1))
        long_talk "$1" $talk >"$3.script" || return 1
        prog talk --call "$1" --module "$2" --bind 127.0.0.1:0 --to "127.0.0.1:$port" <"$3.script" >>"$3" || return 1
    done
}

# rises FILE: the lines are those of a board, those of a module with more records each time.
rises() {
    awk '!/^[AZ] records [0-9]+ admitted [0-9]+ at [0-9]+ talker (none|AB1CD|N0CALL)$/ || $3 <= last[$1] { print; exit 1 } { last[$1] = $3 }' "$1"
}

# shows PORT TEXT: waits until the page says so. It ends with 77 where the machine had no time for that.
shows() {
    timeout 300 python3 -B "$top/checks/page.py" shows "$@"
}

# followed_by WORD..: with these words the board is followed by tail, and by the page, which answers by then, while somebody talks
# in the first module and somebody else in the last one. How many talks those had is in $in_a and $in_z.
followed_by() {
    free_ports
    rm -rf kept board enough talker last_talker && mkdir kept || return 1
    place=$(python3 -c 'import socket; s = socket.socket(); s.bind(("127.0.0.1", 0)); print(s.getsockname()[1])') || return 1
    timeout 600 "$top/contrib/m17-page" --port "$place" --board board kept &
    page=$!
    shows "$place" 'run unknown' || return
    holds && boards --stop stop "$@" || return 1
    tail -n +1 -f board >followed &
    follower=$!
    talks_on AB1CD A talker &
    talker=$!
    talks_on N0CALL Z last_talker &
    last=$!
    shows "$place" 'A talks AB1CD' && shows "$place" 'Z talks N0CALL' && has_line '^A' 3 && has_line '^Z' 3
    shown=$?
    : >enough
    wait $talker && wait $last || return 1
    [ $shown -eq 0 ] || return $shown
    has_line '^A records [0-9]* admitted [0-9]* at [0-9]* talker AB1CD$' || return 1
    has_line '^Z records [0-9]* admitted [0-9]* at [0-9]* talker N0CALL$' || return 1
    in_a=$(grep -c '^closed asked kept 0$' talker) in_z=$(grep -c '^closed asked kept 0$' last_talker)
    [ "$in_a" -eq "$(wc -l <talker)" ] && [ "$in_z" -eq "$(wc -l <last_talker)" ] || {
        cat talker last_talker
        return 1
    }
    kill -0 "$server" && lets_go || return 1
    ends 0 "A admitted $((150 * in_a)) missed 0\nM admitted 0 missed 0\nZ admitted $((150 * in_z)) missed 0\n" && kill $page || return 1
    is_last A "$in_a" && is_last Z "$in_z" || return 1
    kill $follower && cmp followed board && rises board && ! grep '^M' board
}

# is_last MODULE TALKS: whether the last line of the module tells of so many talks, and was followed.
is_last() {
    counts="records $((152 * $2)) admitted $((150 * $2))"
    has_line "^$1 $counts at [0-9]* talker none\$" && grep "^$1" board | tail -n 1 | grep -q " $counts at [0-9]* talker none\$"
}
followed_board() {
    needs python3 awk
    followed_by && followed_by --book kept || return
    prog check <kept/A.book | grep -q "^legal $((152 * in_a)) records" &&
        prog check <kept/Z.book | grep -q "^legal $((152 * in_z)) records"
}
check "serve --board has a line for each change while it runs, and the page shows who talks" followed_board

board_that_fails() {
    needs python3
    free_ports
    mkdir kept || return 1
    gives 5 'port failed\n' prog serve --call M17-TST --modules A --book kept --board no/board "127.0.0.1:$port" || return 1
    [ -f kept/A.book ] && [ ! -s kept/A.book ] || return 1
    [ -c /dev/full ] || return 0
    frames 0 >script
    holds && serves --modules A --board /dev/full --stop stop "127.0.0.1:$port" || return 1
    stays listener "127.0.0.1:$port" --listen
    listener=$!
    joined 1 || return 1
    joins script talker "127.0.0.1:$port"
    wait $! && lets_go && wait $listener && said talker 'closed asked kept 0' && said listener 'closed dropped kept 3' || return 1
    ends 8 'A admitted 3 missed 0\nbook failed\n'
}
check "a board that cannot be opened gives 5, and one that cannot be written 8 at the end" board_that_fails
