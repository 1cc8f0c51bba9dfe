# Checks of the built program as a reflector on the loopback: its words, who hears whom, hostile datagrams, its files and
# how it ends. Part of checks/run, behind program.sh and network.sh, whose helpers it uses.
# shellcheck shell=sh

# all_refused COMMAND: each line of the input is words behind the command, as the shell reads them, and refused.
all_refused() {
    while read -r line; do
        eval "refused $1 $line" || return 1
    done
}

# all_taken COMMAND: each line is words that are taken, with a port that cannot be opened.
all_taken() {
    while read -r line; do
        eval "gives 5 'port failed\\n' prog $1 $line" </dev/null || return 1
    done
}

refused_of_serve() {
    cat <<'END'

x
--call M17-TST
--call m17-tst x
--call '' x
--call 'A ' x
--call ABCDEFGHIJ x
--call M17-TST --call M17-TST x
--call M17-TST 1 2 3 4 5
--call M17-TST --modules '' x
--call M17-TST --modules AA x
--call M17-TST --modules a x
--call M17-TST --parrots D x
--call M17-TST --modules A --parrots AB x
--call M17-TST --places 0 x
--call M17-TST --places 257 x
--call M17-TST --places +1 x
--call M17-TST --places= x
--call M17-TST --limit 86401 x
--call M17-TST --limit +1 x
--call M17-TST --for 0 x
--call M17-TST --for 1000001 x
--call M17-TST --for 1.5 x
--call M17-TST --for '1 ' x
--call M17-TST --for 18446744073709551617 x
--call M17-TST --book a --book b x
--call M17-TST x --book
--call M17-TST --summary x
--call M17-TST --bind x
--call M17-TST --listen x
--call M17-TST --rules --rules x
--call M17-TST --rules=rules.txt x
--call M17-TST --board b --board b x
--call M17-TST x --board
-h
--help
END
}
taken_by_serve() {
    cat <<'END'
--call M17-TST x
x --call=M17-TST
--call M17-TST 1 2 3 4
--call ABCDEFGHI x
--call=-A x
--call M17-TST --modules ZYXWVUTSRQPONMLKJIHGFEDCBA --parrots AZ x
--call M17-TST --places 1 x
--call M17-TST --places 256 x
--call M17-TST --places 00064 x
--call M17-TST --limit 0 x
--call M17-TST --limit 86400 x
--call M17-TST --for 1 x
--call M17-TST --for 1000000 x
--call M17-TST --book= x
--call M17-TST --book d x
--call M17-TST --rules x
--call M17-TST --board b x
--call M17-TST --board= --rules x
--call M17-TST -- --x
END
}
words_of_serve() {
    refused_of_serve >lines && all_refused serve <lines || return 1
    taken_by_serve >lines && all_taken serve <lines
}
check "the words of serve are taken up to their bounds, and refused past them" words_of_serve

right_talk='--call AB1CD --module A --bind x --to 10.0.0.9:17000'
refused_of_talk() {
    sed "s/^\$rest/$right_talk/" <<'END'

--module A --bind x --to 10.0.0.9:17000
--call AB1CD --bind x --to 10.0.0.9:17000
--call AB1CD --module A --to 10.0.0.9:17000
--call AB1CD --module A --bind x
--call ab1cd --module A --bind x --to 10.0.0.9:17000
--call AB1CD --module a --bind x --to 10.0.0.9:17000
--call AB1CD --module AB --bind x --to 10.0.0.9:17000
--call AB1CD --module '' --bind x --to 10.0.0.9:17000
--call AB1CD --module A --bind x --to localhost:17000
--call AB1CD --module A --bind x --to 10.0.0.9
--call AB1CD --module A --bind x --to 10.0.0.9:65536
--call AB1CD --module A --bind x --to 10.0.0.09:17000
--call AB1CD --module A --bind x --to 10.0.0.256:17000
--call AB1CD --module A --bind x --to [::1]:17000
--call AB1CD --module A --bind x --to [0000:0000:0000:0000:0000:0000:0000:000A]:17000
$rest --stay 86400001
$rest --stay -1
$rest --stay ''
$rest --stay 1 --stay 1
$rest --listen --listen
$rest --listen=yes
$rest --for 1
$rest --modules A
$rest x
END
}
taken_by_talk() {
    sed "s/^\$rest/$right_talk/" <<'END'
$rest
$rest --stay 0
$rest --stay 86400000 --listen --book b
$rest --stay=000086400000
$rest --book=
$rest --
--call AB1CD --module Z --bind '' --to 255.255.255.255:65535
--call AB1CD --module A --bind x --to 0.0.0.0:0
--call AB1CD --module A --bind x --to [0000:0000:0000:0000:0000:0000:0000:000a]:17000
END
}
words_of_talk() {
    refused_of_talk >lines && all_refused talk <lines || return 1
    taken_by_talk >lines && all_taken talk <lines
}
check "the words of talk are taken up to their bounds, and refused past them" words_of_talk

# refused_rules PLACE REASON TEXT: whether the rules are refused so, before a port is asked for.
refused_rules() {
    # shellcheck disable=SC2059  # the text is a format
    printf "$3" >rules
    gives 1 "input refused at $1: $2\\n" prog serve --call M17-TST --rules --book kept x <rules
}
rules_of_serve() {
    needs yes
    mkdir kept || return 1
    refused_rules 0 modules 'deny talk A N0CALL' &&
        refused_rules 0 kind allow &&
        refused_rules 0 pattern 'deny conn A ' &&
        refused_rules 2 act 'allow any * *\n\nreject any * *\n' || return 1
    head -c 65537 /dev/zero | tr '\0' '\n' >rules
    gives 1 'input refused at 65536: large\n' prog serve --call M17-TST --rules x <rules || return 1
    head -c 65536 rules >most
    # as many rules as a text has room for
    yes 'deny any * *' | head -n 5041 >many
    for text in most many "$top/examples/rules.txt" /dev/null; do
        gives 5 'port failed\n' prog serve --call M17-TST --rules x <"$text" || return 1
    done
    gives 3 'read failed\n' prog serve --call M17-TST --rules x </ || return 1
    [ -z "$(ls kept)" ]
}
check "serve --rules reads its rules before a port is asked for, and says where and why a text is refused" rules_of_serve

# serves WORD..: starts a reflector with these words, and waits until it listens. Its input is the file $rules, if it is
# set. Its files are in `kept`, what it prints goes to `served`, and its process is $server.
serves() {
    needs python3
    rm -rf kept && mkdir kept || return 1
    timeout 300 "$program" serve --call M17-TST --book kept "$@" <"${rules:-/dev/null}" >served &
    server=$!
    joined 0
}

# holds: makes the FIFO `stop`, for a reflector that goes on, with `--stop stop`, until `lets_go`: so a slow machine has the time
# that it needs. What is written to it ends nothing. Whatever starts behind it must not hold the FIFO, so a process of its own does.
holds() {
    rm -f stop && mkfifo stop || return 1
    sh -c 'echo on && exec sleep 600' >stop &
    holder=$!
}
lets_go() {
    kill "$holder"
}

# joined COUNT: waits until so many have joined module A. A join has 37 bytes in its book.
joined() {
    has_bytes kept/A.book $((17 + 37 * $1))
}

# has_bytes FILE COUNT: waits until the file is there and has so many.
has_bytes() {
    tries=0
    until [ -f "$1" ] && [ "$(wc -c <"$1")" -ge "$2" ]; do
        tries=$((tries + 1))
        [ $tries -lt 1200 ] || {
            echo "$1 never had $2 bytes"
            return 1
        }
        sleep 0.05
    done
}

# ends STATUS TEXT: whether the reflector ends so, with just that text.
ends() {
    wait "$server"
    ended=$?
    # shellcheck disable=SC2059  # the text is a format
    printf "$2" | cmp - served && [ $ended -eq "$1" ] || {
        echo "serve ended with status $ended, and not $1; it wrote"
        cat served
        return 1
    }
}

# joins SCRIPT FILE TO WORD..: a talk of module A to the reflector at TO in the background, which prints into FILE.
joins() {
    script=$1 file=$2 to=$3
    shift 3
    prog talk --call AB1CD --module A --bind "${bind:-127.0.0.1:0}" --to "$to" "$@" <"$script" >"$file" &
}

# stays FILE TO WORD..: the same without a script, until the reflector ends.
stays() {
    joins /dev/null "$@" --stay 86400000
}

# said FILE TEXT: whether a talk that has ended printed that.
said() {
    [ "$(cat "$1")" = "$2" ] || {
        echo "$1: wrote '$(cat "$1")', and not '$2'"
        return 1
    }
}

# free_ports: two ports of UDP that nothing has, $port and $other.
free_ports() {
    needs python3
    # shellcheck disable=SC2046  # two numbers
    set -- $(python3 -c '
import socket
two = [socket.socket(socket.AF_INET, socket.SOCK_DGRAM) for _ in range(2)]
for one in two:
    one.bind(("127.0.0.1", 0))
print(*(one.getsockname()[1] for one in two))')
    port=$1 other=$2
}

# frames MOMENT [CALL]: the script of three packets of one stream, 40 ms apart, the first at that moment, by this sender or AB1CD.
frames() {
    python3 -B -c '
import sys
sys.path.insert(0, sys.argv[1])
from make import END_BIT, stream_packet
start = int(sys.argv[2])
for number in range(3):
    packet = stream_packet(0x1234 + start, number | END_BIT * (number == 2), sys.argv[3])
    sys.stdout.buffer.write((start + 40 * number).to_bytes(8, "big") + packet)' "$top/examples" "$1" "${2:-AB1CD}"
}

two_links() {
    free_ports
    frames 0 >script
    serves --modules A --for 3 "127.0.0.1:$port" "127.0.0.1:$other" || return 1
    stays listener "127.0.0.1:$other" --listen --book heard
    listener=$!
    joined 1 || return 1
    joins script talker "127.0.0.1:$port"
    wait $! && wait $listener || return 1
    said talker 'closed asked kept 0' && said listener 'closed dropped kept 3' || return 1
    gives 0 '0 opened\n1 continued\n2 continued\n' prog judge <heard || return 1
    ends 0 'A admitted 3 missed 0\n' || return 1
    prog replay --modules A <kept/link0.trace | grep -c 'A opened\|A continued' >count && said count 3 || return 1
    prog replay --modules A <kept/link1.trace | grep -c 'A join' >count && said count 1
}
check "of two links with a peer each, one hears what is said on the other" two_links

# unanswered PORT: whether N0CALL gets no byte for a CONN, a LSTN, a frame and a PING of its own.
unanswered() {
    python3 -B -c '
import socket
import sys
sys.path.insert(0, sys.argv[1])
from make import END_BIT, address, stream_packet
call = address("N0CALL")
own = socket.socket(socket.AF_INET, socket.SOCK_DGRAM)
own.connect(("127.0.0.1", int(sys.argv[2])))
own.settimeout(1)
for data in b"CONN" + call + b"A", b"LSTN" + call + b"A", stream_packet(1, END_BIT, "N0CALL"), b"PING" + call:
    own.send(data)
try:
    sys.exit("it was sent " + own.recv(64).hex())
except socket.timeout:
    pass' "$top/examples" "$1"
}

# Beside a talker and a listener, as without rules. Of what N0CALL sent its PING alone was heard, of which no rule speaks.
denied_peer() {
    free_ports
    frames 0 >script
    printf 'deny any * N0*\n' >text
    rules=text
    serves --modules A --rules --for 6 "127.0.0.1:$port" || return 1
    unanswered "$port" || return 1
    stays listener "127.0.0.1:$port" --listen --book heard
    listener=$!
    joined 1 || return 1
    joins script talker "127.0.0.1:$port"
    wait $! && wait $listener || return 1
    said talker 'closed asked kept 0' && said listener 'closed dropped kept 3' || return 1
    ends 0 'A admitted 3 missed 0\n' || return 1
    prog replay --modules A <kept/link0.trace >lines || return 1
    [ "$(grep -c 'A join' lines)" -eq 2 ] && [ "$(grep -c 'not-connected' lines)" -eq 1 ]
}
check "who is denied by rules gets no byte, and the others are served as ever" denied_peer

denied_talker() {
    free_ports
    frames 0 >script
    printf 'deny talk * AB1CD\n' >text
    rules=text
    serves --modules A --rules --for 3 "127.0.0.1:$port" || return 1
    joins script talker "127.0.0.1:$port"
    wait $! || return 1
    said talker 'closed asked kept 0' && ends 0 'A admitted 0 missed 0\n'
}
check "who may not speak by rules is let in, and not heard" denied_talker

rule_examples() {
    needs python3
    python3 -B "$top/checks/rule_examples.py" "$program"
}
check "by each of the ten examples of rules, and by those against look-alikes, those are heard of whom it says so, and no others" rule_examples

# On a port of both families, and on a second link of IPv6 alone.
both_families() {
    needs python3
    has_ipv6 || {
        echo "there is no IPv6 here"
        exit 77
    }
    free_ports
    frames 0 >script
    serves --modules A --for 4 "[::]:$port" "[::1]:$other" || return 1
    here=0000:0000:0000:0000:0000:0000:0000:0001
    bind='[::1]:0'
    stays six "[$here]:$port" --listen
    six=$!
    stays alone "[$here]:$other" --listen
    alone=$!
    bind=127.0.0.1:0
    stays four "127.0.0.1:$port" --listen
    four=$!
    joined 3 || return 1
    bind='[::1]:0'
    joins script talker "[$here]:$port"
    wait $! && wait $six && wait $alone && wait $four || return 1
    for name in six alone four; do said $name 'closed dropped kept 3' || return 1; done
    said talker 'closed asked kept 0' && ends 0 'A admitted 3 missed 0\n'
}
check "peers of IPv6 and of IPv4, on one link and on two, hear one another" both_families

# Each hears the other's three packets, and its own three played back: the one's before the other speaks.
parrot_and_two() {
    free_ports
    frames 0 >early
    frames 2500 >late
    serves --modules A --parrots A --for 6 "127.0.0.1:$port" || return 1
    joins late second "127.0.0.1:$port" --stay 86400000 --book second.book
    second=$!
    joined 1 || return 1
    joins early first "127.0.0.1:$port" --stay 86400000 --book first.book
    wait $! && wait $second || return 1
    said first 'closed dropped kept 6' && said second 'closed dropped kept 6' || return 1
    ends 0 'A admitted 6 missed 0\n' || return 1
    # The stream ids are 1234 and 1BF8, and of echoes their complements.
    ids first.book >got && printf 'EDCB\nEDCB\nEDCB\n1BF8\n1BF8\n1BF8\n' | cmp - got || return 1
    ids second.book >got && printf '1234\n1234\n1234\nE407\nE407\nE407\n' | cmp - got
}

# ids BOOK: the stream ids of a client's book, bytes 14 and 15 of each record, a line each.
ids() {
    python3 -c '
import sys
data = open(sys.argv[1], "rb").read()
for at in range(0, len(data), 64):
    print(data[at + 14 : at + 16].hex().upper())' "$1"
}
check "two in a parrot module hear one another, and each what it said itself" parrot_and_two

# hostile_for SECONDS: all of them, beside a talk, while the reflector serves for so long.
hostile_for() {
    free_ports
    serves --modules AB --for "$1" "127.0.0.1:$port" || return 1
    joins "$top/examples/talk.script" talker "127.0.0.1:$port"
    talker=$!
    python3 "$top/checks/hostile.py" "$port" >sent
    all=$?
    wait $talker
    wait "$server" || return 1
    [ $all -eq 0 ] && said talker 'closed asked kept 0' || {
        cat sent
        return 1
    }
    printf 'A admitted 25 missed 0\nB admitted 0 missed 0\n' | cmp - served || return 1
    prog replay --modules AB <kept/link0.trace | grep -c ' refused ' | cmp - sent
}

# Where the machine is so busy that the reflector ends before all were sent, it gets more time.
hostile() {
    hostile_for 2 || hostile_for 10
}
check "4,500 hostile datagrams of 0 to 40,000 bytes are refused, and a talk goes on beside them" hostile

end_of_serve() {
    free_ports
    serves --modules A --for 2 "127.0.0.1:$port" || return 1
    stays talker "127.0.0.1:$port" --listen
    wait $! || return 1
    said talker 'closed dropped kept 0' && ends 0 'A admitted 0 missed 0\n'
}
check "serve --for ends, and each member gets a DISC" end_of_serve

# Of a trace the moment of its first entry, in milliseconds, and how many entries it has that tell of no datagram.
first_of_trace() {
    python3 -c '
data = open("kept/link0.trace", "rb").read()
print(int.from_bytes(data[9:17], "big"), (len(data) - 8) // 9)'
}

# Where nobody is there a link waits for five seconds; in its last ten it waits for 20 ms at a time.
link_at_rest() {
    free_ports
    serves --modules A --for 12 "127.0.0.1:$port" || return 1
    ends 0 'A admitted 0 missed 0\n' || return 1
    first_of_trace >first && read -r moment entries <first
    [ "$moment" -ge 5000 ] && [ "$moment" -lt 12000 ] && [ "$entries" -gt 20 ] || {
        cat first
        return 1
    }
}
check "a link of serve where nobody is there rests, and ends in time" link_at_rest

# What was written until then stays, and ends with a whole entry and a whole record.
stopped() {
    free_ports
    rm -rf kept && mkdir kept || return 1
    "$program" serve --call M17-TST --modules A --book kept "127.0.0.1:$port" >served &
    server=$!
    joined 0 || return 1
    joins "$top/examples/talk.script" talker "127.0.0.1:$port" --stay 400
    whole=$((17 + 37 + 25 * 97))
    has_bytes kept/A.book $whole && kill "$server" || return 1
    wait $! || return 1
    said talker 'closed asked kept 0' && ends 143 '' || return 1
    prog replay --modules A <kept/link0.trace >lines && [ "$(grep -c 'A opened\|A continued' lines)" -eq 25 ]
}
check "a reflector that is stopped by a signal says nothing, and leaves whole files" stopped

ports_and_folders() {
    free_ports
    set -- prog serve --call M17-TST
    gives 5 'port failed\n' "$@" --book no/such/folder "127.0.0.1:$port" &&
        gives 5 'port failed\n' "$@" --book "$top/README.md" "127.0.0.1:$port" &&
        gives 5 'port failed\n' "$@" --book '' "127.0.0.1:$port/" &&
        gives 5 'port failed\n' "$@" "127.0.0.1:$port" "127.0.0.1:$port" &&
        gives 5 'port failed\n' "$@" "localhost:$port" &&
        gives 5 'port failed\n' "$@" 203.0.113.9:0 || return 1
    serves --modules A --for 2 "127.0.0.1:$port" || return 1
    gives 5 'port failed\n' "$@" "127.0.0.1:$port" && gives 5 'port failed\n' "$@" "127.0.0.1:$other" "0.0.0.0:$port" &&
        ends 0 'A admitted 0 missed 0\n'
}
check "a port in use, no such address and no such folder give port failed at once" ports_and_folders

full_book() {
    [ -c /dev/full ] || {
        echo "there is no /dev/full here"
        exit 77
    }
    free_ports
    mkdir full && ln -s /dev/full full/A.book || return 1
    gives 8 'A admitted 0 missed 0\nbook failed\n' \
        prog serve --call M17-TST --modules A --for 1 --book full "127.0.0.1:$port" && [ -s full/link0.trace ]
}
check "a book that cannot be written does not end serve, and gives 8 at its end" full_book

# Of the 17 bytes of its header the file takes 10, and nothing more is written.
part_of_a_write() {
    needs python3
    mkdir kept && ln -s /dev/null kept/link0.trace || return 1
    gives 8 'A admitted 0 missed 0\nbook failed\n' timeout -k 5 60 python3 -c '
import resource, subprocess, sys
most = resource.getrlimit(resource.RLIMIT_FSIZE)
resource.setrlimit(resource.RLIMIT_FSIZE, (10, most[1]))
run = subprocess.run(sys.argv[1:], stdout=subprocess.PIPE, restore_signals=False)
resource.setrlimit(resource.RLIMIT_FSIZE, most)
sys.stdout.buffer.write(run.stdout)
sys.exit(run.returncode)' "$program" serve --call M17-TST --modules A --for 1 --book kept 127.0.0.1:0 &&
        [ "$(wc -c <kept/A.book)" -eq 10 ]
}
check "a book of whose last write a file takes a part is told as failed" part_of_a_write

# 28 words, the most that serve takes.
all_options() {
    mkdir all && holds || return 1
    gives 0 'A admitted 0 missed 0\nB admitted 0 missed 0\n' \
        prog serve --call M17-TST --modules AB --parrots B --places 8 --for 1 --limit 60 --book all --rules --board all.board \
        --fill-crc --pace 50 --no-guard --stop stop 127.0.0.1:0 127.0.0.1:0 127.0.0.1:0 127.0.0.1:0 </dev/null
    ended=$?
    lets_go
    [ $ended -eq 0 ] && [ -s all/link3.trace ] && [ -s all/B.book ] && [ -e all.board ]
}
check "serve takes all of its options at once" all_options

# A book for each module, each with a thread of its own, and each in the file of its name.
many_files() {
    mkdir many || return 1
    lines=$(printf '%s admitted 0 missed 0\\n' A B C D E F G H I J K L M N O P Q R S T U V W X Y Z)
    gives 0 "$lines" prog serve --call M17-TST --modules ABCDEFGHIJKLMNOPQRSTUVWXYZ --for 1 --book many 127.0.0.1:0 </dev/null &&
        [ "$(head -c 8 many/link0.trace)" = M17TRACE ] && [ "$(find many -name '?.book' -size +0 | wc -l)" -eq 26 ] || return 1
    for book in many/?.book; do
        letter=${book#many/}
        [ "$(head -c 9 "$book")" = "M17BOOK2${letter%.book}" ] || {
            echo "$book is of another module"
            return 1
        }
    done
}
check "serve keeps a trace and 26 books at once" many_files

# threads_are COUNT WORD..: whether the system counts so many threads of a reflector with these words, two links, two modules and
# their files: one for each of these, the first, one that sends, and one that waits for the stop.
threads_are() {
    wanted=$1
    shift
    rm -rf kept && mkdir kept && holds || return 1
    "$program" serve --call M17-TST --modules AB --book kept --stop stop "$@" 127.0.0.1:0 127.0.0.1:0 >served </dev/null &
    server=$!
    # shellcheck disable=SC2012  # names of numbers
    joined 0 && ls "/proc/$server/task" | wc -l >threads
    lets_go
    ends 0 'A admitted 0 missed 0\nB admitted 0 missed 0\n' && said threads "$wanted"
}

# A board has a thread for its file, and one that looks.
threads_of_serve() {
    [ -d /proc/self/task ] || {
        echo "threads cannot be counted here"
        exit 77
    }
    threads_are 11 && threads_are 13 --board board
}
check "serve has a thread for each link, module and file, and no thread that has nothing to do" threads_of_serve

# The largest plan takes about 70 MB.
little_memory() {
    # shellcheck disable=SC3045  # shells that lack it skip the check
    (ulimit -v 20000) 2>/dev/null || {
        echo "memory cannot be limited here"
        exit 77
    }
    set -- serve --call M17-TST --modules ABCDEFGHIJKLMNOPQRSTUVWXYZ --places 256 --for 1 127.0.0.1:0
    gives 70 '' sh -c 'ulimit -v 20000; exec "$@"' sh timeout 60 "$program" "$@"
}
check "serve without memory for its plan ends with 70, and says nothing" little_memory

# crowd DEED PORT WORD..: whether all were answered, as crowd.py has it.
crowd() {
    timeout 300 python3 -B "$top/checks/crowd.py" "$@"
}

# Nobody wakes the thread that sends but who has the answer.
asked_at_rest() {
    free_ports
    holds && serves --modules A --stop stop "127.0.0.1:$port" || return 1
    crowd asks "$port"
    all=$?
    lets_go
    [ $all -eq 0 ] && ends 0 'A admitted 0 missed 0\n'
}
check "who asks where nobody is in is answered" asked_at_rest

# More than the 512 of a link that may be in or gone at the same time, where the note of who has gone was not taken yet.
coming_and_going() {
    free_ports
    holds && serves --modules A --stop stop "127.0.0.1:$port" || return 1
    crowd comes "$port" 600
    all=$?
    lets_go
    [ $all -eq 0 ] && ends 0 'A admitted 0 missed 0\n' || return 1
    gives 0 'legal 1200 records 0 streams 0 admitted\n' prog check <kept/A.book
}
check "600 peers come and go, each is let in and let go, and none of them comes again" coming_and_going

# A join and a leave stand in the book too, and in the trace the PINGs between the frames.
many_records() {
    free_ports
    holds && serves --modules A --board board --no-guard --pace 0 --stop stop "127.0.0.1:$port" || return 1
    crowd talks "$port" 110000 kept/A.book && has_bytes kept/A.book $((17 + 37 + 31 + 110000 * 97))
    all=$?
    lets_go
    [ $all -eq 0 ] && prog check <kept/A.book >legal || return 1
    admitted=$(sed -n 's/^legal 110002 records [0-9]* streams \([0-9]*\) admitted$/\1/p' legal)
    ends 0 "A admitted $admitted missed 0\n" || return 1
    tail -n 1 board | grep "^A records 110002 admitted $admitted at [0-9]* talker none\$" || return 1
    prog replay --summary --modules A <kept/link0.trace >alone && prog replay --threads --summary --modules A <kept/link0.trace | cmp - alone
}
check "a book, a board and a trace of 110,000 frames are whole, and replayed over threads too" many_records

# Of two links the first is lost: the other goes on to its end. What is shut from outside is the socket of the process.
lost_link() {
    free_ports
    serves --modules A --for 3 "127.0.0.1:$port" "127.0.0.1:$other" || return 1
    children=$(cat "/proc/$server/task/$server/children" 2>/dev/null)
    python3 "$top/checks/shut_socket.py" "${children%% *}" "$port" || exit 77
    joins "$top/examples/talk.script" talker "127.0.0.1:$other"
    wait $! && said talker 'closed asked kept 0' || return 1
    ends 7 'A admitted 25 missed 0\nlink lost\n' || return 1
    gives 7 'fault\nlink lost\n' sh -c '"$1" replay --modules A <kept/link0.trace >lines; ended=$?
        sed -n "s/^[0-9]* fault/fault/p; \$p" lines | uniq; exit $ended' sh "$program"
}
check "where a socket fails its link is lost, the others go on, and serve gives 7" lost_link

# reads STATUS LINES WORD..: whether contrib/m17-book ends so, and writes just these lines on standard output.
reads() {
    gives "$1" "$2" timeout 20 "$top/contrib/m17-book" "$3" ${4:+"$4"} 2>why
}

# The book is that of docs/protocol.md.
read_book() {
    needs python3
    python3 -c 'import sys; sys.stdout.buffer.write(bytes.fromhex(sys.argv[1]))' \
        "4d3137424f4f4b3243 000000000002bf20 0101000000000000000500000000
        0000000a00000002000000000000000101 0000009fdd51
        0201000000000000000500000000 0000000a000000020000000000000001 03" >book || return 1
    reads 0 '10 C join AB1CD listens\n10 C leave AB1CD silent\n' book || return 1
    head -c 84 book >cut
    reads 1 '10 C join AB1CD listens\n' cut && grep -q 'refused at 84: cut' why || return 1
    { cat book && printf 9; } >kind
    reads 1 '10 C join AB1CD listens\n10 C leave AB1CD silent\n' kind && grep -q 'refused at 85: kind 39' why || return 1
    reads 1 '' "$top/README.md" && grep -q 'refused at 0: field' why || return 1
    reads 3 '' no/such/book && reads 2 '' --other book || return 1
    [ -c /dev/full ] || return 0
    "$top/contrib/m17-book" book >/dev/full
    [ $? -eq 4 ]
}
check "m17-book says what a book holds, and why another file is none" read_book

followed_book() {
    free_ports
    frames 0 >script
    serves --modules A --for 3 "127.0.0.1:$port" || return 1
    timeout 30 "$top/contrib/m17-book" --follow kept/A.book >lines &
    follows=$!
    joins script talker "127.0.0.1:$port"
    wait $! && ends 0 'A admitted 3 missed 0\n' || return 1
    tries=0
    until [ "$(wc -l <lines)" -ge 5 ] || [ $tries -ge 200 ]; do
        tries=$((tries + 1))
        sleep 0.05
    done
    kill $follows
    sed 's/^[0-9]* //' lines >got
    printf '%s\n' 'A join AB1CD' 'A opened AB1CD stream 1234 number 0' 'A continued AB1CD stream 1234 number 1' \
        'A continued AB1CD stream 1234 number 2 last' 'A leave AB1CD asked' | cmp - got || {
        cat lines
        return 1
    }
}
check "m17-book --follow says who joins and speaks while a reflector runs" followed_book
