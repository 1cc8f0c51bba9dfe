# Checks of contrib/m17-pcap, on captures that make_capture.py makes and on one of tcpdump. Part of checks/run.
# shellcheck shell=sh

# captures: puts them all into this folder.
captures() {
    needs python3 od
    [ -d "$scratch/captures" ] || (
        mkdir "$scratch/captures" && cd "$scratch/captures" && python3 "$top/checks/make_capture.py"
    ) || return 1
    cp "$scratch"/captures/*.pcap .
}

pcap() {
    timeout 60 "$top/contrib/m17-pcap" "$@"
}

# told STATUS TEXT LINES COMMAND..: as gives, and just these lines come on standard error, behind the script's name.
told() {
    wanted_status=$1 wanted_text=$2
    { [ -z "$3" ] || echo "$3"; } | sed 's/^/m17-pcap: /' >wanted_lines
    shift 3
    if gives "$wanted_status" "$wanted_text" "$@" 2>lines && cmp lines wanted_lines; then
        return 0
    fi
    echo "$*: on standard error came"
    cat lines
    return 1
}

# shown TEXT LINES CAPTURE: the lines of hex digits of a capture that is read to its end.
shown() {
    told 0 "$1" "$2" pcap show 17000 "$3.pcap"
}

# digits_of COMMAND..: what it writes as one line of hex digits, and its status.
digits_of() {
    "$@" >bytes
    digits_status=$?
    od -An -v -tx1 bytes | tr -d ' \n' | tr a-f A-F
    return $digits_status
}

# traced STATUS DIGITS LINES CAPTURE WORD..: the trace of a capture. DIGITS are those behind its magic, in any layout.
traced() {
    traced_digits=$(printf '%s' "4D31375452414345$2" | tr -d ' \n')
    traced_status=$1 traced_lines=$3 traced_of=$4
    shift 4
    told "$traced_status" "$traced_digits" "$traced_lines" digits_of pcap trace 17000 "$traced_of.pcap" "$@"
}

# The beginnings of entries at 0 ms, up to the length of the datagram, and what follows the moment in others.
from_4='04 C0000201 9C40'
from_6='06 20010DB8000000000000000000000001 9C40'
now_4="01 0000000000000000 $from_4"
now_6="01 0000000000000000 $from_6"

# letters COUNT: so many A.
letters() {
    head -c "$1" /dev/zero | tr '\0' A
}

each_link() {
    captures || return 1
    for link in ethernet tagged twice-tagged with-checksums cooked cooked-tagged cooked-2 raw null null-swapped loop; do
        traced 0 "$now_4 04 41434B4E $now_6 04 44495343" '' $link || return 1
    done
    shown '41434B4E\n' '' only-ipv4 && shown '44495343\n' '' only-ipv6 &&
        shown '' 'nothing came to port 17000' other-protocols &&
        told 0 '50494E47\n' '' pcap show 17001 ethernet.pcap
}
check "m17-pcap reads IPv4 and IPv6 over each type of link" each_link

# The trace that docs/protocol.md spells out, but for its fault.
each_form() {
    captures || return 1
    for form in micro-little micro-big nano-little nano-big ng-little ng-big; do
        shown '41434B4E\n' '' $form && traced 0 '
            01 0000000000000028 04 7F000001 4268 04 41434B4E
            02 0000000000000102' '' $form --quiet=218 || return 1
    done
}
check "m17-pcap makes the trace of docs/protocol.md, from pcap and pcapng in both orders" each_form

sections_and_interfaces() {
    captures || return 1
    traced 0 "$now_4 04 41434B4E
        01 000000000000000A $from_6 04 4E41434B
        01 000000000000000A $from_4 04 44495343
        01 000000000000000A $from_4 13 $(printf '%038d' 0)
        01 00000000000001F4 $from_6 04 50494E47
        01 00000000000001F5 $from_4 04 504F4E47
        01 00000000000003E8 $from_4 00" '' sections --no-quiet
}
check "m17-pcap keeps sections of pcapng and their interfaces apart" sections_and_interfaces

lengths() {
    captures || return 1
    shown "41434B4E\n\n4C53544E\n4C53544E\n4C53544E\n434F4E4E\n$(letters 128)\n$(letters 130)\n$(letters 256)
$(letters 256)\n" '1 shortened: more than 128 bytes' sizes || return 1
    long="$now_4 40 $(letters 128)"
    traced 0 "$now_4 04 41434B4E $now_4 00 $now_6 04 4C53544E $now_6 04 4C53544E $now_6 04 4C53544E $now_6 04 434F4E4E
        $long $long $long $long" '3 shortened: more than 64 bytes' sizes || return 1
    pcap show 17000 sizes.pcap 2>lines | prog show >got || return 1
    [ "$(tail -n 1 got)" = 'refused length 128' ] && [ "$(wc -l <got)" -eq 10 ]
}
check "m17-pcap passes headers and options, and cuts padding and long datagrams" lengths

skipped() {
    captures || return 1
    shown '41434B4E\n' '2 skipped: came in fragments' fragments &&
        shown '44495343\n' '3 skipped: cut short by the capture' cut-short &&
        shown '4E\n' '3 skipped: lengths that do not fit' wrong-lengths &&
        shown '4E41434B\n' '1 skipped: sent by the machine itself' sent &&
        shown '4E41434B\n' '1 skipped: sent by the machine itself' sent-2 &&
        traced 0 "$now_4 01 4E" '3 skipped: lengths that do not fit' wrong-lengths &&
        told 0 '' 'nothing came to port 17002' pcap show 17002 fragments.pcap
}
check "m17-pcap skips what is no whole datagram that came, and counts it" skipped

# A Quiet comes 20 ms after what was heard before it, unless something else came until then.
moments() {
    captures || return 1
    quiet="$now_4 00 01 0000000000000014 $from_4 00 02 0000000000000028 02 000000000000003C
        01 000000000000003D $from_4 00 02 0000000000000051 02 0000000000000065"
    traced 0 "$quiet" '' quiet && traced 0 "$quiet" '' quiet --quiet &&
        traced 0 "$quiet" '' quiet --quiet=20 || return 1
    back="$now_4 00 01 000000000000001E $from_4 00 $now_4 00 01 0000000000000019 $from_4 00"
    last="01 0000000000000042 $from_4 00"
    traced 0 "$back $last" '' back --no-quiet && traced 0 "$back $last" '' back --quiet=41 &&
        traced 0 "$back 02 0000000000000041 $last" '' back --quiet=40
}
check "m17-pcap puts Quiet where nothing came, and no moment before the first" moments

# What is larger than a trace may be is refused before the gap that makes it so. The most bytes are tried with a smaller
# number in a copy, since a trace of so many takes many seconds: two entries of 93 bytes, one of 56, and one more.
limits() {
    captures || return 1
    pcap trace 17000 most-entries.pcap >trace && [ "$(wc -c <trace)" -eq 9000024 ] || return 1
    gives 0 '020000000001312CD8010000000001312CEC04C00002019C4000' digits_of tail -c 26 trace || return 1
    large='trace refused at 68: more than 1,000,000 entries'
    traced 1 "$now_4 00" "$large" more-entries &&
        traced 0 "$now_4 00 01 0000000001312CED $from_4 00" '' more-entries --no-quiet &&
        traced 1 "$now_4 00 01 FFFFFFFFFFFFFFFF $from_4 00" 'trace refused at 220: a moment past 2^64 milliseconds' \
            far --no-quiet || return 1
    sed 's/^MOST_BYTES = 67_108_864$/MOST_BYTES = 250/' "$top/contrib/m17-pcap" >copy && chmod +x copy || return 1
    told 1 "4D31375452414345$({
        echo "$now_6 40" && letters 128 | tr A 0 && echo "$now_6 40" && letters 128 | tr A 0
        echo "$now_6 1B" && letters 54 | tr A 0
    } | tr -d ' \n')" 'trace refused at 371: more than 250 bytes' digits_of ./copy trace 17000 bytes.pcap
}
check "m17-pcap makes a trace of the largest size, and refuses a larger one" limits

# not_taken LINE CAPTURE [TEXT]: a capture is refused, behind the lines of what came before.
not_taken() {
    told 1 "${3-}" "capture refused at $1" pcap show 17000 "$2"
}

no_captures() {
    captures || return 1
    : >empty
    printf '\037\213\010\010' >packed
    printf '\324\303' >short
    not_taken '0: no capture: it has 0 bytes' empty && not_taken '0: no capture: it has 2 bytes' short &&
        not_taken '0: no capture of tcpdump or Wireshark: it begins with 1F8B0808' packed &&
        not_taken '20: link type 189, which m17-pcap does not read' unknown-link.pcap &&
        not_taken '4: version 2.3 of pcap, and not 2.4' old-version.pcap &&
        not_taken '72: a record of 262145 bytes' long-record.pcap '41434B4E\n' &&
        not_taken '140: link type 189, which m17-pcap does not read' ng-unknown-link.pcap '41434B4E\n' &&
        not_taken '0: version 2.0 of pcapng, and not 1.0' ng-new-version.pcap &&
        not_taken '0: a section with the byte order 4D3C2B2E' ng-no-order.pcap &&
        not_taken '120: a block of 14 bytes' ng-odd-length.pcap '41434B4E\n' &&
        not_taken '120: a block with two lengths' ng-two-lengths.pcap '41434B4E\n' &&
        not_taken '120: a packet of interface 1, which is not described' ng-no-interface.pcap '41434B4E\n' &&
        not_taken '120: a block of type 6 with too few bytes' ng-too-few.pcap '41434B4E\n' &&
        not_taken '120: a packet of 9 bytes in a block that has fewer' ng-too-long.pcap '41434B4E\n' &&
        told 1 '' 'capture refused at 0: no capture: it has 0 bytes' pcap trace 17000 empty
}
check "m17-pcap refuses what is no capture, and says where and why" no_captures

# raw.pcap has a header of 24 bytes, three records of 48 and two of 68. In ng-no-interface.pcap a section of 28 bytes
# and an interface of 20 stand before the packet.
cut_captures() {
    captures || return 1
    for size in 23 24 27 47 71 72 73 87 88 119 120; do
        head -c "$size" raw.pcap >"cut-$size"
        head -c "$size" ng-no-interface.pcap >"ng-cut-$size"
    done
    record='the input ends inside the record that begins there'
    block='the input ends inside the block that begins there'
    not_taken '0: cut: the input ends inside the header that begins there' cut-23 &&
        told 0 '' 'nothing came to port 17000' pcap show 17000 cut-24 && not_taken "24: cut: $record" cut-71 &&
        told 0 '' 'nothing came to port 17000' pcap show 17000 cut-72 && not_taken "72: cut: $record" cut-73 &&
        not_taken "72: cut: $record" cut-87 && not_taken "72: cut: $record" cut-88 &&
        not_taken "72: cut: $record" cut-119 && told 0 '41434B4E\n' '' pcap show 17000 cut-120 &&
        not_taken "0: cut: $block" ng-cut-27 && not_taken "28: cut: $block" ng-cut-47 &&
        not_taken "48: cut: $block" ng-cut-119 || return 1
    head -c 15 raw.pcap | cat raw.pcap - >longer
    not_taken "304: cut: $record" longer '41434B4E\n44495343\n'
}
check "m17-pcap refuses a capture that ends inside a record, behind what came before" cut_captures

bad_words() {
    needs python3
    while read -r words; do
        # shellcheck disable=SC2086  # one word for each
        told 2 '' 'words refused; m17-pcap --help says which there are' pcap $words || return 1
    done <<'END'

show
judge 17000
SHOW 17000
17000 show
show 0
show 65536
show 017000
show +17000
show 17000x
show 17000 one two
show 17000 --quiet
show 17000 -
show -- 17000
show --help
trace
trace 17000 --quiet --no-quiet
trace 17000 --quiet=
trace 17000 --quiet=0
trace 17000 --quiet=1000000
trace 17000 --quiet=20ms
trace 17000 --no-quiet=20
END
    told 2 '' 'words refused; m17-pcap --help says which there are' pcap show '' &&
        told 2 '' 'words refused; m17-pcap --help says which there are' pcap show 17000 '' '' &&
        pcap --help >got && grep -q 'm17-pcap trace PORT' got
}
check "m17-pcap refuses other words by a line, and has a text of help" bad_words

streams_of_pcap() {
    captures || return 1
    told 0 '41434B4E\n44495343\n' '' pcap show 17000 <raw.pcap || return 1
    head -c 304 raw.pcap | told 0 '41434B4E\n44495343\n' '' pcap show 17000 || return 1
    told 3 '' 'the capture could not be read: No such file or directory' pcap show 17000 none.pcap &&
        told 3 '' 'the capture could not be read: Is a directory' pcap show 17000 / &&
        told 3 '' 'the capture could not be read: Bad file descriptor' pcap show 17000 <&- || return 1
    {
        pcap trace 17000 most-entries.pcap 2>lines
        echo $? >ended
    } | true
    [ "$(cat ended)" -eq 4 ] && [ ! -s lines ] || {
        echo "a closed pipe gave $(cat ended lines)"
        return 1
    }
    pcap show 17000 raw.pcap >&- 2>lines
    [ $? -eq 4 ] || return 1
    [ -c /dev/full ] || return 0
    pcap show 17000 raw.pcap >/dev/full 2>lines
    [ $? -eq 4 ] && grep -q 'the output could not be written' lines
}
check "m17-pcap reads a file or a pipe, and a reader that goes away ends it quietly" streams_of_pcap

# A line comes out while the capture goes on: ten bytes of the third record are there, and the rest is not.
pcap_of_a_live_pipe() {
    needs mkfifo
    captures && mkfifo in out || return 1
    pcap show 17000 <in >out &
    running=$!
    exec 3>in 4<out
    head -c 130 raw.pcap >&3
    said=$(timeout 20 head -n 1 <&4)
    tail -c +131 raw.pcap >&3
    exec 3>&- 4<&-
    wait $running
    [ "$said" = 41434B4E ] || {
        echo "before the rest came it had written: $said"
        return 1
    }
}
check "m17-pcap writes a line before it waits for more of the capture" pcap_of_a_live_pipe

pcap_and_show() {
    captures || return 1
    python3 "$top/checks/padded_capture.py" <"$top/examples/show.hex" >padded.pcap || return 1
    sed p "$top/examples/show.hex" | prog show >wanted_packets || return 1
    pcap show 17000 padded.pcap | prog show | cmp - wanted_packets
}
check "m17 show takes the lines of m17-pcap, and padded frames are no longer ones" pcap_and_show

# send_four PORT: sends three datagrams to it at 127.0.0.1 and one at ::1, and prints the two ports that they came from.
send_four() {
    python3 -c '
import socket, sys
def send(family, here, packets):
    with socket.socket(family, socket.SOCK_DGRAM) as sender:
        sender.bind((here, 0))
        for packet in packets:
            sender.sendto(packet, (here, int(sys.argv[1])))
        print("%04X" % sender.getsockname()[1])
send(socket.AF_INET, "127.0.0.1", (b"ACKN", b"NACK", bytes(54)))
send(socket.AF_INET6, "::1", (b"DISC",))' "$1"
}

# free_port: a port of UDP that nobody has here.
free_port() {
    python3 -c '
import socket
with socket.socket(socket.AF_INET6, socket.SOCK_DGRAM) as taker:
    taker.bind(("::1", 0))
    print(taker.getsockname()[1])'
}

# listens PROCESS FILE: waits until tcpdump says there that it listens. Ends the check as skipped where it may not.
listens() {
    until grep -q 'listening on' "$2"; do
        kill -0 "$1" 2>/dev/null || {
            echo "tcpdump may not listen here: $(tail -n 1 "$2")"
            exit 77
        }
        sleep 0.1
    done
}

# Not port 17000, on which a reflector may be running here.
loopback() {
    needs tcpdump python3 od
    [ "$(id -u)" -eq 0 ] || {
        echo "only root may capture"
        exit 77
    }
    port=$(free_port 2>/dev/null) || {
        echo "there is no ::1 here"
        exit 77
    }
    timeout 30 tcpdump -i lo -U -c 4 -w - "udp dst port $port" >live.pcap 2>heard &
    running=$!
    listens $running heard
    send_four "$port" >ports && wait $running || return 1
    nothing=$(letters 108 | tr A 0)
    told 0 "41434B4E\n4E41434B\n$nothing\n44495343\n" '' pcap show "$port" live.pcap || return 1
    digits_of pcap trace "$port" live.pcap --no-quiet >got || return 1
    four=$(sed -n 1p ports) six=$(sed -n 2p ports) moment='0000000000[0-9A-F]\{6\}'
    grep -qx "4D31375452414345010000000000000000047F000001${four}0441434B4E01${moment}047F000001${four}044E41434B\
01${moment}047F000001${four}36${nothing}01${moment}06$(printf '%031d' 0)1${six}0444495343" got || {
        cat got
        return 1
    }
}
check "m17-pcap reads what tcpdump captured of the loopback" loopback
