# Checks of contrib/m17-log and of m17-book's followers: on books that are made, and beside a running reflector. Part of
# checks/run, behind reflector.sh, whose helpers it uses.
# shellcheck shell=sh

log() {
    timeout 300 "$top/contrib/m17-log" "$@"
}

# made FOLDER: the books and the trace of checks/made_books.py.
made() {
    needs python3
    mkdir "$1" && python3 -B "$top/checks/made_books.py" "$1"
}

# said_of BOOK: what m17-book --check says of it.
said_of() {
    timeout 300 "$top/contrib/m17-book" --check "$@"
}

# logs TEXT WORD..: whether m17-log prints just these lines, without the date and the hour.
logs() {
    printf '%s\n' "$1" >wanted
    shift
    log --once --start 2026-11-28T080159 "$@" >lines 2>why || return 1
    sed 's/^2026-11-28T08://' lines | cmp - wanted || {
        cat lines why
        return 1
    }
}

# awaits FILE PATTERN [COUNT]: waits until so many lines have it, one without the number.
awaits() {
    tries=0
    until found=$(grep -s -c -e "$2" "$1"); [ "${found:-0}" -ge "${3:-1}" ]; do
        tries=$((tries + 1))
        [ $tries -lt 1200 ] || {
            echo "$1 never had ${3:-1} lines with '$2':"
            cat "$1"
            return 1
        }
        sleep 0.05
    done
}

made_log() {
    made kept || return 1
    logs "01:59.000Z start modules AB
01:59.100Z A join AB1CD from 10.0.0.1:17000
01:59.120Z B join HOTB
01:59.150Z A join N0CALL listens from 10.0.0.2:17000
01:59.900Z B join HOTC
02:00.000Z A begin W1XYZ stream 1234 by AB1CD
02:00.010Z B begin HOTB stream 0009
02:00.160Z A end W1XYZ 0.2 s 4 packets of 5
02:01.000Z A leave AB1CD asked
02:00.090Z B end HOTB 0.1 s 3 packets silent
02:04.000Z B begin HOTC stream 0008
02:04.000Z B end HOTC 0.0 s 1 packets left
02:04.500Z B leave HOTC asked
02:39.000Z A leave N0CALL silent
02:59.190Z A refused crc 1 AB1CD
02:59.190Z A refused crc-0000 2 AB1CD
02:59.190Z A refused listen-only 2 N0CALL
02:59.190Z B refused busy 1 HOTC
02:59.190Z refused address 1
02:59.190Z refused full 1
02:59.190Z refused length 1
02:59.190Z refused magic 1
02:59.190Z refused module 1
02:59.190Z refused not-connected 1
02:59.190Z refused not-served 1
03:09.000Z B join A" kept || return 1
    rm kept/link0.trace
    logs "01:59.000Z start modules AB
01:59.120Z B join HOTB
01:59.900Z B join HOTC
02:00.010Z B begin HOTB stream 0009
02:00.090Z B end HOTB 0.1 s 3 packets silent
02:03.100Z B refused busy 1 HOTC
02:04.000Z B begin HOTC stream 0008
02:04.000Z B end HOTC 0.0 s 1 packets left
02:04.500Z B leave HOTC asked
03:09.000Z B join A" --module B --every 3 kept
}
check "m17-log says who joins, speaks and leaves in two modules, and what was refused and why" made_log

# Whether the limit or the silence ended an over, also where no packet of it came later.
limited_log() {
    needs python3
    mkdir kept && python3 -B "$top/checks/made_books.py" kept limit || return 1
    gives 0 'legal 84 records 6 streams 79 admitted\n' said_of kept/A.book || return 1
    logs "01:59.000Z start modules A
01:59.100Z A join AB1CD
01:59.100Z A join N0CALL
01:59.200Z A begin AB1CD stream 0001
02:00.160Z A end AB1CD 1.0 s 25 packets timed out
02:00.200Z A begin N0CALL stream 0002
02:00.200Z A end N0CALL 0.0 s 1 packets
02:00.240Z A begin AB1CD stream 0003
02:01.200Z A end AB1CD 1.0 s 25 packets timed out
02:01.240Z A begin AB1CD stream 0004
02:02.200Z A end AB1CD 1.0 s 25 packets timed out
02:03.000Z A begin AB1CD stream 0005
02:03.040Z A end AB1CD 0.1 s 2 packets silent
02:04.640Z A begin N0CALL stream 0006
02:04.640Z A end N0CALL 0.0 s 1 packets
03:02.240Z A refused timed-out 3 AB1CD" kept
}
check "m17-log says of an over whether the limit on talking ended it or silence" limited_log

made_json() {
    made kept || return 1
    log --once --json --start 2026-11-28T08:01:59Z kept >lines || return 1
    log --once --start 2026-11-28T08:01:59Z kept >texts || return 1
    python3 -c '
import json
said = [json.loads(line) for line in open("lines")]
texts = [line.split() for line in open("texts")]
assert [each["time"] for each in said] == [words[0] for words in texts]
assert [each["event"] for each in said] == [words[1 + ("module" in each)] for each, words in zip(said, texts)]
assert said[1] == {"time": "2026-11-28T08:01:59.100Z", "event": "join", "module": "A", "callsign": "AB1CD",
    "listens": False, "peer": "10.0.0.1:17000", "link": 0, "moment": 100}, said[1]
assert said[7] == {"time": "2026-11-28T08:02:00.160Z", "event": "end", "module": "A", "talker": "W1XYZ",
    "seconds": 0.2, "packets": 4, "sent": 5, "cause": "let go", "moment": 1160}, said[7]'
}
check "m17-log --json has an object of JSON for each line" made_json

# Whatever the place at which a book is cut, the other is told whole, and the rest when it comes.
cut_files() {
    made kept && made whole || return 1
    log --once --start 2026-11-28T080159 whole | grep ' B [^r]' >wanted || return 1
    for size in 0 5 9 17 18 54 100 200 400; do
        head -c $size whole/A.book >kept/A.book
        log --once --start 2026-11-28T080159 kept >lines 2>why || return 1
        grep ' B [^r]' lines | cmp - wanted && [ ! -s why ] || return 1
    done
    head -c 100 whole/A.book >kept/A.book
    timeout 300 "$top/contrib/m17-log" --start 2026-11-28T080159 kept >lines &
    follows=$!
    awaits lines ' A join N0CALL ' && tail -c +101 whole/A.book >>kept/A.book && awaits lines ' A leave N0CALL silent' &&
        kill $follows && awaits lines ' A end W1XYZ 0.2 s 4 packets of 5$' || return 1
    # Other names are passed over.
    cp -R whole named && cp whole/A.book named/A-book && cp whole/link0.trace named/link0-trace && cp whole/A.book named/AA.book || return 1
    log --once --start 2026-11-28T080159 whole >wanted && log --once --start 2026-11-28T080159 named >lines && cmp lines wanted || return 1
    # Another kind of file in the place of one book is told of, and the others go on.
    cp "$top/README.md" kept/A.book
    printf 9 >>kept/B.book
    log --once kept >lines 2>why || return 1
    grep -q 'A.book: refused at 0: no book' why && grep -q 'B.book: refused at [0-9]*: kind 39' why &&
        grep -q ' B leave HOTC asked' lines
}
check "m17-log takes books that are cut anywhere, and tells of files that are none" cut_files

# told FILE TEXT: whether the file has just these lines behind their times.
told() {
    sed 's/^[^ ]* //' "$1" >got
    printf '%s\n' "$2" | cmp - got || {
        cat "$1"
        return 1
    }
}

# short_of FILE: the lines without addresses, and without how long an over was, which on a busy machine is more than it should.
short_of() {
    sed 's/ from [0-9.:]*$/ from there/; s/ [0-9]*\.[0-9] s / so long /' "$1"
}

followed_log() {
    free_ports
    frames 0 >script
    holds && serves --modules AB --stop stop "127.0.0.1:$port" || return 1
    timeout 300 "$top/contrib/m17-log" kept >lines &
    follows=$!
    before=$(date -u +%s)
    joins script talker "127.0.0.1:$port" --stay 1000
    wait $! && awaits lines ' leave ' || return 1
    after=$(date -u +%s)
    kill $follows
    # One that begins now, and leaves out what was before.
    timeout 1 "$top/contrib/m17-log" --new kept >later
    [ ! -s later ] || return 1
    short_of lines >short
    told short 'start modules AB
A join AB1CD from there
A begin AB1CD stream 1234
A end AB1CD so long 3 packets
A leave AB1CD asked' || return 1
    # The time is that of the clock, in UTC.
    joined_at=$(date -u -d "$(sed -n 's/ A join .*//p' lines)" +%s) &&
        [ "$joined_at" -ge $((before - 1)) ] && [ "$joined_at" -le "$after" ] && lets_go &&
        ends 0 'A admitted 3 missed 0\nB admitted 0 missed 0\n'
}
check "m17-log follows a running reflector, with addresses and the time of the clock" followed_log

# killed: ends the reflector by a signal, as an operator's restart does.
killed() {
    kill "$server"
    wait "$server"
    [ $? -eq 143 ] || return 1
}

restarted_log() {
    free_ports
    mkdir one two && ln -s one now && ln -s /dev/null two/link0.trace || return 1
    start() {
        "$program" serve --call M17-TST --modules A --book now "127.0.0.1:$port" >served &
        server=$!
        has_bytes now/A.book 17
    }
    start || return 1
    timeout 300 "$top/contrib/m17-log" now >lines &
    follows=$!
    timeout 300 "$top/contrib/m17-book" --follow --start file now/A.book >books &
    books=$!
    joins "$top/examples/talk.script" talker "127.0.0.1:$port" --stay 86400000
    talker=$!
    awaits lines ' end ' && killed && kill $talker || return 1
    # In the same folder, in which the books are made anew; then in another one, without a trace.
    start && awaits lines ' start ' 2 && joins /dev/null again "127.0.0.1:$port" && awaits lines ' leave ' 2 && killed &&
        ln -sfn two now && start && awaits lines ' start ' 3 && joins /dev/null again "127.0.0.1:$port" &&
        awaits lines ' leave ' 3 && awaits books ' leave ' 2 && killed || return 1
    kill $follows $books
    short_of lines | sed 's/ from there$//' >short
    told short 'start modules A
A join AB1CD
A begin AB1CD stream 1234
A end AB1CD so long 25 packets
A leave AB1CD restart
start modules A
A join AB1CD
A leave AB1CD asked
start modules A
A join AB1CD
A leave AB1CD asked' || return 1
    [ "$(grep -c ' from ' lines)" -eq 2 ] && grep -v ' continued ' books >short && told short 'A join AB1CD
A opened AB1CD stream 1234 number 0
A restart
A join AB1CD
A leave AB1CD asked
A restart
A join AB1CD
A leave AB1CD asked' || return 1
    # Both have the same times, to the tenth of a second.
    sed -n 's/\(.*\.[0-9]\)[0-9]*Z A leave .* asked/\1/p' lines >moments && [ "$(wc -l <moments)" -eq 2 ] &&
        while read -r at; do grep -q "^$at" books || return 1; done <moments
}
check "m17-log and m17-book --follow go on behind restarts, in the same folder and in another" restarted_log

# without_times FILE..: the lines that tell who joined, spoke and left, without their times.
without_times() {
    cat "$@" | sed 's/^[^ ]* //'
}

# stops: ends the log that follows, as systemd does.
stops() {
    kill $follows && wait $follows
    [ $? -eq 143 ]
}

# A log that is stopped and started again while a book grows, behind the joins and behind an over; then over a restart.
continued_log() {
    made whole && rm whole/link0.trace whole/B.book && mkdir kept && touch first second third fourth fifth || return 1
    log --once --every 1 whole >once && without_times once >wanted || return 1
    set -- timeout 300 "$top/contrib/m17-log" --state place --every 1 kept
    # Each log is started by a command of its own: of a list of commands `$!` may be a shell, and the log outlive that.
    head -c 91 whole/A.book >kept/A.book || return 1
    "$@" >first &
    follows=$!
    awaits first ' A join N0CALL listens' && awaits place '"place": 91' && stops || return 1
    head -c 479 whole/A.book | tail -c +92 >>kept/A.book || return 1
    "$top/contrib/m17-log" --state place --every 1 kept >second &
    follows=$!
    awaits second ' A end W1XYZ' && awaits place '"place": 479'
    ended=$?
    kill -KILL $follows
    wait $follows
    [ $ended -eq 0 ] || return 1
    tail -c +480 whole/A.book >>kept/A.book || return 1
    "$@" >third &
    follows=$!
    awaits third ' A leave N0CALL silent' && stops || return 1
    without_times first second third | cmp - wanted || {
        cat first second third
        return 1
    }
    # The book is made anew while no log runs, and then nothing happens.
    rm kept/A.book && head -c 54 whole/A.book >kept/A.book || return 1
    "$@" >fourth &
    follows=$!
    awaits fourth ' A join AB1CD' && stops && told fourth 'start modules A
A join AB1CD' || return 1
    "$@" --new >fifth &
    follows=$!
    tail -c +55 whole/A.book | head -c 37 >>kept/A.book && awaits fifth ' A join N0CALL' && stops && told fifth 'A join N0CALL listens' || return 1
    # With what is no such file it begins with the books; and what is earlier is left out.
    echo junk >place && log --once --state place kept >sixth 2>why && grep -q 'not what this log wrote' why &&
        [ "$(wc -l <sixth)" -eq 3 ] && log --once --since 2026-11-28T08:02:01Z --start 2026-11-28T080159 whole >later &&
        told later 'A leave AB1CD asked
A leave N0CALL silent
A refused listen-only 2 N0CALL' || return 1
    made both && python3 -B "$top/checks/log_state.py" "$top/contrib/m17-log" both
}
check "m17-log --state goes on where it was: behind its own restart, one of the reflector, and at each event" continued_log

# What is whole of a book or a trace that is cut anywhere, and how much is behind that.
whole_parts() {
    made kept || return 1
    size=$(wc -c <kept/A.book)
    for name in A.book link0.trace; do
        timeout 300 "$top/contrib/m17-book" --whole kept/$name 2>why | cmp - kept/$name && grep -q ': 0 bytes behind' why || return 1
    done
    head -c 100 kept/A.book >cut.book && timeout 300 "$top/contrib/m17-book" --whole cut.book >got 2>why && head -c 91 kept/A.book | cmp - got &&
        grep -q ': 9 bytes behind' why && [ "$size" -gt 100 ]
}
check "m17-book --whole writes what is whole of a book or a trace, and says how much is left out" whole_parts

words_of_log() {
    needs python3
    mkdir here && set -- "$top/contrib/m17-log" || return 1
    gives 2 '' "$@" 2>why && gives 2 '' "$@" a b && gives 2 '' "$@" --other here && gives 2 '' "$@" --module a here &&
        gives 2 '' "$@" --start yesterday here && gives 2 '' "$@" --every 0 here && gives 2 '' "$@" --every &&
        gives 2 '' "$@" --since yesterday here && gives 2 '' "$@" here --state || return 1
    gives 3 '' "$@" --once no/such && gives 0 '' "$@" --once here || return 1
    # A folder that is not there is told of at once, and waited for.
    "$@" kept >lines 2>why &
    follows=$!
    awaits why 'kept: there is no such folder yet' && made kept && awaits lines ' join ' && kill $follows || return 1
    [ -c /dev/full ] || return 0
    log --once kept >/dev/full
    [ $? -eq 4 ] || return 1
    log --once kept >&- 2>why
    [ $? -eq 4 ] && [ ! -s why ]
}
check "m17-log has a status for words, folders and outputs that are refused" words_of_log

# The start that is told, and the one that the file tells.
book_times() {
    made kept || return 1
    set -- timeout 300 "$top/contrib/m17-book" --start
    gives 0 '2026-11-28T08:01:59.120Z B join HOTB\n' sh -c '"$@" | head -n 1' sh "$@" 2026-11-28T08:01:59Z kept/B.book || return 1
    touch -d '2026-11-28T09:01:10Z' kept/B.book
    gives 0 '2026-11-28T09:00:00.120Z B join HOTB\n' sh -c '"$@" | head -n 1' sh "$@" file kept/B.book &&
        gives 2 '' "$@" today kept/B.book 2>why
}
check "m17-book has UTC where it is told the start, or where the file tells it" book_times

# The example of contrib/README.md, and all small books of conformance/: their line and status, and below it whatever it is.
checked_books() {
    needs python3
    vectors=$top/conformance/vectors
    awk '/^\$ contrib\/m17-book --check / { on = 1; next } /^```/ { on = 0 } on' "$top/contrib/README.md" >example
    [ "$(wc -l <example)" -eq 4 ] && gives 1 "$(cat example)\n" said_of "$top/examples/disputed.book" &&
        gives 0 'legal 10 records 1 streams 4 admitted\n' said_of "$top/examples/evening.book" || return 1
    for book in "$vectors"/check-*.in; do
        # The script reads books of version 1 too.
        [ "$book" != "$vectors/check-old.in" ] || continue
        said_of "$book" >said
        [ $? -eq "$(cat "${book%in}status")" ] && head -n 1 said | cmp - "${book%in}out" || {
            echo "$book"
            return 1
        }
        [ "$(wc -l <said)" -gt 1 ] || grep -q '^legal ' said || return 1
    done
}
check "m17-book --check says of each small book what it is, and why" checked_books

# A book of each module as a reflector would have it; with a record left out; with --start; and words that are refused.
checked_words() {
    made kept || return 1
    gives 0 'legal 9 records 2 streams 4 admitted\n' said_of kept/B.book &&
        gives 0 'legal 10 records 1 streams 4 admitted\n' said_of kept/A.book || return 1
    { head -c 17 kept/A.book && tail -c +55 kept/A.book; } >without
    gives 1 'input refused at 1: verdict
record 1, byte 54, place 0, generation 7: 2026-11-28T08:02:00.000Z A opened W1XYZ stream 1234 number 0 by ?
the rule says: not-member, and not opened: nobody is in at place 0\n' said_of --start 2026-11-28T08:01:59Z without || return 1
    gives 2 '' said_of 2>why && gives 2 '' said_of --follow without && gives 3 '' said_of no/such || return 1
    [ -c /dev/full ] || return 0
    said_of without >/dev/full
    [ $? -eq 4 ]
}
check "m17-book --check tells times where it is told the start, and refuses words and files" checked_words

# Two talk at once, by two links, and one listens until the reflector ends. Books count what serve counts.
checked_links() {
    free_ports
    serves --modules AB --parrots B --for 3 "127.0.0.1:$port" "127.0.0.1:$other" || return 1
    joins "$top/examples/talk.script" one "127.0.0.1:$port"
    joins "$top/examples/talk.script" two "127.0.0.1:$other"
    stays three "127.0.0.1:$other" --listen
    wait "$server" || return 1
    wait
    for letter in A B; do
        said_of kept/$letter.book >said || {
            cat said
            return 1
        }
        "$program" check <kept/$letter.book | cmp - said || return 1
        sed -n "s/^$letter admitted \([0-9]*\) missed 0$/\1/p" served >wanted
        sed -n 's/^legal [0-9]* records [0-9]* streams \([0-9]*\) admitted$/\1/p' said | cmp - wanted || return 1
    done
    "$top/contrib/m17-book" kept/A.book | grep -q ' busy ' && grep -q '^legal 0 ' said
}
check "m17-book --check says legal of the books of a run over two links, and counts what serve admitted" checked_links
