# Checks of how bytes come in and go out of the built program: lines of full length, inputs that are cut into pieces,
# inputs that come slowly. Part of checks/run.
# shellcheck shell=sh

# digits COUNT: that many hex digits.
digits() {
    head -c "$1" /dev/zero | tr '\0' a
}

full_length_lines() {
    {
        digits 256 && printf '\n'
        digits 256 && printf '\r\n'
        printf '44495343\n'
        digits 256
    } >lines
    gives 0 'refused length 128\nrefused length 128\ndisc\nrefused length 128\n' prog show <lines || return 1
    { digits 256 && echo && digits 257 && echo; } >long
    gives 1 'refused length 128\ninput refused at 1: long\n' prog show <long || return 1
    { digits 256 && printf '\r\r\n'; } >returns
    gives 1 'input refused at 0: long\n' prog show <returns
}
check "show takes lines of 256 bytes, and no longer ones" full_length_lines

# A thousand times the example and a line of full length: the ends of lines come at every place of the buffers.
many_lines() {
    needs seq
    prog show <"$top/examples/show.hex" >shown || return 1
    { cat "$top/examples/show.hex" && digits 256 && echo; } >once
    echo 'refused length 128' >>shown
    for _ in $(seq 1000); do cat once; done >lines
    for _ in $(seq 1000); do cat shown; done >wanted
    prog show <lines >got || return 1
    cmp got wanted || return 1
    cat lines | prog show | cat >got
    cmp got wanted
}
check "eleven thousand lines are shown one by one, from a file and from a pipe" many_lines

# Each record has its own number, and its line says so.
many_records() {
    needs seq
    for _ in $(seq 2000); do cat "$top/examples/judge.bin"; done >records
    prog judge <records >got || return 1
    cut -d ' ' -f 1 got >numbers
    seq 0 27999 | cmp numbers - || return 1
    prog judge <"$top/examples/judge.bin" >first || return 1
    head -n "$(wc -l <first)" got | cmp - first || return 1
    cat records | prog judge | cmp - got
}
check "twenty-eight thousand records have a line each, from a file and from a pipe" many_records

# The same text comes of the same bytes, in whatever pieces a pipe brings them.
pieces() {
    needs seq dd
    for _ in $(seq 20); do cat "$top/examples/judge.bin"; done >judge.in
    for _ in $(seq 20); do cat "$top/examples/show.hex"; done >show.in
    for word in judge show; do
        prog $word <$word.in >whole || return 1
        for size in 1 63 64 65 257 4095; do
            dd if=$word.in bs=$size 2>/dev/null | prog $word | cmp - whole || {
                echo "$word, in pieces of $size bytes"
                return 1
            }
        done
    done
}
check "pieces of any size give the same text" pieces

# slowly FILE: its bytes one by one, with a rest after each.
slowly() {
    od -An -v -to1 "$1" | tr -s ' ' '\n' | while read -r octal; do
        [ -z "$octal" ] || {
            # shellcheck disable=SC2059  # the byte is a format
            printf "\\$octal"
            sleep 0.005
        }
    done
}

a_byte_at_a_time() {
    needs od
    head -c 130 "$top/examples/judge.bin" >judge.in
    head -n 2 "$top/examples/show.hex" >show.in
    { digits 256 && printf '\r\n4' && echo x; } >>show.in
    slowly judge.in | gives 1 '0 opened\n1 busy 0\ninput refused at 130: cut\n' prog judge || return 1
    slowly show.in |
        gives 1 'conn AB1CD A\nackn\nrefused length 128\ninput refused at 3: digit\n' prog show
}
check "input that comes a byte at a time is read as any other" a_byte_at_a_time

# at_once WORD FIRST REST LINE: whether the line comes out after FIRST was written, before anything more comes.
at_once() {
    rm -f in out && mkfifo in out || return 1
    prog "$1" <in >out &
    running=$!
    exec 3>in 4<out
    cat "$2" >&3
    said=$(timeout 20 head -n 1 <&4)
    cat "$3" >&3
    exec 3>&- 4<&-
    wait $running
    [ "$said" = "$4" ] || {
        echo "$1 had written, after $2 and before more came: $said"
        return 1
    }
}

live_pipe() {
    needs mkfifo timeout
    head -c 64 "$top/examples/judge.bin" >record
    head -c 127 "$top/examples/judge.bin" >record_and_piece
    tail -c +65 "$top/examples/judge.bin" >rest
    tail -c +128 "$top/examples/judge.bin" >rest_of_piece
    at_once judge record rest '0 opened' || return 1
    at_once judge record_and_piece rest_of_piece '0 opened' || return 1
    echo 44495343 >line
    printf '44495343\n4449' >line_and_piece
    echo 5343 >rest
    at_once show line rest disc || return 1
    at_once show line_and_piece rest disc
}
check "a line comes out before the program waits for more, also in the middle of the next" live_pipe

# full_before_more WORD FIRST: whether a line that cannot be written ends it before anything more comes.
full_before_more() {
    rm -f in && mkfifo in || return 1
    prog "$1" <in >/dev/full &
    running=$!
    exec 3>in
    cat "$2" >&3
    wait $running
    ended=$?
    exec 3>&-
    [ $ended -eq 4 ] || {
        echo "$1 ended with $ended after $2"
        return 1
    }
}

failed_flush() {
    needs mkfifo timeout
    head -c 64 "$top/examples/judge.bin" >record
    printf '44495343\n4449' >line_and_piece
    full_before_more judge record && full_before_more show line_and_piece
}
check "a line that cannot be written ends judge and show before they wait for more" failed_flush

# torn_output WORD..: whether it ends with 4 where a file may have no more bytes, which are then those of its whole text.
torn_output() {
    prog "$@" <in >whole
    (
        trap '' XFSZ
        # shellcheck disable=SC3045
        ulimit -f 2
        prog "$@" <in >torn
    )
    ended=$?
    size=$(wc -c <torn)
    [ $ended -eq 4 ] && [ $((size % 512)) -eq 0 ] && [ "$size" -gt 0 ] && [ "$size" -lt "$(wc -c <whole)" ] &&
        cmp -n "$size" torn whole || {
        echo "$*: status $ended, $size bytes"
        return 1
    }
}

torn_outputs() {
    # shellcheck disable=SC3045  # shells that lack it skip the check
    (ulimit -f 2) 2>/dev/null || {
        echo "the size of files cannot be limited here"
        exit 77
    }
    : >in
    torn_output make 1 1000 || return 1
    cp whole in
    torn_output replay && torn_output replay --threads && torn_output replay --threads --modules A || return 1
    for copy in 1 2 3 4 5 6 7 8 9 10 11 12 13 14 15 16; do cat "$top/examples/judge.bin"; done >in
    torn_output judge || return 1
    for copy in 1 2 3 4 5 6 7 8; do cat "$top/examples/show.hex"; done >in
    torn_output show || return 1
    old=$top/conformance/vectors/migrate-legal.in
    { cat "$old" && tail -c +10 "$old" && tail -c +10 "$old"; } >in
    torn_output migrate
}
check "an output that is cut off by a limit ends with 4, and has just the first bytes of the text" torn_outputs

# Each thread wants room, so that by these limits each start in turn is the first that is refused.
refused_starts() {
    # shellcheck disable=SC3045  # shells that lack it skip the check
    (ulimit -v 100000) 2>/dev/null || {
        echo "memory cannot be limited here"
        exit 77
    }
    prog make 1 300 >trace && prog replay --modules ABC <trace >wanted || return 1
    refused=0 ran=0
    for most in 8000 12000 16000 20000 24000 28000 32000 36000 40000 48000 60000 100000; do
        # shellcheck disable=SC2016  # the inner shell's words
        sh -c 'ulimit -v "$0"; exec timeout 60 "$@"' $most "$program" replay --threads --modules ABC <trace >got
        case $? in
        0) ran=$((ran + 1)) && cmp got wanted || return 1 ;;
        6) refused=$((refused + 1)) && printf 'crew refused\n' | cmp - got || return 1 ;;
        *) return 1 ;;
        esac
    done
    [ $refused -gt 3 ] && [ $ran -gt 1 ]
}
check "replay --threads without room for its threads ends with 6, and nothing is written" refused_starts
