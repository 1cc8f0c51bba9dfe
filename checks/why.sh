# Checks of what m17-why says behind the statuses 1, 2 and 5: of words that the program refuses, and of what an operator may find
# in its way. Part of checks/run.
# shellcheck shell=sh

# is_said STATUS LINE WORD..: whether the program ends with that status by these words, and m17-why says this of it.
is_said() {
    wanted=$1 line=$2
    shift 2
    prog "$@" <"${input:-/dev/null}" >said
    ended=$?
    "$top/contrib/m17-why" "$wanted" "$@" <"${input:-/dev/null}" >why
    [ $ended -eq "$wanted" ] && grep -qxF -- "m17: $line" why || {
        echo "$*: ended with $ended, and m17-why says: $(cat why)"
        return 1
    }
}

why_words() {
    needs python3
    is_said 2 'there is no command serv; is serve meant?' serv x || return 1
    is_said 2 'there is no command nonsense' nonsense || return 1
    is_said 2 "there is no command ''" '' || return 1
    is_said 2 '--call m17-tst: a callsign is in upper case: M17-TST' serve --call m17-tst 127.0.0.1:0 || return 1
    is_said 2 'serve has no option --module; is --modules meant?' serve --call M17-TST --module A 127.0.0.1:0 || return 1
    is_said 2 '--places 300: it is a whole number, 1 to 256' serve --call M17-TST --places 300 127.0.0.1:0 || return 1
    is_said 2 'serve has to be given where it is bound, as 0.0.0.0:17000' serve --call M17-TST || return 1
    is_said 2 'serve takes 4 such words at most, not 5' serve --call M17-TST 1:1 1:2 1:3 1:4 1:5 || return 1
    is_said 2 '--to 10.0.0.9:70000: the port 70000 is above 65535' talk --call A --module A --bind x --to 10.0.0.9:70000 || return 1
    is_said 2 '--to [::7]:1: an IPv6 address is to have all its digits here: [0000:0000:0000:0000:0000:0000:0000:0007]:1' \
        talk --call A --module A --bind x --to '[::7]:1'
}
check "of words that are refused m17-why says which, and why" why_words

why_ports() {
    needs python3
    : >file
    is_said 5 '127.0.0.1:70000: the port 70000 is above 65535' serve --call M17-TST 127.0.0.1:70000 || return 1
    is_said 5 'localhost:1: localhost is no address, and names are not looked up: write the address, as 0.0.0.0:1' \
        serve --call M17-TST localhost:1 || return 1
    is_said 5 '203.0.113.5:0: this machine has no such address' serve --call M17-TST 203.0.113.5:0 || return 1
    is_said 5 '--book none: there is no such folder, and none is made' serve --call M17-TST --book none 127.0.0.1:0 || return 1
    is_said 5 '--book file is no folder' serve --call M17-TST --book file 127.0.0.1:0 || return 1
    mkdir kept && for name in A.book link0.trace; do
        is_said 5 "--board kept/$name is a file of --book too" serve --call M17-TST --book kept --board kept/$name 127.0.0.1:0 || return 1
    done
    is_said 5 '--stop none: there is no such file' serve --call M17-TST --stop none 127.0.0.1:0
}
check "of a port, an address, a folder or a file that cannot be opened m17-why says what is wrong" why_ports

why_inputs() {
    needs python3
    printf 'allow any * *\ndeny talk A AB1CD\n' >rules
    input=rules
    is_said 1 'line 2 of the rules, as editors count: deny talk A AB1CD: who speaks is not asked by module: write *' \
        serve --call M17-TST --rules 127.0.0.1:0 || return 1
    head -c 600 "$top/examples/evening.book" >book
    input=book
    is_said 1 '7 records before it are whole: m17-book --whole BOOK > WHOLE cuts the rest off' check || return 1
    head -c 300 "$top/examples/evening.trace" >trace
    "$top/contrib/m17-book" --whole trace 2>/dev/null >whole
    input=trace
    is_said 1 "$(prog replay <whole | grep -c '') entries before it are whole: m17-book --whole TRACE > WHOLE cuts the rest off" \
        replay || return 1
    # what is too large is not cut
    head -c 17 "$top/examples/evening.book" >large && truncate -s 67108873 large || return 1
    input=large
    is_said 1 'check reads 67,108,872 bytes of a book, and no more; m17-book --check BOOK reads any size' check || return 1
    printf M17TRACE >large && truncate -s 67108865 large || return 1
    is_said 1 'replay reads 1,000,000 entries and 67,108,864 bytes of a trace, and no more; m17-log reads any size' replay
}
check "of rules, a trace or a book that is refused m17-why says which line, how much is whole, or that it is too large" why_inputs

# A folder of a file system that is mounted for reading only, which root may not write to either.
why_read_only() {
    needs python3 unshare
    mkdir shut
    unshare -m mount -t tmpfs -o ro none shut 2>/dev/null || {
        echo "nothing may be mounted here"
        exit 77
    }
    # shellcheck disable=SC2016
    unshare -m sh -c 'mount -t tmpfs -o ro none shut && timeout 60 "$1" serve --call M17-TST --book shut 127.0.0.1:0
        [ $? -eq 5 ] && "$2" 5 serve --call M17-TST --book shut 127.0.0.1:0' sh "$program" "$top/contrib/m17-why" </dev/null >said
    grep -qx 'm17: --book shut: it is mounted for reading only' said || {
        cat said
        return 1
    }
}
check "of a folder that is mounted for reading only m17-why says so" why_read_only
