# Checks of the units of examples/: as systemd reads them, and their commands as a shell runs them. Part of checks/run,
# behind reflector.sh, whose helpers it uses.
# shellcheck shell=sh

units="m17.service m17-log.service m17-bridge.service m17-page.service m17-clean.service m17-clean.timer"

# The units name programs of a prefix; here they are ones that are there.
verified_units() {
    needs systemd-analyze
    for unit in $units; do
        sed 's|/usr/local/bin/m17[a-z-]*|/bin/true|' "$top/examples/$unit" >"$unit" || return 1
    done
    for unit in $units; do
        timeout 60 systemd-analyze verify --man=no "./$unit" >said 2>&1
        ended=$?
        cat said
        ! grep -q 'Failed to create directory' said || {
            echo "systemd-analyze has no place to work in here"
            exit 77
        }
        [ $ended -eq 0 ] && ! grep 'm17' said || return 1
    done
}
check "systemd takes each unit of examples" verified_units

# Of 10, in tenths: 20 is what the units may come to.
exposed_units() {
    needs systemd-analyze
    systemd-analyze --help | grep -q -e '--threshold' || {
        echo "this systemd-analyze cannot look at a unit that is not loaded"
        exit 77
    }
    for unit in $units; do
        case $unit in
        *.service) ;;
        *) continue ;;
        esac
        cp "$top/examples/$unit" . || return 1
        timeout 60 systemd-analyze security --offline=true --threshold=20 --no-pager "./$unit" >said 2>&1 || {
            cat said
            return 1
        }
    done
}
check "systemd-analyze security finds little that the services are exposed to" exposed_units

# Refused words start nothing again, and lines in the journal have a bound.
bounded_units() {
    for unit in m17 m17-log m17-bridge m17-page; do
        grep -q '^RestartPreventExitStatus=\(1 \)\{0,1\}2' "$top/examples/$unit.service" || return 1
    done
    grep -q '^LogRateLimitIntervalSec=' "$top/examples/m17-log.service" && grep -q '^LogRateLimitBurst=' "$top/examples/m17-log.service"
}
check "the units bound the journal's lines, and start nothing again whose words are refused" bounded_units

# line_of UNIT KEY: the command of that key, as a shell reads it: the program is that of this check, and the port is $port.
line_of() {
    sed -n "s/^$2=//p" "$top/examples/$1" |
        sed "s|/usr/local/bin/m17 |$program |; s|\[::\]:17000|127.0.0.1:$port|; s/%%/%/g; s/\\$\\$/\$/g"
}

# prepares: what the unit does before it starts the reflector.
prepares() {
    line_of m17.service ExecStartPre >prepare
    sh -c "$(cat prepare)"
}

# starts: starts the reflector as the unit does, and waits until it writes books.
starts() {
    line_of m17.service ExecStart >start
    sh -c "exec $(cat start)" >served &
    server=$!
    has_bytes now/A.book 17
}

prepared_folders() {
    needs flock
    free_ports
    mkdir state && cd state || return 1
    prepares && starts || return 1
    first=$(readlink now)
    case $first in
    20[0-9][0-9]-[01][0-9]-[0-3][0-9]T[0-2][0-9][0-5][0-9][0-5][0-9]) ;;
    *) return 1 ;;
    esac
    # The trace leads to /dev/null, and the books tell all the same who was in.
    [ "$(readlink now/link0.trace)" = /dev/null ] || return 1
    joins /dev/null talker "127.0.0.1:$port"
    wait $! && has_bytes now/A.book 85 && said talker 'closed asked kept 0' || return 1
    # A second reflector is not prepared, and not started: neither by this unit nor by hand.
    sleep 1
    if prepares 2>../why; then return 1; fi
    grep -qx "another reflector writes to $first" ../why && [ "$(readlink now)" = "$first" ] && [ "$(find . -type d -name '20*' | wc -l)" -eq 1 ] || return 1
    if flock --nonblock --no-fork now true; then return 1; fi
    kill "$server" && ends 143 '' || return 1
    # The next start has a folder of its own, and with a file `traces` a trace.
    : >traces
    prepares && starts && [ "$(readlink now)" != "$first" ] && [ "$(wc -c <"$first/A.book")" -eq 85 ] || return 1
    joins /dev/null talker "127.0.0.1:$port"
    wait $! && kill "$server" && ends 143 '' && [ ! -L now/link0.trace ] &&
        prog replay <now/link0.trace | grep -q '^[0-9]* A join$' || return 1
    # A folder of the same name is not written over.
    mkdir "$(date -u -d '+1 second' +%Y-%m-%dT%H%M%S)" "$(date -u -d '+2 seconds' +%Y-%m-%dT%H%M%S)" \
        "$(date -u -d '+3 seconds' +%Y-%m-%dT%H%M%S)"
    second=$(readlink now)
    sleep 1.5
    if prepares 2>/dev/null; then return 1; fi
    [ "$(readlink now)" = "$second" ]
}
check "the unit's folders: one for each start, locked, with books and without traces" prepared_folders

# The unit's own line, with the launcher in it: the lock is on a descriptor that the launcher was given.
locked_by_launcher() {
    needs flock
    free_ports
    mkdir -p state prefix/bin prefix/lib/m17 || return 1
    cp "$top/m17" prefix/bin/m17 && cp "$program" prefix/lib/m17/m17_app && echo kit >prefix/lib/m17/kit || return 1
    launcher=$PWD/prefix/bin/m17
    cd state && prepares || return 1
    sed -n 's/^ExecStart=//p' "$top/examples/m17.service" |
        sed "s|/usr/local/bin/m17 |$launcher |; s|\[::\]:17000|127.0.0.1:$port|; s/%%/%/g; s/\\$\\$/\$/g" >start
    sh -c "exec $(cat start)" >served &
    server=$!
    has_bytes now/A.book 17 || return 1
    if flock --nonblock now true; then
        kill "$server"
        return 1
    fi
    # A second one by the very line is not started, and cuts no file.
    sh -c "exec $(cat start)" >again
    [ $? -eq 1 ] && [ ! -s again ] && [ "$(wc -c <now/A.book)" -ge 17 ] || return 1
    kill "$server" && wait "$server" 2>/dev/null
    flock --wait 20 now true
}
check "the unit's lock holds through the launcher: a second reflector into one folder is not started" locked_by_launcher

# As the unit starts it, for fewer seconds and with a limit that a book comes to within a talk.
bounded_books() {
    needs flock
    grep -q '^LimitFSIZE=' "$top/examples/m17.service" || return 1
    free_ports
    mkdir state && cd state && prepares || return 1
    line_of m17.service ExecStart | sed 's/ serve / serve --for 6 /' >start
    sh -c "ulimit -f 1 && exec $(cat start)" >served &
    server=$!
    has_bytes now/C.book 9 || return 1
    prog talk --call AB1CD --module C --bind 127.0.0.1:0 --to "127.0.0.1:$port" --stay 3000 <"$top/examples/talk.script" >talker
    said talker 'closed asked kept 25' || return 1
    ends 8 'A admitted 0 missed 0\nB admitted 0 missed 0\nC admitted 25 missed 0\nbook failed\n' || return 1
    # 512 bytes or 1,024, by what the shell counts.
    [ "$(wc -c <now/C.book)" -ge 400 ] && [ "$(wc -c <now/C.book)" -le 1024 ]
}
check "a book that has come to the unit's limit is written no more, and the reflector goes on" bounded_books

cleaned_folders() {
    needs flock find
    free_ports
    mkdir -p state/2020-01-01T000000 state/2020-01-02T000000 state/2020-01-03T000000 state/2020-01-04T000000 && cd state || return 1
    for name in 2020-01-01T000000 2020-01-02T000000 2020-01-03T000000; do
        : >$name/A.book && ln -s /dev/null $name/link0.trace && touch -d '2020-02-01' $name/A.book
    done
    # The first is old, the second was written to until yesterday, the third is the newest, the fourth was just made.
    touch -d yesterday 2020-01-02T000000/A.book && ln -s 2020-01-03T000000 now && : >traces
    touch -d '2020-01-01' 2020-01-01T000000 2020-01-02T000000 2020-01-03T000000
    line_of m17-clean.service ExecStart >clean
    sh -c "$(cat clean)" || return 1
    ls >../got
    printf '%s\n' 2020-01-02T000000 2020-01-03T000000 2020-01-04T000000 clean now traces | cmp - ../got || {
        cat ../got
        return 1
    }
}
check "old folders are removed, and neither the newest nor one that was written to" cleaned_folders
