# Checks of what m17 says at a first use: its help, words that are refused, a stored program, a build that is stopped or
# that another one waits for. Part of checks/run, behind launcher.sh and reflector.sh, whose helpers it uses.
# shellcheck shell=sh

help_of_each_command() {
    make_tree tree || return 1
    for word in judge show make replay check migrate talk serve; do
        without_rt tree/m17 help $word >wanted || return 1
        head -n 1 wanted | grep -q "^usage: m17 $word" && grep -q "^$word [ A-Z]" wanted && has wanted docs/reference.md || return 1
        [ "$(grep -c '^usage' wanted)" -eq 1 ] && [ "$(grep -c '^[a-z][a-z]* [ A-Z]' wanted)" -eq 1 ] || return 1
        for option in -h --help; do
            without_rt tree/m17 $word $option >got 2>err && cmp got wanted && [ ! -s err ] || return 1
        done
    done
    for word in help version test build install; do
        without_rt tree/m17 help $word >got && has got "usage: m17 $word" && without_rt tree/m17 $word --help | cmp - got || return 1
    done
    # Anywhere among the words, but not behind --.
    for words in 'serve --call M17-TST 0.0.0.0:17000 --help' 'make 1 2 -h' 'judge --help x' 'install prefix --help'; do
        # shellcheck disable=SC2086
        without_rt tree/m17 $words >got && without_rt tree/m17 help ${words%% *} | cmp - got || return 1
    done
    without_rt tree/m17 help >wanted && without_rt tree/m17 -h | cmp - wanted && [ ! -e tree/crates/m17_app/out ]
}
check "m17 help, -h and --help say how a command is used, and build nothing" help_of_each_command

# Into a device that is full, and into a pipe that is closed.
unwritten_help() {
    make_tree tree || return 1
    for words in help version 'help serve' 'serve --help' '' nonsense; do
        # shellcheck disable=SC2086
        without_rt tree/m17 $words >/dev/full 2>err
        [ $? -eq 4 ] && [ ! -s err ] || return 1
        # shellcheck disable=SC2086
        { sleep 0.2; without_rt tree/m17 $words 2>err; echo $? >ended; } | :
        [ "$(cat ended)" -eq 4 ] && [ ! -s err ] || return 1
    done
}
check "help and version that cannot be written end with 4, and say nothing else" unwritten_help

no_words() {
    make_tree tree || return 1
    gives 2 'words refused\n' with_rt tree/m17 2>err || return 1
    has err 'usage: m17 judge' && has err 'm17 serve OPTION' && has err 'm17 help' && ! grep -F -e --call err && [ ! -e calls ]
}
check "m17 without words is refused, and says on standard error what the commands are" no_words

stored_program() {
    make_tree tree && store || return 1
    without_rt tree/m17 judge <"$top/examples/judge.bin" >got 2>err && [ ! -s err ] || return 1
    prog judge <"$top/examples/judge.bin" | cmp - got || return 1
    without_rt tree/m17 version >got && has got 'release/m17' && has got 'rattle-kit-of-the-checks' && has got 'rt ci' || return 1
    without_rt tree/checks/release >got && has got 'of these sources' || return 1
    without_rt tree/m17 install prefix 2>err && cmp "$program" prefix/lib/m17/m17_app && [ ! -e tree/crates/m17_app/out ] || return 1
    with_rt tree/m17 build 2>err && [ -e calls ] && has err 'release/m17 can be run as it is' || return 1
    without_rt tree/m17 version >got && has got 'built here'
}
check "a stored program of the sources is run and installed without rt, and m17 build builds all the same" stored_program

# One of other sources is not run, nor one that is not what its checksum says.
stored_no_more() {
    make_tree tree && store || return 1
    cp -R tree changed && echo '// more' >>changed/crates/m17_crc/src/lib.rt || return 1
    without_rt changed/m17 judge </dev/null >got 2>err
    [ $? -eq 70 ] && has err 'release/m17 can be run as it is' && has err 'rt is not in PATH' || return 1
    without_rt changed/m17 version >got && has got 'no program of these sources' && has got 'release/m17' || return 1
    changed/checks/release >got
    [ $? -eq 1 ] && has got 'crates/m17_crc/src/lib.rt' && [ "$(wc -l <got)" -eq 1 ] || return 1
    with_rt changed/m17 judge </dev/null 2>err && [ -e calls ] || return 1
    echo more >>tree/release/m17
    without_rt tree/m17 judge </dev/null >got 2>err
    [ $? -eq 70 ] && ! grep 'can be run' err && without_rt tree/m17 version >got && ! grep 'can be run' got || return 1
    tree/checks/release >got
    [ $? -eq 1 ] && has got 'release/SHA256'
}
check "a stored program of other sources, or one that was changed, is not run" stored_no_more

# rt ci leaves a program and notes nothing.
renewed() {
    make_tree tree && with_rt tree/m17 build 2>/dev/null || return 1
    echo '// more' >>tree/crates/m17_crc/src/lib.rt
    with_rt tree/checks/renew-release >got 2>err
    [ $? -eq 1 ] && has err 'is not of these sources' && [ ! -e tree/release ] || return 1
    rm tree/crates/m17_app/out/m17.*
    with_rt tree/checks/renew-release >got 2>err
    [ $? -eq 1 ] && [ ! -e tree/release ] || return 1
    touch tree/crates/m17_app/out/m17_app
    with_rt tree/checks/renew-release >got && without_rt tree/checks/release >got || return 1
    cmp "$program" tree/release/m17 && has tree/release/kit 'rattle-kit-of-the-checks' || return 1
    rm tree/crates/m17_crc/src/lib.rt
    with_rt tree/checks/renew-release >got 2>err
    [ $? -eq 1 ] && has err 'is not of these sources' || return 1
    find tree -name 'release.*' | grep . && return 1
    return 0
}
check "checks/renew-release stores what was built, and refuses a program of other sources" renewed

# What a shell starts in the background takes neither INT nor QUIT, and nothing that whoever runs the checks ignores, as
# `nohup` has it with HUP, unless `$at_terminal` stands before it; $ending are the signals that are tried.
if env --default-signal=HUP,INT,QUIT,TERM true 2>/dev/null; then
    at_terminal='env --default-signal=HUP,INT,QUIT,TERM' ending='1:HUP 2:INT 3:QUIT 15:TERM'
else
    at_terminal='' ending='1:HUP 15:TERM'
fi

# What stands for the program says its number, and ends by itself only after a while.
ended_together() {
    make_tree tree && with_rt tree/m17 install prefix 2>/dev/null || return 1
    printf '#!/bin/sh\necho $$ >was\nexec sleep 30\n' >prefix/lib/m17/m17_app
    for signal in $ending; do
        rm -f was
        $at_terminal prefix/bin/m17 serve </dev/null 2>err &
        launcher=$!
        tries=0
        until [ -s was ] || [ $tries -eq 100 ]; do
            sleep 0.2
            tries=$((tries + 1))
        done
        kill -s "${signal#*:}" $launcher
        wait $launcher
        [ $? -eq $((128 + ${signal%:*})) ] && [ ! -s err ] || return 1
        kill -0 "$(cat was)" 2>/dev/null && echo "the program goes on behind ${signal#*:}" && return 1
    done
    printf '#!/bin/sh\ncat\nexit 7\n' >prefix/lib/m17/m17_app
    echo in | prefix/bin/m17 judge >got
    [ $? -eq 7 ] && echo in | cmp - got
}
check "what ends m17 ends the program that it runs, and m17 ends as that does" ended_together

led_on() {
    make_tree tree && store || return 1
    for words in nonsense JUDGE install 'build x' 'test a b' 'version x' 'help x y' 'judge show' 'make 1 x' 'replay --places 0' 'serve --call m17-tst 0.0.0.0:17000' 'talk --call A'; do
        # shellcheck disable=SC2086
        gives 2 'words refused\n' tree/m17 $words 2>err </dev/null || return 1
        # before it may stand which word is refused, and why
        [ "$(wc -l <err)" -le 2 ] && tail -n 1 err | grep -q 'm17 help' || return 1
        case $words in
        nonsense | JUDGE) grep -q 'm17 help says' err || return 1 ;;
        *) has err "m17 help ${words%% *}" || return 1 ;;
        esac
    done
    tree/m17 serve x >/dev/full 2>err
    [ $? -eq 4 ]
}
check "words that the program refuses are followed by a line that names m17 help" led_on

# until_there FILE: waits for a file, for a minute at most.
until_there() {
    waited=0
    until [ -e "$1" ]; do
        waited=$((waited + 1))
        [ $waited -lt 600 ] || return 1
        sleep 0.1
    done
}

# slow_rt: what stands for rt proves until the file `go` is there, with a process beside it.
slow_rt() {
    sed "s|^all) .*|all) sleep 100 \& echo \$! >'$PWD/written'; mv '$PWD/written' '$PWD/beside'; until [ -e '$PWD/go' ]; do sleep 0.1; done; kill \$!; cat '$PWD/tools/told' ;;|" \
        tools/rt >slow && cp slow tools/rt
}

# goes_on PROCESS: whether it runs; one that has ended may still have its number.
goes_on() {
    case $(sed 's/.*) //' "/proc/$1/stat" 2>/dev/null) in
    '' | [ZX]*) return 1 ;;
    esac
}

stopped_build() {
    needs setsid
    for signal in $ending; do
        signal=${signal#*:}
        rm -rf tree tools calls beside && make_tree tree && slow_rt || return 1
        PATH=$PWD/tools:/usr/bin:/bin $at_terminal tree/m17 judge <"$top/examples/judge.bin" >got 2>err &
        launcher=$!
        until_there beside || {
            echo "for a minute m17 did not begin to build"
            return 1
        }
        kill -$signal $launcher
        wait $launcher
        ended=$?
        [ $ended -eq 70 ] && has err 'stopped' && [ ! -s got ] || {
            echo "after $signal m17 ended with $ended"
            return 1
        }
        waited=0
        while goes_on "$(cat beside)"; do
            waited=$((waited + 1))
            [ $waited -lt 100 ] || {
                echo "ten seconds after $signal to m17 what it had started went on"
                return 1
            }
            sleep 0.1
        done
        [ ! -e tree/crates/m17_app/out/m17.sources ] || return 1
        find tree/crates/m17_app/out -name 'm17.sources*' | grep . && return 1
    done
    : >go
    with_rt tree/m17 judge <"$top/examples/judge.bin" >got 2>err
}
check "a build whose m17 is told to end ends with all that it started, and goes on at the next use" stopped_build

two_first_uses() {
    needs flock
    make_tree tree && slow_rt || return 1
    PATH=$PWD/tools:/usr/bin:/bin tree/m17 judge <"$top/examples/judge.bin" >first 2>first.err &
    one=$!
    until_there beside || return 1
    echo 'a line of the first' >>tree/crates/m17_app/out/m17.log
    PATH=$PWD/tools:/usr/bin:/bin tree/m17 show <"$top/examples/show.hex" >second 2>second.err &
    other=$!
    waited=0
    until grep -q 'another m17' second.err; do
        waited=$((waited + 1))
        [ $waited -lt 600 ] || return 1
        sleep 0.1
    done
    : >go
    wait $one && wait $other || return 1
    prog judge <"$top/examples/judge.bin" | cmp - first && prog show <"$top/examples/show.hex" | cmp - second || return 1
    [ "$(grep -c ^all calls)" -eq 1 ] && has tree/crates/m17_app/out/m17.log 'a line of the first'
}
check "of two first uses the second waits for what the first builds, and leaves its log alone" two_first_uses

installed_help() {
    make_tree tree && with_rt tree/m17 install prefix 2>/dev/null && rm -r tree || return 1
    without_rt prefix/bin/m17 help >got && has got 'm17 serve OPTION' && has got 'status  0' || return 1
    grep -e 'm17 build' -e 'm17 install' -e 'm17 test' -e 'sources' -e '^+' got && return 1
    without_rt prefix/bin/m17 help serve >got && has got 'share/doc/m17/docs/reference.md' && has got 'man m17' || return 1
    without_rt prefix/bin/m17 serve --help | cmp - got || return 1
    gives 2 'words refused\n' without_rt prefix/bin/m17 help build 2>err </dev/null || return 1
    gives 2 'words refused\n' without_rt prefix/bin/m17 2>err && has err 'usage: m17 judge' && ! grep 'm17 build' err || return 1
    links_lead_on prefix/share/doc/m17
}
check "an installed m17 speaks of what is installed alone, and so do the links of its documents" installed_help

# What m17 test runs is checks/run, here in a tree where that is a short script.
tested() {
    make_tree tree && store || return 1
    printf '#!/bin/sh\necho "$@"\nexit 3\n' >tree/checks/run
    without_rt tree/m17 test >got 2>err
    [ $? -eq 3 ] && has got "tree/release/m17" && [ ! -s err ] || return 1
    without_rt tree/m17 test some/program >got
    [ $? -eq 3 ] && echo some/program | cmp - got || return 1
    # A folder is no program.
    for word in '' "$PWD"; do
        gives 1 '0 passed, 1 failed\n' "$top/checks/run" "$word" 2>err && has err 'there is no program' || return 1
    done
}
check "m17 test runs the checks on the program that m17 is, or on one that is named" tested

# The gate, with what stands for rt.
gate() {
    make_tree tree && cp -R "$top/.ci" tree/ || return 1
    printf '#!/bin/sh\necho "$@"\nexit 3\n' >tree/checks/run
    printf '#!/bin/sh\necho "$@" >>calls\nexit 5\n' >tools/rt
    with_rt tree/.ci/run >got 2>err
    [ $? -eq 5 ] && [ ! -s got ] && echo ci | cmp - tree/calls || return 1
    printf '#!/bin/sh\n' >tools/rt
    with_rt tree/.ci/run >got 2>err
    [ $? -eq 3 ] && echo crates/m17_app/out/m17_app | cmp - got
}
check "the gate is rt ci, and where that passes the checks of the program that it left" gate
