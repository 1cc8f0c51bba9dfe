# Checks that runs of one kind end, again and again, beside other work. Part of checks/run.
# shellcheck shell=sh

again_and_again() {
    needs python3
    prog serve --call M17-TST --pace 0 no-place </dev/null >/dev/null
    [ $? -eq 5 ] || {
        echo "this program has no --pace"
        exit 77
    }
    timeout 400 "$top/bench/again" "$program" --minutes 2 --together 1 --live 1 --busy 1
}
check "for two minutes replays and bursts at a reflector have their end, beside other work" again_and_again
