# How m17 builds the program in the tree of the sources, and says how far it is. Part of m17, which reads it behind
# sources.sh.
# shellcheck shell=sh

log=$out/m17.log

# How much work a crate is, about: its lines, and something for the start of its check.
work_of() { # NAME
    lines=$(find "$root/crates/$1" -name out -prune -o -type f \( -name '*.rt' -o -name '*.antt' \) -exec cat {} + | wc -l)
    echo $((lines + 600))
}

# How many crates are proved side by side: one for each processor and each 2 GB of memory that is free.
side_by_side() {
    number=$(getconf _NPROCESSORS_ONLN 2>/dev/null) || number=1
    memory=$(awk '/^MemAvailable:/ { print int($2 / 2000000) }' /proc/meminfo 2>/dev/null)
    [ "${memory:-$number}" -ge "$number" ] || number=$memory
    [ "$number" -ge 1 ] || number=1
    echo "$number"
}

# About how long the rest takes, by how long the work so far took; at the start, by 25 seconds of a processor for 1,000
# lines, of which the longest chain of crates is somewhat more than a third.
minutes_to_go() { # WORK-IN-ALL WORK-DONE SECONDS SIDE-BY-SIDE
    if [ "$2" -gt 0 ]; then
        echo $(($3 * ($1 - $2) / $2 / 60 + 1))
    else
        share=$((100 / $4))
        [ $share -ge 40 ] || share=40
        echo $(($1 * 25 * share / 100 / 1000 / 60 + 1))
    fi
}

# Starts a command of rt in the folder of the program, in a process group of its own; what it says goes to the log.
start_rt() { # WORD..
    own=$(command -v setsid) || own=
    (
        CDPATH='' cd -- "$root/crates/m17_app" || exit 1
        # shellcheck disable=SC2086  # there may be none
        exec $own rt "$@"
    ) </dev/null >>"$log" 2>&1 &
    child=$!
}

# Waits for it, and answers its status.
end_rt() {
    wait "$child"
    ended=$?
    child=
    return $ended
}

# Ends what was started, with all that it started itself.
stop_child() {
    [ -z "$child" ] || kill -TERM "-$child" 2>/dev/null || kill -TERM "$child" 2>/dev/null
    [ -z "$child" ] || wait "$child"
    rm -f "$record.$$"
    say 'stopped; what was proved so far is kept'
    exit 70
}

# The crates that rt has done, which it tells by lines "== NAME", in its order.
done_crates() {
    sed -n 's/^== \(m17_[a-z0-9_]*\)$/\1/p' "$log"
}

# Says, until rt ends, how many crates are done; in a first build also about how long the rest takes.
tell_crates() {
    total=0 finished=0 told=0 count=0 began=$(date +%s)
    for name in $(crates_in_order); do
        total=$((total + $(work_of "$name"))) count=$((count + 1))
    done
    say "$count crates, up to $number at a time$(tell_minutes)"
    going=yes
    while [ -n "$going" ]; do
        kill -0 "$child" 2>/dev/null || going=
        at=0 name=
        for name in $(done_crates); do
            at=$((at + 1))
            [ $at -le $told ] || finished=$((finished + $(work_of "$name")))
        done
        [ $at -eq $told ] || say "crate $at of $count: $name$(tell_minutes)"
        told=$at
        [ -z "$going" ] || sleep 1
    done
}

tell_minutes() {
    [ -n "$was_built" ] || echo ", about $(minutes_to_go "$total" "$finished" $(($(date +%s) - began)) "$number") min to go"
}

# What rt said last of the crate that failed; of all, where none is named.
tell_failure() {
    failed=$(sed -n 's/^\(m17_[a-z0-9_]*\): failed.*/\1/p' "$log" | head -n 1)
    say "${failed:-the program} could not be built; the end of what rt says of it in $log is:"
    if [ -n "$failed" ]; then
        awk -v name="$failed" '/^== / { on = ($2 == name) } on' "$log"
    else
        cat "$log"
    fi | tail -n 12 >&2
}

# Proves the crates and builds the program, which is run once, on no records.
build_crates() {
    number=$(side_by_side) was_built=
    [ ! -f "$record" ] || was_built=yes
    start_rt all check --jobs "$number"
    tell_crates
    end_rt || return 1
    say 'all are proved; building the program'
    start_rt run -- judge
    end_rt
}

# Waits until no other m17 builds here. What is open as 9 holds the others off until this process, and rt, have ended.
take_turn() {
    exec 9>"$out/m17.lock"
    command -v flock >/dev/null || return 0
    flock -n 9 && return
    say "another m17 proves and builds here, and says how far it is; waiting for it"
    flock 9 &
    child=$!
    wait "$child"
    child=
}

# Builds the program, and finds it. What is noted as its sources was read before the first proof, so that a change in the
# meantime is seen.
build() {
    ! is_whole_release || say "release/m17 can be run as it is: it is of the sources that release/SOURCES names"
    command -v rt >/dev/null || {
        say "rt is not in PATH; it proves and builds the program, as README.md says"
        return 1
    }
    child=
    trap stop_child HUP INT QUIT TERM
    { mkdir -p "$out" && (: >>"$out/m17.lock"); } 2>/dev/null || {
        say "cannot write to $out"
        return 1
    }
    take_turn
    is_built || build_anew || return 1
    trap - HUP INT QUIT TERM
    exec 9>&-
    find_program || {
        say 'the sources changed meanwhile; the next use builds what changed'
        return 1
    }
}

build_anew() {
    { sources >"$record.$$" && true >"$log"; } 2>/dev/null || {
        say "cannot write to $out"
        rm -f "$record.$$"
        return 1
    }
    say "proving and building the program; what rt says goes to $log"
    if build_crates && [ -x "$built" ] && rt version >"$out/m17.kit"; then
        sha256sum <"$built" >>"$record.$$" && mv -f "$record.$$" "$record" && say "built $built"
    else
        tell_failure
        rm -f "$record.$$"
        return 1
    fi
}
