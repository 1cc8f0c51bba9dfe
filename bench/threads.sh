#!/bin/bash
# threads.sh [N]: runs each test of a run over threads N times, 20 where no N is given: each run has a schedule of its own.
# It says how many runs passed, each of all tests, and how long each took. Builds m17_run_tests first, which takes
# minutes where something of them was not proved yet. The status is 0 where all runs passed.
set -e
top=$(cd "$(dirname "$0")/.." && pwd)
runs=${1:-20}
ulimit -c 0
log=$(mktemp)
trap 'rm -f "$log"' EXIT
cd "$top/crates/m17_run_tests"
rt test > "$log" 2>&1 || { tail -n 20 "$log"; exit 1; }
program=$PWD/out/m17_run_tests_tests
tests=$("$program" --list | sed -n 's/: test$//p')
[ -n "$tests" ] || { echo "there are no tests"; exit 1; }

# Whether each test passed. One that hangs is stopped after two minutes.
run_once() {
    local name status=0
    for name in $tests; do
        timeout 120 "$program" "$name" > "$log" 2>&1 || { status=1; echo "$name" >&3; tail -n 2 "$log" >&3; }
    done
    return $status
}

passed=0
TIMEFORMAT=%R
exec 3>&1
for number in $(seq "$runs"); do
    said=passed
    seconds=$({ time run_once; } 2>&1) || said=FAILED
    echo "run $number  $said  $seconds s"
    [ "$said" != passed ] || passed=$((passed + 1))
done
echo "$passed of $runs runs passed"
[ "$passed" = "$runs" ]
