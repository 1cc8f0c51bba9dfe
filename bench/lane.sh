#!/bin/bash
# What a lane costs between two threads, beside the kit's own queue with the same waiting; and the processor time of
# threads that wait. Builds bench/lane/main.rt.txt over the crates in a folder of its own, which it removes, so nothing of
# it stands in the gate. It needs rt, and some minutes for the first proof.
set -e
top=$(cd "$(dirname "$0")/.." && pwd)
count=${COUNT:-2000000}
rounds=${REPEAT:-3}
work=$(mktemp -d)
trap 'rm -rf "$work"' EXIT
"$top/bench/copy-crates" "$work" m17_lane_bench m17_lane m17_values crossbeam_queue crossbeam_utils
cp "$top/bench/lane/main.rt.txt" "$work/crates/m17_lane_bench/src/main.rt"
cd "$work/crates/m17_lane_bench"
rt run m17_lane_bench -- lane 1 1 > "$work/log" 2>&1 || { tail -20 "$work/log"; exit 1; }
program=$work/crates/m17_lane_bench/out/m17_lane_bench

# The line of one run: what, wall seconds, user and system seconds.
measure() {
    local name=$1
    shift
    TIMEFORMAT="$name  %R s wall  %U s user  %S s system"
    time "$program" "$@"
}

for capacity in 1 64 256; do
    for _ in $(seq "$rounds"); do
        measure "lane, $count items, capacity $capacity" lane "$count" "$capacity"
        measure "kit's queue, the same" raw "$count" "$capacity"
    done
done
measure "lane, 10000 items with a rest of 100 us before each" calm 10000
measure "three threads that wait ten seconds" rest 10000
