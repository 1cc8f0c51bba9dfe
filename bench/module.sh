#!/bin/bash
# What a step of a module costs, in instructions, by valgrind's callgrind: the difference of two runs of unlike length, by
# the difference of their steps. Builds bench/module/main.rt.txt over the crates in a folder of its own, which it removes,
# so nothing of it stands in the gate. It needs rt and valgrind, and some minutes for the first proof.
set -e
top=$(cd "$(dirname "$0")/.." && pwd)
few=${FEW:-100}
many=${MANY:-1100}
work=$(mktemp -d)
trap 'rm -rf "$work"' EXIT
"$top/bench/copy-crates" "$work" m17_module_bench m17_module m17_control m17_stream m17_lsd m17_callsign m17_values
cp "$top/bench/module/main.rt.txt" "$work/crates/m17_module_bench/src/main.rt"
cd "$work/crates/m17_module_bench"
rt run m17_module_bench -- 4 2 10 > "$work/log" 2>&1 || { tail -20 "$work/log"; exit 1; }
program=$work/crates/m17_module_bench/out/m17_module_bench

# All instructions of a run of so many places, listeners and steps.
instructions() {
    valgrind --tool=callgrind --callgrind-out-file=/dev/null "$program" "$@" 2>&1 | sed -n 's/.*Collected : //p'
}

# A row for so many places and listeners.
row() {
    local short long
    short=$(instructions "$1" "$2" "$few")
    long=$(instructions "$1" "$2" "$many")
    echo "places $1  listeners $2  instructions a step $(((long - short) / (many - few)))"
}

row 4 1
row 256 1
row 4 2
row 256 2
row 256 64
row 256 255
