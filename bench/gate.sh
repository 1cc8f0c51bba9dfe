#!/bin/bash
# What a gate costs at a stream packet, in instructions, by valgrind's callgrind: the difference of two runs of unlike
# length, by the difference of their packets. Builds bench/gate/main.rt.txt over the crates in a folder of its own, which it
# removes, so nothing of it stands in the gate of this repository. It needs rt and valgrind, and some minutes for the first
# proof.
set -e
top=$(cd "$(dirname "$0")/.." && pwd)
few=${FEW:-1000}
many=${MANY:-11000}
work=$(mktemp -d)
trap 'rm -rf "$work"' EXIT
"$top/bench/copy-crates" "$work" m17_gate_bench m17_gate m17_streams m17_port_memory m17_ports m17_samples m17_stream m17_values
cp "$top/bench/gate/main.rt.txt" "$work/crates/m17_gate_bench/src/main.rt"
cd "$work/crates/m17_gate_bench"
rt run m17_gate_bench -- 10 1 10 > "$work/log" 2>&1 || { tail -20 "$work/log"; exit 1; }
program=$work/crates/m17_gate_bench/out/m17_gate_bench

# All instructions of a run with so many rules, senders and packets.
instructions() {
    valgrind --tool=callgrind --callgrind-out-file=/dev/null "$program" "$@" 2>&1 | sed -n 's/.*Collected : //p'
}

# A row for so many rules and senders.
row() {
    local short long
    short=$(instructions "$1" "$2" "$few")
    long=$(instructions "$1" "$2" "$many")
    echo "rules $1  senders $2  instructions a packet $(((long - short) / (many - few)))"
}

row none 1
row 0 1
row 1000 1
row none 64
row 0 64
row 1000 64
row 1000 300
