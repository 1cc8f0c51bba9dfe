#!/bin/sh
# roll.sh: how long a claim and a giving back take on a roll, in one thread and in four. Builds bench/roll in a folder of
# its own, beside copies of the crates that it stands on; the first build proves them.
set -e
here=$(CDPATH='' cd -- "$(dirname -- "$0")" && pwd)
tree=$(mktemp -d)
trap 'rm -rf "$tree"' EXIT
"$here/copy-crates" "$tree" roll_bench m17_roll
cp "$here/roll/main.rt.txt" "$tree/crates/roll_bench/src/main.rt"
cd "$tree/crates/roll_bench"
: >stdin
: >stdout
rt run
