#!/usr/bin/env bash
# handover.sh [ROUNDS]
#
# What three threads cost a relay that is plain C: bench/handover/relay.c in one thread and in three, in turn, ROUNDS times (9)
# of SECONDS_EACH (2). The first table is of the full rate, the second of 25 datagrams a second, where it says what is gained by
# waking the sender early, and the third, by bench/handover/items.c, of what an item costs without any socket, also where other
# programs want all processors, and what a Tick costs that is handed to each of 26 modules. The tables have medians, and medians
# of the rounds' ratios. It needs cc.
set -u
here=$(cd "$(dirname "${BASH_SOURCE[0]}")" && pwd)
rounds=${1:-9}
seconds=${SECONDS_EACH:-2}
dir=$(mktemp -d)
others=()
trap '[ ${#others[@]} -eq 0 ] || kill "${others[@]}"; rm -rf "$dir"' EXIT
for name in relay items; do
    cc -O2 -Wall -Wextra -pthread -o "$dir/$name" "$here/handover/$name.c" || exit 1
done

median() { sort -g | awk '{ v[NR] = $1 } END { print NR % 2 ? v[(NR + 1) / 2] : (v[NR / 2] + v[NR / 2 + 1]) / 2 }'; }

echo "$(nproc) processors, $rounds rounds of $seconds s, medians"
echo
echo '| listeners | one thread: datagrams a second | us each | three threads: datagrams a second | by one | us each | by one |'
echo '|---|---|---|---|---|---|---|'
for listeners in 10 20 60 250; do
    rm -f "$dir/rows"
    for _round in $(seq "$rounds"); do
        echo "$("$dir/relay" 1 "$listeners" "$seconds") $("$dir/relay" 3 "$listeners" "$seconds")" >>"$dir/rows"
    done
    one=$(awk '{ print $1 }' "$dir/rows" | median)
    one_us=$(awk '{ print $2 }' "$dir/rows" | median)
    three=$(awk '{ print $3 }' "$dir/rows" | median)
    three_us=$(awk '{ print $4 }' "$dir/rows" | median)
    by=$(awk '$1 > 0 { print $3 / $1 }' "$dir/rows" | median)
    by_us=$(awk '$2 > 0 { print $4 / $2 }' "$dir/rows" | median)
    LC_ALL=C printf '| %d | %.0f | %.2f | %.0f | %.2f | %.2f | %.2f |\n' "$listeners" "$one" "$one_us" "$three" "$by" "$three_us" "$by_us"
done

echo
echo 'Microseconds from a datagram to the copies of it, 25 a second:'
echo
echo '| listeners | one thread: p50 | p99 | three threads: p50 | p99 | with an early wake: p50 | p99 |'
echo '|---|---|---|---|---|---|---|'
for listeners in 10 60; do
    rm -f "$dir/rows"
    for _round in $(seq "$rounds"); do
        echo "$("$dir/relay" 1 "$listeners" "$seconds" paced) $("$dir/relay" 3 "$listeners" "$seconds" paced)" \
            "$("$dir/relay" 4 "$listeners" "$seconds" paced)" >>"$dir/rows"
    done
    cells=
    for column in 1 2 3 4 5 6; do
        cells="$cells $(awk -v c="$column" '{ print $c }' "$dir/rows" | median | LC_ALL=C awk '{ printf "%.0f", $1 }') |"
    done
    echo "| $listeners |$cells"
done

echo
echo 'Nanoseconds an item, 600,000 packets to four listeners each:'
echo
echo '| one thread, nothing is queued | five threads, rings | five threads, the steps of the kit'"'"'s queue |'
echo '|---|---|---|'
rm -f "$dir/rows"
for _round in $(seq "$rounds"); do
    echo "$("$dir/items" one 4 600000) $("$dir/items" ring 4 600000) $("$dir/items" kit 4 600000)" >>"$dir/rows"
done
echo "| $(awk '{ print $1 }' "$dir/rows" | median) | $(awk '{ print $2 }' "$dir/rows" | median) | $(awk '{ print $3 }' "$dir/rows" | median) |"

echo
echo 'Nanoseconds for each Tick that is put into an inbox, 333,330 of them into 26, taken by half an inbox:'
echo
for _round in $(seq "$rounds"); do
    "$dir/items" ticks 26 333330
done | median

echo
echo 'Nanoseconds an item as above, beside as many programs that never wait as there are processors, once:'
echo
for _other in $(seq "$(nproc)"); do
    sh -c 'while :; do :; done' &
    others+=($!)
done
echo '| one thread, nothing is queued | five threads, rings | five threads, the steps of the kit'"'"'s queue |'
echo '|---|---|---|'
echo "| $("$dir/items" one 4 600000) | $("$dir/items" ring 4 600000) | $("$dir/items" kit 4 600000) |"
