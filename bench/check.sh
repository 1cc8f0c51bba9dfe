#!/bin/sh
# check.sh [PROGRAM]: how long `check` takes over a book of 67 MB, beside a plain C program that does the same.
#
# PROGRAM is crates/m17_app/out/m17_app where none is given; give the program itself, since a launcher's own time would be
# in the figures, or `-` to measure the C programs alone. Environment: REPEAT (5), rounds; BYTES (67108864), of the book.
# The C programs are bench/check/*.c, compiled here by cc. Each round runs all in turn on the same file; `x C` is the
# median of the rounds' ratios to the plain one. The figures are printed, and nothing is asserted of them.
set -u
LC_ALL=C
export LC_ALL

bench=$(cd "$(dirname "$0")" && pwd)
program=${1:-$bench/../crates/m17_app/out/m17_app}
repeat=${REPEAT:-5}
bytes=${BYTES:-67108864}
command -v "$program" >/dev/null || [ "$program" = - ] || { echo "check.sh: there is no program $program" >&2; exit 2; }
for tool in cc /usr/bin/time; do
    command -v "$tool" >/dev/null || { echo "check.sh: there is no $tool" >&2; exit 2; }
done
scratch=$(mktemp -d) || exit 1
trap 'rm -rf "$scratch"' EXIT
trap 'exit 1' HUP INT TERM

compiled() { # NAME SOURCE OPTION..
    into=$scratch/$1 from=$bench/check/$2
    shift 2
    cc -O2 -std=gnu11 -Wall -Wextra "$@" -o "$into" "$from" || exit 1
}
compiled make_book make_book.c
compiled plain check_baseline.c
compiled fast check_baseline.c -DCRC_SLICES
"$scratch/make_book" "$bytes" >"$scratch/book" || exit 1

# Adds to the file $scratch/WHO.times a line: wall, user and system seconds, peak memory in KB, status.
run_once() { # WHO PROGRAM
    began=$(date +%s.%N)
    /usr/bin/time -q -f '%U %S %M %x' -o "$scratch/time" "$2" check <"$scratch/book" >"$scratch/$1.said"
    ended=$(date +%s.%N)
    echo "$began $ended $(cat "$scratch/time")" | awk '{ printf "%.3f %s %s %s %s\n", $2 - $1, $3, $4, $5, $6 }' \
        >>"$scratch/$1.times"
}

median() { # FILE COLUMN
    awk -v at="$2" '{ print $at }' "$1" | sort -n | awk '{ each[NR] = $1 } END { print each[int((NR + 1) / 2)] }'
}

row() { # WHO NAME
    times=$scratch/$1.times
    paste -d' ' "$times" "$scratch/plain.times" | awk '{ if ($6) print $1 / $6 }' >"$scratch/ratios"
    printf '| %s | %.3f | %.2f | %s | %s | %s | %s | %s |\n' "$2" "$(median "$times" 1)" "$(median "$scratch/ratios" 1)" \
        "$(median "$times" 2)" "$(median "$times" 3)" "$(median "$times" 4)" \
        "$(awk '{ print $5 }' "$times" | sort -u | paste -sd, -)" "$(cat "$scratch/$1.said")"
}

round=0
while [ $round -lt "$repeat" ]; do
    [ "$program" = - ] || run_once program "$program"
    run_once plain "$scratch/plain"
    run_once fast "$scratch/fast"
    round=$((round + 1))
done

echo "a book of $(wc -c <"$scratch/book") bytes, medians of $repeat rounds"
echo
echo '| who | wall s | x C | user s | system s | peak KB | status | what it says |'
echo '|---|---|---|---|---|---|---|---|'
[ "$program" = - ] || row program program
row plain 'C, a CRC of one table'
row fast 'C, a CRC of eight bytes a step'
[ "$program" = - ] || cmp -s "$scratch/program.said" "$scratch/plain.said" ||
    { echo && echo "The program says other than the C program."; }
