#!/bin/sh
# bytes.sh [PROGRAM]: how fast `judge` and `show` go over a million records and lines, from a file and from a pipe.
#
# PROGRAM is crates/m17_app/out/m17_app where none is given; give the program itself, since a launcher's own time would
# be in the figures. Environment: YARDSTICK, a program that takes the same words and is run in turn; REPEAT (3), rounds;
# COUNT (1000000), records and lines; COMMANDS (judge show), what is measured. The figures are printed, and nothing is
# asserted of them.
set -u

bench=$(cd "$(dirname "$0")" && pwd)
program=${1:-$bench/../crates/m17_app/out/m17_app}
repeat=${REPEAT:-3}
count=${COUNT:-1000000}
commands=${COMMANDS:-judge show}
scratch=$(mktemp -d) || exit 1
trap 'rm -rf "$scratch"' EXIT
trap 'exit 1' HUP INT TERM

for each in "$program" ${YARDSTICK:+"$YARDSTICK"}; do
    command -v "$each" >/dev/null || { echo "bytes.sh: there is no program $each" >&2; exit 2; }
done

# run_once FROM COMMAND..: runs it on $input, which comes from a file or a pipe; what it writes goes to $output.
run_once() {
    from=$1
    shift
    case $from in
    file) "$@" <"$input" >"$output" ;;
    pipe) cat "$input" | "$@" >"$output" ;;
    esac
}

# Adds to the file $scratch/WHO.FROM a line: wall seconds, peak memory in KB, status.
measure() { # WHO FROM PROGRAM WORD
    who=$1 from=$2
    shift 2
    output=/dev/null
    peak=-
    began=$(date +%s.%N)
    if [ -x /usr/bin/time ]; then
        run_once "$from" /usr/bin/time -q -f %M -o "$scratch/time" "$@"
    else
        run_once "$from" "$@"
    fi
    status=$?
    ended=$(date +%s.%N)
    [ ! -x /usr/bin/time ] || peak=$(cat "$scratch/time")
    echo "$began $ended $peak $status" | awk '{ printf "%.3f %s %s\n", $2 - $1, $3, $4 }' >>"$scratch/$who.$from"
}

# The read and write calls of one run, as two numbers.
calls() { # FROM PROGRAM WORD
    from=$1
    shift
    output=/dev/null
    command -v strace >/dev/null || { echo '- -'; return; }
    run_once "$from" strace -f -c -o "$scratch/calls" -e trace=read,readv,pread64,write,writev,pwrite64 "$@"
    awk '$NF ~ /read/ { reads += $4 } $NF ~ /write/ { writes += $4 } END { print reads + 0, writes + 0 }' "$scratch/calls"
}

# A row of the table. The wall time is the median of the rounds.
row() { # WHO FROM PROGRAM WORD
    set -- "$1" "$2" "$4" $(calls "$2" "$3" "$4")
    sort -n "$scratch/$1.$2" | awk -v who="$1" -v from="$2" -v word="$3" -v reads="$4" -v writes="$5" -v count="$count" '
        { wall[NR] = $1; if ($2 > peak) peak = $2; status = $3 }
        END {
            middle = wall[int((NR + 1) / 2)]
            rate = middle > 0 ? sprintf("%.2f", count / middle / 1e6) : "-"
            printf "| %s | %s | %s | %s | %s | %s | %s | %s | %s |\n",
                word, from, who, middle, rate, peak ? peak : "-", reads, writes, status
        }'
}

command_table() { # WORD INPUT-KIND
    word=$1
    input=$scratch/input
    python3 "$bench/make_input.py" "$2" "$count" >"$input" || exit 1
    rm -f "$scratch"/*.file "$scratch"/*.pipe
    round=0
    while [ "$round" -lt "$repeat" ]; do
        for from in file pipe; do
            measure program "$from" "$program" "$word"
            [ -z "${YARDSTICK:-}" ] || measure yardstick "$from" "$YARDSTICK" "$word"
        done
        round=$((round + 1))
    done
    for from in file pipe; do
        row program "$from" "$program" "$word"
        [ -z "${YARDSTICK:-}" ] || row yardstick "$from" "$YARDSTICK" "$word"
    done
    [ -n "${YARDSTICK:-}" ] || return 0
    output=$scratch/program.out run_once file "$program" "$word"
    output=$scratch/yardstick.out run_once file "$YARDSTICK" "$word"
    cmp -s "$scratch/program.out" "$scratch/yardstick.out" || echo "The yardstick's output of $word differs." >>"$scratch/notes"
}

: >"$scratch/notes"
command -v strace >/dev/null || echo "Calls are not counted: strace is not there." >>"$scratch/notes"
[ -x /usr/bin/time ] || echo "Peak memory is not measured: /usr/bin/time is not there." >>"$scratch/notes"
echo "$count records and lines, median of $repeat rounds"
echo
echo '| command | input | who | wall s | million/s | peak KB | reads | writes | status |'
echo '|---|---|---|---|---|---|---|---|---|'
for command in $commands; do
    case $command in
    judge) command_table judge records ;;
    show) command_table show lines ;;
    *) echo "bytes.sh: there is no command $command" >&2; exit 2 ;;
    esac
done
[ ! -s "$scratch/notes" ] || { echo; cat "$scratch/notes"; }
