# Checks of the built program as a process: its words and its statuses. Part of checks/run.
# shellcheck shell=sh

# refused WORD..: whether these words are refused, and nothing of the input is taken.
refused() {
    gives 2 'words refused\n' prog "$@" <"$top/examples/show.hex" || return 1
    { prog "$@" >/dev/null; cat; } <"$top/examples/show.hex" >left
    cmp left "$top/examples/show.hex" || {
        echo "the input was touched for the words: $*"
        return 1
    }
}

words_that_name_no_command() {
    refused &&
        refused '' &&
        refused ' judge' &&
        refused 'judge ' &&
        refused JUDGE &&
        refused jud &&
        refused judges &&
        refused "$(printf 'judge\n.')" &&
        refused -- &&
        refused --help
}
check "words that name no command are refused, and nothing is read" words_that_name_no_command

too_many_words() {
    needs seq
    # shellcheck disable=SC2046  # one word for each number
    refused judge judge &&
        refused judge '' &&
        refused '' judge &&
        refused show show.hex &&
        refused check A.book &&
        refused migrate A.book &&
        refused judge $(seq 5000)
}
check "a second word is refused, and five thousand are" too_many_words

words_that_are_not_utf8() {
    refused "$(printf '\377')" &&
        refused "$(printf 'judge\200')" &&
        refused "$(printf '\303')" &&
        refused judge "$(printf '\377')" &&
        refused check "$(printf '\377')" &&
        refused "$(printf '\377')" judge &&
        refused "$(printf '\355\240\200')" &&
        refused replay --call "$(printf 'A\377')" &&
        refused replay "--modules=$(printf 'A\303')" &&
        refused make 0 "$(printf '1\200')"
}
check "words that are not UTF-8 are refused" words_that_are_not_utf8

a_very_long_word() {
    refused "$(head -c 100000 /dev/zero | tr '\0' j)"
}
check "a word of 100,000 letters is refused" a_very_long_word

# empty_book: a book of module A without records, whose limit on talking is 180 seconds.
empty_book() {
    printf 'M17BOOK2A\0\0\0\0\0\002\277\040'
}

refused_input() {
    head -c 65 "$top/examples/judge.bin" >cut
    gives 1 '0 opened\ninput refused at 65: cut\n' prog judge <cut || return 1
    printf 4 >odd
    gives 1 'input refused at 0: odd\n' prog show <odd || return 1
    printf '44495343\n4x\n44495343\n' >digit
    gives 1 'disc\ninput refused at 1: digit\n' prog show <digit
}
check "refused input gives 1, and the last line says where and why" refused_input

checked_books() {
    empty_book >book
    gives 0 'legal 0 records 0 streams 0 admitted\n' prog check <book || return 1
    head -c 8 book >cut
    gives 1 'input refused at 8: cut\n' prog check <cut || return 1
    gives 1 'input refused at 0: cut\n' prog check || return 1
    for name in legal verdict moment held-place leave kind; do
        vector=$top/conformance/vectors/check-$name
        gives "$(cat "$vector.status")" "$(cat "$vector.out")\n" prog check <"$vector.in" || return 1
        # shellcheck disable=SC2016  # the program is a word of the inner shell
        gives "$(cat "$vector.status")" "$(cat "$vector.out")\n" sh -c 'cat "$2" | "$1" check' sh "$program" "$vector.in" || return 1
    done
}
check "a book is legal, or its first record that is not is named" checked_books

# A book of either version, and what is made of one of the first by migrate: no limit, and the records as they are.
migrated_books() {
    printf M17BOOK1A >old
    printf 'M17BOOK2A\0\0\0\0\0\0\0\0' >none
    gives 0 'M17BOOK2A\0\0\0\0\0\0\0\0' prog migrate <old || return 1
    gives 0 'legal 0 records 0 streams 0 admitted\n' prog check <none || return 1
    gives 1 'input refused at 7: field\n' prog check <old || return 1
    gives 1 'input refused at 7: field\n' prog migrate <none || return 1
    gives 1 'input refused at 0: cut\n' prog migrate || return 1
    { head -c 7 "$top/examples/evening.book" && printf 1A && tail -c +18 "$top/examples/evening.book"; } >old
    prog migrate <old >new || return 1
    { cat none && tail -c +18 "$top/examples/evening.book"; } | cmp - new || return 1
    gives 0 'legal 10 records 1 streams 4 admitted\n' prog check <new
}
check "a book of version 1 becomes one of version 2 with the same records" migrated_books

empty_input() {
    gives 0 '' prog judge && gives 0 '' prog show && gives 0 'refused length 0\n' sh -c 'echo | "$1" show' sh "$program"
}
check "an empty input gives 0 and no line; an empty line, one" empty_input

more_than_a_million() {
    needs yes
    head -c 64000001 /dev/zero | prog judge >got
    [ "$(tail -n 1 got)" = 'input refused at 64000000: large' ] || {
        tail -n 1 got
        return 1
    }
    [ "$(wc -l <got)" -eq 1000001 ] || return 1
    yes 44495343 | prog show >got
    [ "$(tail -n 1 got)" = 'input refused at 1000000: large' ] || {
        tail -n 1 got
        return 1
    }
    [ "$(wc -l <got)" -eq 1000001 ]
}
check "record and line 1,000,000 are refused after a line for each before them" more_than_a_million

failed_read() {
    gives 3 'read failed\n' prog judge </ && gives 3 'read failed\n' prog show </ && gives 3 'read failed\n' prog check </ &&
        gives 3 'read failed\n' prog migrate </
}
check "an input that cannot be read gives 3" failed_read

closed_streams() {
    prog judge >got <&-
    [ $? -eq 3 ] && [ "$(cat got)" = 'read failed' ] || {
        echo "with no standard input judge wrote: $(cat got)"
        return 1
    }
    prog show <"$top/examples/show.hex" >&-
    [ $? -eq 4 ] || return 1
    gives 3 'read failed\n' prog check <&- || return 1
    empty_book | prog check >&-
    [ $? -eq 4 ]
}
check "no standard input gives 3, and no standard output 4" closed_streams

# A pipe that does not wait: the first read gets what is there, and the next one is told to try again later.
impatient_pipe() {
    needs python3
    python3 -c '
import os, subprocess, sys
out, into = os.pipe()
os.write(into, b"44495343\n444")
os.set_blocking(out, False)
sys.exit(subprocess.run([sys.argv[1], "show"], stdin=out, timeout=60).returncode)' "$program" >got
    [ $? -eq 3 ] && printf 'disc\nread failed\n' | cmp - got
}
check "a pipe that has nothing and does not wait gives 3, and what was whole is shown" impatient_pipe

full_disk() {
    [ -c /dev/full ] || {
        echo "there is no /dev/full here"
        exit 77
    }
    empty_book >book
    for word in judge show check nonsense; do
        case $word in
        judge) input=$top/examples/judge.bin ;;
        check) input=book ;;
        *) input=$top/examples/show.hex ;;
        esac
        prog "$word" <"$input" >/dev/full
        ended=$?
        [ $ended -eq 4 ] || {
            echo "$word ended with status $ended, and not 4"
            return 1
        }
    done
}
check "an output that takes nothing gives 4, also for refused words" full_disk

# The program writes more than a pipe holds, to a reader that has gone.
closed_pipe() {
    needs yes
    head -c 1280000 /dev/zero >records
    yes 44495343 | head -n 50000 >lines
    for word in judge show; do
        case $word in
        judge) input=records ;;
        *) input=lines ;;
        esac
        {
            prog "$word" <$input
            echo $? >ended
        } | true
        [ "$(cat ended)" -eq 4 ] || {
            echo "$word ended with status $(cat ended), and not 4"
            return 1
        }
    done
    # check has one line, which comes behind the end of its input: by then the reader has gone
    {
        { sleep 1 && empty_book; } | prog check
        echo $? >ended
    } | true
    [ "$(cat ended)" -eq 4 ] || {
        echo "check ended with status $(cat ended), and not 4"
        return 1
    }
}
check "a reader that goes away gives 4, and no signal ends the program" closed_pipe

# A client from the shell: its words and its script are judged before its port is opened.
talk_has_no_port() {
    set -- talk --call AB1CD --module A --bind x --to 10.0.0.9:17000
    gives 5 'port failed\n' prog "$@" </dev/null &&
        gives 5 'port failed\n' prog "$@" --listen --stay 5 --book b </dev/null || return 1
    head -c 61 /dev/zero >cut
    gives 1 'input refused at 61: cut\n' prog "$@" <cut || return 1
    head -c 62 /dev/zero >zeros
    gives 1 'input refused at 8: field\n' prog "$@" <zeros || return 1
    refused talk && refused "$@" --stay 86400001 && refused "$@" x
}
check "a talk without a port ends with port failed, a wrong script with its refusal" talk_has_no_port

# Books from files and pipes: legal, disputed, cut, and too large.
check_says() {
    book=$top/examples/evening.book
    gives 0 'legal 10 records 1 streams 4 admitted\n' prog check <"$book" &&
        gives 1 'input refused at 4: verdict\n' prog check <"$top/examples/disputed.book" &&
        gives 1 'input refused at 0: cut\n' prog check </dev/null || return 1
    { head -c 100 "$book" && sleep 0.2 && tail -c +101 "$book"; } | gives 0 'legal 10 records 1 streams 4 admitted\n' prog check &&
        { cat "$top/examples/disputed.book" && printf 9; } | gives 1 'input refused at 479: kind 39\n' prog check || return 1
    head -c 67108873 /dev/zero | gives 1 'input refused at 67108872: large\n' prog check || return 1
    gives 3 'read failed\n' prog check <"$top" && refused check check && refused check "$book" || return 1
    [ -c /dev/full ] || return 0
    prog check <"$book" >/dev/full
    [ $? -eq 4 ]
}
check "check says of a book that it is legal, or where it is not; input and output may fail" check_says

# compared WORD..: the program is compared with the reference of conformance/, which is another implementation of the rules.
compared() {
    needs python3
    python3 "$top/conformance/compare.py" --program "$program" "$@"
}
check "each vector of conformance/ has its bytes and its status, a replay in one thread and over threads" \
    compared --vectors "$top/conformance/vectors" --threads
check "words are taken or refused as conformance/words.txt says" compared --words "$top/conformance/words.txt"
check "each part of small traces and books, and each of them with a byte changed, is read by the rule" compared --torn
check "drawn talks, evenings, traces and books have the text that they should" compared --only judge,replay,check --cases 600
check "evenings over 26 modules and in crowds are the same over threads" \
    compared --only replay-all-letters,replay-crowd --cases 120 --threads
check "whole made evenings, very many peers and very long traces have their text, over threads too" \
    compared --large --only make-evening,evening,script,trace-long,trace-crowded,trace-most-entries,trace-one-entry-more --threads
