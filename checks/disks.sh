# Checks of the built program on a disk that hangs: a pipe that takes a little and then nothing. Part of checks/run, behind
# program.sh, whose helpers it uses.
# shellcheck shell=sh

# hangs WHAT COUNT BOOK: what hangs (book, other, trace) beside so many datagrams, as hanging_disk.py has it; what is said of
# it comes into `said`.
hangs() {
    needs python3
    python3 -c 'import fcntl' 2>/dev/null || {
        echo "there are no pipes of a set size here"
        exit 77
    }
    python3 -B "$top/checks/hanging_disk.py" "$program" "$@" >said || {
        cat said
        return 1
    }
}

# has WORD..: whether this line is among what was said.
has() {
    grep -qx "$*" said || {
        echo "there is no line '$*' in:"
        cat said
        return 1
    }
}

# Some 40 records go into the pipe, and what follows waits in the program: voice goes on.
book_that_hangs() {
    hangs book 300 && has heard 300 && has A admitted 300 missed 0 && has book failed && has status 8 in time
}
check "a book that hangs holds nobody, serve ends in time, and gives 8" book_that_hangs

# More than the program keeps, 2,048 records: some frames may be lost on a busy machine, and no more than some.
book_that_overflows() {
    hangs book 4000 && has book failed && has status 8 in time || return 1
    heard=$(sed -n 's/^heard //p' said)
    [ "$heard" -gt 3000 ] || {
        echo "of 4000 frames $heard were heard"
        return 1
    }
}
check "a book that hangs for so long that its records find no room holds nobody either" book_that_overflows

drained_late() {
    hangs book 300 book && has heard 300 && has status 0 in time && ! grep -x 'book failed' said || return 1
    prog check <book >said
    grep -qx 'legal [0-9]* records 1 streams 300 admitted' said || {
        cat said
        return 1
    }
}
check "a book whose disk comes back late has all records, and serve gives 0" drained_late

# Ticks reach both modules' threads all the while.
other_module() {
    hangs other 4000 && has heard in B 300 && has B admitted 300 missed 0 && has book failed && has status 8 in time
}
check "where the book of one module hangs, another module's talk seven seconds later is heard whole" other_module

trace_that_hangs() {
    hangs trace 6000 && has let in && has book failed && has status 8 in time
}
check "a trace that hangs in a flood keeps nobody out" trace_that_hangs

# Its pipe is full from the start: the watch alone waits.
board_that_hangs() {
    hangs board 300 && has heard 300 && has A admitted 300 missed 0 && has book failed && has status 8 in time
}
check "a board that hangs holds nobody, and gives 8" board_that_hangs

# Their threads are waited for together, not one after the other.
all_that_hang() {
    hangs all 0 && has H admitted 0 missed 0 && has book failed && has status 8 in time
}
check "where eight books hang serve ends as soon as where one does, and gives 8" all_that_hang
